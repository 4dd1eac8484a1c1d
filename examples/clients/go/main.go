// Asks `storklocker serve` about the bytes on standard input: client URL
//
// Status 0 is a yes, 1 a no. Whatever else happens ends with 2: without a verdict nothing is loaded.
package main

import (
	"bytes"
	"encoding/json"
	"fmt"
	"io/ioutil"
	"net/http"
	"os"
	"time"
)

const tries = 4

var client = http.Client{Timeout: 35 * time.Second}

// One request: whether there is a verdict, and which; else whether to ask again.
func ask(url string, data []byte) (yes, again bool, err error) {
	request, err := http.NewRequest("POST", url, bytes.NewReader(data))
	if err != nil {
		return false, false, err
	}
	request.Header.Set("Content-Type", "application/octet-stream")
	if token, ok := os.LookupEnv("STORKLOCKER_TOKEN"); ok {
		request.Header.Set("Authorization", "Bearer "+token)
	}
	answer, err := client.Do(request)
	if err != nil {
		return false, true, err
	}
	defer answer.Body.Close()
	body, err := ioutil.ReadAll(answer.Body)
	if err != nil {
		return false, true, err
	}
	var said struct {
		Accepted *bool `json:"accepted"`
	}
	isVerdict := json.Unmarshal(body, &said) == nil && said.Accepted != nil
	switch {
	case answer.StatusCode == 200 && isVerdict && *said.Accepted:
		return true, false, nil
	case answer.StatusCode == 422 && isVerdict && !*said.Accepted:
		return false, false, nil
	}
	return false, answer.StatusCode == 503, fmt.Errorf("status %d", answer.StatusCode)
}

// Whether the daemon says yes; an error where it gives no verdict.
func accepted(url string, data []byte) (bool, error) {
	var err error
	for number := 0; number < tries; number++ {
		var yes, again bool
		yes, again, err = ask(url, data)
		if err == nil {
			return yes, nil
		}
		if !again {
			break
		}
		time.Sleep(100 * time.Millisecond << number)
	}
	return false, err
}

func main() {
	data, err := ioutil.ReadAll(os.Stdin)
	var yes bool
	if err == nil && len(os.Args) == 2 {
		yes, err = accepted(os.Args[1], data)
	} else if err == nil {
		err = fmt.Errorf("give a URL")
	}
	switch {
	case err != nil:
		fmt.Println("no verdict:", err)
		os.Exit(2)
	case yes:
		fmt.Println("yes")
	default:
		fmt.Println("no")
		os.Exit(1)
	}
}
