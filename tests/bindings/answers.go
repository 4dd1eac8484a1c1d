// Prints what the module says of each pickle in a file, as answers.rs does: answers FILE LIST
package main

import (
	"bufio"
	"encoding/binary"
	"fmt"
	"io/ioutil"
	"os"

	"storklocker"
)

func said(accepted *storklocker.Accepted, err error, isStream bool) string {
	switch {
	case err != nil:
		return err.Error()
	case isStream:
		return fmt.Sprintf("yes: %d bytes, %d pickles, %d imports",
			accepted.Taken, accepted.Pickles, accepted.Imports)
	}
	return fmt.Sprintf("yes: %d bytes, %d imports", accepted.Taken, accepted.Imports)
}

func main() {
	corpus, err := ioutil.ReadFile(os.Args[1])
	if err != nil {
		panic(err)
	}
	text, err := ioutil.ReadFile(os.Args[2])
	if err != nil {
		panic(err)
	}
	list, err := storklocker.ParseList(text)
	if err != nil {
		panic(err)
	}
	limits := storklocker.Standard()
	limits.Numbers = 4294967295
	out := bufio.NewWriter(os.Stdout)
	for rest := corpus; len(rest) > 0; {
		kind, end := rest[0], 5+binary.LittleEndian.Uint32(rest[1:])
		pickle := rest[5:end]
		rest = rest[end:]
		list.Limits = limits
		isStream := kind > 2
		list.Limits.OneUnpickler = kind == 4
		check := list.CheckStream
		if !isStream {
			list.Limits.OldStrings = storklocker.OldStrings(kind)
			check = list.Check
		}
		accepted, err := check(pickle)
		fmt.Fprintln(out, said(accepted, err, isStream))
		found, accepted, err := storklocker.Imports(pickle, limits)
		for _, pair := range found {
			if err != nil {
				break
			}
			if pair == nil {
				fmt.Fprintln(out, "unknown")
			} else {
				fmt.Fprintln(out, pair)
			}
		}
		fmt.Fprintln(out, said(accepted, err, false))
	}
	if err := out.Flush(); err != nil {
		panic(err)
	}
}
