package main

import (
	"fmt"
	"io/ioutil"
	"os"

	"storklocker"
)

func main() {
	list := storklocker.NewList(
		storklocker.Pair{Module: "collections", Name: "OrderedDict"},
		storklocker.Pair{Module: "datetime", Name: "datetime"},
	)
	pickle, err := ioutil.ReadAll(os.Stdin)
	if err != nil {
		panic(err)
	}
	accepted, err := list.Check(pickle)
	if err != nil {
		fmt.Println(err)
		os.Exit(1)
	}
	fmt.Printf("yes: %d bytes, %d imports\n", accepted.Taken, accepted.Imports)
}
