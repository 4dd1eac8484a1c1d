package storklocker_test

import (
	"errors"
	"fmt"

	"storklocker"
)

func Example() {
	list := storklocker.NewList(storklocker.Pair{Module: "collections", Name: "OrderedDict"})
	accepted, err := list.Check([]byte("ccollections\nOrderedDict\n)R."))
	fmt.Println(accepted.Taken, err)
	_, err = list.Check([]byte("cos\nsystem\n(Vtouch /tmp/mark\ntR."))
	fmt.Println(err)
	var refusal *storklocker.Refusal
	fmt.Println(errors.As(err, &refusal), refusal.At, refusal.Reason, refusal.Pair.Module)
	// Output:
	// 28 <nil>
	// no at 0: ImportOffList("os","system")
	// true 0 ImportOffList os
}

func ExampleParseList() {
	list, err := storklocker.ParseList([]byte("version = 1\n[imports]\ndatetime = [\"date\"]\n"))
	fmt.Println(list.Pairs(), err)
	_, err = storklocker.ParseList([]byte("version = 1\n[imports]\ndatetime = \"date\"\n"))
	fmt.Println(err)
	// Output:
	// ["datetime" "date"] <nil>
	// list: Shape(Module)
}

func ExampleImports() {
	found, accepted, err := storklocker.Imports([]byte("cos\nsystem\n."), storklocker.Standard())
	fmt.Println(found[0], accepted.Imports, err)
	// Output: "os" "system" 1 <nil>
}

func ExampleList_CheckStream() {
	list := storklocker.NewList()
	accepted, err := list.CheckStream([]byte("N.N."))
	fmt.Println(accepted.Pickles, err)
	_, err = list.CheckStream([]byte("N.(."))
	fmt.Println(err)
	// Output:
	// 2 <nil>
	// no in pickle 1 at 3: MissingItem
}
