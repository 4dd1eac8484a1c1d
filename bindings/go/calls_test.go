package storklocker

import (
	"math"
	"strings"
	"sync"
	"testing"
)

const key = "(dN\x85\x85\x85Ns." // {(((None,),),): None}

func refused(t *testing.T, list *List, pickle, wanted string) *Refusal {
	t.Helper()
	accepted, err := list.Check([]byte(pickle))
	if accepted != nil || err == nil || err.Error() != wanted {
		t.Fatalf("%q: %v, %v", pickle, accepted, err)
	}
	return err.(*Refusal)
}

func accepts(t *testing.T, list *List, pickle string) *Accepted {
	t.Helper()
	accepted, err := list.Check([]byte(pickle))
	if err != nil {
		t.Fatalf("%q: %v", pickle, err)
	}
	return accepted
}

func TestLimitsOnCostsRefuse(t *testing.T) {
	list := NewList()
	for _, none := range []uint32{math.MaxUint32, 1023} { // which no key exceeds
		list.Limits.Levels = none
		if bill := accepts(t, list, key).Bill; bill != (Bill{}) {
			t.Error(bill)
		}
	}
	list.Limits.Levels = 3
	if bill := accepts(t, list, key).Bill; bill.Levels != 3 {
		t.Error(bill)
	}
	list.Limits.Levels = 2
	refused(t, list, key, "no at 7: DeepKey")
}

func TestOldStringsAreReadAsSaid(t *testing.T) {
	list := NewList()
	accepts(t, list, "U\x01\xff.")
	list.Limits.OldStrings = ASCII
	refused(t, list, "U\x01\xff.", "no at 0: NotAscii")
}

func TestAStreamKeepsAMemoIfOneUnpicklerLoadsIt(t *testing.T) {
	list, stream := NewList(), []byte("Np5\n.g5\n.")
	if _, err := list.CheckStream(stream); err.Error() != "no in pickle 1 at 5: MissingMemo(5)" {
		t.Error(err)
	}
	list.Limits.OneUnpickler = true
	if accepted, err := list.CheckStream(stream); err != nil || accepted.Pickles != 2 {
		t.Error(err)
	}
}

func TestNamesOfAnyLengthAreTold(t *testing.T) {
	module := strings.Repeat("m", 70000)
	pickle := "\x80\x04X\x70\x11\x01\x00" + module + "\x8c\x00\x93."
	refusal := refused(t, NewList(), pickle, "no at 70009: ImportOffList(\""+module+"\",\"\")")
	if *refusal.Pair != (Pair{module, ""}) {
		t.Error(len(refusal.Pair.Module))
	}
	found, _, err := Imports([]byte(pickle), Standard())
	if len(found) != 1 || *found[0] != *refusal.Pair || err != nil {
		t.Error(len(found), err)
	}
	bomb := "\x80\x04X\x70\x11\x01\x00" + module + "\x940" +
		strings.Repeat("h\x00h\x00\x930", 1000) + "N."
	if found, _, err := Imports([]byte(bomb), Standard()); found != nil || err == nil {
		t.Error(len(found), err)
	} else if _, isRefusal := err.(*Refusal); isRefusal {
		t.Error(err)
	}
}

func TestImportsThatAreNotRevealedAreNil(t *testing.T) {
	found, accepted, err := Imports([]byte("\x80\x04cos\ngetcwd\n)R\x8c\x01a\x93."), Standard())
	if err != nil || accepted.Imports != 2 || *found[0] != (Pair{"os", "getcwd"}) || found[1] != nil {
		t.Error(found, err)
	}
	found, accepted, err = Imports([]byte("cos\nsystem\nU"), Standard())
	if len(found) != 1 || accepted != nil || err.Error() != "no at 11: Truncated" {
		t.Error(found, err)
	}
}

func TestAListFileSaysAll(t *testing.T) {
	list, err := ParseList([]byte("version = 2\n[imports]\nq = [\"C.d\"]\na = [\"y\", \"x\"]\n" +
		"[limits]\nlevels = 20\n[rules]\nbuild = \"made\"\n[substitutes]\n\"q:C.d\" = \"s.t:e\"\n"))
	if err != nil || list.Limits.Levels != 20 || list.Limits.Weight != math.MaxUint32 ||
		list.Limits.Builds || list.Substitutes()[0] != [2]string{"q:C.d", "s.t:e"} {
		t.Fatal(list, err)
	}
	for _, it := range []string{"ca\nx\n.", "ca\ny\n.", "cq\nC.d\n."} {
		accepts(t, list, it)
	}
	refused(t, list, "cq\nC\n.", "no at 0: ImportOffList(\"q\",\"C\")")
}

func TestGoroutinesShareAList(t *testing.T) {
	list := NewList(Pair{"a", ""}, Pair{"", "b"}, Pair{"a", "b"})
	var all sync.WaitGroup
	for i := 0; i < 8; i++ {
		all.Add(1)
		go func() {
			defer all.Done()
			if _, err := list.Check([]byte("ca\nb\n.")); err != nil {
				t.Error(err)
			}
		}()
	}
	all.Wait()
	refused(t, list, "", "no at 0: Truncated")
}
