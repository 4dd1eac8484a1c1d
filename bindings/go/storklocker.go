// Package storklocker checks untrusted pickles before anything loads them, by a proved checker:
// whatever its objects do when it is loaded, an accepted pickle imports only listed names and
// leaves exactly one object. The check executes no part of it.
//
// Load the very bytes that you checked: a file can change. No call keeps state, and goroutines may
// share lists. The library is linked in from the folder lib, or, under the build tag
// storklocker_pkgconfig, as pkg-config finds it. It has no listing of instructions and no JSON:
// those are the program's, "storklocker dis" and "storklocker json".
package storklocker

// #include <storklocker.h>
import "C"

import (
	"encoding/binary"
	"fmt"
	"math"
	"runtime"
	"strings"
	"unsafe"
)

// A Pair is a module and a name.
type Pair struct {
	Module, Name string
}

func quoted(text string) string {
	var to strings.Builder
	to.WriteByte('"')
	for i := 0; i < len(text); i++ {
		if it := text[i]; it < ' ' || it > '~' || it == '"' || it == '\\' {
			fmt.Fprintf(&to, "\\x%02x", it)
		} else {
			to.WriteByte(it)
		}
	}
	to.WriteByte('"')
	return to.String()
}

// String prints the pair as the program does, between quotes and in printable ASCII, because those
// of a pickle are untrusted.
func (p Pair) String() string {
	return quoted(p.Module) + " " + quoted(p.Name)
}

// A Reason is why a pickle is refused. Its numbers never change.
type Reason uint32

// String is the name, such as "ImportOffList".
func (r Reason) String() string {
	return C.GoString(C.storklocker_reason_text(C.uint32_t(r)))
}

// A Refusal is the error of a check. It prints itself as the program does.
type Refusal struct {
	// At is the offset of the refused instruction, from the first byte of all pickles.
	At     uint64
	Reason Reason
	// Number is the code byte, protocol or memo number of UnknownOpcode, UnsupportedProtocol and
	// MissingMemo.
	Number *uint32
	// Pair is that of ImportOffList.
	Pair *Pair
	// Pickles are those of a stream that were accepted before.
	Pickles *uint64
}

func (r *Refusal) Error() string {
	text := "no "
	if r.Pickles != nil {
		text += fmt.Sprintf("in pickle %d ", *r.Pickles)
	}
	text += fmt.Sprintf("at %d: %s", r.At, r.Reason)
	if r.Pair != nil {
		text += "(" + quoted(r.Pair.Module) + "," + quoted(r.Pair.Name) + ")"
	} else if r.Number != nil {
		text += fmt.Sprintf("(%d)", *r.Number)
	}
	return text
}

// A Bill is what loading a pickle costs.
type Bill struct {
	Levels, Weight      uint32
	Work, Clash, Memory uint64
}

// Accepted is what a check says of a pickle, or of all pickles of a stream, that may be loaded.
type Accepted struct {
	// Taken are the accepted bytes, STOP included.
	Taken, Imports uint64
	// Pickles is 1, unless a stream was checked.
	Pickles uint64
	// Bill is that of the last pickle; zero if no limit on costs is set.
	Bill Bill
}

// answer is the library's verdict in Go. The names are at the front of the room.
func answer(told *C.struct_storklocker_verdict, room []byte) (*Accepted, *Refusal) {
	if told.status == C.STORKLOCKER_YES {
		bill := Bill{uint32(told.levels), uint32(told.weight),
			uint64(told.work), uint64(told.clash), uint64(told.memory)}
		return &Accepted{uint64(told.taken), uint64(told.imports), uint64(told.pickles), bill}, nil
	}
	refusal := &Refusal{At: uint64(told.at), Reason: Reason(told.reason)}
	number := uint32(told.number)
	switch told.reason {
	case C.STORKLOCKER_UNKNOWN_OPCODE, C.STORKLOCKER_UNSUPPORTED_PROTOCOL,
		C.STORKLOCKER_MISSING_MEMO:
		refusal.Number = &number
	}
	if told.has_pair == 1 {
		end := told.module_length + told.name_length
		refusal.Pair = &Pair{string(room[:told.module_length]), string(room[told.module_length:end])}
	}
	return nil, refusal
}

// at is the address of bytes, null of none.
func at(data []byte) *C.uint8_t {
	if len(data) == 0 {
		return nil
	}
	return (*C.uint8_t)(unsafe.Pointer(&data[0]))
}

// parted are the pairs that the library writes: the length of a module in eight bytes, the module,
// and so its name. One that a pickle doesn't reveal is nil.
func parted(data []byte) []*Pair {
	var found []*Pair
	next := func() (string, bool) {
		length := binary.LittleEndian.Uint64(data)
		data = data[8:]
		if length == math.MaxUint64 {
			return "", false
		}
		text := string(data[:length])
		data = data[length:]
		return text, true
	}
	for len(data) > 0 {
		module, hasModule := next()
		name, hasName := next()
		if hasModule && hasName {
			found = append(found, &Pair{module, name})
		} else {
			found = append(found, nil)
		}
	}
	return found
}

// firstRoom is the room that pairs get at first.
const firstRoom = 4096

// written is what a call writes, which is called again with more room if it needs that.
func written(most uint64, call func(room []byte) uint64) ([]byte, error) {
	room := make([]byte, firstRoom)
	wanted := call(room)
	if wanted > firstRoom {
		if wanted > most {
			return nil, fmt.Errorf("storklocker: the names need %d bytes", wanted)
		}
		room = make([]byte, wanted)
		wanted = call(room)
	}
	return room[:wanted], nil
}

// Most is what Imports may need for the names of a pickle, in bytes.
const Most = 1 << 26

// Imports are those of the pickle at the front of the data, in order, each as often as it occurs;
// nil is one that the pickle doesn't reveal. The error is a *Refusal if the pickle is refused with
// every import permitted: then they are those before its place. If they need more than Most bytes,
// which a short pickle may, there are none, and the error is another.
func Imports(pickle []byte, limits Limits) ([]*Pair, *Accepted, error) {
	settings := limits.settings()
	var told C.struct_storklocker_verdict
	names, err := written(Most, func(room []byte) uint64 {
		var wanted C.uint64_t
		C.storklocker_imports_loading(&settings, at(pickle), C.size_t(len(pickle)),
			at(room), C.size_t(len(room)), &wanted, &told)
		return uint64(wanted)
	})
	runtime.KeepAlive(pickle)
	if err != nil {
		return nil, nil, err
	}
	known(told.status)
	accepted, refusal := answer(&told, nil)
	if refusal != nil {
		return parted(names), nil, refusal
	}
	return parted(names), accepted, nil
}

// known panics if the library doesn't know the settings, which an older one doesn't.
func known(status C.uint32_t) {
	if status > C.STORKLOCKER_NO {
		panic("storklocker: the library doesn't know these settings: it is " + Version())
	}
}

// Version is the version of the library.
func Version() string {
	return C.GoString(C.storklocker_version())
}
