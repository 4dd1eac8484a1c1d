package storklocker

// #include <stdlib.h>
// #include <storklocker.h>
import "C"

import (
	"math"
	"runtime"
	"sort"
	"unsafe"
)

// A List has the imports that a pickle may make, and the limits of a check.
type List struct {
	// Limits are first those of the list file.
	Limits      Limits
	pairs       []Pair
	substitutes [][2]string
	inC         []C.struct_storklocker_pair // in C's memory, as are its texts
}

// A ListFault is why a list file cannot be read. Its numbers never change.
type ListFault uint32

// Error prints the name, such as "list: Shape(Imports)".
func (f ListFault) Error() string {
	return "list: " + C.GoString(C.storklocker_fault_text(C.uint32_t(f)))
}

// ParseList reads the text of a list file. The error is a ListFault.
func ParseList(text []byte) (*List, error) {
	limits := Standard().settings()
	var told C.struct_storklocker_verdict
	names, _ := written(math.MaxUint64, func(room []byte) uint64 {
		var wanted C.uint64_t
		C.storklocker_read_list(at(text), C.size_t(len(text)),
			at(room), C.size_t(len(room)), &limits, &wanted, &told)
		return uint64(wanted)
	})
	if told.status != C.STORKLOCKER_YES {
		return nil, ListFault(told.reason)
	}
	others, _ := written(math.MaxUint64, func(room []byte) uint64 {
		var wanted C.uint64_t
		C.storklocker_list_told(at(text), C.size_t(len(text)),
			at(room), C.size_t(len(room)), nil, &wanted, &told)
		return uint64(wanted)
	})
	if told.status != C.STORKLOCKER_YES {
		return nil, ListFault(told.reason)
	}
	var pairs []Pair
	for _, it := range parted(names) {
		pairs = append(pairs, *it)
	}
	list := NewList(pairs...)
	list.Limits = limitsOf(limits)
	for _, it := range parted(others) {
		list.substitutes = append(list.substitutes, [2]string{it.Module, it.Name})
	}
	return list, nil
}

// NewList makes the list of these pairs, in any order, with the standard limits.
func NewList(pairs ...Pair) *List {
	list := &List{Limits: Standard(), pairs: append([]Pair(nil), pairs...)}
	sort.Slice(list.pairs, func(i, j int) bool {
		one, other := list.pairs[i], list.pairs[j]
		return one.Module < other.Module || one.Module == other.Module && one.Name < other.Name
	})
	if len(pairs) == 0 {
		return list
	}
	size := C.size_t(unsafe.Sizeof(C.struct_storklocker_pair{}))
	block := C.calloc(C.size_t(len(pairs)), size)
	if block == nil {
		panic("storklocker: out of memory")
	}
	list.inC = (*[1 << 26]C.struct_storklocker_pair)(block)[:len(pairs):len(pairs)]
	for i, it := range list.pairs {
		list.inC[i] = C.struct_storklocker_pair{
			module_name: text(it.Module), module_length: C.size_t(len(it.Module)),
			name: text(it.Name), name_length: C.size_t(len(it.Name)),
		}
	}
	runtime.SetFinalizer(list, (*List).free)
	return list
}

// text is a text in C's memory, which has an address even if it is empty.
func text(it string) *C.uint8_t {
	return (*C.uint8_t)(unsafe.Pointer(C.CString(it)))
}

func (l *List) free() {
	for _, it := range l.inC {
		C.free(unsafe.Pointer(it.module_name))
		C.free(unsafe.Pointer(it.name))
	}
	C.free(unsafe.Pointer(&l.inC[0]))
}

// Pairs are the pairs, in order.
func (l *List) Pairs() []Pair {
	return append([]Pair(nil), l.pairs...)
}

// Substitutes are names of the list file, each with what stands for it when a pickle is loaded, as
// the file spells them. No check depends on them; whoever doesn't know them must not load under the
// list.
func (l *List) Substitutes() [][2]string {
	return append([][2]string(nil), l.substitutes...)
}

// Check checks the pickle at the front of the data. Bytes after its STOP are ignored. The error is
// a *Refusal.
func (l *List) Check(pickle []byte) (*Accepted, error) {
	return l.checked(false, pickle)
}

// CheckStream checks one or more pickles that follow one another up to the end of the data. The
// error is a *Refusal.
func (l *List) CheckStream(pickles []byte) (*Accepted, error) {
	return l.checked(true, pickles)
}

func (l *List) checked(isStream bool, data []byte) (*Accepted, error) {
	room := make([]byte, 256)
	told := l.called(isStream, data, room)
	if wanted := told.module_length + told.name_length; wanted > C.uint64_t(len(room)) {
		room = make([]byte, wanted)
		told = l.called(isStream, data, room)
	}
	accepted, refusal := answer(&told, room)
	if refusal == nil {
		return accepted, nil
	}
	if pickles := uint64(told.pickles); isStream {
		refusal.Pickles = &pickles
	}
	return nil, refusal
}

func (l *List) called(isStream bool, data, room []byte) (told C.struct_storklocker_verdict) {
	settings := l.Limits.settings()
	var pairs *C.struct_storklocker_pair
	if len(l.inC) > 0 {
		pairs = &l.inC[0]
	}
	count, length, size := C.size_t(len(l.inC)), C.size_t(len(data)), C.size_t(len(room))
	if isStream {
		C.storklocker_check_row(pairs, count, &settings, at(data), length, at(room), size, &told)
	} else {
		C.storklocker_check_pairs(pairs, count, &settings, at(data), length, at(room), size, &told)
	}
	runtime.KeepAlive(l)
	known(told.status)
	return told
}
