package storklocker

// #include <storklocker.h>
// static struct storklocker_settings standard(void) {
//     struct storklocker_settings it = STORKLOCKER_STANDARD;
//     return it;
// }
import "C"

import "math"

// OldStrings is what an unpickler makes of a string of Python 2.
type OldStrings uint32

const (
	// Unknown is anything: the answer holds for every unpickler.
	Unknown OldStrings = C.STORKLOCKER_OLD_UNKNOWN
	// ASCII is a text; a byte above 7f is refused.
	ASCII OldStrings = C.STORKLOCKER_OLD_ASCII
	// Bytes are bytes.
	Bytes OldStrings = C.STORKLOCKER_OLD_BYTES
)

// Limits are the settings of a check; Standard has the library's. A limit above its greatest value
// means that value.
type Limits struct {
	// Counted are the bytes in the payload of a counted argument.
	Counted uint64
	// Stack are the entries of the stack, marks included, and Memo those of the memo.
	Stack, Memo uint64
	// Passed are the bytes in a payload that is skipped.
	Passed uint64
	// Numbers is the greatest memo number; CPython allocates 16 bytes for each number up to it.
	Numbers    uint64
	OldStrings OldStrings
	// OneUnpickler says whether one Unpickler, which keeps its memo, loads all pickles of a stream.
	OneUnpickler bool
	// Large says whether limits may be those for large data.
	Large bool
	// Levels are those of tuples in a key, Weight is a key's; from 1,023 and 1,048,575 on no limit.
	Levels, Weight uint32
	// Work is the weight of all keys, Clash of those that can be made to collide, Memory the bytes
	// that loading takes, by estimate; math.MaxUint64 is no limit.
	Work, Clash, Memory uint64
	// Builds says whether BUILD may take an object that an import gave.
	Builds bool
}

var standard = C.standard()

// Standard are the library's standard limits.
func Standard() Limits {
	return limitsOf(standard)
}

func limitsOf(it C.struct_storklocker_settings) Limits {
	return Limits{
		Counted: uint64(it.counted), Stack: uint64(it.stack), Memo: uint64(it.memo),
		Passed: uint64(it.passed), Numbers: uint64(it.numbers),
		OldStrings: OldStrings(it.old_strings), OneUnpickler: it.row_memo == 1,
		Large: it.large == 1, Levels: uint32(it.levels), Weight: uint32(it.weight),
		Work: uint64(it.work), Clash: uint64(it.clash), Memory: uint64(it.memory),
		Builds: it.builds == 1,
	}
}

// below is a limit that a key can exceed: the library wants it said if there is none.
func below(limit, end uint32) C.uint32_t {
	if limit >= end {
		return math.MaxUint32
	}
	return C.uint32_t(limit)
}

func word(is bool) C.uint32_t {
	if is {
		return 1
	}
	return 0
}

// settings are the limits as the library takes them, with pairs in order.
func (l Limits) settings() C.struct_storklocker_settings {
	it := standard
	it.counted, it.stack, it.memo = C.uint64_t(l.Counted), C.uint64_t(l.Stack), C.uint64_t(l.Memo)
	it.passed, it.numbers = C.uint64_t(l.Passed), C.uint64_t(l.Numbers)
	it.old_strings, it.row_memo = C.uint32_t(l.OldStrings), word(l.OneUnpickler)
	it.large, it.sorted = word(l.Large), 1
	it.levels, it.weight = below(l.Levels, 1023), below(l.Weight, 1048575)
	it.work, it.clash, it.memory = C.uint64_t(l.Work), C.uint64_t(l.Clash), C.uint64_t(l.Memory)
	it.builds = word(l.Builds)
	return it
}
