//! Sizes that an attacker chooses, at each limit and one above it. Each has its own answer, and
//! none is `OutOfMemory`.

use crate::giving::Filled;
use crate::judging::{Verdict, judge};
use pkcheck::Policy;
use pkops::Limits;
use pkread::Reason;

// A prefix, a byte, how often it is repeated, and a suffix.
type Sized = (&'static [u8], u8, usize, &'static [u8], Verdict);

const SIZES: [Sized; 11] = [
    // Marks up to the limit on the stack, then one more.
    (
        b"",
        b'(',
        1_000_000,
        b".",
        Verdict::No(1_000_000, Reason::MissingItem),
    ),
    (
        b"",
        b'(',
        1_000_001,
        b".",
        Verdict::No(1_000_000, Reason::TooLarge),
    ),
    // The largest count and the largest frame length that fit their fields.
    (b"\x8e", b'\xff', 8, b"", Verdict::No(0, Reason::TooLarge)),
    (
        b"\x95",
        b'\xff',
        8,
        b"N.",
        Verdict::No(10, Reason::BrokenFrame),
    ),
    // Entries up to the limit on the memo, then one more, and the greatest number.
    (b"N", b'\x94', 1_000_000, b".", Verdict::Yes(1_000_002, 0)),
    (
        b"N",
        b'\x94',
        1_000_001,
        b".",
        Verdict::No(1_000_001, Reason::TooLarge),
    ),
    (b"Nr", b'\xff', 4, b".", Verdict::Yes(7, 0)),
    // Lines up to their limits, then one more byte.
    (b"V", b'a', 65_536, b"\n.", Verdict::Yes(65_539, 0)),
    (b"V", b'a', 65_537, b"", Verdict::No(0, Reason::TooLarge)),
    (b"I", b'1', 1_024, b"\n.", Verdict::Yes(1_027, 0)),
    (b"I", b'1', 1_025, b"\n.", Verdict::No(0, Reason::TooLarge)),
];

#[test]
fn each_size_has_its_answer(rt: HostRuntime) {
    for (head, byte, count, tail, wanted) in &SIZES {
        let mut source = Filled::new(head, *byte, *count, tail);
        let said = judge(&rt, &Policy::AnyImport, &Limits::STANDARD, &mut source);
        assert_eq!(rt; said, *wanted, "{count} times {byte}");
    }
}
