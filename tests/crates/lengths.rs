//! Lengths of instructions and of their parts.

use pkops::lengths::{
    HIGHEST_PROTOCOL, SEARCHED, constants_are_defined, count_width, counted_head, end_at,
    end_of_line, head_length,
};
use pkops::{Op, Width};

// The width of a count, the front of an instruction with one, the length of its head, and the
// count.
type Counted = (Width, &'static [u8], usize, u64);

const COUNTED: [Counted; 3] = [
    (Width::One, b"C\x03abc", 2, 3),
    (Width::Four, b"B\x00\x01\x00\x00", 5, 256),
    (
        Width::Eight,
        b"\x8e\x00\x00\x00\x00\x00\x01\x00\x00",
        9,
        1_099_511_627_776,
    ),
];

#[test]
fn a_head_is_a_code_and_a_count(rt: HostRuntime) {
    for (width, bytes, length, count) in &COUNTED {
        assert_eq!(rt; head_length(*width), *length);
        assert_eq!(rt; counted_head(*width, bytes), Some((*length, *count)));
        assert_eq!(rt; counted_head(*width, b"C"), None);
    }
    assert_eq!(rt; count_width(Op::ShortBinBytes), Width::One);
    assert_eq!(rt; count_width(Op::BinBytes), Width::Four);
    assert_eq!(rt; count_width(Op::ByteArray8), Width::Eight);
}

#[test]
fn a_line_ends_at_its_line_feed(rt: HostRuntime) {
    assert_eq!(rt; end_of_line(b"12\n3\n"), Some(2));
    assert_eq!(rt; end_of_line(b"12\r"), None);
    assert_eq!(rt; end_at(b'\\', b"ab\\\n"), Some(2));
    constants_are_defined();
    // `pickle.HIGHEST_PROTOCOL` of CPython 3.8 and later.
    assert_eq!(rt; HIGHEST_PROTOCOL, 5);
    assert_eq!(rt; SEARCHED, 257);
}
