//! What a check requests from a source: no more than the current instruction is known to need,
//! payloads in blocks of at most 4,096 bytes, lines byte by byte, and nothing past STOP.

use crate::giving::{Filled, Pieces, Watched};
use crate::judging::{Verdict, judge};
use pkcheck::Policy;
use pkops::Limits;
use pkread::{Reason, Source};

// A pickle, the most bytes that a pull returns, and the requests.
const REQUESTS: [(&[u8], usize, &[usize], Verdict); 11] = [
    (
        b"\x80\x04K\x01.more",
        4096,
        &[1, 1, 1, 1, 1],
        Verdict::Yes(5, 0),
    ),
    (
        b"\x95\x02\0\0\0\0\0\0\0N.N",
        4096,
        &[1, 8, 1, 1],
        Verdict::Yes(11, 0),
    ),
    (
        b"\x95\x02\0\0\0\0\0\0\0N.N",
        3,
        &[1, 8, 5, 2, 1, 1],
        Verdict::Yes(11, 0),
    ),
    (b"C\x03abc.", 4096, &[1, 1, 3, 1], Verdict::Yes(6, 0)),
    (
        b"X\x05\0\0\0aaaaa.",
        2,
        &[1, 4, 2, 5, 3, 1, 1],
        Verdict::Yes(11, 0),
    ),
    (b"Va\n.", 4096, &[1, 1, 1, 1], Verdict::Yes(4, 0)),
    (b"cm\nf\n.", 4096, &[1, 1, 1, 1, 1, 1], Verdict::Yes(6, 1)),
    (b"K", 4096, &[1, 1], Verdict::No(0, Reason::Truncated)),
    (
        b"\xffN",
        4096,
        &[1],
        Verdict::No(0, Reason::UnknownOpcode(255)),
    ),
    (
        b"T\xff\xff\xff\xffN",
        4096,
        &[1, 4],
        Verdict::No(0, Reason::BadArgument),
    ),
    (
        b"B\x01\x00\x00\x01N",
        4096,
        &[1, 4],
        Verdict::No(0, Reason::TooLarge),
    ),
];

#[test]
fn what_is_asked_for(rt: HostRuntime) {
    for (pickle, most, requests, verdict) in &REQUESTS {
        let mut source = Watched::new(Pieces::new(pickle, *most), requests);
        let said = judge(&rt, &Policy::AnyImport, &Limits::STANDARD, &mut source);
        assert_eq!(rt; (said, source.saw_them()), (*verdict, true), "{pickle:?}");
    }
}

#[test]
fn a_payload_in_blocks(rt: HostRuntime) {
    let payload = Filled::new(b"B\x10\x27\0\0", b'a', 10_000, b".N");
    let mut source = Watched::new(payload, &[1, 4, 4096, 4096, 1808, 1]);
    let said = judge(&rt, &Policy::AnyImport, &Limits::STANDARD, &mut source);
    assert_eq!(rt; (said, source.saw_them()), (Verdict::Yes(10_006, 0), true));
}

const LARGEST: &[u8] = b"B\0\0\0\x01";

#[test]
fn the_largest_payload_whole_and_cut(rt: HostRuntime) {
    for (filling, tail, verdict) in [
        (16_777_216, b".".as_slice(), Verdict::Yes(16_777_222, 0)),
        (16_777_216, b"", Verdict::No(16_777_221, Reason::Truncated)),
        (16_777_215, b"", Verdict::No(0, Reason::Truncated)),
    ] {
        let mut passed_over = Filled::new(LARGEST, b'a', filling, tail);
        let said = judge(&rt, &Policy::AnyImport, &Limits::STANDARD, &mut passed_over);
        assert_eq!(rt; said, verdict);
        let mut read = Watched::new(Filled::new(LARGEST, b'a', filling, tail), &[]);
        let said = judge(&rt, &Policy::AnyImport, &Limits::STANDARD, &mut read);
        assert_eq!(rt; said, verdict);
    }
}
