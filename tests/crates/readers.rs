//! A reader, `genops` and the frames, call by call.

ghost use Rattle.std.specs.Prelude.{◌≤◌, length};

use pkops::{Limits, Op};
use pkread::{
    Frames, Head, Input, Memory, Next, Reader, Reason, Refusal, Source, frame_argument, genops,
    lend,
};
use std::process::Abort;
use std::test::Fail;

// An instruction's offset and opcode, `None` at the end, or a refusal.
type Answer = Result<Option<(u64, Op)>, Refusal>;

fn answer_of(next: Result<Next<'_>, Refusal>) -> Answer {
    match next {
        Ok(Next::Inst { at, inst }) => Ok(Some((at, inst.op()))),
        Ok(Next::Ended) => Ok(None),
        Err(refusal) => Err(refusal),
    }
}

// Compares a reader's answers with the expected ones, and whether it has ended after each.
fn read_on<T: Abort + AllocGlobal, R: Source>(
    rt: &T,
    source: &mut R,
    wanted: &[(Answer, bool)],
) -> usize {
    let mut reader = Reader::new(rt.alloc(), source, &Limits::STANDARD);
    assert!(rt; !reader.ended());
    for row in wanted {
        let answer = answer_of(reader.next());
        assert_eq!(rt; (answer, reader.ended()), *row);
    }
    reader.most_held()
}

const UNKNOWN: Refusal = Refusal {
    at: 1,
    reason: Reason::UnknownOpcode(255),
};

#[test]
fn a_reader_gives_refuses_and_ends(rt: HostRuntime) {
    let none = (Ok(Some((0, Op::None))), false);
    let ends = [
        none,
        (Ok(Some((1, Op::Stop))), true),
        (Ok(None), true),
        (Ok(None), true),
    ];
    let refuses = [none, (Err(UNKNOWN), false), (Err(UNKNOWN), false)];
    assert_eq!(rt; read_on(&rt, &mut Memory::new(b"N.N"), &ends), 1);
    assert_eq!(rt; read_on(&rt, &mut Memory::new(b"N\xffN"), &refuses), 1);
}

// The length of the instruction that is lent from the front of these bytes, or 0.
fn length_lent(bytes: &[u8]) -> usize
    ensures { result ≤ length bytes.now }
{
    match lend(bytes, &Limits::STANDARD) {
        Some(inst) => bytes.len().min(inst.len() as usize),
        None => 0,
    }
}

// How many instructions are lent and taken before one is not at hand, the bytes taken then, and
// the answer of `next`.
fn lend_on<T: Abort + AllocGlobal, R: Source>(rt: &T, source: &mut R) -> (u64, u64, Answer) {
    let mut reader = Reader::new(rt.alloc(), source, &Limits::STANDARD);
    let mut lent = 0u64;
    for _ in 0..9 {
        let Some(bytes) = reader.at_hand() else {
            break;
        };
        let length = length_lent(bytes);
        if length == 0 {
            break;
        }
        reader.advance(length);
        lent = lent.wrapping_add(1);
    }
    (lent, reader.taken(), answer_of(reader.next()))
}

#[test]
fn what_is_at_hand_is_lent(rt: HostRuntime) {
    // BININT1, SHORT_BINUNICODE and INT, of 2, 3 and 3 bytes, then STOP.
    let mut memory = Memory::new(b"K\x05\x8c\x01aI7\n.");
    assert_eq!(rt; lend_on(&rt, &mut memory), (3, 8, Ok(Some((8, Op::Stop)))));
    // SHORT_BINBYTES, BINUNICODE, GLOBAL and INST, of 3, 6, 5 and 5 bytes, then FRAME.
    let mut memory = Memory::new(b"C\x01\xffX\x01\0\0\0bcm\nf\nim\nf\n\x95\0\0\0\0\0\0\0\0");
    assert_eq!(rt;
        lend_on(&rt, &mut memory),
        (4, 19, Ok(Some((19, Op::Frame))))
    );
    // A text and a GLOBAL that are cut, and a text that isn't UTF-8.
    assert_eq!(rt; lend_on(&rt, &mut Memory::new(b"N\x8c\x02a")).0, 1);
    assert_eq!(rt; lend_on(&rt, &mut Memory::new(b"Ncm\nf")).0, 1);
    assert_eq!(rt; lend_on(&rt, &mut Memory::new(b"N\x8c\x01\xff")).0, 1);
    // A source with nothing at hand.
    let first = (0, 0, Ok(Some((0, Op::None))));
    assert_eq!(rt; lend_on(&rt, &mut Input::new(b"N.".as_slice())), first);
}

#[test]
fn a_long_payload_is_lent(rt: HostRuntime) -> Result<(), Fail> {
    let mut long = Vec::new(rt.alloc());
    long.extend_from_slice(b"X\x40\x0d\x03\0")?;
    long.resize(200_005, b'a')?;
    long.push(b'.')?;
    let stops = (1, 200_005, Ok(Some((200_005, Op::Stop))));
    assert_eq!(rt; lend_on(&rt, &mut Memory::new(&long)), stops);
    Ok(())
}

// What `next_head` returns: an instruction, a skipped payload, or the end.
#[derive(Clone, Copy, Debug, PartialEq, Eq)]
enum Given {
    Inst(u64, Op),
    Passed(u64, Op, u64),
    Ended,
}

// Compares the answers to `next_head` with the expected ones, and that to `next` at the last call.
fn read_heads<T: Abort + AllocGlobal, R: Source>(
    rt: &T,
    source: &mut R,
    wanted: &[Result<Given, Refusal>],
    last: Answer,
) -> usize {
    let mut reader = Reader::new(rt.alloc(), source, &Limits::STANDARD);
    for row in wanted {
        let answer = match reader.next_head() {
            Ok(Head::Inst { at, inst }) => Ok(Given::Inst(at, inst.op())),
            Ok(Head::Passed { at, op, count }) => Ok(Given::Passed(at, op, count)),
            Ok(Head::Ended) => Ok(Given::Ended),
            Err(refusal) => Err(refusal),
        };
        assert_eq!(rt; answer, *row);
    }
    assert_eq!(rt; answer_of(reader.next()), last);
    reader.most_held()
}

#[test]
fn byte_payloads_are_passed_over(rt: HostRuntime) {
    let bytes = b"C\x03abcB\x01\0\0\0dU\x02ef.";
    let wanted = [
        Ok(Given::Passed(0, Op::ShortBinBytes, 3)),
        Ok(Given::Passed(5, Op::BinBytes, 1)),
        Ok(Given::Inst(11, Op::ShortBinString)),
        Ok(Given::Inst(15, Op::Stop)),
        Ok(Given::Ended),
    ];
    assert_eq!(rt;
        read_heads(&rt, &mut Memory::new(bytes), &wanted, Ok(None)),
        6
    );
    let mixed = [Ok(Given::Passed(0, Op::ShortBinBytes, 3))];
    let next = Ok(Some((5, Op::BinBytes)));
    assert_eq!(rt; read_heads(&rt, &mut Memory::new(bytes), &mixed, next), 6);
}

#[test]
fn a_passed_payload_that_ends_early(rt: HostRuntime) {
    let cut = Refusal {
        at: 1,
        reason: Reason::Truncated,
    };
    let wanted = [Ok(Given::Inst(0, Op::None)), Err(cut), Err(cut)];
    let mut source = Memory::new(b"N\x8e\x02\0\0\0\0\0\0\0a");
    assert_eq!(rt; read_heads(&rt, &mut source, &wanted, Err(cut)), 10);
}

#[test]
fn the_number_that_frames_want(rt: HostRuntime) {
    let mut items = genops(b"\x95\x02\0\0\0\0\0\0\0N.", &Limits::STANDARD);
    for wanted in [2, 0] {
        let number = match items.next() {
            Some(Ok((_, inst))) => Some(frame_argument(&inst)),
            _ => None,
        };
        assert_eq!(rt; number, Some(wanted));
    }
}

#[test]
fn genops_stops_at_a_refusal(rt: HostRuntime) {
    let extension = Refusal {
        at: 1,
        reason: Reason::ExtensionCode,
    };
    let mut items = genops(b"N\x82\x05.", &Limits::STANDARD);
    for wanted in [Ok(Some((0, Op::None))), Err(extension), Ok(None)] {
        let answer: Answer = match items.next() {
            Some(Ok((at, inst))) => Ok(Some((at, inst.op()))),
            Some(Err(refusal)) => Err(refusal),
            None => Ok(None),
        };
        assert_eq!(rt; answer, wanted);
    }
}

#[test]
fn frames(rt: HostRuntime) {
    let mut closed = Frames::new();
    assert!(rt; closed.take(Op::Frame, 9, 2).is_ok());
    assert!(rt; closed.take(Op::None, 1, 0).is_ok());
    assert!(rt; closed.take(Op::Stop, 1, 0).is_ok());

    let mut left_open = Frames::new();
    assert!(rt; left_open.take(Op::Frame, 9, 3).is_ok());
    assert!(rt; left_open.take(Op::None, 1, 0).is_ok());
    assert!(rt; left_open.take(Op::Stop, 1, 0).is_err());

    let mut inside = Frames::new();
    assert_eq!(rt; inside.inside(b"NNN"), b"NNN".as_slice());
    inside.take_inside(3);
    assert!(rt; inside.take(Op::Frame, 9, 2).is_ok());
    assert_eq!(rt; inside.inside(b"N.N"), b"N.".as_slice());
    assert_eq!(rt; inside.inside(b"N"), b"N".as_slice());
    inside.take_inside(1);
    assert!(rt; inside.take(Op::Stop, 1, 0).is_ok());
}
