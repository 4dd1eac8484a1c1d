//! Scans at the edges: truncated and negative counts, the limits, and contents that obey or break a
//! rule.

use pkops::{
    Arg, Fault, Inst, Limits, Op, Scan, assemble, old_bytes_of, scan, spells_itself, text_of,
};
use std::test::Fail;

/// The opcode and the length of an instruction, or what is wrong with it. Neither: more is needed.
type Found = (Option<Op>, usize, Option<Fault>);

fn read(bytes: &[u8]) -> Found {
    match scan(bytes, &Limits::STANDARD) {
        Scan::Whole(inst, length) => (Some(inst.op()), length, None),
        Scan::More => MORE,
        Scan::Bad(fault) => (None, 0, Some(fault)),
    }
}

const MORE: Found = (None, 0, None);

const BAD: Found = (None, 0, Some(Fault::BadArgument));

const LARGE: Found = (None, 0, Some(Fault::TooLarge));

const UNKNOWN: Found = (None, 0, Some(Fault::UnknownOpcode(255)));

const CODES: [(&[u8], Found); 7] = [
    (b"", MORE),
    (b"\xff", UNKNOWN),
    (b"J\xff\xff\xff\xff", (Some(Op::BinInt), 5, None)),
    (b"J\xff\xff\xff\xff.", (Some(Op::BinInt), 5, None)),
    (b"\x82\x05", (Some(Op::Ext1), 2, None)),
    (b"\x82", MORE),
    (b"\x80\x06", (Some(Op::Proto), 2, None)),
];

const SIGNED_COUNTS: [(&[u8], Found); 6] = [
    (b"T\xff\xff\xff", MORE),
    (b"T\xff\xff\xff\xff", BAD),
    (b"T\x00\x00\x00\x80", BAD),
    (b"T\xff\xff\xff\x7f", LARGE),
    (b"\x8b\xff\xff\xff\xff", BAD),
    (b"\x8b\x00\x00\x00\x00", (Some(Op::Long4), 5, None)),
];

// Counts at the limit of 16,777,216 and above it.
const COUNTS: [(&[u8], Found); 9] = [
    (b"B\x00\x00\x00\x01", MORE),
    (b"B\x01\x00\x00", MORE),
    (b"B\x01\x00\x00\x01", LARGE),
    (b"X\x01\x00\x00\x01", LARGE),
    (b"\x8e\x00\x00\x00\x01\x00\x00\x00\x00", MORE),
    (b"\x8e\x01\x00\x00\x01\x00\x00\x00\x00", LARGE),
    (b"\x8e\xff\xff\xff\xff\xff\xff\xff", MORE),
    (b"\x8e\xff\xff\xff\xff\xff\xff\xff\xff", LARGE),
    (b"C\xff", MORE),
];

const NUMERALS: [(&[u8], Found); 23] = [
    (b"I-0", MORE),
    (b"I-0\n", BAD),
    (b"I007\n", BAD),
    (b"I\n", BAD),
    (b"I-\n", BAD),
    (b"I+1\n", BAD),
    (b"I 1\n", BAD),
    (b"I0\n", (Some(Op::Int), 3, None)),
    (b"I00\n", (Some(Op::Int), 4, None)),
    (b"I01\n", (Some(Op::Int), 4, None)),
    (b"I02\n", BAD),
    (b"I-12\n", (Some(Op::Int), 5, None)),
    (b"I12L\n", BAD),
    (b"L12L\n", (Some(Op::Long), 5, None)),
    (b"L12\n", (Some(Op::Long), 4, None)),
    (b"L12LL\n", BAD),
    (b"LL\n", BAD),
    (b"L00\n", BAD),
    (b"g4294967295\n", (Some(Op::Get), 12, None)),
    (b"g4294967296\n", BAD),
    (b"p-1\n", BAD),
    (b"p00\n", BAD),
    (b"p0\n", (Some(Op::Put), 3, None)),
];

const FLOATS: [(&[u8], Found); 10] = [
    (b"F1.5e+10\n", (Some(Op::Float), 9, None)),
    (b"F1.\n", BAD),
    (b"F.5\n", BAD),
    (b"F1e5\n", BAD),
    (b"F1e-5\n", (Some(Op::Float), 6, None)),
    (b"F-inf\n", (Some(Op::Float), 6, None)),
    (b"Fnan\n", (Some(Op::Float), 5, None)),
    (b"F-\n", BAD),
    (b"F\n", BAD),
    (b"F007\n", (Some(Op::Float), 5, None)),
];

const TEXTS: [(&[u8], Found); 12] = [
    (b"V\xe9\n", (Some(Op::Unicode), 3, None)),
    (b"V\n", (Some(Op::Unicode), 2, None)),
    (b"V\\u0061\n", (Some(Op::Unicode), 8, None)),
    (b"V\\ud800\n", BAD),
    (b"V\\uDFFF\n", BAD),
    (b"V\\U0010ffff\n", (Some(Op::Unicode), 12, None)),
    (b"V\\U00110000\n", BAD),
    (b"V\\n\n", BAD),
    (b"V\\u006\n", BAD),
    (b"\x8c\x01\xe9", BAD),
    (b"\x8c\x02\xc3\xa9", (Some(Op::ShortBinUnicode), 4, None)),
    (b"\x8c\x03\xed\xa0\x80", BAD),
];

const OLD_STRINGS: [(&[u8], Found); 7] = [
    (b"S'a'\n", (Some(Op::String), 5, None)),
    (b"S'a\n", BAD),
    (b"S\"it's\"\n", (Some(Op::String), 8, None)),
    (b"S'it's'\n", BAD),
    (b"S'\\x6g'\n", BAD),
    (b"S'\\\\\\'\\n\\x6A'\n", (Some(Op::String), 14, None)),
    (b"S'\x7f'\n", BAD),
];

const NAMES: [(&[u8], Found); 3] = [
    (b"c\nf\n", BAD),
    (b"cm\n\n", BAD),
    (b"P\n", (Some(Op::PersId), 2, None)),
];

#[test]
fn edges(rt: HostRuntime) {
    let tables: [&[(&[u8], Found)]; 8] = [
        &CODES,
        &SIGNED_COUNTS,
        &COUNTS,
        &NUMERALS,
        &FLOATS,
        &TEXTS,
        &OLD_STRINGS,
        &NAMES,
    ];
    for rows in tables {
        for (bytes, wanted) in rows {
            assert!(rt; read(bytes) == *wanted, "{bytes:?}");
        }
    }
}

// A code byte and a line of this many bytes, with or without its newline.
fn line(rt: &HostRuntime, code: u8, byte: u8, length: usize, ended: bool) -> Result<Vec<u8>, Fail> {
    let mut bytes = Vec::new(rt.alloc());
    bytes.push(code)?;
    for _ in 0..length {
        bytes.push(byte)?;
    }
    if ended {
        bytes.push(b'\n')?;
    }
    Ok(bytes)
}

#[test]
fn lines_at_their_limits(rt: HostRuntime) -> Result<(), Fail> {
    for (code, byte, op, most) in [
        (b'V', b'a', Op::Unicode, 65_536),
        (b'P', b'a', Op::PersId, 65_536),
        (b'F', b'1', Op::Float, 65_536),
        (b'I', b'1', Op::Int, 1_024),
        (b'L', b'1', Op::Long, 1_024),
    ] {
        for (length, ended, wanted) in [
            (most, false, MORE),
            (most, true, (Some(op), most + 2, None)),
            (most + 1, false, LARGE),
            (most + 1, true, LARGE),
        ] {
            let bytes = line(&rt, code, byte, length, ended)?;
            assert!(rt; read(&bytes) == wanted, "{op:?}");
        }
    }
    Ok(())
}

#[test]
fn arguments_that_an_instruction_takes(rt: HostRuntime) {
    for (op, arg, admitted) in [
        (Op::Unicode, Arg::Line(b"a\nb"), None),
        (Op::Unicode, Arg::Line(b"ab"), Some(true)),
        (Op::None, Arg::U1(1), None),
        (Op::BinFloat, Arg::F8(b"1234567"), None),
        (Op::Ext1, Arg::U1(5), Some(false)),
        (Op::Proto, Arg::U1(5), Some(true)),
    ] {
        let found = match Inst::new(op, arg) {
            Some(inst) => Some(inst.admitted()),
            None => None,
        };
        assert_eq!(rt; found, admitted, "{op:?}");
    }
}

fn instruction(bytes: &[u8]) -> Result<Inst<'_>, Fail> {
    match scan(bytes, &Limits::STANDARD) {
        Scan::Whole(inst, _) => Ok(inst),
        _ => Err(Fail::from("an instruction")),
    }
}

#[test]
fn texts(rt: HostRuntime) -> Result<(), Fail> {
    for (bytes, text) in [
        (b"V\xe9\n".as_slice(), Some("\u{e9}")),
        (b"V\\u0061\\U0001F600\n".as_slice(), Some("a\u{1f600}")),
        (b"\x8c\x02\xc3\xa9".as_slice(), Some("\u{e9}")),
        (b"U\x01a".as_slice(), None),
    ] {
        let inst = instruction(bytes)?;
        let named = text_of(rt.alloc(), &inst)?;
        assert_eq!(rt; named.as_deref(), text, "{bytes:?}");
    }
    Ok(())
}

#[test]
fn lines_without_escapes(rt: HostRuntime) -> Result<(), Fail> {
    for (line, plain) in [
        (b"".as_slice(), true),
        (b"\x00 u\x7f".as_slice(), true),
        (b"\\u0061".as_slice(), false),
        (b"a\xe9".as_slice(), false),
    ] {
        assert_eq!(rt; spells_itself(line), plain, "{line:?}");
    }
    Ok(())
}

#[test]
fn bytes_of_old_strings(rt: HostRuntime) -> Result<(), Fail> {
    for (bytes, wanted) in [
        (b"S'\\x61'\n".as_slice(), Some(b"a".as_slice())),
        (
            b"S\"\\n\\r\\t\\\\\\''\"\n".as_slice(),
            Some(b"\n\r\t\\''".as_slice()),
        ),
        (b"U\x01\xe9".as_slice(), Some(b"\xe9".as_slice())),
        (b"T\x01\x00\x00\x00a".as_slice(), Some(b"a".as_slice())),
        (b"C\x01a".as_slice(), None),
    ] {
        let inst = instruction(bytes)?;
        let named = old_bytes_of(rt.alloc(), &inst)?;
        assert_eq!(rt; named.as_deref(), wanted, "{bytes:?}");
    }
    Ok(())
}

#[test]
fn two_instructions_assembled(rt: HostRuntime) -> Result<(), Fail> {
    let none = Inst::new(Op::None, Arg::None).ok_or("NONE")?;
    let stop = Inst::new(Op::Stop, Arg::None).ok_or("STOP")?;
    let bytes = assemble(rt.alloc(), &[none, stop])?;
    assert_eq!(rt; bytes.as_slice(), b"N.".as_slice());
    Ok(())
}
