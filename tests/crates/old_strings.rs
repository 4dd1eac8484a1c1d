//! Verdicts of `check_as` on pickles of Python 2, for each way of decoding old strings.

use crate::giving::Pieces;
use crate::judging::{Verdict, judge_as};
use pkcheck::{Allow, Machine, OldStrings, Policy};
use pkops::{Limits, Scan, scan};
use pkread::Reason;
use std::process::Abort;
use std::test::Fail;

const ONE_PAIR: &str = "version = 1\n[imports]\na = [\"b\"]\n";

/// Names spelled as old strings: in each of the three forms, and fetched from the memo.
const NAMES: [&[u8]; 4] = [
    b"U\x01aU\x01b\x93.",
    b"T\x01\x00\x00\x00aU\x01b\x93.",
    b"S'\\x61'\nU\x01b\x93.",
    b"U\x01aq\x000h\x00U\x01b\x93.",
];

/// The offset at which each of them requests its import.
const ASKED_AT: [u64; 4] = [6, 9, 11, 11];

/// One byte that is not ASCII, in each of the three forms.
const NOT_ASCII: [&[u8]; 3] = [b"U\x01\xe9.", b"T\x01\x00\x00\x00\xe9.", b"S'\\xe9'\n."];

/// An old string that takes no item.
const RECEIVER: &[u8] = b"U\x00Na.";

/// The verdict on a pickle under this setting, from a source that returns one byte at a time.
fn said<T: Abort + AllocGlobal>(
    rt: &T,
    policy: &Policy<'_>,
    old_strings: OldStrings,
    pickle: &[u8],
) -> Verdict {
    let mut source = Pieces::new(pickle, 1);
    judge_as(rt, policy, &Limits::STANDARD, old_strings, &mut source)
}

#[test]
fn a_name_may_be_an_old_string_that_is_ascii(rt: HostRuntime) -> Result<(), Fail> {
    let allow = Allow::from_toml(rt.alloc(), ONE_PAIR)?;
    let list = Policy::Listed(&allow);
    for (pickle, at) in NAMES.iter().zip(&ASKED_AT) {
        let unknown = Verdict::No(*at, Reason::UnknownImport);
        let named = Verdict::Yes(*at + 2, 1);
        let no_text = Verdict::No(*at, Reason::NotText);
        assert_eq!(rt; said(&rt, &list, OldStrings::Unknown, pickle), unknown);
        assert_eq!(rt; said(&rt, &list, OldStrings::Ascii, pickle), named);
        assert_eq!(rt; said(&rt, &list, OldStrings::Bytes, pickle), no_text);
    }
    Ok(())
}

#[test]
fn a_byte_that_is_not_ascii_is_refused_as_ascii_alone(rt: HostRuntime) {
    let any = Policy::AnyImport;
    for pickle in &NOT_ASCII {
        let taken = Verdict::Yes(pickle.len() as u64, 0);
        let refused = Verdict::No(0, Reason::NotAscii);
        assert_eq!(rt; said(&rt, &any, OldStrings::Unknown, pickle), taken);
        assert_eq!(rt; said(&rt, &any, OldStrings::Ascii, pickle), refused);
        assert_eq!(rt; said(&rt, &any, OldStrings::Bytes, pickle), taken);
    }
}

#[test]
fn an_old_string_takes_items_where_it_is_unknown_alone(rt: HostRuntime) {
    let any = Policy::AnyImport;
    let refused = Verdict::No(3, Reason::WrongClass);
    assert_eq!(rt;
        said(&rt, &any, OldStrings::Unknown, RECEIVER),
        Verdict::Yes(5, 0)
    );
    assert_eq!(rt; said(&rt, &any, OldStrings::Ascii, RECEIVER), refused);
    assert_eq!(rt; said(&rt, &any, OldStrings::Bytes, RECEIVER), refused);
}

// the limit on the stack is checked after it
#[test]
fn a_stack_that_is_full_comes_behind_it(rt: HostRuntime) -> Result<(), Fail> {
    let limits = Limits::new(16_777_216, 1, 1_000_000, 100, 1_000_000).ok_or("a stack of one")?;
    let rows: [(&[u8], Verdict); 2] = [
        (b"NU\x01\xe9.", Verdict::No(1, Reason::NotAscii)),
        (b"NU\x01a.", Verdict::No(1, Reason::TooLarge)),
    ];
    for (pickle, wanted) in rows {
        let mut source = Pieces::new(pickle, 1);
        let verdict = judge_as(
            &rt,
            &Policy::AnyImport,
            &limits,
            OldStrings::Ascii,
            &mut source,
        );
        assert_eq!(rt; verdict, wanted);
    }
    Ok(())
}

#[test]
fn an_old_string_that_is_ascii_is_one_of_the_texts(rt: HostRuntime) -> Result<(), Fail> {
    let Scan::Whole(old, _) = scan(b"U\x01a", &Limits::STANDARD) else {
        return Err(Fail::from("SHORT_BINSTRING"));
    };
    if !old.admitted() {
        return Err(Fail::from("an instruction that is admitted"));
    }
    let wanted = [
        (OldStrings::Unknown, 0),
        (OldStrings::Ascii, 1),
        (OldStrings::Bytes, 0),
    ];
    for (old_strings, texts) in wanted {
        let mut machine = Machine::new_as(rt.alloc(), &Limits::STANDARD, old_strings);
        if machine.stopped() {
            return Err(Fail::from("a machine at its start"));
        }
        let _ = machine.step(&old, &Policy::AnyImport);
        assert_eq!(rt; machine.texts(), texts);
    }
    Ok(())
}
