//! Answers of `check_all_loaded` on rows of pickles, with a fresh memo for each pickle and with one
//! kept memo. CPython 3.11 agrees: with one `pickle.load` per pickle, and with one `Unpickler`.

use crate::giving::Pieces;
use pkcheck::{Allow, Loading, Memo, NoAll, OldStrings, Permit, Policy, YesAll, check_all_loaded};
use pkops::Limits;
use pkread::Reason;
use std::process::Abort;
use std::test::Fail;

const LEN_ALONE: &str = "version = 1\n[imports]\nbuiltins = [\"len\"]\n";

/// The verdict of `check_all_loaded`.
#[derive(Clone, Copy, Debug, PartialEq, Eq)]
enum Verdict {
    /// The number of bytes and pickles taken, and of imports listed.
    Yes(u64, u64, usize),
    /// The refused pickle, the offset and the reason.
    No(u64, u64, Reason),
}

/// A row, its verdict with a fresh memo for each pickle, and its verdict with one that is kept.
type Row = (&'static [u8], Verdict, Verdict);

/// The second pickle stores the texts of `builtins.len` and fetches numbers 0 and 1. Under one
/// Unpickler these are `os` and `system`, which the first stored.
const SHADOWED: &[u8] = b"\x8c\x02os\x94\x8c\x06system\x94\x86.\
    \x8c\x08builtins\x940\x8c\x03len\x940h\x00h\x01\x93\x8c\x04true\x85R.";

const ROWS: [Row; 8] = [
    (
        SHADOWED,
        Verdict::Yes(49, 2, 1),
        Verdict::No(1, 39, Reason::ImportOffList),
    ),
    // Two dumps of one Pickler, `[["x"], ["y"], d]` and `[d]`: the second fetches what the first
    // stored.
    (
        b"\x80\x02]q\x00(]q\x01X\x01\x00\x00\x00xq\x02a]q\x03X\x01\x00\x00\x00yq\x04a}q\x05e.\
          \x80\x02]q\x06h\x05a.",
        Verdict::No(1, 40, Reason::MissingMemo(5)),
        Verdict::Yes(44, 2, 0),
    ),
    // `d`, and then `[d]` or a list that holds itself.
    (
        b"\x80\x04}\x94.\x80\x04\x95\x06\x00\x00\x00\x00\x00\x00\x00]\x94h\x00a.",
        Verdict::Yes(22, 2, 0),
        Verdict::Yes(22, 2, 0),
    ),
    // A kept text names an import, even two pickles later.
    (
        b"\x8c\x08builtins\x94.N.h\x00\x8c\x03len\x93.h\x00\x8c\x03len\x93.",
        Verdict::No(2, 14, Reason::MissingMemo(0)),
        Verdict::Yes(32, 4, 2),
    ),
    // MEMOIZE counts the kept entries.
    (
        b"N\x94.N\x94h\x010.",
        Verdict::No(1, 5, Reason::MissingMemo(1)),
        Verdict::Yes(9, 2, 0),
    ),
    // Neither an item nor a mark is kept.
    (
        b"N.0N.",
        Verdict::No(1, 2, Reason::MissingItem),
        Verdict::No(1, 2, Reason::MissingItem),
    ),
    (
        b"N.1N.",
        Verdict::No(1, 2, Reason::MissingMark),
        Verdict::No(1, 2, Reason::MissingMark),
    ),
    // A new entry under a number replaces the kept one.
    (
        b"\x8c\x02osq\x00.\x8c\x08builtinsq\x00h\x00\x8c\x03len\x93\x86.",
        Verdict::Yes(29, 2, 1),
        Verdict::Yes(29, 2, 1),
    ),
];

fn verdict_of(answer: Result<YesAll, NoAll>) -> Verdict {
    match answer {
        Ok(yes) => Verdict::Yes(yes.taken, yes.pickles, yes.imports.len()),
        Err(all) => Verdict::No(all.pickle, all.no.at, all.no.reason),
    }
}

/// The verdict on a row loaded this way, from a source that returns one byte at a time.
fn said<T: AllocGlobal>(rt: &T, policy: &Policy<'_>, memo: Memo, row: &[u8]) -> Verdict {
    let mut source = Pieces::new(row, 1);
    let loading = Loading {
        memo,
        old_strings: OldStrings::Unknown,
    };
    let permit = Permit::By(*policy);
    verdict_of(check_all_loaded(rt.alloc(), &mut source, &permit, &Limits::STANDARD, loading))
}

fn hold<T: Abort + AllocGlobal>(
    rt: &T,
    policy: &Policy<'_>,
    memo: Memo,
    row: &[u8],
    verdict: Verdict,
) {
    assert_eq!(rt; said(rt, policy, memo, row), verdict, "{row:?}");
}

#[test]
fn a_memo_is_fresh_or_kept(rt: HostRuntime) -> Result<(), Fail> {
    let allow = Allow::from_toml(rt.alloc(), LEN_ALONE)?;
    let policy = Policy::Listed(&allow);
    for (row, fresh, kept) in ROWS {
        hold(&rt, &policy, Memo::Fresh, row, fresh);
        hold(&rt, &policy, Memo::Kept, row, kept);
    }
    Ok(())
}
