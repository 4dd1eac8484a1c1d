//! What the keys of dicts cost, and the limits that refuse it.

use pkcheck::{Extent, Loading, Memo, OldStrings, Permit, Policy, Terms};
use pkload::{Costly, Excess, Tally, Tolls, YesWithBill, check_estimating, check_loading};
use pkops::Limits;
use pkread::Memory;

/// A dict whose key is a tuple, of one object twice, thirty times over: a hash of it visits 2 ^ 30
/// empty tuples.
const DOUBLED: &[u8] = b"})\
    2\x862\x862\x862\x862\x862\x862\x862\x862\x862\x862\x862\x862\x862\x862\x86\
    2\x862\x862\x862\x862\x862\x862\x862\x862\x862\x862\x862\x862\x862\x862\x86\
    Ns.";

/// The pickle {(1, 2, 3, 4): None, b"abc": None}.
const MIXED: &[u8] = b"}((K\x01K\x02K\x03K\x04tNC\x03abcNu.";

/// The pickle {1, frozenset({2, 3})}.
const FROZEN: &[u8] = b"\x8f(K\x01(K\x02K\x03\x91\x90.";

/// The pickle [{1: None}] of protocol 0, behind a mark that POP removes.
const LISTED: &[u8] = b"(0((K\x01Ndl.";

/// The bill of a yes, or where and why the costs of loading are refused.
type Answer = (Option<YesWithBill>, Option<(u64, Excess)>);

/// How a pickle is checked.
fn terms() -> Terms {
    Terms {
        limits: Limits::STANDARD,
        loading: Loading {
            memo: Memo::Fresh,
            old_strings: OldStrings::Unknown,
        },
        extent: Extent::OnePickle,
    }
}

fn answer(rt: &HostRuntime, bytes: &[u8], tolls: &Tolls) -> Answer {
    let mut source = Memory::new(bytes);
    let terms = terms();
    let any = Permit::By(Policy::AnyImport);
    match check_loading(rt.alloc(), &mut source, &any, &terms, tolls) {
        Ok(Ok(billed)) => (Some(billed), None),
        Ok(Err(_refused)) => (None, None),
        Err(Costly { at, excess, .. }) => (None, Some((at, excess))),
    }
}

/// The bytes that are taken, if the answer is yes.
fn taken(rt: &HostRuntime, bytes: &[u8], tolls: &Tolls) -> Option<u64> {
    match answer(rt, bytes, tolls) {
        (Some(billed), _) => Some(billed.yes.taken),
        (None, _) => None,
    }
}

/// What the keys cost, if the answer is yes: levels, weight, work and clash.
fn keys(rt: &HostRuntime, bytes: &[u8]) -> Option<(u32, u32, u64, u64)> {
    match answer(rt, bytes, &Tolls::standard()) {
        (Some(billed), _) => {
            let Tally {
                levels,
                weight,
                work,
                clash,
                ..
            } = billed.tally;
            Some((levels, weight, work, clash))
        }
        (None, _) => None,
    }
}

#[test]
fn thirty_doublings(rt: HostRuntime) {
    assert_eq!(rt; taken(&rt, DOUBLED, &Tolls::unlimited()), Some(65));
    let (_, costly) = answer(&rt, DOUBLED, &Tolls::standard());
    assert_eq!(rt; costly, Some((63, Excess::HeavyKeys)));
}

#[test]
fn slices(rt: HostRuntime) {
    assert_eq!(rt; keys(&rt, MIXED), Some((1, 5, 6, 5)));
    assert_eq!(rt; keys(&rt, FROZEN), Some((0, 3, 6, 6)));
    assert_eq!(rt; keys(&rt, LISTED), Some((0, 1, 1, 1)));
}

/// Whether a bound suffices for an answer, and the bytes before its end.
fn estimated(rt: &HostRuntime, bytes: &[u8], tolls: &Tolls) -> Option<(bool, u64)> {
    let mut source = Memory::new(bytes);
    let terms = terms();
    let any = Permit::By(Policy::AnyImport);
    match check_estimating(rt.alloc(), &mut source, &any, &terms, tolls) {
        Some(Ok(yes)) => Some((true, yes.taken)),
        Some(Err(refused)) => Some((false, refused.no.at)),
        None => None,
    }
}

#[test]
fn bounds(rt: HostRuntime) {
    let standard = Tolls::standard();
    assert_eq!(rt; estimated(&rt, FROZEN, &standard), Some((true, 12)));
    assert_eq!(rt;
        estimated(&rt, b"}K\x01K\x02sN.", &standard),
        Some((false, 7))
    );
    assert_eq!(rt; estimated(&rt, DOUBLED, &standard), None);
    assert_eq!(rt; estimated(&rt, b"ca\nb\n)R}b.", &standard), None);
    let mut limited = standard;
    limited.memory = 999;
    assert_eq!(rt; estimated(&rt, FROZEN, &limited), None);
}
