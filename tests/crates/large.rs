//! The limits for large data, and the limit on memo numbers.

use crate::giving::Filled;
use crate::judging::{Verdict, judge, judge_each};
use pkcheck::{Allow, Policy};
use pkops::Limits;
use pkread::Reason;
use std::test::Fail;

const LARGE: &str = "version = 2\nimports = {}\nlimits = { large = true }";

#[test]
fn limits_of_large_data(rt: HostRuntime) -> Result<(), Fail> {
    let most = 4_294_967_295;
    let large = Limits::large(most, most, most, 100, 1_000_000).ok_or("no limit is above")?;
    let some = Limits::large(1, 1_000_001, most, 4, 5).ok_or("no limit is above")?;
    let all = some.with_passed(1_099_511_627_776).ok_or("the greatest")?;
    let few = Limits::STANDARD.with_numbers(0).ok_or("the least")?;
    for (text, wanted) in [
        ("version = 2\n[imports]\n[limits]\nlarge = true", large),
        (
            "version = 2\n[imports]\n[limits]\nlarge = true\nmemo = 4_294_967_295",
            large,
        ),
        (
            "version = 2\n[imports]\n[limits]\nvalues = 5\nstack = 1000001
passed = 1_099_511_627_776\ndepth = 4\ncounted = 1\nlarge = true",
            all,
        ),
        ("version = 2\n[imports]\n[limits]\nnumbers = 0", few),
        (
            "version = 2\n[imports]\n[limits]\nnumbers = 4_294_967_295",
            Limits::STANDARD,
        ),
    ] {
        let allow = Allow::from_toml(rt.alloc(), text)?;
        assert_eq!(rt; allow.limits(), wanted, "{text}");
    }
    assert_eq!(rt; Limits::LARGE, large);
    Ok(())
}

#[test]
fn the_numbers_of_large_limits(rt: HostRuntime) -> Result<(), Fail> {
    let large = Limits::GREATEST_LARGE
        .with_numbers(6)
        .ok_or("no number is above")?;
    for (number, wanted) in [
        (large.counted(), 4_294_967_295),
        (large.stack(), 4_294_967_295),
        (large.memo(), 4_294_967_295),
        (large.depth(), 100),
        (large.values(), 1_000_000),
        (large.passed(), 1_099_511_627_776),
        (large.numbers(), 6),
        (Limits::STANDARD.numbers(), 4_294_967_295),
    ] {
        assert_eq!(rt; number, wanted);
    }
    assert!(rt; Limits::large(4_294_967_296, 1, 1, 1, 1).is_none());
    assert!(rt; Limits::large(1, 1, 1, 101, 1).is_none());
    assert!(rt; Limits::new(1, 1_000_001, 1, 1, 1).is_none());
    assert!(rt; large.with_numbers(4_294_967_296).is_none());
    Ok(())
}

const LARGE_NUMBER: Verdict = Verdict::No(1, Reason::TooLarge);

const UP_TO_FIVE: [(&[u8], Verdict); 10] = [
    (b"Nq\x05.", Verdict::Yes(4, 0)),
    (b"Nq\x06.", LARGE_NUMBER),
    (b"Nr\x05\0\0\0.", Verdict::Yes(7, 0)),
    (b"Nr\x06\0\0\0.", LARGE_NUMBER),
    (b"Np5\n.", Verdict::Yes(5, 0)),
    (b"Np6\n.", LARGE_NUMBER),
    // the missing item is reported first
    (b"q\x06.", Verdict::No(0, Reason::MissingItem)),
    (b"(q\x06.", Verdict::No(1, Reason::MissingItem)),
    // MEMOIZE stores under the number of entries, however large
    (b"N\x94\x94\x94\x94\x94\x94\x94.", Verdict::Yes(9, 0)),
    (b"N\x94\x94\x94\x94\x94\x94\x94h\x060.", Verdict::Yes(12, 0)),
];

#[test]
fn numbers_up_to_five(rt: HostRuntime) -> Result<(), Fail> {
    let list = "version = 2\nimports = {}\nlimits = { numbers = 5 }";
    let allow = Allow::from_toml(rt.alloc(), list)?;
    judge_each(&rt, &Policy::Listed(&allow), &allow.limits(), &UP_TO_FIVE);
    Ok(())
}

#[test]
fn the_greatest_number(rt: HostRuntime) -> Result<(), Fail> {
    let some = Limits::STANDARD
        .with_numbers(1_000_000)
        .ok_or("no number is above")?;
    for (limits, verdict) in [(Limits::STANDARD, Verdict::Yes(7, 0)), (some, LARGE_NUMBER)] {
        let rows: [(&[u8], Verdict); 1] = [(b"Nr\xff\xff\xff\xff.", verdict)];
        judge_each(&rt, &Policy::AnyImport, &limits, &rows);
    }
    Ok(())
}

/// A text of 20,000,000 bytes and a stack of 1,000,001 entries, under the limits for large data and
/// under the standard ones.
#[test]
fn large_data(rt: HostRuntime) -> Result<(), Fail> {
    let large = Allow::from_toml(rt.alloc(), LARGE)?;
    for (limits, text, stack) in [
        (
            Limits::STANDARD,
            Verdict::No(0, Reason::TooLarge),
            Verdict::No(1_000_000, Reason::TooLarge),
        ),
        (
            large.limits(),
            Verdict::Yes(20_000_006, 0),
            Verdict::No(1_000_001, Reason::LeftOver),
        ),
    ] {
        let mut source = Filled::new(b"X\0\x2d\x31\x01", b'a', 20_000_000, b".");
        assert_eq!(rt;
            judge(&rt, &Policy::Listed(&large), &limits, &mut source),
            text
        );
        let mut source = Filled::new(b"", b'N', 1_000_001, b".");
        assert_eq!(rt;
            judge(&rt, &Policy::Listed(&large), &limits, &mut source),
            stack
        );
    }
    Ok(())
}
