//! Limits from a list file: their values, and verdicts under them.

use crate::giving::Filled;
use crate::judging::{Verdict, judge, judge_each};
use pkcheck::{Allow, Policy};
use pkops::Limits;
use pkread::Reason;
use std::test::Fail;

/// All limits but `passed`.
const HELD: &str = "version = 2
imports = {}
[limits]
counted = 1
stack = 2
memo = 3
depth = 4
values = 5
";

/// All limits, in another order.
const ALL: &str = "version = 2
imports = {}
[limits]
passed = 1_099_511_627_776
values = 5
depth = 4
memo = 3
stack = 2
counted = 1
";

#[test]
fn limits_of_a_list(rt: HostRuntime) -> Result<(), Fail> {
    let Some(held) = Limits::new(1, 2, 3, 4, 5) else {
        return Err(Fail::from("no limit is above its standard one"));
    };
    let Some(all) = held.with_passed(1_099_511_627_776) else {
        return Err(Fail::from("the greatest limit"));
    };
    for (text, wanted) in [
        ("version = 1\n[imports]", Limits::STANDARD),
        ("version = 2\n[imports]", Limits::STANDARD),
        ("version = 2\n[imports]\n[limits]", Limits::STANDARD),
        (HELD, held),
        (ALL, all),
    ] {
        assert_eq!(rt;
            Allow::from_toml(rt.alloc(), text)?.limits(),
            wanted,
            "{text}"
        );
    }
    Ok(())
}

#[test]
fn the_limit_on_payloads_passed_over(rt: HostRuntime) -> Result<(), Fail> {
    let held = Limits::new(1, 2, 3, 4, 5).ok_or("no limit is above its standard one")?;
    let most = held
        .with_passed(1_099_511_627_776)
        .ok_or("the greatest limit")?;
    for (limits, passed) in [
        (Limits::STANDARD, 16_777_216),
        (held, 16_777_216),
        (most, 1_099_511_627_776),
        (most.holding_all(), 1),
    ] {
        assert_eq!(rt; limits.passed(), passed);
    }
    assert!(rt; held.with_passed(1_099_511_627_777).is_none());
    Ok(())
}

const OVER_ONE_OBJECT: [(&[u8], Verdict); 2] = [
    (b"NN.", Verdict::No(1, Reason::TooLarge)),
    (b"N.", Verdict::Yes(2, 0)),
];

#[test]
fn a_stack_of_one(rt: HostRuntime) -> Result<(), Fail> {
    let allow = Allow::from_toml(
        rt.alloc(),
        "version = 2\nimports = {}\nlimits = { stack = 1 }",
    )?;
    judge_each(
        &rt,
        &Policy::Listed(&allow),
        &allow.limits(),
        &OVER_ONE_OBJECT,
    );
    Ok(())
}

/// A payload of one byte more than the standard limit, under that limit and under its own, which
/// `large` doesn't change.
#[test]
fn a_large_payload_is_passed_over(rt: HostRuntime) -> Result<(), Fail> {
    for (list, verdict) in [
        ("version = 2\n[imports]", Verdict::No(0, Reason::TooLarge)),
        (
            "version = 2\nimports = {}\nlimits = { passed = 16777217 }",
            Verdict::Yes(16_777_223, 0),
        ),
        (
            "version = 2\nimports = {}\nlimits = { large = true }",
            Verdict::No(0, Reason::TooLarge),
        ),
        (
            "version = 2\nimports = {}\nlimits = { large = true, passed = 16777217 }",
            Verdict::Yes(16_777_223, 0),
        ),
    ] {
        let allow = Allow::from_toml(rt.alloc(), list)?;
        let mut source = Filled::new(b"B\x01\0\0\x01", b'a', 16_777_217, b".");
        let said = judge(&rt, &Policy::Listed(&allow), &allow.limits(), &mut source);
        assert_eq!(rt; said, verdict, "{list}");
    }
    Ok(())
}
