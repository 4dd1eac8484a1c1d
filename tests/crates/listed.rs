//! The imports that a machine and an answer list, and comparisons of two answers.

use pkcheck::{
    Asked, Import, Machine, NoWithImports, OldStrings, Permit, Policy, Yes, check,
    check_with_imports,
};
use pkops::{Arg, Inst, Limits, Op, Scan, scan};
use pkread::{Memory, Reason};
use std::test::Fail;

const PAIR: Import<'_> = Import::Pair {
    module: "m",
    name: "f",
};

fn checked<T: AllocGlobal>(rt: &T, pickle: &[u8]) -> Result<Yes, Fail> {
    let mut source = Memory::new(pickle);
    let Ok(yes) = check(
        rt.alloc(),
        &mut source,
        &Policy::AnyImport,
        &Limits::STANDARD,
    ) else {
        return Err(Fail::from("a yes"));
    };
    Ok(yes)
}

#[test]
fn a_machine_lends_its_imports(rt: HostRuntime) -> Result<(), Fail> {
    let global = Inst::new(Op::Global, Arg::Pair(b"m", b"f")).ok_or("GLOBAL")?;
    let mut machine = Machine::new(rt.alloc(), &Limits::STANDARD);
    assert_eq!(rt; machine.imports().is_empty(), true);
    if machine.stopped() || !global.admitted() {
        return Err(Fail::from("a step that may be taken"));
    }
    let Ok(_) = machine.step(&global, &Policy::AnyImport) else {
        return Err(Fail::from("a step that goes on"));
    };
    let imports = machine.imports();
    assert_eq!(rt; imports.len(), 1);
    assert_eq!(rt; imports.get(0), Some(PAIR));
    let mut each = imports.iter();
    assert_eq!(rt; each.next(), Some(PAIR));
    assert_eq!(rt; each.next(), None);
    Ok(())
}

#[test]
fn imports_are_copied_in_order(rt: HostRuntime) -> Result<(), Fail> {
    let yes = checked(&rt, b"cm\nf\n)R\x8c\x01b\x93.")?;
    let mut each = yes.imports.iter();
    assert_eq!(rt; each.next(), Some(PAIR));
    assert_eq!(rt; each.next(), Some(Import::Unknown));
    assert_eq!(rt; each.next(), None);
    let copies = yes.imports.to_vec(rt.alloc())?;
    let pair = PAIR.to_asked(rt.alloc())?;
    assert_eq!(rt; copies.as_slice(), [pair, Asked::Unknown].as_slice());
    Ok(())
}

fn refused<T: AllocGlobal>(rt: &T, pickle: &[u8]) -> Result<NoWithImports, Fail> {
    let mut source = Memory::new(pickle);
    match check_with_imports(
        rt.alloc(),
        &mut source,
        &Permit::By(Policy::AnyImport),
        &Limits::STANDARD,
        OldStrings::Unknown,
    ) {
        Ok(_) => Err(Fail::from("a no")),
        Err(refused) => Ok(refused),
    }
}

#[test]
fn a_refusal_has_the_imports_before_it(rt: HostRuntime) -> Result<(), Fail> {
    // No opcode, a pickle that is cut, a module that is no text, an object too many, EXT1.
    let rows = [
        (
            b"cm\nf\n0cm\nf\n)R\x8c\x01b\x93\xff.".as_slice(),
            17,
            Reason::UnknownOpcode(255),
        ),
        (
            b"cm\nf\n0cm\nf\n)R\x8c\x01b\x93cm\nf".as_slice(),
            17,
            Reason::Truncated,
        ),
        (
            b"cm\nf\n0cm\nf\n)R\x8c\x01b\x93N\x93".as_slice(),
            18,
            Reason::NotText,
        ),
        (
            b"cm\nf\n0cm\nf\n)R\x8c\x01b\x93N.".as_slice(),
            18,
            Reason::LeftOver,
        ),
        (
            b"cm\nf\n0cm\nf\n)R\x8c\x01b\x93\x82\x01.".as_slice(),
            17,
            Reason::ExtensionCode,
        ),
    ];
    for (pickle, at, reason) in rows {
        let NoWithImports { no, imports } = refused(&rt, pickle)?;
        assert_eq!(rt; (no.at, no.reason, no.pair.is_none()), (at, reason, true));
        assert_eq!(rt; imports.len(), 3);
        assert_eq!(rt; imports.get(0), Some(PAIR));
        assert_eq!(rt; imports.get(1), Some(PAIR));
        assert_eq!(rt; imports.get(2), Some(Import::Unknown));
    }
    assert_eq!(rt; refused(&rt, b"0cm\nf\n.")?.imports.is_empty(), true);
    Ok(())
}

#[test]
fn answers_are_the_same_by_what_they_list(rt: HostRuntime) -> Result<(), Fail> {
    let spelled = checked(&rt, b"cm\nff\n.")?;
    let again = checked(&rt, b"cm\nff\n.")?;
    let made = checked(&rt, b"\x8c\x01m\x8c\x01f\x93.")?;
    let written = checked(&rt, b"cm\nf\n.")?;
    assert!(rt; spelled == again);
    assert!(rt; spelled != made);
    assert!(rt; made != written);
    assert!(rt; made.imports == written.imports);
    assert!(rt; made.imports != spelled.imports);
    Ok(())
}

#[test]
fn instructions_are_the_same_by_what_they_say(rt: HostRuntime) -> Result<(), Fail> {
    let one = Inst::new(Op::BinInt1, Arg::U1(1)).ok_or("BININT1")?;
    let two = Inst::new(Op::BinInt1, Arg::U1(2)).ok_or("BININT1")?;
    let get = Inst::new(Op::BinGet, Arg::U1(1)).ok_or("BINGET")?;
    let Scan::Whole(read, _) = scan(b"K\x01", &Limits::STANDARD) else {
        return Err(Fail::from("a whole instruction"));
    };
    assert_eq!(rt; one.same(&read), true);
    assert_eq!(rt; one.same(&two), false);
    assert_eq!(rt; one.same(&get), false);
    Ok(())
}
