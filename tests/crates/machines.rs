//! The machine, step by step.

use pkcheck::{Machine, Moved, Policy};
use pkops::{Arg, Inst, Limits, Op};
use pkread::Reason;
use std::test::Fail;

fn step(machine: &mut Machine, inst: &Inst<'_>) -> Result<(), Fail> {
    if machine.stopped() || !inst.admitted() {
        return Err(Fail::from("a step that may be taken"));
    }
    match machine.step(inst, &Policy::AnyImport) {
        Ok(_) => Ok(()),
        Err(_) => Err(Fail::from("a step that goes on")),
    }
}

#[test]
fn a_text_doubled_stands_once(rt: HostRuntime) -> Result<(), Fail> {
    let text = Inst::new(Op::ShortBinUnicode, Arg::Counted(b"a")).ok_or("SHORT_BINUNICODE")?;
    let double = Inst::new(Op::Dup, Arg::None).ok_or("DUP")?;
    let mut machine = Machine::new(rt.alloc(), &Limits::STANDARD);
    step(&mut machine, &text)?;
    for _ in 0..1000 {
        step(&mut machine, &double)?;
    }
    assert_eq!(rt; machine.texts(), 1);
    Ok(())
}

// bytes take no items, so an APPEND to a skipped payload is refused
#[test]
fn a_passed_payload_is_known_as_bytes(rt: HostRuntime) -> Result<(), Fail> {
    let none = Inst::new(Op::None, Arg::None).ok_or("NONE")?;
    let append = Inst::new(Op::Append, Arg::None).ok_or("APPEND")?;
    let mut machine = Machine::new(rt.alloc(), &Limits::STANDARD);
    let passed = machine.step_passed(Op::BinBytes, &Policy::AnyImport);
    assert_eq!(rt; passed, Ok(Moved::On));
    step(&mut machine, &none)?;
    if machine.stopped() || !append.admitted() {
        return Err(Fail::from("a step that may be taken"));
    }
    let appended = machine.step(&append, &Policy::AnyImport);
    assert_eq!(rt; appended, Err(Reason::WrongClass));
    Ok(())
}
