//! A check as a caller writes it to the specification, which gives each name a path, whatever crate
//! declares it.

use pkcheck::{
    Allow, AllowError, Machine, Moved, No, OldStrings, Policy, Where, Yes, check,
};
use pkops::{Arg, Inst, Limits};
use pkread::{BrokenFrame, Frames, Memory, Next, Reader, Reason, Refusal, Source};
use std::test::Fail;

const LIST: &str = "version = 1\n[imports]\nm = [\"f\"]\n";

/// The number that `Frames::take` gets: that of FRAME.
fn number_of(inst: &Inst<'_>) -> u64 {
    match inst.arg() {
        Arg::U8(number) => number,
        _ => 0,
    }
}

/// A check of a pickle by its parts: the imports that it makes.
fn stepped<T: AllocGlobal, R: Source>(
    rt: &T,
    source: &mut R,
    policy: &Policy<'_>,
) -> Result<u64, Refusal> {
    let limits = &Limits::STANDARD;
    let mut reader: Reader<'_, R> = Reader::new(rt.alloc(), source, limits);
    let mut frames = Frames::new();
    let mut machine = Machine::new_as(rt.alloc(), limits, OldStrings::Unknown);
    let mut imports = 0u64;
    for _ in 0..99 {
        match reader.next()? {
            Next::Ended => break,
            Next::Inst { at, inst } => {
                if inst.len() == 0 || !inst.admitted() || machine.stopped() {
                    break;
                }
                if let Err(BrokenFrame) = frames.take(inst.op(), inst.len(), number_of(&inst)) {
                    let reason = Reason::BrokenFrame;
                    return Err(Refusal { at, reason });
                }
                match machine.step(&inst, policy) {
                    Ok(Moved::On) => {}
                    Ok(Moved::Import) => imports = imports.wrapping_add(1),
                    Ok(Moved::Stopped) => break,
                    Err(reason) => return Err(Refusal { at, reason }),
                }
            }
        }
    }
    Ok(imports)
}

fn checked<T: AllocGlobal>(
    rt: &T,
    pickle: &[u8],
    policy: &Policy<'_>,
) -> Result<u64, Refusal> {
    let mut source = Memory::new(pickle);
    let answer: Result<Yes, No> = check(rt.alloc(), &mut source, policy, &Limits::STANDARD);
    match answer {
        Ok(yes) => Ok(yes.imports.len() as u64),
        Err(no) => Err(Refusal {
            at: no.at,
            reason: no.reason,
        }),
    }
}

#[test]
fn a_check_is_its_parts(rt: HostRuntime) -> Result<(), Fail> {
    let pickles = [
        b"cm\nf\n)R.".as_slice(),
        b"cm\ng\n)R.".as_slice(),
        b"\x80\x04\x95\x03\0\0\0\0\0\0\0N.".as_slice(),
        b"\x80\x06N.".as_slice(),
        b"N\x8c\x01b\x93.".as_slice(),
        b"NN.".as_slice(),
        b"N".as_slice(),
        b"\xff".as_slice(),
    ];
    let fault = Allow::from_toml(rt.alloc(), "version = 1\n").err();
    assert_eq!(rt; fault, Some(AllowError::Shape(Where::Imports)));
    let allow = Allow::from_toml(rt.alloc(), LIST)?;
    for policy in [Policy::Listed(&allow), Policy::AnyImport] {
        for pickle in pickles {
            let parts = stepped(&rt, &mut Memory::new(pickle), &policy);
            assert_eq!(rt; parts, checked(&rt, pickle, &policy), "{pickle:?}");
        }
    }
    Ok(())
}
