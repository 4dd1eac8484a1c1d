//! Faults, reasons and refusals as they are printed.

use pkcheck::{Asked, No, NoAll, Quoted};
use pkops::Fault;
use pkread::{ReadFailed, Reason, Refusal};
use std::alloc::{AllocError, Global};
use std::test::Fail;

#[test]
fn a_number_stands_in_parentheses(rt: HostRuntime) -> Result<(), Fail> {
    let numbered = format!(in rt.alloc(); "{}", Reason::MissingMemo(6))?;
    assert_eq!(rt; numbered.as_str(), "MissingMemo(6)");
    let plain = format!(in rt.alloc(); "{}", Reason::LeftOver)?;
    assert_eq!(rt; plain.as_str(), "LeftOver");
    Ok(())
}

#[test]
fn a_fault_has_the_name_of_its_reason(rt: HostRuntime) -> Result<(), Fail> {
    let unknown = format!(in rt.alloc(); "{}", Fault::UnknownOpcode(255))?;
    assert_eq!(rt; unknown.as_str(), "UnknownOpcode(255)");
    let bad = format!(in rt.alloc(); "{}", Fault::BadArgument)?;
    assert_eq!(rt; bad.as_str(), "BadArgument");
    Ok(())
}

#[test]
fn a_place_stands_before_its_reason(rt: HostRuntime) -> Result<(), Fail> {
    let refusal = Refusal {
        at: 12,
        reason: Reason::UnknownOpcode(255),
    };
    let text = format!(in rt.alloc(); "{refusal}")?;
    assert_eq!(rt; text.as_str(), "at 12: UnknownOpcode(255)");
    let failed = format!(in rt.alloc(); "{}", ReadFailed)?;
    assert_eq!(rt; failed.as_str(), "a read failed");
    Ok(())
}

#[test]
fn an_import_off_the_list_stands_behind_its_reason(rt: HostRuntime) -> Result<(), Fail> {
    let no = off_list(rt.alloc(), "os", "a\"b")?;
    let text = format!(in rt.alloc(); "{no}")?;
    assert_eq!(rt; text.as_str(), "at 12: ImportOffList(\"os\",\"a\\x22b\")");
    let refused = NoAll { pickle: 3, no };
    let in_a_row = format!(in rt.alloc(); "{refused}")?;
    assert_eq!(rt;
        in_a_row.as_str(),
        "in pickle 3 at 12: ImportOffList(\"os\",\"a\\x22b\")"
    );
    Ok(())
}

#[test]
fn other_bytes_than_plain_ones_are_escaped(rt: HostRuntime) -> Result<(), Fail> {
    let text = format!(in rt.alloc(); "{}", Quoted(b"a ~\\\n\xff"))?;
    assert_eq!(rt; text.as_str(), "\"a ~\\x5c\\x0a\\xff\"");
    Ok(())
}

fn off_list(alloc: Global, module: &str, name: &str) -> Result<No, AllocError> {
    let pair = Asked::Pair {
        module: module.to_string(alloc)?,
        name: name.to_string(alloc)?,
    };
    Ok(No {
        at: 12,
        reason: Reason::ImportOffList,
        pair: Some(pair),
    })
}
