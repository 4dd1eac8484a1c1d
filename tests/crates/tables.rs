//! A table of texts and imports, and the imports that are taken from it.

use pkimport::{Import, ImportTable, Imports, Named};
use std::test::Fail;

const MADE: Import<'_> = Import::Pair {
    module: "m",
    name: "f",
};

const WRITTEN: Import<'_> = Import::Pair {
    module: "n",
    name: "g",
};

/// A table of two texts and four imports: both texts, two written names, an unknown pair, and both
/// texts again.
fn filled<T: AllocGlobal>(rt: &T) -> Result<ImportTable, Fail> {
    let mut table = ImportTable::new(rt.alloc());
    table.add_text("m".as_bytes())?;
    table.add_text("f".as_bytes())?;
    let Ok(true) = table.list(Some(Named::Made(0, 1))) else {
        return Err(Fail::from("two texts"));
    };
    let Ok(true) = table.list(Some(Named::Written("n", "g"))) else {
        return Err(Fail::from("two names"));
    };
    let Ok(false) = table.list(None) else {
        return Err(Fail::from("no import"));
    };
    let Ok(true) = table.list(Some(Named::Unknown)) else {
        return Err(Fail::from("an unknown pair"));
    };
    let Ok(true) = table.list(Some(Named::Made(0, 1))) else {
        return Err(Fail::from("both texts again"));
    };
    Ok(table)
}

#[test]
fn a_table_lists_imports(rt: HostRuntime) -> Result<(), Fail> {
    let mut table = filled(&rt)?;
    assert_eq!(rt; (table.texts(), table.len()), (2, 4));
    assert_eq!(rt;
        (table.text(0), table.text(1), table.text(2)),
        ("m", "f", "")
    );
    assert_eq!(rt; table.imports().get(0), Some(MADE));
    assert_eq!(rt; table.imports().get(1), Some(WRITTEN));
    assert_eq!(rt; table.imports().get(2), Some(Import::Unknown));
    assert_eq!(rt; table.imports().get(3), Some(MADE));
    table.keep(1);
    assert_eq!(rt; (table.texts(), table.len()), (2, 1));
    table.clear();
    assert_eq!(rt; (table.texts(), table.len()), (0, 0));
    Ok(())
}

#[test]
fn appended_imports_stand_alone(rt: HostRuntime) -> Result<(), Fail> {
    let mut table = filled(&rt)?;
    let mut all = ImportTable::new(rt.alloc());
    all.append(rt.alloc(), &table)?;
    table.clear();
    all.skip(1);
    assert_eq!(rt; (all.texts(), all.len()), (0, 3));
    let mut imports = Imports::from_table(all);
    assert_eq!(rt; imports.get(0), Some(WRITTEN));
    assert_eq!(rt; imports.get(2), Some(MADE));
    imports.skip(2);
    assert_eq!(rt; imports.get(0), Some(MADE));
    assert_eq!(rt; imports.len(), 1);
    Ok(())
}
