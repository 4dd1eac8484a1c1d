//! A map in which each part is in use.

use pkbase::{NotStored, NumberedMap};
use std::test::Fail;

/// What is stored, in turn: in order from 5 on, below that, again, far above, and in between.
const STORED: [(u32, u16); 10] = [
    (5, 50),
    (6, 60),
    (7, 70),
    (3, 30),
    (6, 61),
    (100, 1),
    (8, 80),
    (3, 31),
    (100, 2),
    (0, 9),
];

/// What a Python dict holds then.
const FOUND: [(u32, Option<u16>); 11] = [
    (0, Some(9)),
    (1, None),
    (3, Some(31)),
    (4, None),
    (5, Some(50)),
    (6, Some(61)),
    (7, Some(70)),
    (8, Some(80)),
    (9, None),
    (100, Some(2)),
    (u32::MAX, None),
];

#[test]
fn numbers_are_stored_in_and_out_of_order(rt: HostRuntime) -> Result<(), Fail> {
    let mut map = NumberedMap::new(rt.alloc(), 0);
    assert!(rt; map.is_empty());
    for (number, value) in STORED {
        map.store(u64::from(number), value)?;
    }
    for (number, value) in FOUND {
        assert_eq!(rt; map.get(number), value);
    }
    assert_eq!(rt; map.len(), 7);
    Ok(())
}

#[test]
fn a_cleared_map_begins_anew(rt: HostRuntime) -> Result<(), Fail> {
    let mut map = NumberedMap::new(rt.alloc(), 0);
    for (number, value) in STORED {
        map.store(u64::from(number), value)?;
    }
    map.clear();
    assert!(rt; map.is_empty());
    assert_eq!(rt; map.get(5), None);
    map.store(u64::from(u32::MAX), 7)?;
    map.store(0, 8)?;
    assert!(rt; map.store(1 << 33, 9).is_err());
    assert_eq!(rt; map.get(u32::MAX), Some(7));
    assert_eq!(rt; map.get(0), Some(8));
    assert_eq!(rt; map.len(), 2);
    Ok(())
}

#[test]
fn a_full_map_takes_only_numbers_that_it_has(rt: HostRuntime) -> Result<(), Fail> {
    let mut map = NumberedMap::new(rt.alloc(), 0);
    assert_eq!(rt; map.store_within(2, 5, 50), Ok(()));
    assert_eq!(rt;
        map.store_within(2, 1 << 33, 9),
        Err(NotStored::OutOfMemory)
    );
    assert_eq!(rt; map.store_within(2, 9, 90), Ok(()));
    assert_eq!(rt; map.store_within(2, 6, 60), Err(NotStored::Full));
    assert_eq!(rt; map.store_within(2, 7, 70), Err(NotStored::Full));
    assert_eq!(rt; map.store_within(2, 9, 91), Ok(()));
    assert_eq!(rt; map.get(9), Some(91));
    assert_eq!(rt; map.len(), 2);
    Ok(())
}
