//! A stack of marks and items, and the moves on it and on a memo.

use pkops::{Arg, Inst, Limits, Op};
use pkread::Reason;
use pkstack::{MemoTable, Move, SliceRule, Slot, Takes, apply};
use std::test::Fail;

const STANDARD: Limits = Limits::STANDARD;

type Stack = pkstack::Stack<u8, Slot<u8>>;

/// Pushes items, and a mark for each `None`.
fn push_all(stack: &mut Stack, entries: &[Option<u8>]) -> Result<(), Fail> {
    for entry in entries {
        let pushed = match *entry {
            Some(item) => stack.push(&STANDARD, item),
            None => stack.push_mark(&STANDARD),
        };
        let Ok(()) = pushed else {
            return Err(Fail::from("room"));
        };
    }
    Ok(())
}

/// How many entries are below the operands, and the first three operands.
type Found = (usize, [Option<u8>; 3]);

fn found(stack: &Stack, takes: Takes) -> Result<Found, Reason> {
    let start = stack.find(takes)?;
    let operands = stack.operands(start.place);
    Ok((
        start.place,
        [operands.first(), operands.get(1), operands.get(2)],
    ))
}

#[test]
fn operands_are_found(rt: HostRuntime) -> Result<(), Fail> {
    let mut stack = Stack::new(rt.alloc());
    push_all(&mut stack, &[Some(1), None, Some(2), Some(3)])?;
    for (takes, wanted) in [
        (Takes::Objects(0), Ok((4, [None, None, None]))),
        (Takes::Objects(2), Ok((2, [Some(2), Some(3), None]))),
        (Takes::Objects(3), Err(Reason::MissingItem)),
        (
            Takes::Slice(SliceRule::EvenSlice),
            Ok((1, [Some(2), Some(3), None])),
        ),
        (
            Takes::SliceAndReceiver(SliceRule::FullSlice),
            Ok((0, [Some(1), Some(2), Some(3)])),
        ),
    ] {
        assert_eq!(rt; found(&stack, takes), wanted);
    }
    assert_eq!(rt; stack.find_few(2), Some(2));
    assert_eq!(rt; stack.find_few(3), None);
    assert_eq!(rt; stack.marks(), 1);
    assert_eq!(rt; stack.top(), Ok(3));
    Ok(())
}

#[test]
fn slices_break_rules(rt: HostRuntime) -> Result<(), Fail> {
    let mut stack = Stack::new(rt.alloc());
    let any = Takes::Slice(SliceRule::AnySlice);
    assert_eq!(rt; found(&stack, any), Err(Reason::MissingMark));
    push_all(&mut stack, &[None])?;
    let full = Takes::Slice(SliceRule::FullSlice);
    assert_eq!(rt; found(&stack, full), Err(Reason::MissingItem));
    push_all(&mut stack, &[Some(1)])?;
    let even = Takes::Slice(SliceRule::EvenSlice);
    assert_eq!(rt; found(&stack, even), Err(Reason::OddItems));
    let received = Takes::SliceAndReceiver(SliceRule::AnySlice);
    assert_eq!(rt; found(&stack, received), Err(Reason::MissingItem));
    Ok(())
}

#[test]
fn entries_are_replaced(rt: HostRuntime) -> Result<(), Fail> {
    let mut stack = Stack::new(rt.alloc());
    push_all(&mut stack, &[Some(1), None, Some(2), Some(3)])?;
    let Ok(start) = stack.find(Takes::Slice(SliceRule::AnySlice)) else {
        return Err(Fail::from("a slice"));
    };
    let pair = stack.operands(start.place).pair();
    assert_eq!(rt; pair, Some((2, 3)));
    if stack.len() as u64 > STANDARD.stack() {
        return Err(Fail::from("room"));
    }
    let replaced = stack.replace(&STANDARD, start.place, start.marks, 9);
    assert_eq!(rt; replaced, Ok(()));
    assert_eq!(rt; (stack.len(), stack.marks(), stack.top()), (2, 0, Ok(9)));
    assert_eq!(rt; stack.find_few(1), Some(1));
    let marks = stack.marks();
    if let Some(place) = stack.find_few(2) {
        stack.replace_all(place, marks, 8);
    }
    assert_eq!(rt; (stack.len(), stack.top()), (1, Ok(8)));
    assert_eq!(rt; stack.find_few(2), None);
    Ok(())
}

#[test]
fn entries_are_removed(rt: HostRuntime) -> Result<(), Fail> {
    let mut stack = Stack::new(rt.alloc());
    push_all(&mut stack, &[Some(1), None, Some(2), Some(3), None])?;
    assert_eq!(rt; stack.top(), Err(Reason::MissingItem));
    assert_eq!(rt; stack.pop(), Ok(()));
    assert_eq!(rt; (stack.len(), stack.marks(), stack.top()), (4, 1, Ok(3)));
    let marks = stack.marks();
    if let Some(place) = stack.find_few(2) {
        stack.end_with(place, marks);
    }
    assert_eq!(rt; (stack.len(), stack.marks(), stack.top()), (3, 1, Ok(2)));
    assert_eq!(rt; stack.pop_mark(), Ok(()));
    assert_eq!(rt; (stack.len(), stack.marks(), stack.top()), (1, 0, Ok(1)));
    assert_eq!(rt; stack.pop_mark(), Err(Reason::MissingMark));
    push_all(&mut stack, &[None, Some(2)])?;
    stack.truncate(1);
    assert_eq!(rt; (stack.len(), stack.marks(), stack.top()), (1, 0, Ok(1)));
    stack.clear();
    assert_eq!(rt; (stack.len(), stack.pop()), (0, Err(Reason::MissingItem)));
    Ok(())
}

/// What a move returns, and how many entries the stack and the memo have then.
type Moved = (Result<(), Reason>, usize, u64);

fn move_by(
    stack: &mut Stack,
    memo: &mut MemoTable<u8>,
    what: Move,
    inst: &Inst<'_>,
) -> Result<Moved, Fail> {
    if stack.len() as u64 > STANDARD.stack() || memo.len() > STANDARD.memo() {
        return Err(Fail::from("room"));
    }
    let result = apply(stack, memo, &STANDARD, what, inst);
    Ok((result, stack.len(), memo.len()))
}

#[test]
fn moves_look_at_no_item(rt: HostRuntime) -> Result<(), Fail> {
    let seven = Inst::new(Op::BinPut, Arg::U1(7)).ok_or("BINPUT")?;
    let mut stack = Stack::new(rt.alloc());
    let mut memo = MemoTable::new(rt.alloc(), 0);
    push_all(&mut stack, &[Some(5)])?;
    for (what, wanted) in [
        (Move::Stores, (Ok(()), 1, 1)),
        (Move::PushesMark, (Ok(()), 2, 1)),
        (Move::Duplicates, (Err(Reason::MissingItem), 2, 1)),
        (Move::Fetches, (Ok(()), 3, 1)),
        (Move::StoresNext, (Ok(()), 3, 2)),
        (Move::Duplicates, (Ok(()), 4, 2)),
        (Move::NoOp, (Ok(()), 4, 2)),
        (Move::Extends, (Err(Reason::ExtensionCode), 4, 2)),
        (Move::Pops, (Ok(()), 3, 2)),
        (Move::PopsMark, (Ok(()), 1, 2)),
        (Move::PopsMark, (Err(Reason::MissingMark), 1, 2)),
    ] {
        assert_eq!(rt; move_by(&mut stack, &mut memo, what, &seven)?, wanted);
    }
    assert_eq!(rt; (memo.get(7), memo.get(1)), (Some(5), Some(5)));
    let eight = Inst::new(Op::BinGet, Arg::U1(8)).ok_or("BINGET")?;
    assert_eq!(rt;
        move_by(&mut stack, &mut memo, Move::Fetches, &eight)?,
        (Err(Reason::MissingMemo(8)), 1, 2)
    );
    Ok(())
}
