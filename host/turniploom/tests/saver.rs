//! A `Saver`: what a level keeps comes back, however its call ends; what can't be done is refused in words.

use std::panic::{AssertUnwindSafe, catch_unwind};
use turniploom::{Kept, Lowered, Refusal, Saver, kept, marked, op::*};

/// A rule whose call at 1 keeps r0 and r3, and has its result in r2.
fn rule() -> Kept {
    let body = [
        Lowered::new(GetAttrR, 0, 0, 0, 0), Lowered::new(CallR, 1, 0, 0, 0), Lowered::new(StoreTopR, 2, 0, 0, 0), Lowered::new(AddR, 3, 3, 2, 0),
        Lowered::new(AddR, 3, 3, 0, 0), Lowered::new(ReturnR, 0, 3, 0, 0),
    ];
    let found = kept(&marked(&body, |_| false), 4, &[], false).unwrap();
    assert_eq!(found.at(1), [0, 3]);
    found
}

/// A saver whose registers are 30 and on.
fn saver(regs: usize) -> Saver<'static> {
    let mut saver = Saver::new(regs).unwrap();
    for (r, v) in saver.registers_mut().iter_mut().enumerate() { *v = 30 + r as u64 }
    saver
}

#[test]
fn a_return_gives_back_and_has_its_result() {
    let found = rule();
    let mut saver = saver(4);
    let mut call = saver.enter(found.level(1).unwrap()).unwrap();
    assert_eq!((call.registers(), call.free()), (&[30, 31, 32, 33][..], 4_090));
    call.registers_mut().fill(9);
    call.leave(7).unwrap();
    assert_eq!((saver.registers(), saver.free()), (&[30, 9, 7, 33][..], 4_096));
}

#[test]
fn an_exception_gives_back_and_writes_nothing_more() {
    let found = rule();
    let mut saver = saver(4);
    let mut call = saver.enter(found.level(1).unwrap()).unwrap();
    call.registers_mut().fill(9);
    call.raise().unwrap();
    assert_eq!((saver.registers(), saver.free()), (&[30, 9, 9, 33][..], 4_096));
}

/// As deep as there is room; then refused, with nothing changed, and every call comes back.
fn down(saver: &mut Saver<'_>, found: &Kept, depth: u64) -> u64 {
    let level = found.level(1).unwrap();
    let room = saver.free() >= level.words();
    saver.registers_mut().copy_from_slice(&[depth, depth + 1, depth + 2, depth + 3]);
    let free = saver.free();
    let mut call = match saver.enter(level) {
        Ok(call) => call,
        Err(refusal) => {
            assert!(!room && refusal == Refusal::Room { free: free as u64 } && refusal.number() == 8);
            assert_eq!(refusal.to_string(), "the save area has 4 free words, fewer than twice the list plus two");
            return depth;
        }
    };
    let deepest = down(&mut call, found, depth + 1);
    if depth.is_multiple_of(2) { call.leave(deepest).unwrap() } else { call.raise().unwrap() }
    assert_eq!((saver.registers()[0], saver.registers()[3], saver.free()), (depth, depth + 3, free));
    if depth.is_multiple_of(2) { assert_eq!(saver.registers()[2], deepest) }
    deepest
}

#[test]
fn as_deep_as_there_is_room() { assert_eq!(down(&mut Saver::new(4).unwrap(), &rule(), 0), 4_096 / 6) }

/// A panic unwinds through savers of calls that are open, a drop ends one: both leave what an exception leaves.
#[test]
fn a_drop_in_the_middle() {
    let found = rule();
    let level = found.level(1).unwrap();
    let mut saver = saver(4);
    let unwound = catch_unwind(AssertUnwindSafe(|| {
        let mut outer = saver.enter(level).unwrap();
        outer.registers_mut().fill(1);
        let mut inner = outer.enter(level).unwrap();
        inner.registers_mut().fill(2);
        panic!("in the middle");
    }));
    assert!(unwound.is_err());
    assert_eq!((saver.registers(), saver.free()), (&[30, 2, 2, 33][..], 4_096));
    let mut call = saver.enter(level).unwrap();
    call.registers_mut().fill(3);
    drop(call);
    assert_eq!((saver.registers(), saver.free()), (&[30, 3, 3, 33][..], 4_096));
    // A saver that is forgotten is left with the call around it.
    let mut outer = saver.enter(level).unwrap();
    outer.registers_mut().fill(4);
    std::mem::forget(outer.enter(level).unwrap());
    outer.registers_mut().fill(5);
    outer.leave(8).unwrap();
    assert_eq!((saver.registers(), saver.free()), (&[30, 5, 8, 33][..], 4_096));
}

#[test]
fn refusals_in_words() {
    let found = rule();
    let too_many = Saver::new(65).err().unwrap();
    assert_eq!((too_many.number(), too_many.to_string()), (3, "65 registers are more than the 64 of a saver".into()));
    let outermost = saver(4).leave(7).unwrap_err();
    assert_eq!((outermost, outermost.number(), saver(4).raise()), (Refusal::Nothing, 9, Err(Refusal::Nothing)));
    assert_eq!(outermost.to_string(), "nothing is saved: no call is entered that could be left");
    let mut short = saver(3);
    let listed = short.enter(found.level(1).unwrap()).err().unwrap();
    assert_eq!((listed, listed.number()), (Refusal::Listed { place: 1 }, 14));
    assert_eq!(listed.to_string(), "the register at place 1 of the list is not in the file, or stands before it too");
    assert_eq!((short.registers(), short.free()), (&[30, 31, 32][..], 4_096));
}
