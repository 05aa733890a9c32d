//! The lower level lends the caller's own buffers and allocates nothing.

use std::{alloc::{GlobalAlloc, Layout, System}, cell::Cell};
use turniploom::{Ins, abi, op::*};

/// Counts what this thread allocates.
struct Counting;

thread_local! { static ALLOCATED: Cell<usize> = const { Cell::new(0) } }

// SAFETY: every request goes to the system's allocator as it is.
unsafe impl GlobalAlloc for Counting {
    unsafe fn alloc(&self, layout: Layout) -> *mut u8 {
        ALLOCATED.set(ALLOCATED.get() + 1);
        unsafe { System.alloc(layout) }
    }
    unsafe fn dealloc(&self, at: *mut u8, layout: Layout) { unsafe { System.dealloc(at, layout) } }
}

#[global_allocator]
static COUNTING: Counting = Counting;

/// Document 01's code K.
const K: [Ins; 6] = [
    Ins::unmarked(LoadGlobalR, 0, 7, 0, 0), Ins::unmarked(LoadGlobalR, 1, 9, 0, 0), Ins::unmarked(CallR, 1, 0, 0, 0), Ins::unmarked(StoreTopR, 2, 0, 0, 0),
    Ins::unmarked(AddR, 3, 0, 2, 0), Ins::unmarked(ReturnR, 0, 3, 0, 0),
];

#[test]
fn no_call_allocates() {
    let code = abi::words(&K);
    let (mut seen, mut todo, mut depths) = ([9u8; 7], [9u32; 7], [9u32; 7]);
    let mut report = [0; 7];
    let (mut head, mut area, mut file) = ([9u64; 2], [9u64; 4096], [9u64; 64]);
    let (mut rows, mut offsets, mut list) = ([9u64; 7], [9u32; 7], [9u16; 8]);
    let before = ALLOCATED.get();
    assert_eq!((abi::kinds(code, 4).first, abi::version().second), (13, 2));
    assert_eq!(abi::role(code, 4).third, 6);
    assert_eq!(abi::global_of(code, 2).second, 9);
    let touched = abi::touched(code, 3);
    assert_eq!((touched.first, touched.second, touched.third, touched.fourth), (0, 1, 1, 0));
    assert_eq!((abi::needed(code, 4, 2, 0, &mut seen, &mut todo).first, seen, todo), (1, [0; 7], [0; 7]));
    assert_eq!((abi::gen_pure(code, &mut seen, &mut todo).first, seen, todo), (1, [0; 7], [0; 7]));
    assert_eq!((abi::loops_around(code, &mut depths).refusal, depths), (0, [0; 7]));
    assert_eq!(abi::kept(code, 4, &[1, 5], false, &mut rows, &mut offsets, &mut list).first, 2);
    assert_eq!((rows, offsets, list), ([0, 0, 3, 1, 5, 8, 0], [0, 0, 0, 2, 2, 2, 2], [0, 3, 9, 9, 9, 9, 9, 9]));
    let (mut rows, mut offsets, mut list) = ([9u32; 7], [9u32; 7], [9u16; 8]);
    assert_eq!(abi::kept32(code, 4, &[1, 5], false, &mut rows, &mut offsets, &mut list).first, 2);
    assert_eq!((rows, offsets, list), ([0, 0, 3, 1, 5, 8, 0], [0, 0, 0, 2, 2, 2, 2], [0, 3, 9, 9, 9, 9, 9, 9]));
    let (mut rows, mut raising, mut more) = ([9u64; 7], [9u16; 8], [9u16; 2]);
    assert_eq!(abi::kept_raising(code, 4, &[1, 5], true, &mut rows, &mut offsets, &mut raising).first, 2);
    assert_eq!((rows, offsets, &raising[..3]), ([0, 0, 11, 9, 13, 8, 0], [0, 0, 0, 2, 2, 2, 2], &[0, 3, 9][..]));
    assert_eq!((abi::exposed(&list[..1], &raising[..2], &mut more).first, more), (1, [3, 9]));
    assert_eq!((abi::figures_add(code, &offsets, &list[..2], &mut report).second, abi::figures_join(&[1, 2, 3, 9, 1, 0, 5], &mut report).third), (2, 5));
    assert_eq!(report, [2, 3, 5, 9, 1, 1, 5]);
    assert_eq!((abi::level(code, 2).third, abi::saver_make(&mut head, 4).refusal), (2, 0));
    assert_eq!(abi::saver_enter(&mut head, &mut area, &file, &list[..2], 2).first, 6);
    assert_eq!(abi::saver_return(&mut head, &area, &mut file, 7).first, 0);
    assert_eq!(abi::saver_exception(&mut head, &area, &mut file).refusal, 9);
    assert_eq!((head, &area[..7], &file[..4]), ([4, 0], &[0, 9, 3, 9, 2, 2, 9][..], &[9, 9, 7, 9][..]));
    assert_eq!(ALLOCATED.get(), before);
}

#[test]
fn folding_allocates_nothing() {
    let mut code = [LoadConst.0, 2, 0, 7, LoadConst.0, 2, 1, 8, Add.0, 0, 0, 9, Jump.0, 1, 2, 10];
    let (mut kinds, mut words, mut dead, mut remap, mut tries, mut landings) = ([1, 1, 0], [2, 3, 0], [9; 4], [9; 5], [0, 3], [9; 6]);
    let before = ALLOCATED.get();
    let a = abi::fold(
        &mut code, &mut kinds, &mut words, 2, &mut [0; 4], 0, &mut [], 0, &mut [], 0, &mut [], 0, &mut dead, &mut remap, &mut tries, &mut landings, false,
    );
    assert_eq!(ALLOCATED.get(), before);
    assert_eq!((a.refusal, a.first, a.second, code), (0, 2, 3, [LoadConst.0, 2, 2, 7, Jump.0, 1, 1, 10, 0, 0, 0, 0, 0, 0, 0, 0]));
    assert_eq!((kinds, words, dead, remap), ([1, 1, 1], [2, 3, 5], [0, 1, 1, 0], [0, 1, 1, 1, 2]));
    assert_eq!((tries, landings), ([0, 1], [0, 2, 0, 0, 0, 9]));
}

#[test]
fn clearing_allocates_nothing() {
    let mut code = [LoadConst.0, 2, 2, 7, Jump.0, 1, 1, 8, LoadConst.0, 2, 3, 9];
    let (mut kinds, mut words, mut scratch) = ([1, 1, 1, 9], [2, 3, 5, 9], [9; 4]);
    let before = ALLOCATED.get();
    let a = abi::clear(&mut code, &mut kinds, &mut words, 3, &mut scratch);
    assert_eq!(ALLOCATED.get(), before);
    assert_eq!((a.refusal, a.first, code), (0, 1, [LoadConst.0, 2, 0, 7, Jump.0, 1, 1, 8, LoadConst.0, 2, 3, 9]));
    assert_eq!((kinds, words, scratch), ([1, 0, 0, 9], [5, 0, 0, 9], [0, 0, 0, 9]));
}
