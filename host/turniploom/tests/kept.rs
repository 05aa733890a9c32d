//! What `Kept` tells: rows, levels, whether a register is needed, and how many sweeps it took.

use turniploom::{DUNDER, Ins, Lowered, Refusal, exposed, kept, kept_raising, kept32, level, marked, most_sweeps, op::*};

/// Document 01's code K.
const K: [Lowered; 6] = [
    Lowered::new(LoadGlobalR, 0, 7, 0, 0), Lowered::new(LoadGlobalR, 1, 9, 0, 0), Lowered::new(CallR, 1, 0, 0, 0), Lowered::new(StoreTopR, 2, 0, 0, 0),
    Lowered::new(AddR, 3, 0, 2, 0), Lowered::new(ReturnR, 0, 3, 0, 0),
];

#[test]
fn rows_levels_and_what_is_needed() {
    let found = kept(&marked(&K, |_| false), 4, &[(1, 5)], false).unwrap();
    assert_eq!(found.levels().map(|l| (l.at(), l.resume(), l.result(), l.kept())).collect::<Vec<_>>(), [(2, 3, Some(2), &[0, 3][..])]);
    assert_eq!((0..=6).map(|k| found.row(k)).collect::<Vec<_>>(), [[0], [0], [3], [1], [5], [8], [0]]);
    for (k, row) in found.rows.iter().enumerate() {
        for r in 0..64 { assert_eq!(found.needed(k, r), row >> r & 1 != 0) }
        assert!(!found.needed(k, 64) && !found.needed(k, 65_535));
    }
    assert!(found.levels().all(|l| found.at(l.at()) == l.kept() && found.level(l.at()) == Some(l) && l.words() == 2 * l.kept().len() + 2));
    assert!((0..=7).filter(|&k| k != 2).all(|k| found.level(k).is_none()));
}

#[test]
fn rows_of_more_than_one_word() {
    let body = [Lowered::new(CallR, 70, 0, 0, 0), Lowered::new(StoreTopR, 2, 0, 0, 0), Lowered::new(AddR, 3, 2, 129, 0), Lowered::new(ReturnR, 0, 3, 0, 0)];
    let found = kept(&marked(&body, |_| false), 130, &[], false).unwrap();
    assert_eq!((found.words, found.row(2), found.at(0)), (3, &[4, 0, 2][..], &[129][..]));
    assert!(found.needed(0, 70) && found.needed(0, 129) && !found.needed(0, 2) && found.needed(2, 2) && !found.needed(4, 129));
}

/// The same body with rows of 32 bits: other words, the same lists and the same answers of every register.
#[test]
fn rows_of_32_bits() {
    let body = [Lowered::new(CallR, 70, 0, 0, 0), Lowered::new(StoreTopR, 2, 0, 0, 0), Lowered::new(AddR, 3, 2, 129, 0), Lowered::new(ReturnR, 0, 3, 0, 0)];
    let code = marked(&body, |_| false);
    let (wide, narrow) = (kept(&code, 130, &[], false).unwrap(), kept32(&code, 130, &[], false).unwrap());
    assert_eq!((narrow.words, narrow.row(2)), (5, &[4, 0, 0, 0, 2][..]));
    assert_eq!((&wide.list, &wide.offsets, wide.at(0)), (&narrow.list, &narrow.offsets, narrow.at(0)));
    for k in 0..=4 { for r in 0..200 { assert_eq!(wide.needed(k, r), narrow.needed(k, r)) } }
    assert_eq!(kept32(&code, 1_025, &[], false), Err(Refusal::Registers { number: 1_025 }));
    assert_eq!(kept32(&code, 4, &[(0, 1), (3, 2)], false), Err(Refusal::Try { index: 1 }));
}

/// Raise is no level: only where anything may raise is r5 kept at the call for the handler that reads it.
#[test]
fn what_a_later_raise_needs() {
    let body = [
        Lowered::new(LoadGlobalR, 5, 1, 0, 0), Lowered::new(CallGlobalR, 4, 0, 0, 0), Lowered::new(StoreTopR, 1, 0, 0, 0), Lowered::new(SetupExcept, 6, 0, 0, 0),
        Lowered::new(Raise, 0, 0, 0, 0), Lowered::new(ReturnR, 0, 1, 0, 0), Lowered::new(ReturnR, 0, 5, 0, 0),
    ];
    let (code, tries) = (marked(&body, |_| false), [(3, 6)]);
    let (plain, levels, all) = (kept(&code, 6, &tries, false).unwrap(), kept_raising(&code, 6, &tries, false).unwrap(), kept_raising(&code, 6, &tries, true).unwrap());
    assert_eq!((plain.at(1), levels.at(1), all.at(1)), (&[][..], &[][..], &[5][..]));
    assert_eq!((exposed(&plain, &levels), exposed(&plain, &all), exposed(&all, &plain)), (vec![], vec![(1, vec![5])], vec![]));
    assert_eq!((all.rows, all.full, all.abandoned), (vec![0, 32, 32, 34, 34, 34, 32, 0], 1, 0));
    assert_eq!(kept_raising(&code, 1_025, &tries, true), Err(Refusal::Registers { number: 1_025 }));
    assert_eq!(kept_raising(&code, 6, &[(3, 2)], true), Err(Refusal::Try { index: 0 }));
}

/// A dunder mark on ReturnR: the call there goes on at the next position, which the row does not lead to. The call before it keeps what is read there.
#[test]
fn a_mark_where_a_level_cannot_resume() {
    let i = |op, marks, a, b| Ins { op, marks, a, b, c: 0, x: 0 };
    let code = [i(CallGlobalR, 0, 0, 0), i(StoreTopR, 0, 0, 0), i(ReturnR, DUNDER, 0, 0), i(ReturnR, 0, 0, 2)];
    let (plain, raising) = (kept(&code[..], 3, &[], false).unwrap(), kept_raising(&code[..], 3, &[], false).unwrap());
    assert_eq!((plain.at(0), plain.at(2), raising.at(0), raising.at(2)), (&[][..], &[2][..], &[2][..], &[2][..]));
    assert_eq!(exposed(&plain, &raising), [(0, vec![2])]);
}

/// Jumps to their own position or back count; jumps onward do not, nor does what has no jump's role: SetupExcept, and ForIterR with an x.
#[test]
fn the_most_sweeps_are_known_before_the_call() {
    let jump = |to: u16| Lowered::new(Jump, to, 0, 0, 0);
    for (body, most) in [
        (vec![], 2), (vec![jump(0)], 3), (vec![jump(1), jump(2), jump(9)], 2), (vec![jump(0), jump(0), jump(2), jump(4)], 5),
        (vec![Lowered::new(JumpIfFalse, 0, 0, 0, 0), Lowered::new(JumpUnlessLt, 0, 1, 2, 0), Lowered::new(JumpIfFalseR, 0, 1, 0, 0)], 5),
        (vec![Lowered::new(SetupExcept, 0, 0, 0, 0), Lowered::new(ForIterR, 0, 1, 0, 0), Lowered::new(ForIterR, 0, 1, 0, 1)], 3),
        (vec![Lowered::new(CallR, 0, 0, 0, 0), Lowered::new(ArgsR, 0, 0, 0, 0), jump(0)], 3),
    ] { assert_eq!(most_sweeps(&marked(&body, |_| false)), Ok(most), "{body:?}") }
    let longest = vec![Ins::unmarked(Jump, 0, 0, 0, 0); 65_535];
    assert_eq!(most_sweeps(&longest), Ok(65_537));
    assert_eq!(most_sweeps(&[0u16; 7]), Err(Refusal::Code { length: 7 }));
    assert_eq!(most_sweeps(&[Ins::default(), Ins::unmarked(PushRegs, 0, 0, 0, 4)]), Err(Refusal::Record { position: 1 }));
}

#[test]
fn a_level_that_keeps_nothing_is_a_level() {
    let body = [Lowered::new(CallGlobalR, 3, 0, 0, 0), Lowered::new(StoreTopR, 0, 0, 0, 0), Lowered::new(ReturnR, 0, 0, 0, 0)];
    let found = kept(&marked(&body, |_| false), 1, &[], false).unwrap();
    assert_eq!(found.levels().map(|l| (l.at(), l.kept(), l.words())).collect::<Vec<_>>(), [(0, &[][..], 2)]);
}

/// Each level is asked about with what follows it alone: the answer is that of the whole code.
#[test]
fn levels_are_those_of_the_whole_code() {
    let ops = [CallR, CallR, ArgsR, CallGlobalR, CallSpreadR, CallMethodR, StoreTopR, JumpIfFalseR, Call, GetAttrR, AddR, PushRegs, ReturnR];
    let mut state = 1u64;
    let mut below = |n: u64| { state = state.wrapping_mul(6_364_136_223_846_793_005).wrapping_add(1_442_695_040_888_963_407); (state >> 33) % n };
    for _ in 0..500 {
        let body: Vec<Lowered> = (0..below(7)).map(|_| Lowered::new(ops[below(13) as usize], below(9) as u16, 1, 2, 1)).collect();
        let mut code = marked(&body, |i| i.op == AddR);
        if code.first().is_some_and(|i| i.op == ArgsR) { code.remove(0); }
        if code.first().is_some_and(|i| i.op == ArgsR) { code[0] = Ins::default() }
        let found = kept(&code, 9, &[], false).unwrap();
        for k in 0..code.len() { assert_eq!(found.level(k).map(|l| (l.resume(), l.result())), level(&code, k).unwrap(), "{k} of {code:?}") }
    }
    assert_eq!(level(&[0u16; 6], 1), Err(Refusal::Position { position: 1 }));
}

#[test]
#[should_panic]
fn past_the_end_there_is_no_row() { kept(&marked(&K, |_| false), 4, &[], false).unwrap().row(7); }
