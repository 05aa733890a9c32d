//! What an instruction touches, and whether one register is needed at one position.

use turniploom::{Ins, Lowered, Op, Refusal, kept, marked, needed, op::*, touched, writes};

/// What an instruction uses, gives up and writes, by itself.
fn told(op: Op, a: u16, b: u16, c: u16, x: u8) -> [Vec<u16>; 3] {
    let code = [Ins::unmarked(op, a, b, c, x)];
    let told = touched(&code, 0).unwrap();
    for r in 0..64 { assert_eq!(writes(&code, 0, r).unwrap(), told.written.contains(&r), "{op} {r}") }
    [told.used, told.given_up, told.written]
}

#[test]
fn the_three_ideas_of_written() {
    assert_eq!(told(AddR, 3, 0, 2, 0), [vec![0, 2], vec![3], vec![3]]);
    // A step of a loop is used by the rows, and written elsewhere.
    assert_eq!(told(ForIterR, 9, 4, 0, 0), [vec![4], vec![], vec![4]]);
    assert_eq!(told(ForIterR, 9, 4, 0, 1), [vec![], vec![], vec![]]);
    // A store that also keeps what it takes gives its register up, and writes nothing.
    assert_eq!(told(StoreTopR, 3, 1, 2, 0), [vec![], vec![3], vec![3]]);
    assert_eq!(told(StoreTopR, 3, 1, 2, 1), [vec![], vec![3], vec![]]);
    for x in 1..5u8 { assert_eq!(told(UnpackR, 7, 8, 9, x), [vec![], vec![7, 8, 9][..x.min(3).into()].to_vec(), vec![7, 8, 9][..x.min(3).into()].to_vec()]) }
    assert_eq!(told(WithEnter, 1, 5, 2, 0), [vec![], vec![], vec![]]);
    assert_eq!(told(WithEnter, 1, 5, 2, 1), [vec![], vec![5, 6], vec![5, 6]]);
    assert_eq!(told(WithEnter, 1, 5, 2, 2), [vec![2], vec![5, 6], vec![5, 6]]);
    assert_eq!(told(WithExit, 1, 5, 2, 2), [vec![], vec![5, 6, 7, 8, 9], vec![5, 6, 7, 8, 9]]);
    assert_eq!(told(WithJudge, 1, 5, 2, 1), [vec![1], vec![], vec![]]);
}

#[test]
fn one_register_is_what_the_rows_have() {
    let p5 = [
        Lowered::new(Move, 1, 0, 0, 0),
        Lowered::new(LenR, 2, 1, 0, 0),
        Lowered::new(JumpIfFalseR, 4, 1, 0, 0),
        Lowered::new(Jump, 0, 0, 0, 0),
        Lowered::new(ReturnR, 0, 2, 0, 0),
    ];
    let p5 = marked(&p5, |_| false);
    let rows = kept(&p5, 3, &[], true).unwrap();
    for k in 0..=5 { for r in 0..70 { assert_eq!(needed(&p5, 3, k, r).unwrap(), rows.needed(k, r), "r{r} at {k}") } }
    assert_eq!(needed(&p5, 3, 6, 0), Err(Refusal::Position { position: 6 }));
    assert_eq!(needed(&p5, 1_025, 6, 0), Err(Refusal::Registers { number: 1_025 }));
    assert_eq!(touched(&p5, 5), Err(Refusal::Position { position: 5 }));
}
