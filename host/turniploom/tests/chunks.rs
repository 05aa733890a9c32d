//! A chunk through the safe crate: folded, cleared, and folded again.

use turniploom::{Chunk, Constant::*, Instruction, JUMP, NAMES, Op, Refusal, clear, constant_fold, op::*};

fn i(opcode: Op, operand: u16) -> Instruction { Instruction::unmarked(opcode, operand) }

fn load(operand: u16) -> Instruction { Instruction::new(LoadConst, operand) }

/// -((2 + 3) * 2), and a jump to its end.
fn chain() -> Chunk {
    let code = vec![i(LoadConst, 0), i(LoadConst, 1), i(Add, 0), i(LoadConst, 0), i(Mul, 0), i(Minus, 0), i(Jump, 6).with(JUMP)];
    Chunk::new(code, vec![Int(2), Int(3)])
}

#[test]
fn operands_that_all_folded_away_ship_one_constant() {
    let mut chunk = chain();
    constant_fold(&mut chunk, false).unwrap();
    assert_eq!(chunk.constants, [Int(2), Int(3), Int(5), Int(10), Int(-10)]);
    clear(&mut chunk).unwrap();
    assert_eq!(chunk.constants, [Int(-10)]);
    assert_eq!(chunk.instructions, [load(0).was(0), i(Jump, 1).with(JUMP).was(6)]);
    let once = chunk.clone();
    clear(&mut chunk).unwrap();
    assert_eq!(chunk, once);
}

#[test]
fn a_result_bool_ships_none() {
    let mut chunk = Chunk::new(vec![i(LoadConst, 0), i(LoadConst, 1), i(Lt, 0)], vec![Int(2), Int(3)]);
    constant_fold(&mut chunk, true).unwrap();
    assert_eq!(chunk.instructions, [i(LoadTrue, 0).was(0)]);
    clear(&mut chunk).unwrap();
    assert_eq!(chunk.constants, []);
}

#[test]
fn tries_follow_and_landings_are_told() {
    // The handler stands on the Mul: in strict mode 2 + 3 folds and the product does not.
    let mut chunk = chain();
    chunk.tries = vec![(1, 4), (3, 7), (7, u32::MAX)];
    let mut plain = chunk.clone();
    assert_eq!(constant_fold(&mut chunk, true), Ok(vec![0, 0, 1, 0, 1, 1]));
    assert_eq!(chunk.instructions, [load(2).was(0), load(0).was(3), i(Mul, 0).was(4), i(Minus, 0).was(5), i(Jump, 4).with(JUMP).was(6)]);
    assert_eq!(chunk.tries, [(1, 2), (1, 5), (5, u32::MAX)]);
    assert_eq!(constant_fold(&mut plain, false), Ok(vec![0, 2, 1]));
    assert_eq!((plain.instructions.len(), plain.tries), (2, vec![(1, 1), (1, 2), (2, u32::MAX)]));
}

#[test]
fn a_bad_try() {
    for bad in [(3, 2), (8, 9)] {
        let mut chunk = chain();
        chunk.tries = vec![(0, 1), bad];
        let as_it_was = chunk.clone();
        assert_eq!(constant_fold(&mut chunk, true), Err(Refusal::Try { index: 1 }));
        assert_eq!(chunk, as_it_was);
    }
}

/// The Rust's own signature: a chunk without tries is folded as there, one with tries has them moved.
#[test]
fn under_the_rusts_signature() {
    let (mut chunk, mut with) = (chain(), chain());
    with.tries = vec![(0, 5)];
    turniploom::optimizer::constant_fold(&mut chunk);
    turniploom::optimizer::constant_fold(&mut with);
    assert_eq!((chunk.instructions.clone(), with.tries), (with.instructions, vec![(0, 1)]));
    assert_eq!((chunk.instructions.len(), chunk.tries), (2, vec![]));
}

#[test]
fn in_their_order_and_past_the_count() {
    // LoadName names a constant too; an operand past the constants stays.
    let name = Instruction::naming(LoadName, 3);
    let mut chunk = Chunk::new(vec![i(LoadConst, 4), name, i(LoadConst, 9), i(LoadAttr, 2)], vec![Int(0), Float(1.5), Other(7), Bool(true), Int(4)]);
    clear(&mut chunk).unwrap();
    assert_eq!(chunk.constants, [Bool(true), Int(4)]);
    assert_eq!(chunk.instructions, [load(1).was(0), Instruction::naming(LoadName, 0).was(1), load(9).was(2), i(LoadAttr, 2).was(3)]);
}

/// Document 02, wish 8: what is left has the origins that it had, in order, through fold, clear, fold; the host's own, or its positions.
#[test]
fn origins_are_carried() {
    let origins = |chunk: &Chunk| chunk.instructions.iter().map(|i| i.origin).collect::<Vec<_>>();
    let code = [(PopTop, 0), (LoadConst, 0), (LoadConst, 1), (Add, 0), (PopTop, 0), (LoadConst, 0), (Minus, 0), (PopTop, 0)];
    let mut chunk = Chunk::new(code.map(|(op, operand)| i(op, operand)).into(), vec![Int(2), Int(3)]);
    let mut own = chunk.clone();
    for (k, i) in own.instructions.iter_mut().enumerate() { i.origin = (k % 2 == 1).then_some(900 - k as u16) }
    chunk.tries = vec![(0, 3)];
    constant_fold(&mut chunk, true).unwrap();
    assert_eq!(origins(&chunk), [0, 1, 2, 3, 4, 5, 7].map(Some));
    clear(&mut chunk).unwrap();
    chunk.tries = vec![];
    constant_fold(&mut chunk, true).unwrap();
    assert_eq!(origins(&chunk), [0, 1, 4, 5, 7].map(Some));
    // An instruction that the host adds without one has the position at which it is lent.
    constant_fold(&mut own, true).unwrap();
    assert_eq!(origins(&own), [0, 899, 4, 895, 893].map(Some));
    own.instructions.push(i(PopTop, 0));
    clear(&mut own).unwrap();
    assert_eq!(origins(&own), [0, 899, 4, 895, 893, 5].map(Some));
}

#[test]
fn the_mark_where_it_may_not_stand() {
    for bad in [i(Phi, 0), i(Add, 0), i(Not, 0), i(Jump, 0).with(JUMP)] {
        let mut chunk = Chunk::new(vec![i(LoadConst, 0), bad.with(NAMES)], vec![Int(1)]);
        let as_it_was = chunk.clone();
        assert_eq!(clear(&mut chunk), Err(Refusal::Record { position: 1 }));
        assert_eq!(constant_fold(&mut chunk, false), Err(Refusal::Record { position: 1 }));
        assert_eq!(chunk, as_it_was);
    }
}
