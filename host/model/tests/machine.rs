//! The machine of wish 14, at the examples of crates/runs/proofs/Examples.antt and at each of its stops.

use model::{fold::{Constant::{Bool, Float, Int}, NAN}, machine::{End, Known, Rule, Run, Value}};
use turniploom::{Instruction, Op, op::*};

fn rule<const N: usize>(code: [(Op, u16); N], constants: &[(u8, u64)]) -> Rule {
    let words = |(o, operand)| { let i = Instruction::new(o, operand); [i.opcode.0, i.marks, i.operand] };
    Rule { code: code.map(words).to_vec(), constants: constants.to_vec() }
}

fn end<const N: usize>(code: [(Op, u16); N], constants: &[(u8, u64)]) -> End {
    let Run::Ended(end, _) = rule(code, constants).run(100) else { panic!("no end") };
    end
}

const TWO_AND_THREE: [(u8, u64); 2] = [(1, 2), (1, 3)];

#[test]
fn the_computed_runs() {
    let sum = [(LoadConst, 0), (LoadConst, 1), (Add, 0), (JumpIfFalse, 5), (LoadTrue, 0)];
    assert_eq!(rule(sum, &TWO_AND_THREE).run(5), Run::Ended(End::Left(vec![Known(Bool(true))]), 5));
    assert_eq!(rule(sum, &TWO_AND_THREE).run(4), Run::Open);
    let p13 = rule([(LoadConst, 0), (LoadConst, 1), (Add, 0), (Jump, 2)], &TWO_AND_THREE);
    assert_eq!((p13.run(100), p13.outside()), (Run::Ended(End::Short(Add, vec![Known(Int(5))]), 5), None));
    assert_eq!(rule([(LoadConst, 0), (Jump, 1)], &[(1, 5)]).run(100), Run::Returns(1));
    assert_eq!(end([(LoadNone, 0), (JumpIfFalse, 3), (LoadTrue, 0)], &[]), End::Left(vec![]));
    assert_eq!(rule([(LoadTrue, 0), (Jump, 0)], &[]).run(1_000), Run::Open);
    assert_eq!(end([], &[]), End::Left(vec![]));
    assert_eq!(end([(Jump, 65_535)], &[]), End::Left(vec![]));
}

#[test]
fn stops_have_names_and_operands() {
    let [two, three] = [2, 3].map(|i| Known(Int(i)));
    assert_eq!(end([(LoadConst, 0)], &[(0, 9)]), End::NoOperand(0, 9));
    assert_eq!(end([(LoadConst, 0)], &[(1, 1 << 47)]), End::NoOperand(1, 1 << 47));
    assert_eq!(end([(LoadConst, 0), (LoadConst, 1), (Div, 0)], &TWO_AND_THREE), End::NoResult(Div, vec![two, three]));
    assert_eq!(end([(LoadConst, 0), (LoadNone, 0), (Add, 0)], &TWO_AND_THREE), End::NoResult(Add, vec![two, Value::None]));
    assert_eq!(end([(LoadTrue, 0), (Minus, 0)], &[]), End::NoResult(Minus, vec![Known(Bool(true))]));
    assert_eq!(end([(LoadConst, 1), (Sub, 0)], &TWO_AND_THREE), End::Short(Sub, vec![three]));
    assert_eq!(end([(Not, 0)], &[]), End::Short(Not, vec![]));
    assert_eq!(end([(JumpIfFalse, 0)], &[]), End::ShortTest);
    assert_eq!(end([(PopTop, 0)], &[]), End::Strange);
}

/// Zero of either sign, false and none are false; a NaN is true, and every NaN is one.
#[test]
fn truth_and_the_single_nan() {
    let floats = [0.0, -0.0, 0.5, f64::NAN].map(|f| (2, f.to_bits()));
    let told = |k: u16| end([(LoadConst, k), (Not, 0)], &floats);
    for (k, falsy) in [(0, true), (1, true), (2, false), (3, false)] { assert_eq!(told(k), End::Left(vec![Known(Bool(falsy))])) }
    let negated = |load: Op| end([(load, 0), (Not, 0)], &[]);
    for (load, falsy) in [(LoadNone, true), (LoadFalse, true), (LoadTrue, false)] { assert_eq!(negated(load), End::Left(vec![Known(Bool(falsy))])) }
    assert_eq!(end([(LoadConst, 0)], &[(2, 0xFFF0_0000_0000_0001)]), End::Left(vec![Known(Float(NAN))]));
    assert_eq!(end([(LoadConst, 1)], &floats), End::Left(vec![Known(Float((-0.0_f64).to_bits()))]));
}

#[test]
fn what_the_wish_does_not_speak_of() {
    let first = |code: [u16; 3], constants: &[(u8, u64)]| Rule { code: vec![[LoadTrue.0, 0, 0], code], constants: constants.to_vec() }.outside();
    assert_eq!(first([PopTop.0, 0, 0], &[]), Some(1));
    assert_eq!(first([Jump.0, 0, 0], &[]), Some(1));
    assert_eq!(first([LoadNone.0, 1, 0], &[]), Some(1));
    assert_eq!(first([LoadConst.0, 2, 1], &[(1, 1)]), Some(1));
    assert_eq!(first([LoadConst.0, 2, 0], &[(1, 1)]), None);
    assert_eq!(first([LoadNone.0, 2, 9], &[]), None);
}
