//! The stack machine that a chunk runs on, before folding and after: document 02, wish 14, as crates/runs/specs/Machine.antt has it.

use super::{facts::fact, fold::{self, Constant::{self, Bool, Float, Int, Other}}};
use turniploom::{JUMP, Op, op};

/// What folds compute with, and none.
#[derive(Clone, Copy, Debug, PartialEq, Eq)]
pub enum Value {
    Known(Constant),
    None,
}

pub use Value::Known;

/// How a run ends: at n or past it with a stack, its top last, or stopped, by name and with the operands. Names carry no position.
#[derive(Clone, Debug, PartialEq, Eq)]
pub enum End {
    Left(Vec<Value>),
    NoOperand(u8, u64),
    NoResult(Op, Vec<Value>),
    Short(Op, Vec<Value>),
    ShortTest,
    /// An opcode that the machine has not.
    Strange,
}

/// What is known of a run after some steps.
#[derive(Clone, Debug, PartialEq, Eq)]
pub enum Run {
    /// It ends, after so many steps.
    Ended(End, u64),
    /// It comes to a position with the same stack again, so it never ends.
    Returns(usize),
    /// It has not ended.
    Open,
}

/// A chunk's instructions and its constants, by kind and word.
#[derive(Clone, Debug, PartialEq, Eq)]
pub struct Rule {
    pub code: Vec<[u16; 3]>,
    pub constants: Vec<(u8, u64)>,
}

/// Zero of either sign, false and none are false, every other value is true.
fn truth(v: Value) -> bool {
    match v {
        Known(Int(i)) => i != 0,
        Known(Float(f)) => f64::from_bits(f) != 0.0,
        Known(Bool(b)) => b,
        _ => false,
    }
}

/// A constant as a load pushes it, with NaNs made one, if it is an operand.
fn value(kind: u8, word: u64) -> Option<Constant> {
    match Constant::lent(kind, word) {
        Other => None,
        Int(i) => fold::whole(i.into()),
        Float(f) if f64::from_bits(f).is_nan() => Some(Float(fold::NAN)),
        known => Some(known),
    }
}

/// What an operator makes of its operands, by the fold rules; Not answers the opposite of the truth.
fn apply(o: Op, stack: &mut Vec<Value>) -> Result<Value, End> {
    let arity = fact(o).folding as usize;
    if stack.len() < arity { return Err(End::Short(o, std::mem::take(stack))) }
    let operands = stack.split_off(stack.len() - arity);
    if o == op::Not { return Ok(Known(Bool(!truth(operands[0])))) }
    let known: Option<Vec<Constant>> = operands.iter().map(|v| if let Known(c) = v { Some(*c) } else { None }).collect();
    known.and_then(|known| fold::folded(o, &known, &mut |_| fold::NAN)).map(Known).ok_or(End::NoResult(o, operands))
}

impl Rule {
    /// One step from a position: where it goes, or how the run stops there.
    fn act(&self, at: usize, stack: &mut Vec<Value>) -> Result<usize, End> {
        let [o, _, operand] = self.code[at];
        match Op(o) {
            o if fact(o).folding != 0 => {
                let result = apply(o, stack)?;
                stack.push(result);
            }
            op::LoadConst => {
                let (kind, word) = self.constants.get(operand as usize).copied().unwrap_or_default();
                stack.push(Known(value(kind, word).ok_or(End::NoOperand(kind, word))?));
            }
            op::LoadTrue => stack.push(Known(Bool(true))),
            op::LoadFalse => stack.push(Known(Bool(false))),
            op::LoadNone => stack.push(Value::None),
            op::Jump => return Ok(operand.into()),
            op::JumpIfFalse => if !truth(stack.pop().ok_or(End::ShortTest)?) { return Ok(operand.into()) },
            _ => return Err(End::Strange),
        }
        Ok(at + 1)
    }

    /// Runs from an empty stack, at most so many steps. A jump to n or past it ends the run.
    pub fn run(&self, most: u64) -> Run {
        let (mut at, mut stack) = (0, vec![]);
        // Where the run was a while ago: after 0, 1, 2, 4, 8 and so on steps.
        let (mut seen, mut due) = ((at, stack.clone()), 1);
        for step in 0..=most {
            if at >= self.code.len() { return Run::Ended(End::Left(stack), step) }
            if step == most { break }
            match self.act(at, &mut stack) {
                Ok(to) => at = to,
                Err(end) => return Run::Ended(end, step + 1),
            }
            if at == seen.0 && stack == seen.1 { return Run::Returns(at) }
            if step + 1 == due { (seen, due) = ((at, stack.clone()), 2 * due) }
        }
        Run::Open
    }

    /// The first instruction that the wish does not speak of: another opcode, a jump mark missing or elsewhere, or a constant that is not there.
    pub fn outside(&self) -> Option<usize> {
        let loads = [op::LoadConst, op::LoadTrue, op::LoadFalse, op::LoadNone];
        self.code.iter().position(|&[o, marks, operand]| {
            let (o, jump) = (Op(o), [op::Jump, op::JumpIfFalse].contains(&Op(o)));
            !(loads.contains(&o) || jump || o.folds()) || (marks & JUMP != 0) != jump || o == op::LoadConst && operand as usize >= self.constants.len()
        })
    }
}
