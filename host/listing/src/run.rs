//! How a chunk's run ends as it is, and after folding and clearing in either mode: what wish 14 promises of strict mode, shown.

use crate::{and, notation::{self, constant_text, instruction_text}};
use model::machine::{End, Rule, Run, Value};
use turniploom::{Chunk, Constant, Instruction, Op, Refusal};

/// So many steps are run at most, and so they are told.
const MOST: (u64, &str) = (1_000_000, "1,000,000");

/// The chunk as the safe crate has it.
fn chunk(c: &notation::Chunk) -> Chunk {
    let constant = |&(kind, word): &(u8, u64)| match kind {
        1 => Constant::Int(word as i64),
        2 => Constant::Float(f64::from_bits(word)),
        3 => Constant::Bool(word != 0),
        _ => Constant::Other(word),
    };
    let instruction = |(&[o, marks, operand], &origin): (&[u16; 3], &u16)| Instruction::unmarked(Op(o), operand).with(marks).was(origin);
    let mut chunk = Chunk::new(c.code.iter().zip(&c.origins).map(instruction).collect(), c.constants.iter().map(constant).collect());
    chunk.tries = c.tries.chunks_exact(2).map(|t| (t[0], t[1])).collect();
    chunk
}

/// And as the machine reads it.
fn rule(c: &Chunk) -> Rule {
    let constant = |&c: &Constant| match c {
        Constant::Other(word) => (0, word),
        Constant::Int(i) => (1, i as u64),
        Constant::Float(f) => (2, f.to_bits()),
        Constant::Bool(b) => (3, b.into()),
    };
    Rule { code: c.instructions.iter().map(|i| [i.opcode.0, i.marks, i.operand]).collect(), constants: c.constants.iter().map(constant).collect() }
}

fn value(v: &Value) -> String {
    match v {
        Value::Known(c) => { let (kind, word) = c.stored(); constant_text(kind, word) }
        Value::None => "none".into(),
    }
}

/// The operator of a stop, with its operands.
fn over(o: Op, operands: &[Value]) -> String {
    let operands: Vec<String> = operands.iter().map(value).collect();
    format!("{} of {}", instruction_text([o.0, 0, 0]), if operands.is_empty() { "nothing".into() } else { and(&operands) })
}

fn told(run: &Run) -> String {
    let end = match run {
        Run::Returns(at) => return format!("never ends: it comes to {at} with the same stack again"),
        Run::Open => return format!("has not ended after {} steps", MOST.1),
        Run::Ended(end, _) => end,
    };
    match end {
        End::Left(stack) if stack.is_empty() => "leaves an empty stack".into(),
        End::Left(stack) => format!("leaves {}", stack.iter().map(value).collect::<Vec<_>>().join(", ")),
        End::NoOperand(kind, word) => format!("stops, no operand: {}", constant_text(*kind, *word)),
        End::NoResult(o, operands) => format!("stops, no result: {}", over(*o, operands)),
        End::Short(o, operands) => format!("stops, short stack: {}", over(*o, operands)),
        End::ShortTest => "stops, short stack: JumpIfFalse of nothing".into(),
        End::Strange => "stops: the machine does not have this instruction".into(),
    }
}

/// A line for each run.
pub fn lines(c: &notation::Chunk) -> Result<Vec<String>, Refusal> {
    let before = chunk(c);
    let asked = rule(&before);
    let mut ran = vec![("as it is".to_string(), asked.run(MOST.0))];
    for (mode, strict) in [("strict", true), ("plain", false)] {
        let mut chunk = before.clone();
        turniploom::constant_fold(&mut chunk, strict)?;
        ran.push((format!("{mode}, folded"), rule(&chunk).run(MOST.0)));
        turniploom::clear(&mut chunk)?;
        ran.push((format!("{mode}, cleared"), rule(&chunk).run(MOST.0)));
    }
    let mut lines = vec!["Run from an empty stack, the top of a stack last:".to_string()];
    lines.extend(ran.iter().map(|(stage, run)| format!("  {stage:<15}  {}", told(run))));
    lines.push(match asked.outside() {
        None => "Strict mode promises that the run ends as it did, or that it never ends if it did not; the plain mode does not.".into(),
        Some(k) => format!("Nothing is promised of this run: wish 14 does not speak of {} at {k}.", instruction_text(c.code[k])),
    });
    Ok(lines)
}
