//! What is lent, and the refusals in the order of test.

use super::facts::fact;
use turniploom::{DUNDER, Ins, JUMP, NAMES, Op, REGISTER, WIDE, abi::CHUNK_WORDS, op};

/// A refusal: its number and what it also returns.
#[derive(Clone, Copy, Debug, PartialEq, Eq)]
pub struct No(pub u8, pub u64, pub u64);

pub type Checked<T> = Result<T, No>;

/// The last opcode number.
pub const LAST: Op = Op(190);

pub fn holds(rule: bool, no: No) -> Checked<()> { if rule { Ok(()) } else { Err(no) } }

pub fn is_call(i: &Ins) -> bool { matches!(i.op, op::CallGlobalR | op::CallR | op::CallMethodR | op::CallSpreadR) }

pub fn wide(i: &Ins) -> bool { i.marks & WIDE != 0 }

/// Refusals 1 and 2.
pub fn code(words: &[u16]) -> Checked<Vec<Ins>> {
    holds(words.len().is_multiple_of(6) && words.len() / 6 <= 65_535, No(1, words.len() as u64, 0))?;
    let code: Vec<Ins> = words.chunks(6).map(|w| Ins { op: Op(w[0]), marks: w[1], a: w[2], b: w[3], c: w[4], x: w[5] }).collect();
    let bad = (0..code.len()).find(|&k| !record(&code, k));
    holds(bad.is_none(), No(2, bad.unwrap_or(0) as u64, 0))?;
    Ok(code)
}

/// The record rules of one instruction.
fn record(code: &[Ins], k: usize) -> bool {
    let i = code[k];
    i.op <= LAST
        && i.marks & !(WIDE | DUNDER | REGISTER) == 0
        && (!wide(&i) || is_call(&i))
        && i.x <= 255
        && (i.op != op::PushRegs || i.x <= 3)
        && (i.op != op::UnpackR || i.x >= 1)
        && (i.op != op::ArgsR || k != 0)
        && (!wide(&i) || code.get(k + 1).is_some_and(|n| n.op == op::ArgsR))
        && (i.op != op::WithEnter || i.x == 0 || i.b <= 65_533)
        && (i.op != op::WithExit || i.x == 0 || i.b <= 65_530)
}

/// Refusal 3.
pub fn registers(regs: u64) -> Checked<usize> { holds(regs <= 1_024, No(3, regs, 0)).map(|()| regs as usize) }

/// Refusal 4: whole pairs (s, h) with s at most the smaller of h and n.
pub fn tries(words: &[u32], n: usize) -> Checked<Vec<(usize, usize)>> {
    let good = |p: &[u32]| p.len() == 2 && p[0] <= p[1] && p[0] as usize <= n;
    let bad = words.chunks(2).position(|p| !good(p));
    holds(bad.is_none(), No(4, bad.unwrap_or(0) as u64, 0))?;
    Ok(words.chunks(2).map(|p| (p[0] as usize, p[1] as usize)).collect())
}

/// Refusal 6.
pub fn inside(code: &[Ins], at: u64) -> Checked<usize> { holds(at < code.len() as u64, No(6, at, 0)).map(|()| at as usize) }

/// Refusal 6 as `needed` gives it: the end may be asked about.
pub fn up_to(code: &[Ins], at: u64) -> Checked<usize> { holds(at <= code.len() as u64, No(6, at, 0)).map(|()| at as usize) }

/// Refusal 6 as `passed` gives it.
pub fn at_call(code: &[Ins], at: u64) -> Checked<usize> {
    let k = inside(code, at)?;
    holds(is_call(&code[k]), No(6, at, 0)).map(|()| k)
}

/// Refusal 5.
pub fn room(buffer: u64, have: usize, needed: usize) -> Checked<()> { holds(have >= needed, No(5, buffer, needed as u64)) }

/// An instruction of a chunk.
#[derive(Clone, Copy, Debug, PartialEq, Eq)]
pub struct Instruction {
    pub op: Op,
    pub jump: bool,
    /// Whether it names a constant.
    pub names: bool,
    pub operand: u16,
    /// Where it stood in the script as first compiled.
    pub origin: u16,
}

impl Instruction {
    pub fn words(&self) -> [u16; CHUNK_WORDS] { [self.op.0, u16::from(self.jump) * JUMP + u16::from(self.names) * NAMES, self.operand, self.origin] }
}

/// Refusals 1 and 2 of a chunk.
pub fn chunk(words: &[u16]) -> Checked<Vec<Instruction>> {
    holds(words.len().is_multiple_of(CHUNK_WORDS) && words.len() / CHUNK_WORDS <= 65_535, No(1, words.len() as u64, 0))?;
    let bad = words.chunks(CHUNK_WORDS).position(|w| Op(w[0]) > LAST || w[1] & !(JUMP | NAMES) != 0 || !marked(&instruction(w)));
    holds(bad.is_none(), No(2, bad.unwrap_or(0) as u64, 0))?;
    Ok(words.chunks(CHUNK_WORDS).map(instruction).collect())
}

fn instruction(w: &[u16]) -> Instruction { Instruction { op: Op(w[0]), jump: w[1] & JUMP != 0, names: w[1] & NAMES != 0, operand: w[2], origin: w[3] } }

/// The rules of the two marks: LoadConst always names a constant; a jump, a Phi and a folding operator never do; the jump mark
/// is on none of LoadConst, Phi and the folding operators.
fn marked(i: &Instruction) -> bool {
    match i.op {
        op::LoadConst => i.names && !i.jump,
        o if o == op::Phi || fact(o).folding != 0 => !i.names && !i.jump,
        _ => !(i.names && i.jump),
    }
}

/// The tables of a chunk as they are lent: the length of each buffer and its count.
pub struct Tables<'a> {
    pub kinds: &'a [u8],
    pub words: &'a [u64],
    pub constants: u64,
    pub phi_map: (usize, u64),
    /// phi_sources, stmt_pos and call_byte_pos, counted in words.
    pub pairs: [(usize, u64); 3],
}

/// Refusal 7: the lowest bad table.
pub fn tables(t: &Tables, n: usize) -> Checked<()> {
    let constant = |k: usize| t.kinds[k] <= 3 && (t.kinds[k] != 3 || t.words[k] <= 1);
    let constants = t.constants <= 65_536 && t.constants <= t.kinds.len().min(t.words.len()) as u64 && (0..t.constants as usize).all(constant);
    let phi_map = (t.phi_map.1 == 0 || t.phi_map.1 == n as u64) && t.phi_map.1 <= t.phi_map.0 as u64;
    let good = [constants, phi_map].into_iter().chain(t.pairs.map(|(have, count)| count % 2 == 0 && count <= have as u64));
    let bad = good.into_iter().position(|good| !good);
    holds(bad.is_none(), No(7, bad.unwrap_or(0) as u64 + 1, 0))
}
