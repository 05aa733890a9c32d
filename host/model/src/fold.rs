//! Folding and compaction of a chunk, and the clearing of its constants.

use super::{code::Instruction, facts::fact};
use turniploom::{Op, op};

/// The single NaN that every NaN result becomes.
pub const NAN: u64 = 0x7FF8_0000_0000_0000;

/// A constant: an int, a float by its bits, a bool, or any other.
#[derive(Clone, Copy, Debug, PartialEq, Eq)]
pub enum Constant {
    Other,
    Int(i64),
    Float(u64),
    Bool(bool),
}

pub use Constant::*;

impl Constant {
    pub fn lent(kind: u8, word: u64) -> Constant {
        match kind {
            1 => Int(word as i64),
            2 => Float(word),
            3 => Bool(word != 0),
            _ => Other,
        }
    }
    /// The kind and word of a constant that a fold pushes.
    pub fn stored(self) -> (u8, u64) {
        match self {
            Int(i) => (1, i as u64),
            Float(f) => (2, f),
            Bool(b) => (3, b.into()),
            Other => (0, 0),
        }
    }
}

const INTS: std::ops::RangeInclusive<i128> = -140_737_488_355_328..=140_737_488_355_327;

/// The fold of one operator over its operands. `nan` gives the bits that a NaN result becomes.
pub fn folded(o: Op, operands: &[Constant], nan: &mut dyn FnMut(f64) -> u64) -> Option<Constant> {
    let float = |c: Constant| match c {
        Int(i) => Some(i as f64),
        Float(f) => Some(f64::from_bits(f)),
        _ => None,
    };
    let mut rounded = |f: f64| Some(Float(if f.is_nan() { nan(f) } else { f.to_bits() }));
    if let [v] = *operands {
        return match (o, v) {
            (op::Not, Bool(b)) => Some(Bool(!b)),
            (op::Not, _) => Some(Bool(float(v)? == 0.0)),
            (_, Int(i)) => whole(-i128::from(i)),
            (_, _) => rounded(-float(v)?),
        };
    }
    let (a, b) = (operands[0], operands[1]);
    let (x, y) = (float(a)?, float(b)?);
    let compared = match o {
        op::Eq => Some(x == y),
        op::NotEq => Some(x != y),
        op::Lt => Some(x < y),
        op::Gt => Some(x > y),
        op::LtEq => Some(x <= y),
        op::GtEq => Some(x >= y),
        _ => None,
    };
    if let Some(c) = compared { return Some(Bool(c)) }
    if let (Int(i), Int(j)) = (a, b) { return ints(o, i.into(), j.into()) }
    match o {
        op::Add => rounded(x + y),
        op::Sub => rounded(x - y),
        op::Mul => rounded(x * y),
        op::Div if y != 0.0 => rounded(x / y),
        _ => None,
    }
}

/// An int in the range of folds.
pub fn whole(i: i128) -> Option<Constant> { INTS.contains(&i).then_some(Int(i as i64)) }

/// Python's integers.
fn ints(o: Op, i: i128, j: i128) -> Option<Constant> {
    let quotient = || (j != 0).then(|| (i - i.rem_euclid(j)) / j - i128::from(j < 0 && i.rem_euclid(j) != 0));
    let shift = (0..=62).contains(&j);
    match o {
        op::Add => whole(i + j),
        op::Sub => whole(i - j),
        op::Mul => whole(i * j),
        op::FloorDiv => whole(quotient()?),
        op::Mod => whole(i - quotient()? * j),
        op::BitAnd => whole(i & j),
        op::BitOr => whole(i | j),
        op::BitXor => whole(i ^ j),
        op::Shl if shift => whole(i << j),
        op::Shr if shift => whole(i >> j),
        _ => None,
    }
}

/// A chunk with its tables.
#[derive(Clone, Debug, PartialEq, Eq)]
pub struct Chunk {
    pub code: Vec<Instruction>,
    pub constants: Vec<Constant>,
    pub phi_map: Vec<u32>,
    pub phi_sources: Vec<[u16; 2]>,
    pub stmt_pos: Vec<[u32; 2]>,
    pub call_byte_pos: Vec<[u32; 2]>,
    /// Where each try begins, and its handler.
    pub tries: Vec<[u32; 2]>,
}

/// What became of each old position.
#[derive(Clone, Debug, PartialEq, Eq)]
pub struct Folded {
    pub dead: Vec<bool>,
    pub remap: Vec<u32>,
}

impl Folded {
    pub fn died(&self) -> bool { self.dead.contains(&true) }
}

impl Chunk {
    /// Folds the chunk. `nan` gives the bits that a NaN result becomes.
    pub fn fold(&mut self, strict: bool, nan: &mut dyn FnMut(f64) -> u64) -> Folded {
        let n = self.code.len();
        let mut dead = vec![false; n];
        for k in 0..n { self.attempt(k, strict, &mut dead, nan); }
        let pairs = self.phis(&mut dead);
        let mut live = 0;
        let mut remap = vec![];
        for &d in &dead {
            remap.push(live);
            live += u32::from(!d);
        }
        remap.push(live);
        let folded = Folded { dead, remap };
        if folded.died() { self.compact(&folded, pairs) }
        folded
    }

    /// Tries the operator at `k`, if there is one.
    fn attempt(&mut self, k: usize, strict: bool, dead: &mut [bool], nan: &mut dyn FnMut(f64) -> u64) -> Option<()> {
        let arity = fact(self.code[k].op).folding as usize;
        if arity == 0 { return None }
        let mut places: Vec<usize> = (0..k).rev().filter(|&p| !dead[p]).take(arity).collect();
        places.reverse();
        let loads = places.len() == arity && places.iter().all(|&p| self.code[p].op == op::LoadConst);
        if !loads { return None }
        let operands: Vec<Constant> = places.iter().map(|&p| self.operand(self.code[p].operand)).collect::<Option<_>>()?;
        let first = places[0];
        let inside = |at: usize| at > first && at <= k;
        let lands = |i: &Instruction| i.jump && inside(i.operand.into());
        let barred = || self.code.iter().any(lands) || self.tries.iter().any(|t| inside(t[1] as usize));
        let result = folded(self.code[k].op, &operands, nan)?;
        if first > 0 && lands(&self.code[first - 1]) || strict && barred() { return None }
        let origin = self.code[first].origin;
        self.code[first] = match result {
            Bool(b) => Instruction { op: if b { op::LoadTrue } else { op::LoadFalse }, jump: false, names: false, operand: 0, origin },
            number => Instruction { op: op::LoadConst, jump: false, names: true, operand: self.place(number)?, origin },
        };
        for &p in &places[1..] { dead[p] = true }
        dead[k] = true;
        Some(())
    }

    /// The constant that a LoadConst names, if it can be an operand.
    fn operand(&self, index: u16) -> Option<Constant> {
        match *self.constants.get(index as usize)? {
            Other => None,
            Int(i) if !INTS.contains(&i.into()) => None,
            constant => Some(constant),
        }
    }

    /// The first equal constant, else a new one at the end if there is room.
    fn place(&mut self, number: Constant) -> Option<u16> {
        if let Some(at) = self.constants.iter().position(|&c| c == number) { return Some(at as u16) }
        if self.constants.len() >= 65_535 { return None }
        self.constants.push(number);
        Some(self.constants.len() as u16 - 1)
    }

    /// Marks the Phis that do nothing, and gives the pairs of those that survive.
    fn phis(&self, dead: &mut [bool]) -> Vec<[u16; 2]> {
        let mut pairs = vec![];
        if self.phi_map.is_empty() { return pairs }
        for k in (0..self.code.len()).filter(|&k| self.code[k].op == op::Phi) {
            match self.phi_sources.get(self.phi_map[k] as usize) {
                Some(&pair) if pair == [self.code[k].operand; 2] => dead[k] = true,
                Some(&pair) => pairs.push(pair),
                None => {}
            }
        }
        pairs
    }

    /// How many jumps and handlers land on each position, and on the end.
    pub fn landings(&self) -> Vec<u64> {
        let jumps = self.code.iter().filter(|i| i.jump).map(|i| usize::from(i.operand));
        let mut on = vec![0; self.code.len() + 1];
        for at in jumps.chain(self.tries.iter().map(|t| t[1] as usize)) { if let Some(count) = on.get_mut(at) { *count += 1 } }
        on
    }

    fn compact(&mut self, f: &Folded, pairs: Vec<[u16; 2]>) {
        let to = |at: u32| f.remap.get(at as usize).copied().unwrap_or(at);
        let live = (0..self.code.len()).filter(|&k| !f.dead[k]).map(|k| self.code[k]);
        self.code = live.map(|i| if i.jump { Instruction { operand: to(i.operand.into()) as u16, ..i } } else { i }).collect();
        for pair in self.stmt_pos.iter_mut().chain(&mut self.call_byte_pos) { pair[0] = to(pair[0]) }
        for word in self.tries.as_flattened_mut() { *word = to(*word) }
        self.phi_sources = pairs;
        let mut phis = 0..;
        let indexed = self.code.iter().map(|i| if i.op == op::Phi { phis.next().unwrap() } else { 0 });
        self.phi_map = if self.code.iter().any(|i| i.op == op::Phi) { indexed.collect() } else { vec![] };
    }
}

/// Renumbers the operands that name one of `count` constants, and gives for each constant whether it is named, and how many
/// named ones stand before it.
pub fn clear(code: &mut [Instruction], count: usize) -> (Vec<bool>, Vec<u32>) {
    let mut named = vec![false; count];
    let naming = |i: &Instruction| i.names && (i.operand as usize) < count;
    for i in code.iter().filter(|i| naming(i)) { named[i.operand as usize] = true }
    let before: Vec<u32> = named.iter().scan(0, |seen, &n| { let here = *seen; *seen += u32::from(n); Some(here) }).collect();
    for i in code.iter_mut().filter(|i| naming(i)) { i.operand = before[i.operand as usize] as u16 }
    (named, before)
}
