//! The row equations, the sweeps and the kept registers.

use super::{code::{is_call, wide}, facts::fact, roles::*, walks::store};
use turniploom::{DUNDER, Ins, op};

/// One position's equation: row k = used with (the rows after, without the given-up), and with the rows that it may leave for, whole.
pub struct Equation {
    pub used: Vec<u16>,
    given_up: Vec<u16>,
    pub after: Vec<usize>,
    /// Handlers, where an instruction may raise; none in document 01.
    leaves: Vec<usize>,
    /// Where a jump goes, as it stands in the code.
    jump: Option<usize>,
}

/// A call is over a pending value if the instruction before it is PushRegs with x = 1.
fn over_pending(code: &[Ins], k: usize) -> bool {
    k > 0 && code.get(k).is_some_and(is_call) && code[k - 1].op == op::PushRegs && code[k - 1].x == 1
}

/// The push under such a call, and the StoreTopR or PopTop right after the call's store.
pub fn pending(code: &[Ins], k: usize) -> bool {
    let after_store = |c: usize| over_pending(code, c) && store(code, c) + 1 == k;
    match code[k].op {
        op::PushRegs => over_pending(code, k + 1),
        op::StoreTopR | op::PopTop => k >= 2 && after_store(k - 2) || k >= 3 && after_store(k - 3),
        _ => false,
    }
}

pub fn equation(code: &[Ins], k: usize, regs: usize) -> Equation {
    let i = &code[k];
    let to = (i.a as usize).min(code.len());
    let after = match i.op {
        op::ReturnR => vec![],
        op::Jump => vec![to],
        _ if jumps(i) => vec![k + 1, to],
        _ => vec![k + 1],
    };
    let touch = touch(i);
    let (mut used, mut given_up) = if pending(code, k) { (vec![], vec![]) } else { (touch.uses(i), touch.gives_up(i)) };
    used.retain(|&r| (r as usize) < regs);
    given_up.retain(|&r| (r as usize) < regs);
    Equation { used, given_up, after, leaves: vec![], jump: jumps(i).then_some(i.a as usize) }
}

/// A level by its dunder mark alone, whose call goes on at the next position though its own row does not lead there, or gives up more than its result.
pub fn stranded(i: &Ins) -> bool { i.marks & DUNDER != 0 && matches!(i.op, op::ReturnR | op::Jump | op::UnpackR | op::WithEnter | op::WithExit) }

/// The same where levels may raise, or if all any instruction.
fn raising(code: &[Ins], k: usize, regs: usize, tries: &[(usize, usize)], all: bool) -> Equation {
    let mut leaves = if stranded(&code[k]) { vec![k + 1] } else { vec![] };
    if all || level(&code[k]) { leaves.extend(tries.iter().filter(|&&(s, h)| s < k && k < h).map(|&(_, h)| h.min(code.len()))) }
    Equation { leaves, ..equation(code, k, regs) }
}

/// The rows of a code, `words` words of `bits` bits each, and the sweeps that found them.
#[derive(Clone, Debug, PartialEq, Eq)]
pub struct Rows {
    pub bits: usize,
    pub words: usize,
    pub rows: Vec<u64>,
    pub full: u64,
    pub abandoned: u64,
}

impl Rows {
    pub fn row(&self, k: usize) -> &[u64] { &self.rows[k * self.words..][..self.words] }
    pub fn has(&self, k: usize, r: u16) -> bool { self.row(k)[r as usize / self.bits] >> (r as usize % self.bits) & 1 != 0 }
}

/// How a sweep ends.
enum Swept {
    Abandoned,
    /// Whether it changed a row, and swept a jump to its own position or back.
    Full(bool, bool),
}

fn sweep(equations: &[Equation], from: usize, found: &mut Rows) -> Swept {
    let (mut changed, mut back) = (false, false);
    let Rows { bits, words, rows, .. } = found;
    let (bits, words) = (*bits, *words);
    let mut row = vec![0; words];
    for k in (from..equations.len()).rev() {
        let e = &equations[k];
        if e.jump.is_some_and(|to| to < from) { return Swept::Abandoned }
        back |= e.jump.is_some_and(|to| to <= k);
        row.fill(0);
        for &at in &e.after { for w in 0..words { row[w] |= rows[at * words + w] } }
        for &r in &e.given_up { row[r as usize / bits] &= !(1 << (r as usize % bits)) }
        for &r in &e.used { row[r as usize / bits] |= 1 << (r as usize % bits) }
        for &at in &e.leaves { for w in 0..words { row[w] |= rows[at * words + w] } }
        let old = &mut rows[k * words..][..words];
        changed |= *old != *row;
        old.copy_from_slice(&row);
    }
    Swept::Full(changed, back)
}

/// The words of a row, of so many bits each.
pub fn words(regs: usize, bits: usize) -> usize { regs.div_ceil(bits).max(1) }

pub fn level(i: &Ins) -> bool { fact(i.op).level || i.marks & DUNDER != 0 }

/// Rows with nothing in them yet.
fn empty(n: usize, regs: usize, bits: usize) -> Rows {
    let words = words(regs, bits);
    Rows { bits, words, rows: vec![0; (n + 1) * words], full: 0, abandoned: 0 }
}

/// The rows in words of so many bits, by the word route, up to as many registers, or by the wide one.
pub fn rows(code: &[Ins], regs: usize, bits: usize, force_wide: bool) -> Rows {
    let n = code.len();
    let equations: Vec<Equation> = (0..n).map(|k| equation(code, k, regs)).collect();
    swept(&equations, begins(code, regs, bits, force_wide), empty(n, regs, bits))
}

/// Where sweeps begin: at the first level by the word route, at 0 by the wide one.
fn begins(code: &[Ins], regs: usize, bits: usize, force_wide: bool) -> usize {
    if regs > bits || force_wide { 0 } else { code.iter().position(level).unwrap_or(code.len()) }
}

/// The rows with handlers joined, in words of 64 bits, by the route that the registers ask for.
pub fn rows_raising(code: &[Ins], regs: usize, tries: &[(usize, usize)], all: bool) -> Rows {
    let equations: Vec<Equation> = (0..code.len()).map(|k| raising(code, k, regs, tries, all)).collect();
    swept(&equations, begins(code, regs, 64, false), empty(code.len(), regs, 64))
}

/// Sweeps until nothing changes.
fn swept(equations: &[Equation], mut from: usize, mut found: Rows) -> Rows {
    loop {
        match sweep(equations, from, &mut found) {
            Swept::Abandoned => {
                found.abandoned += 1;
                found.rows.fill(0);
                from = 0;
            }
            Swept::Full(changed, back) => {
                found.full += 1;
                if !(changed && back) { return found }
            }
        }
    }
}

/// The least solution, by asking every equation until none changes: what the rows must be from the final start on.
pub fn least(code: &[Ins], regs: usize, bits: usize) -> Vec<u64> {
    let equations: Vec<Equation> = (0..code.len()).map(|k| equation(code, k, regs)).collect();
    let mut found = empty(code.len(), regs, bits);
    while matches!(sweep(&equations, 0, &mut found), Swept::Full(true, _)) {}
    found.rows
}

/// Where the level at `k` resumes, and its result register.
pub fn resume(code: &[Ins], k: usize) -> (usize, Option<u16>) {
    let i = &code[k];
    match i.op {
        op::JumpIfFalseR => (k, None),
        op::Call => (k + 1, None),
        _ if is_call(i) => { let s = if wide(i) { k + 2 } else { k + 1 }; (s, code.get(s).map(|t| t.a)) }
        _ => (k + 1, Some(i.a)),
    }
}

/// The kept list of each position, empty where there is no level. `early` reads a JumpIfFalseR's own row as still empty, as
/// the Rust does at 65 registers or more where no jump goes to itself or back.
pub fn kept(code: &[Ins], found: &Rows, tries: &[(usize, usize)], early: bool) -> Vec<Vec<u16>> {
    let n = code.len();
    let has = |k: usize, r: u16| found.has(k.min(n), r);
    let registers = 0..(found.words * found.bits) as u16;
    (0..n).map(|k| {
        if !level(&code[k]) { return vec![] }
        let (s, result) = resume(code, k);
        let unread = early && code[k].op == op::JumpIfFalseR;
        let mut list: Vec<u16> = registers.clone().filter(|&r| !unread && has(s, r) && Some(r) != result).collect();
        for &(_, h) in tries.iter().filter(|&&(s, h)| s < k && k < h) {
            let more: Vec<u16> = registers.clone().filter(|&r| has(h, r) && !list.contains(&r)).collect();
            list.extend(more);
        }
        list
    }).collect()
}

/// The jumps to their own position or back. There are at most two full sweeps more.
pub fn jumps_back(code: &[Ins]) -> usize { code.iter().enumerate().filter(|(k, i)| jumps(i) && i.a as usize <= *k).count() }

/// Whether some path from `k` uses `r` before it gives it up.
pub fn needed(code: &[Ins], regs: usize, k: usize, r: u16) -> bool {
    let mut reached = vec![false; code.len() + 1];
    let mut next = vec![k];
    while let Some(j) = next.pop() {
        if j >= code.len() || reached[j] { continue }
        reached[j] = true;
        let e = equation(code, j, regs);
        if e.used.contains(&r) { return true }
        if !e.given_up.contains(&r) { next.extend(e.after) }
    }
    false
}
