//! The replay of a recorded day: a trace in blocks, read one after another.

use super::{code::{self, Checked, No, holds, wide}, question::*, rows, walks::store};
use turniploom::Ins;

/// The bytes of a block, and of its positions.
pub const BLOCK: usize = 512;
pub const POSITIONS: usize = 508;

/// Stands where a block has no position.
pub const FILLER: u32 = u32::MAX;

/// The check of a block's positions: each byte times its place from 1.
pub fn check(bytes: &[u8]) -> u32 { (1..).zip(bytes).map(|(place, &byte)| place * u32::from(byte)).sum() }

/// The entries of a block, if it is whole and its check is right.
fn entries(block: &[u8]) -> Option<Vec<u32>> {
    let (bytes, told) = block.split_at_checked(POSITIONS)?;
    (told == check(bytes).to_le_bytes()).then(|| bytes.as_chunks().0.iter().map(|&e| u32::from_le_bytes(e)).collect())
}

/// Where a run may go from `p`: where the row equations look, from a level to the handlers around it, from a wide call to its store.
pub fn moves(code: &[Ins], tries: &[(usize, usize)], p: usize) -> Vec<usize> {
    let mut to = rows::equation(code, p, 0).after;
    if rows::level(&code[p]) { to.extend(tries.iter().filter(|&&(s, h)| s < p && p < h).map(|t| t.1)) }
    if wide(&code[p]) { to.push(store(code, p)) }
    to.retain(|&q| q < code.len());
    to
}

/// The positions visited.
fn path(code: &[Ins], tries: &[(usize, usize)], trace: &[u8]) -> Checked<Vec<usize>> {
    let (mut path, mut ended) = (vec![], false);
    for (b, block) in trace.chunks(BLOCK).enumerate() {
        let entries = entries(block).ok_or(No(10, b as u64, 0))?;
        for &e in &entries {
            holds(!ended || e == FILLER, No(11, b as u64, 0))?;
            ended |= e == FILLER;
        }
        for e in entries.into_iter().take_while(|&e| e != FILLER) {
            let e = e as usize;
            let allowed = path.last().map_or(e == 0 && !code.is_empty(), |&p| moves(code, tries, p).contains(&e));
            holds(allowed, No(12, path.len() as u64, 0))?;
            path.push(e);
        }
    }
    Ok(path)
}

/// Steps and levels met, and the steps that use each register.
pub fn replay(q: &Question, code: &[Ins], lent: &mut Lent) -> Checked<[u64; 4]> {
    let regs = code::registers(q.n("regs"))?;
    let tries = code::tries(q.u32("tries"), code.len())?;
    code::room(1, lent.u64("reads").len(), regs)?;
    let path = path(code, &tries, q.u8("trace"))?;
    lent.u64("reads")[..regs].fill(0);
    for &k in &path {
        let mut used = rows::equation(code, k, regs).used;
        used.sort_unstable();
        used.dedup();
        for r in used { lent.u64("reads")[usize::from(r)] += 1 }
    }
    Ok([path.len() as u64, path.iter().filter(|&&k| rows::level(&code[k])).count() as u64, 0, 0])
}
