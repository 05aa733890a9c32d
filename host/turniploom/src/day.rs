//! The replay of a recorded day: what a body did, read off a trace of the positions it visited.

use crate::{Code, Refusal, abi, calls::lent};
use alloc::{vec, vec::Vec};

/// What a trace tells of a body.
#[derive(Clone, Debug, PartialEq, Eq)]
#[non_exhaustive]
pub struct Day {
    /// The positions visited, each as often as it was.
    pub steps: u64,
    /// How many of them were levels.
    pub levels: u64,
    /// For each register, the steps that read it.
    pub reads: Vec<u64>,
}

/// Replays a trace over a code with `regs` registers: it is judged whole, block by block, and then counted.
///
/// ```
/// use turniploom::{Block, Lowered, Refusal, marked, op::*, replay};
/// let k = [Lowered::new(CallR, 1, 0, 0, 0), Lowered::new(StoreTopR, 2, 0, 0, 0), Lowered::new(AddR, 3, 0, 2, 0), Lowered::new(ReturnR, 0, 3, 0, 0)];
/// let k = marked(&k, |_| false);
/// let trace = |positions: &[u32]| Block::of(positions).bytes();
/// let day = replay(&k, 4, &[], &trace(&[0, 1, 2, 3]))?;
/// assert_eq!((day.steps, day.levels, &day.reads[..]), (4, 1, &[1, 1, 1, 1][..]));
/// assert_eq!(replay(&k, 4, &[], &trace(&[0, 2])), Err(Refusal::Move { step: 1 }));
/// # Ok::<(), Refusal>(())
/// ```
///
/// # Errors
///
/// [`Refusal::Code`] or [`Refusal::Record`] for bad code, [`Refusal::Registers`] for more than 1,024 registers, [`Refusal::Try`] for a bad try;
/// then, block by block, [`Refusal::Check`], [`Refusal::Filler`] and [`Refusal::Move`] for a trace that is no run of the code.
pub fn replay(ins: &(impl Code + ?Sized), regs: usize, tries: &[(usize, usize)], trace: &[u8]) -> Result<Day, Refusal> {
    let mut reads = vec![0; regs.min(1_024)];
    let told = abi::replay(ins.words(), regs, &lent(tries), trace, &mut reads).granted()?;
    Ok(Day { steps: told.first, levels: told.second, reads })
}

/// The positions of a trace, up to its first filler. [`replay`] says whether they are a run.
pub fn positions(trace: &[u8]) -> impl Iterator<Item = u32> {
    let entries = trace.chunks_exact(512).flat_map(|block| block[..4 * POSITIONS].chunks_exact(4));
    entries.map(|e| u32::from_le_bytes([e[0], e[1], e[2], e[3]])).take_while(|&position| position != u32::MAX)
}

/// The positions of a block.
const POSITIONS: usize = 127;

/// A block of a trace: up to 127 positions, then fillers, then its check.
#[derive(Clone, Copy, Debug, PartialEq, Eq)]
pub struct Block {
    positions: [u32; POSITIONS],
    length: usize,
}

impl Default for Block {
    fn default() -> Block { Block { positions: [u32::MAX; POSITIONS], length: 0 } }
}

impl Block {
    /// A block of these positions, the first 127 of them.
    pub fn of(positions: &[u32]) -> Block {
        let mut block = Block::default();
        for &position in positions.iter().take(POSITIONS) { block.push(position); }
        block
    }

    /// Adds a position, and says whether the block is full then. A full block takes no more.
    pub fn push(&mut self, position: u32) -> bool {
        if let Some(free) = self.positions.get_mut(self.length) {
            *free = position;
            self.length += 1;
        }
        self.length == POSITIONS
    }

    /// Whether it has no position.
    pub const fn is_empty(&self) -> bool { self.length == 0 }

    /// Its 512 bytes.
    pub fn bytes(&self) -> [u8; 512] {
        let mut bytes = [0; 512];
        let (entries, check) = bytes.split_at_mut(4 * POSITIONS);
        for (entry, position) in entries.chunks_exact_mut(4).zip(self.positions) { entry.copy_from_slice(&position.to_le_bytes()) }
        let sum: u32 = (1..).zip(&*entries).map(|(place, &byte)| place * u32::from(byte)).sum();
        check.copy_from_slice(&sum.to_le_bytes());
        bytes
    }
}
