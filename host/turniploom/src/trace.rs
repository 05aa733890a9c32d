//! Traces read from any `Read`, and written to any `Write`.

use crate::{Block, Code, Day, Refusal, replay};
use core::{error::Error, fmt};
use std::{io::{self, Read, Write}, vec::Vec};

/// Why a trace that was to be read has no report.
#[derive(Debug)]
pub enum Unread {
    /// It could not be read.
    Io(io::Error),
    /// It was read, and refused.
    Refused(Refusal),
}

impl fmt::Display for Unread {
    fn fmt(&self, f: &mut fmt::Formatter<'_>) -> fmt::Result {
        match self {
            Unread::Io(error) => write!(f, "the trace can't be read: {error}"),
            Unread::Refused(refusal) => refusal.fmt(f),
        }
    }
}

impl Error for Unread {}

/// [`replay`] of a trace that is read to its end first.
///
/// # Errors
///
/// [`Unread::Io`] if it can't be read, else the refusal of [`replay`].
pub fn replay_from(ins: &(impl Code + ?Sized), regs: usize, tries: &[(usize, usize)], mut trace: impl Read) -> Result<Day, Unread> {
    let mut bytes = Vec::new();
    trace.read_to_end(&mut bytes).map_err(Unread::Io)?;
    replay(ins, regs, tries, &bytes).map_err(Unread::Refused)
}

/// Writes a trace, a block at a time, as a body runs.
///
/// ```
/// use turniploom::{Ins, Recorder, op::Move, replay_from};
/// let code = [Ins::unmarked(Move, 0, 1, 0, 0); 300];
/// let mut recorder = Recorder::new(Vec::new());
/// for position in 0..300 { recorder.step(position)? }
/// let trace = recorder.finish()?;
/// assert_eq!(trace.len(), 3 * 512);
/// assert_eq!(replay_from(&code, 2, &[], &trace[..])?.reads, [0, 300]);
/// # Ok::<(), Box<dyn std::error::Error>>(())
/// ```
#[derive(Debug)]
pub struct Recorder<W> {
    to: W,
    block: Block,
}

impl<W: Write> Recorder<W> {
    /// A recorder that has written nothing.
    pub fn new(to: W) -> Recorder<W> { Recorder { to, block: Block::default() } }

    /// A position is visited. Every 127th writes a block.
    ///
    /// # Errors
    ///
    /// What the writer answers.
    pub fn step(&mut self, position: u32) -> io::Result<()> { if self.block.push(position) { self.write() } else { Ok(()) } }

    /// Writes what is left, filled up to a block, and gives the writer back.
    ///
    /// # Errors
    ///
    /// What the writer answers.
    pub fn finish(mut self) -> io::Result<W> {
        if !self.block.is_empty() { self.write()? }
        self.to.flush()?;
        Ok(self.to)
    }

    fn write(&mut self) -> io::Result<()> { self.to.write_all(&core::mem::take(&mut self.block).bytes()) }
}
