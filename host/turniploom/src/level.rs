//! Levels: instructions that may call back into a body, where they go on, and what they keep.

use crate::{Code, Ins, Refusal, WIDE, abi};
use alloc::vec::Vec;

/// A level of a [`Kept`](crate::Kept): what a call that comes back into the body must keep, where the body then goes on, and which register
/// has the call's result. Only a `Kept` makes one, so a [`Saver`](crate::Saver) that is handed a level is handed what was found for it.
#[derive(Clone, Copy, Debug, PartialEq, Eq)]
pub struct Level<'a> {
    at: usize,
    resume: usize,
    result: Option<u16>,
    kept: &'a [u16],
}

impl<'a> Level<'a> {
    /// Its position.
    pub const fn at(&self) -> usize { self.at }

    /// Where the body goes on when the call returns.
    pub const fn resume(&self) -> usize { self.resume }

    /// The register that then has the call's result, if there is one.
    pub const fn result(&self) -> Option<u16> { self.result }

    /// The registers it keeps.
    pub const fn kept(&self) -> &'a [u16] { self.kept }

    /// The words of a save area that an entry takes: twice the list plus two.
    pub const fn words(&self) -> usize { 2 * self.kept.len() + 2 }
}

/// Where the level at `k` goes on, and its result register; none if `k` is no level.
///
/// ```
/// use turniploom::{Lowered, level, marked, op::*};
/// let code = marked(&[Lowered::new(CallR, 1, 0, 0, 0), Lowered::new(StoreTopR, 2, 0, 0, 0), Lowered::new(JumpIfFalseR, 0, 2, 0, 0)], |_| false);
/// assert_eq!(level(&code, 0)?, Some((1, Some(2))));
/// assert_eq!(level(&code, 1)?, None);
/// assert_eq!(level(&code, 2)?, Some((2, None)));
/// # Ok::<(), turniploom::Refusal>(())
/// ```
///
/// # Errors
///
/// [`Refusal::Code`] or [`Refusal::Record`] for bad code, [`Refusal::Position`] for a position at its end or beyond.
pub fn level(ins: &(impl Code + ?Sized), k: usize) -> Result<Option<(usize, Option<u16>)>, Refusal> {
    let found = abi::level(ins.words(), k).granted()?;
    Ok((found.first != 0).then_some((found.second as usize, u16::try_from(found.third).ok())))
}

/// A level without its list.
#[derive(Clone, Copy, Debug, PartialEq, Eq)]
pub(crate) struct Place {
    at: usize,
    resume: usize,
    result: Option<u16>,
}

impl Place {
    pub(crate) const fn at(&self) -> usize { self.at }

    pub(crate) const fn level<'a>(&self, kept: &'a [u16]) -> Level<'a> {
        let Place { at, resume, result } = *self;
        Level { at, resume, result, kept }
    }
}

/// The levels of a code. A level hangs on its instruction and, for a call, on the store after it, at most two on; so each is asked about with those
/// alone, since every call tests all that it is lent.
pub(crate) fn places(code: &[u16]) -> Result<Vec<Place>, Refusal> {
    let code: Vec<Ins> = code.chunks_exact(6).map(|w| Ins::of([w[0], w[1], w[2], w[3], w[4], w[5]])).collect();
    // A mark that speaks of what follows is left out where that is cut off.
    let after = |k: usize| code.get(k).map_or(Ins::default(), |&i| Ins { marks: i.marks & !WIDE, ..i });
    let mut places = Vec::new();
    for (at, &i) in code.iter().enumerate() {
        let beside = [Ins::default(), i, after(at + 1), after(at + 2)];
        let there = (code.len() - at + 1).min(4);
        if let Some((resume, result)) = level(&beside[..there], 1)? { places.push(Place { at, resume: at + resume - 1, result }) }
    }
    Ok(places)
}
