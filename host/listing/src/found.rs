//! What the kept-register call found, with rows of either width.

use crate::{exposed, notation::Body};
use turniploom::{Kept, Refusal, abi};

/// Registers at levels.
pub type AtLevels = Vec<(usize, Vec<u16>)>;

/// Rows and lists, the levels and the sweeps.
pub struct Found {
    /// The rows, the end's too, a bit for each register in so many words of 64.
    bits: Vec<u64>,
    words: usize,
    /// What is kept at each position, one list after another, and where each begins.
    list: Vec<u16>,
    offsets: Vec<u32>,
    /// The levels with a register that is exposed, and those registers; none if it was not asked for.
    pub exposed: Option<AtLevels>,
    /// Where each level resumes, and its result register.
    pub levels: Vec<Option<(usize, Option<u16>)>>,
    pub full: u64,
    pub abandoned: u64,
    /// The most full sweeps, known before the call.
    pub most: u64,
}

impl Found {
    /// # Errors
    ///
    /// The refusal of the call.
    pub fn of(body: &Body) -> Result<Found, Refusal> {
        let (words, registers, wide) = (body.words(), body.registers, body.wide);
        let tries = tries(body)?;
        let most = turniploom::most_sweeps(&words);
        if body.rows32 { Found::read(body, &tries, turniploom::kept32(&words, registers, &tries, wide)?, most?) }
        else { Found::read(body, &tries, turniploom::kept(&words, registers, &tries, wide)?, most?) }
    }

    fn read<W: Copy + Into<u64>>(body: &Body, tries: &[(usize, usize)], kept: Kept<W>, most: u64) -> Result<Found, Refusal> {
        let n = kept.offsets.len() - 1;
        let mut levels = vec![None; n];
        for l in kept.levels() { levels[l.at()] = Some((l.resume(), l.result())) }
        let part = 64 / (8 * size_of::<W>());
        let (words, joined) = (kept.words.div_ceil(part), |word: &[W]| word.iter().rev().fold(0u64, |all, &w| all.unbounded_shl(64 / part as u32) | w.into()));
        let bits = kept.rows.chunks(kept.words).flat_map(|row| row.chunks(part)).map(joined).collect();
        let exposed = exposed(body, tries, &kept)?;
        Ok(Found { bits, words, list: kept.list, offsets: kept.offsets, exposed, levels, full: kept.full, abandoned: kept.abandoned, most })
    }

    /// The row of a position, and of any past the end, in words.
    pub fn bits(&self, k: usize) -> &[u64] { &self.bits[k.min(self.levels.len()) * self.words..][..self.words] }

    /// The same as registers.
    pub fn row(&self, k: usize) -> Vec<u16> { set(self.bits(k)) }

    /// What is kept at a position.
    pub fn kept(&self, k: usize) -> &[u16] { &self.list[self.offsets[k] as usize..self.offsets[k + 1] as usize] }

    /// From where on rows were looked for: the first level, or 0 by the wide route and after an abandoned sweep.
    pub fn start(&self, body: &Body) -> usize {
        let wide = body.wide || body.registers > if body.rows32 { 32 } else { 64 };
        if wide || self.abandoned > 0 { 0 } else { self.first() }
    }

    /// Whether anything is exposed.
    pub fn exposes(&self) -> bool { self.exposed.as_ref().is_some_and(|e| !e.is_empty()) }

    /// The first level, or the end.
    pub fn first(&self) -> usize { self.levels.iter().position(Option::is_some).unwrap_or(self.levels.len()) }
}

/// Every position looks at every try in every sweep; past so many looks what is exposed is not asked for.
const MOST: u64 = 500_000_000;

/// What a later exception may need and the lists do not keep. In code that goes nowhere but where its rows lead nothing is, and a second call is not made.
fn exposed<W: Copy + Into<u64>>(body: &Body, tries: &[(usize, usize)], kept: &Kept<W>) -> Result<Option<AtLevels>, Refusal> {
    if !exposed::may_be(&body.code, tries) { return Ok(Some(vec![])) }
    if (body.code.len() * tries.len()) as u64 * (kept.full + kept.abandoned) > MOST { return Ok(None) }
    Ok(Some(turniploom::exposed(kept, &turniploom::kept_raising(&body.words(), body.registers, tries, true)?)))
}

/// The registers whose bits are set in a row's words.
pub fn set(row: &[u64]) -> Vec<u16> {
    let mut set = Vec::with_capacity(row.iter().map(|w| w.count_ones() as usize).sum());
    for (place, &word) in (0..).zip(row) {
        let mut left = word;
        while left != 0 {
            set.push(place * 64 + left.trailing_zeros() as u16);
            left &= left - 1;
        }
    }
    set
}

/// The tries of a body in pairs.
///
/// # Errors
///
/// The refusal of half a try.
pub fn tries(body: &Body) -> Result<Vec<(usize, usize)>, Refusal> {
    // An odd last word is a try without a handler, which is refused before any buffer is looked at.
    if !body.tries.len().is_multiple_of(2) { abi::kept(&body.words(), body.registers, &body.tries, body.wide, &mut [], &mut [], &mut []).granted()?; }
    Ok(body.tries.chunks_exact(2).map(|t| (t[0] as usize, t[1] as usize)).collect())
}
