//! A month of scripts in figures.

use crate::{Code, Kept, Refusal, abi};

/// The figures of a group of bodies: how many there are, their levels, what they keep, and the longest list. None is the group of no body.
///
/// Bodies are added one by one, or each is told by itself and they are joined: reports of two groups joined are the report of all.
///
/// ```
/// use turniploom::{Figures, Lowered, Refusal, kept, marked, op::*};
/// let k = [Lowered::new(CallR, 1, 0, 0, 0), Lowered::new(StoreTopR, 2, 0, 0, 0), Lowered::new(AddR, 3, 0, 2, 0), Lowered::new(ReturnR, 0, 3, 0, 0)];
/// let bodies = [marked(&k[3..], |_| false), marked(&k, |_| false)];
/// let figures = bodies.iter().map(|code| Figures::of(code, &kept(code, 4, &[], false)?)).collect::<Result<Figures, Refusal>>()?;
/// assert_eq!((figures.bodies(), figures.levels(), figures.kept(), figures.mean()), (2, 1, 1, (1, 1)));
/// let longest = figures.longest().unwrap();
/// assert_eq!((longest.length, longest.body, longest.position), (1, 1, 0));
/// assert_eq!(figures.area(10), Some(40));
/// # Ok::<(), Refusal>(())
/// ```
#[derive(Clone, Copy, Debug, Default, PartialEq, Eq, Hash)]
pub struct Figures {
    words: [u64; 7],
}

/// The longest list of a group, and where it stands first.
#[derive(Clone, Copy, Debug, PartialEq, Eq, Hash)]
pub struct Longest {
    /// Its registers.
    pub length: u64,
    /// Its body, from 0.
    pub body: u64,
    /// Its position there.
    pub position: u64,
}

impl Figures {
    /// The figures of one body.
    ///
    /// # Errors
    ///
    /// As [`Figures::add`].
    pub fn of<W>(ins: &(impl Code + ?Sized), kept: &Kept<W>) -> Result<Figures, Refusal> {
        let mut figures = Figures::default();
        figures.add(ins, kept)?;
        Ok(figures)
    }

    /// Adds a body with its answer, and tells its own levels and kept registers. Nothing is added if it is refused.
    ///
    /// # Errors
    ///
    /// [`Refusal::Code`], [`Refusal::Record`], [`Refusal::Buffer`] or [`Refusal::Offsets`] if the answer is not that of this code,
    /// [`Refusal::Total`] if a total would pass 64 bits.
    pub fn add<W>(&mut self, ins: &(impl Code + ?Sized), kept: &Kept<W>) -> Result<(u64, u64), Refusal> {
        let body = abi::figures_add(ins.words(), &kept.offsets, &kept.list, &mut self.words).granted()?;
        Ok((body.first, body.second))
    }

    /// Joins a later group: its bodies come after those of this one. Nothing is joined if it is refused.
    ///
    /// # Errors
    ///
    /// [`Refusal::Total`] if a total would pass 64 bits.
    pub fn join(&mut self, later: &Figures) -> Result<(), Refusal> { abi::figures_join(&later.words, &mut self.words).granted().map(drop) }

    /// How many bodies there are.
    pub const fn bodies(&self) -> u64 { self.words[0] }

    /// How many levels they have.
    pub const fn levels(&self) -> u64 { self.words[1] }

    /// How many registers those keep, all together.
    pub const fn kept(&self) -> u64 { self.words[2] }

    /// The longest list, none if there is no level.
    pub const fn longest(&self) -> Option<Longest> {
        let [_, _, _, length, found, body, position] = self.words;
        if found != 0 { Some(Longest { length, body, position }) } else { None }
    }

    /// The mean list length, as kept registers and levels: not reduced, and 0, 0 if there is no level.
    pub const fn mean(&self) -> (u64, u64) { (self.kept(), self.levels()) }

    /// The words of a save area that a recursion of so many calls needs at most: twice the longest list plus two for each. None past 64 bits.
    pub const fn area(&self, depth: u64) -> Option<u64> {
        match self.longest() {
            None => Some(0),
            Some(Longest { length, .. }) => match length.checked_mul(2) {
                Some(twice) => match twice.checked_add(2) {
                    Some(entry) => entry.checked_mul(depth),
                    None => None,
                },
                None => None,
            },
        }
    }

    /// The seven words of the report, as docs/BUFFERS.md has them, to be stored.
    pub const fn words(&self) -> [u64; 7] { self.words }

    /// The figures that were stored as these words.
    pub const fn stored(words: [u64; 7]) -> Figures { Figures { words } }
}

/// Groups joined in their order.
///
/// # Panics
///
/// If a total passes 64 bits. [`Figures::join`] refuses that instead.
impl FromIterator<Figures> for Figures {
    fn from_iter<I: IntoIterator<Item = Figures>>(groups: I) -> Figures {
        groups.into_iter().fold(Figures::default(), |mut all, group| {
            all.join(&group).unwrap_or_else(|refusal| panic!("turniploom: {refusal}"));
            all
        })
    }
}
