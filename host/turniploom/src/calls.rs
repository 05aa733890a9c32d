//! The calls of block.rs, under its names and as near its signatures as a refusal allows. Code is a slice of [`Ins`](crate::Ins)
//! or of their words.

use crate::{Code, Ins, Level, Refusal, abi::{self, Answer}, block::around, level};
use alloc::{vec, vec::Vec};

/// What an instruction does with `a` to `c` (0 to 2), as block.rs tells it: whether `a` is written, which fields are read registers, and
/// whether `a` is a jump target.
pub type Role = (bool, &'static [u8], bool);

fn truth(answer: Answer) -> Result<bool, Refusal> { Ok(answer.granted()?.first != 0) }

fn bits(answer: Answer) -> Result<u64, Refusal> { Ok(answer.granted()?.first) }

/// n + 1, the length that a walk's buffers need.
fn length(ins: &(impl Code + ?Sized)) -> usize { ins.words().len() / 6 + 1 }

/// Tries as they are lent. A number past 32 bits lies past every code, as the largest of 32 bits does.
pub fn lent(tries: &[(usize, usize)]) -> Vec<u32> {
    tries.iter().flat_map(|&(s, h)| [s, h]).map(|v| u32::try_from(v).unwrap_or(u32::MAX)).collect()
}

/// The role of the instruction at `k` as bits: 1 writes `a`; 2, 4, 8 reads `a`, `b`, `c`; 16 jumps to `a`; 32 none.
///
/// # Errors
///
/// [`Refusal::Code`] or [`Refusal::Record`] for bad code, [`Refusal::Position`] for a position at its end or beyond.
pub fn kinds(ins: &(impl Code + ?Sized), k: usize) -> Result<u8, Refusal> {
    Ok(bits(abi::kinds(ins.words(), k))? as u8)
}

/// The role of the instruction at `k`, none if it has none.
///
/// # Errors
///
/// [`Refusal::Code`] or [`Refusal::Record`] for bad code, [`Refusal::Position`] for a position at its end or beyond.
pub fn role(ins: &(impl Code + ?Sized), k: usize) -> Result<Option<Role>, Refusal> {
    const READS: [&[u8]; 8] = [&[], &[0], &[1], &[0, 1], &[2], &[0, 2], &[1, 2], &[0, 1, 2]];
    let role = abi::role(ins.words(), k).granted()?;
    Ok((role.first != 0).then(|| (role.second != 0, READS[(role.third & 7) as usize], role.fourth != 0)))
}

/// Field `f` of the instruction at `k`: `a` for 0, `b` for 1, else `c`.
///
/// # Errors
///
/// [`Refusal::Code`] or [`Refusal::Record`] for bad code, [`Refusal::Position`] for a position at its end or beyond.
pub fn field(ins: &(impl Code + ?Sized), k: usize, f: u8) -> Result<u16, Refusal> {
    Ok(bits(abi::field(ins.words(), k, f))? as u16)
}

/// Whether the instruction at `k` writes register `r`.
///
/// # Errors
///
/// [`Refusal::Code`] or [`Refusal::Record`] for bad code, [`Refusal::Position`] for a position at its end or beyond.
pub fn writes(ins: &(impl Code + ?Sized), k: usize, r: u16) -> Result<bool, Refusal> { truth(abi::writes(ins.words(), k, r)) }

/// Whether code may be laid as a section.
///
/// # Errors
///
/// [`Refusal::Code`] or [`Refusal::Record`] for bad code.
pub fn pure(ins: &(impl Code + ?Sized)) -> Result<bool, Refusal> { truth(abi::pure(ins.words())) }

/// Whether laid code leaves nothing of its own on the stack between instructions, but what a PushRegs hands a Raise.
///
/// # Errors
///
/// [`Refusal::Code`] or [`Refusal::Record`] for bad code.
pub fn flat(ins: &(impl Code + ?Sized)) -> Result<bool, Refusal> { truth(abi::flat(ins.words())) }

/// Whether code has a `try` or a `with`.
///
/// # Errors
///
/// [`Refusal::Code`] or [`Refusal::Record`] for bad code.
pub fn guarded(ins: &(impl Code + ?Sized)) -> Result<bool, Refusal> { truth(abi::guarded(ins.words())) }

/// Whether the PushRegs at `k` pushes the value that a ReturnValue returns.
///
/// # Errors
///
/// [`Refusal::Code`] or [`Refusal::Record`] for bad code, [`Refusal::Position`] for a position at its end or beyond.
pub fn returns(ins: &(impl Code + ?Sized), k: usize) -> Result<bool, Refusal> { truth(abi::returns(ins.words(), k)) }

/// The parameters, the first `arity` registers, that some instruction writes, a bit each for the first 64.
///
/// # Errors
///
/// [`Refusal::Code`] or [`Refusal::Record`] for bad code.
pub fn params_written(ins: &(impl Code + ?Sized), arity: usize) -> Result<u64, Refusal> { bits(abi::params_written(ins.words(), arity)) }

/// For the call at `j`, one of the four, the parameters that it passes on as they are, a bit each.
///
/// # Errors
///
/// [`Refusal::Code`] or [`Refusal::Record`] for bad code, [`Refusal::Position`] for a position that holds none of the four calls.
pub fn passed(ins: &(impl Code + ?Sized), j: usize, arity: usize) -> Result<u64, Refusal> { bits(abi::passed(ins.words(), j, arity)) }

/// Whether a generator's body may be laid as the section that a `for` steps.
///
/// # Errors
///
/// [`Refusal::Code`] or [`Refusal::Record`] for bad code.
pub fn gen_pure(ins: &(impl Code + ?Sized)) -> Result<bool, Refusal> {
    truth(abi::gen_pure(ins.words(), &mut vec![0; length(ins)], &mut vec![0; length(ins)]))
}

/// Whether the slot `r` that the Phi at `k` writes is read on no path from it before a write.
///
/// # Errors
///
/// [`Refusal::Code`] or [`Refusal::Record`] for bad code, [`Refusal::Position`] for a position at its end or beyond.
pub fn dead_phi(ins: &(impl Code + ?Sized), k: usize, r: u16) -> Result<bool, Refusal> {
    truth(abi::dead_phi(ins.words(), k, r, &mut vec![0; length(ins)], &mut vec![0; length(ins)]))
}

/// For each position and the end, how many `for` loops it lies inside.
///
/// # Errors
///
/// [`Refusal::Code`] or [`Refusal::Record`] for bad code.
pub fn loops_around(ins: &(impl Code + ?Sized)) -> Result<Vec<usize>, Refusal> {
    let mut out = vec![0; length(ins)];
    abi::loops_around(ins.words(), &mut out).granted()?;
    Ok(out.into_iter().map(|d| d as usize).collect())
}

/// Which positions a jump or the handler of one of `tries` lands on, the end too.
///
/// # Errors
///
/// [`Refusal::Code`] or [`Refusal::Record`] for bad code, [`Refusal::Try`] for a bad try.
pub fn targets(ins: &(impl Code + ?Sized), tries: &[(usize, usize)]) -> Result<Vec<bool>, Refusal> {
    let mut out = vec![0; length(ins)];
    abi::targets(ins.words(), &lent(tries), &mut out).granted()?;
    Ok(out.into_iter().map(|t| t != 0).collect())
}

/// The module binding that the call at `j` calls.
///
/// The call of P1 in document 01, two instructions into code K:
///
/// ```
/// use turniploom::{Lowered, global_of, marked, op::*};
/// let k = [Lowered::new(LoadGlobalR, 0, 7, 0, 0), Lowered::new(LoadGlobalR, 1, 9, 0, 0), Lowered::new(CallR, 1, 0, 0, 0)];
/// assert_eq!(global_of(&marked(&k, |_| false), 2), Ok(Some(9)));
/// ```
///
/// # Errors
///
/// [`Refusal::Code`] or [`Refusal::Record`] for bad code, [`Refusal::Position`] for a position at its end or beyond.
pub fn global_of(ins: &(impl Code + ?Sized), j: usize) -> Result<Option<u16>, Refusal> {
    let found = abi::global_of(ins.words(), j).granted()?;
    Ok((found.first != 0).then_some(found.second as u16))
}

/// The PushRegs that pushed the value which the StoreTopR at `d` takes back into `r` past a call.
///
/// # Errors
///
/// [`Refusal::Code`] or [`Refusal::Record`] for bad code, [`Refusal::Position`] for a position at its end or beyond.
pub fn pushed_back(ins: &(impl Code + ?Sized), d: usize, r: u16) -> Result<Option<usize>, Refusal> {
    let found = abi::pushed_back(ins.words(), d, r).granted()?;
    Ok((found.first != 0).then_some(found.second as usize))
}

/// For the stack call at `j` of `n` positionals, the PushRegs that pushed its function, and the register.
///
/// # Errors
///
/// [`Refusal::Code`] or [`Refusal::Record`] for bad code, [`Refusal::Position`] for a position at its end or beyond.
pub fn stack_callee(ins: &(impl Code + ?Sized), j: usize, n: u16) -> Result<Option<(usize, u16)>, Refusal> {
    let found = abi::stack_callee(ins.words(), j, n).granted()?;
    Ok((found.first != 0).then_some((found.second as usize, found.third as u16)))
}

/// The registers that an instruction by itself touches.
#[derive(Clone, Debug, PartialEq, Eq)]
#[non_exhaustive]
pub struct Touched {
    /// Those it uses, as the rows have it.
    pub used: Vec<u16>,
    /// Those it gives up, as the rows have it: what they held is not needed before it, unless it is used too.
    pub given_up: Vec<u16>,
    /// Those it writes, as [`writes`] has it.
    pub written: Vec<u16>,
}

/// What the instruction at `k` by itself uses, gives up and writes. A push or a restore of a value that is pending under a call touches no
/// register in the rows; that hangs on what stands around it, and is not told here.
///
/// A StoreTopR with `x` not 0 gives up its register and writes none:
///
/// ```
/// use turniploom::{Lowered, marked, op::*, touched};
/// let code = marked(&[Lowered::new(StoreTopR, 3, 0, 0, 1), Lowered::new(WithEnter, 0, 5, 2, 2)], |_| false);
/// let store = touched(&code, 0)?;
/// assert_eq!((&store.used[..], &store.given_up[..], &store.written[..]), (&[][..], &[3][..], &[][..]));
/// let enter = touched(&code, 1)?;
/// assert_eq!((&enter.used[..], &enter.given_up[..], &enter.written[..]), (&[2][..], &[5, 6][..], &[5, 6][..]));
/// # Ok::<(), turniploom::Refusal>(())
/// ```
///
/// # Errors
///
/// [`Refusal::Code`] or [`Refusal::Record`] for bad code, [`Refusal::Position`] for a position at its end or beyond.
pub fn touched(ins: &(impl Code + ?Sized), k: usize) -> Result<Touched, Refusal> {
    let told = abi::touched(ins.words(), k).granted()?;
    let fields: [u16; 3] = [0, 1, 2].map(|f| ins.words()[6 * k + 2 + f]);
    let named = |bits: u64| fields.into_iter().enumerate().filter(move |(f, _)| bits >> f & 1 != 0).map(|(_, r)| r);
    let run = || (0..told.fourth as u16).map(|j| fields[1] + j);
    Ok(Touched { used: named(told.first).collect(), given_up: named(told.second).chain(run()).collect(), written: named(told.third).chain(run()).collect() })
}

/// Whether register `r` of a code with `regs` registers is needed at `k`: some path from there uses it before it gives it up. It is what the
/// finished rows have there, found without them. The end may be asked about; no register is needed there, and none that is not below `regs`.
///
/// Code K of document 01: register 0 is needed until the sum reads it.
///
/// ```
/// use turniploom::{Lowered, Refusal, marked, needed, op::*};
/// let k = [
///     Lowered::new(LoadGlobalR, 0, 7, 0, 0),
///     Lowered::new(LoadGlobalR, 1, 9, 0, 0),
///     Lowered::new(CallR, 1, 0, 0, 0),
///     Lowered::new(StoreTopR, 2, 0, 0, 0),
///     Lowered::new(AddR, 3, 0, 2, 0),
///     Lowered::new(ReturnR, 0, 3, 0, 0),
/// ];
/// let k = marked(&k, |_| false);
/// let at: Vec<bool> = (0..=6).map(|p| needed(&k, 4, p, 0)).collect::<Result<_, _>>()?;
/// assert_eq!(at, [false, true, true, true, true, false, false]);
/// assert_eq!(needed(&k, 4, 7, 0), Err(Refusal::Position { position: 7 }));
/// # Ok::<(), Refusal>(())
/// ```
///
/// # Errors
///
/// [`Refusal::Code`] or [`Refusal::Record`] for bad code, [`Refusal::Registers`] for more than 1,024 registers, [`Refusal::Position`] for a position
/// beyond the end.
pub fn needed(ins: &(impl Code + ?Sized), regs: usize, k: usize, r: u16) -> Result<bool, Refusal> {
    truth(abi::needed(ins.words(), regs, k, r, &mut vec![0; length(ins)], &mut vec![0; length(ins)]))
}

/// The rows of a code, the registers kept at each level, and the sweeps that found them. A word of a row is a `u64`, or for [`kept32`] a `u32`.
#[derive(Clone, Debug, PartialEq, Eq)]
#[non_exhaustive]
pub struct Kept<W = u64> {
    /// The rows, `words` words each, the end's too.
    pub rows: Vec<W>,
    /// The words of a row.
    pub words: usize,
    /// The lists one after another.
    pub list: Vec<u16>,
    /// Where the list of each position begins, and where the last ends.
    pub offsets: Vec<u32>,
    /// Full sweeps, at most [`most_sweeps`].
    pub full: u64,
    /// Abandoned sweeps, at most one.
    pub abandoned: u64,
    /// The levels, in order.
    pub(crate) places: Vec<level::Place>,
}

impl<W: Copy + Into<u64>> Kept<W> {
    /// The registers kept at position `k`, none where there is no level.
    ///
    /// # Panics
    ///
    /// If `k` is at the end or beyond.
    pub fn at(&self, k: usize) -> &[u16] { &self.list[self.offsets[k] as usize..self.offsets[k + 1] as usize] }

    /// The levels, in order, those that keep nothing too.
    pub fn levels(&self) -> impl Iterator<Item = Level<'_>> { self.places.iter().map(|place| place.level(self.at(place.at()))) }

    /// The level at position `k`, none if it is no level.
    pub fn level(&self, k: usize) -> Option<Level<'_>> {
        let place = self.places.binary_search_by_key(&k, level::Place::at).ok()?;
        Some(self.places[place].level(self.at(k)))
    }

    /// The row of position `k`, the registers needed before it, a bit each. Without the wide route, and with at most as many registers as a word
    /// has bits, rows before the first level may be left empty.
    ///
    /// # Panics
    ///
    /// If `k` is past the end.
    pub fn row(&self, k: usize) -> &[W] { &self.rows[k * self.words..][..self.words] }

    /// Whether register `r` is in the row of position `k`. A register that is not below the count is in none.
    ///
    /// # Panics
    ///
    /// If `k` is past the end.
    pub fn needed(&self, k: usize, r: u16) -> bool {
        let (bits, r) = (8 * size_of::<W>(), usize::from(r));
        self.row(k).get(r / bits).is_some_and(|&w| w.into() >> (r % bits) & 1 != 0)
    }
}

/// One of the kept-register calls.
type Keep<W> = fn(&[u16], usize, &[u32], bool, &mut [W], &mut [u32], &mut [u16]) -> Answer;

/// Asks it with rows of so many words, and again with a longer list if it says that one is needed.
fn found<W: Copy + Default>(
    keep: Keep<W>, words: usize, ins: &(impl Code + ?Sized), regs: usize, tries: &[(usize, usize)], wide: bool,
) -> Result<Kept<W>, Refusal> {
    let (code, tries, n) = (ins.words(), lent(tries), length(ins));
    // Long enough at 64 registers whatever is kept: most of it is never touched, and where a list is short the whole call is made once more.
    let (mut rows, mut offsets, mut list) = (vec![W::default(); n * words], vec![0; n], vec![0; n * regs.clamp(4, 64)]);
    loop {
        match keep(code, regs, &tries, wide, &mut rows, &mut offsets, &mut list).granted() {
            Err(Refusal::Buffer { buffer: 3, needed }) => list.resize(needed as usize, 0),
            Err(refusal) => return Err(refusal),
            Ok(answer) => {
                list.truncate(answer.first as usize);
                return Ok(Kept { rows, words, list, offsets, full: answer.second, abandoned: answer.third, places: level::places(code)? });
            }
        }
    }
}

/// The registers kept at each level of a code with `regs` registers; `wide` forces the wide route, which starts at 0.
///
/// The loop of P5 in document 01, whose first sweep is abandoned:
///
/// ```
/// use turniploom::{Lowered, kept, marked, op::*};
/// let p5 = [
///     Lowered::new(Move, 1, 0, 0, 0),
///     Lowered::new(LenR, 2, 1, 0, 0),
///     Lowered::new(JumpIfFalseR, 4, 1, 0, 0),
///     Lowered::new(Jump, 0, 0, 0, 0),
///     Lowered::new(ReturnR, 0, 2, 0, 0),
/// ];
/// let found = kept(&marked(&p5, |_| false), 3, &[], false)?;
/// assert_eq!((&found.rows[..], found.full, found.abandoned), (&[1, 3, 7, 1, 4, 0][..], 3, 1));
/// assert_eq!(found.at(2), [0, 1, 2]);
/// assert_eq!(found.levels().map(|level| (level.at(), level.kept())).collect::<Vec<_>>(), [(2, &[0, 1, 2][..])]);
/// assert!(found.needed(2, 2) && !found.needed(3, 2) && found.row(3) == [1]);
/// # Ok::<(), turniploom::Refusal>(())
/// ```
///
/// # Errors
///
/// [`Refusal::Code`] or [`Refusal::Record`] for bad code, [`Refusal::Registers`] for more than 1,024 registers, [`Refusal::Try`] for a bad try.
pub fn kept(ins: &(impl Code + ?Sized), regs: usize, tries: &[(usize, usize)], wide: bool) -> Result<Kept, Refusal> {
    found(abi::kept, abi::row_words(regs.min(1_024)), ins, regs, tries, wide)
}

/// [`kept`] with rows of 32 bits, for a reader that knows no wider words: the same lists. More than 32 registers take the wide route, so the
/// rows before the first level and the counts of sweeps may differ.
///
/// A jump to itself before the only level, which the wide route sweeps too:
///
/// ```
/// use turniploom::{Lowered, kept, kept32, marked, most_sweeps, op::*};
/// let code = marked(&[Lowered::new(Jump, 0, 0, 0, 0), Lowered::new(GetAttrR, 0, 0, 0, 0)], |_| false);
/// let (by_64, by_32) = (kept(&code, 33, &[], false)?, kept32(&code, 33, &[], false)?);
/// assert_eq!((&by_64.rows[..], &by_32.rows[..]), (&[0, 1, 0][..], &[0, 0, 1, 0, 0, 0][..]));
/// assert_eq!((by_64.full, by_32.full, most_sweeps(&code)?), (1, 2, 3));
/// assert_eq!((by_64.list, by_64.offsets), (by_32.list, by_32.offsets));
/// # Ok::<(), turniploom::Refusal>(())
/// ```
///
/// # Errors
///
/// As [`kept`].
pub fn kept32(ins: &(impl Code + ?Sized), regs: usize, tries: &[(usize, usize)], wide: bool) -> Result<Kept<u32>, Refusal> {
    found(abi::kept32, abi::row_words32(regs.min(1_024)), ins, regs, tries, wide)
}

/// [`kept`] for a host whose calls may raise: a register that only a handler further on reads is kept at every level from which its exception may
/// come, so that it is still there though a call before the try was free to overwrite it. Levels may raise; with `all`, which is what Python does, any
/// instruction. Each list has what [`kept`]'s has, and [`exposed`] tells what it has besides. Rows are found from where [`kept`]'s are.
///
/// The call at 2 may overwrite r5, the call at 6 raises, and the handler at 9 reads r5:
///
/// ```
/// use turniploom::{Lowered, exposed, kept, kept_raising, marked, op::*};
/// let body = [
///     Lowered::new(LoadGlobalR, 5, 1, 0, 0),
///     Lowered::new(LoadGlobalR, 4, 9, 0, 0),
///     Lowered::new(CallR, 4, 0, 0, 1),
///     Lowered::new(StoreTopR, 1, 0, 0, 0),
///     Lowered::new(LoadGlobalR, 4, 9, 0, 0),
///     Lowered::new(SetupExcept, 9, 0, 0, 0),
///     Lowered::new(CallR, 4, 1, 0, 1),
///     Lowered::new(StoreTopR, 2, 0, 0, 0),
///     Lowered::new(ReturnR, 0, 2, 0, 0),
///     Lowered::new(ReturnR, 0, 5, 0, 0),
/// ];
/// let (body, tries) = (marked(&body, |_| false), [(5, 9)]);
/// let (plain, safe) = (kept(&body, 6, &tries, false)?, kept_raising(&body, 6, &tries, false)?);
/// assert_eq!((plain.at(2), plain.at(6)), (&[][..], &[5][..]));
/// assert_eq!((safe.at(2), safe.at(6)), (&[5][..], &[5][..]));
/// assert_eq!(exposed(&plain, &safe), [(2, vec![5])]);
/// # Ok::<(), turniploom::Refusal>(())
/// ```
///
/// # Errors
///
/// As [`kept`].
pub fn kept_raising(ins: &(impl Code + ?Sized), regs: usize, tries: &[(usize, usize)], all: bool) -> Result<Kept, Refusal> {
    found(abi::kept_raising, abi::row_words(regs.min(1_024)), ins, regs, tries, all)
}

/// The registers that a later exception needs and the plain lists do not keep: each level of `plain`, by [`kept`] or [`kept32`], that has such, with
/// what `raising`, by [`kept_raising`], keeps there besides. Of the same code, registers and tries, each is exposed in truth, and where there are none
/// the plain lists are enough; of two that have nothing to do with each other it tells nothing.
pub fn exposed<V, W>(plain: &Kept<V>, raising: &Kept<W>) -> Vec<(usize, Vec<u16>)>
where V: Copy + Into<u64>, W: Copy + Into<u64> {
    let more = |k: usize, list: &[u16]| {
        let mut out = vec![0; list.len()];
        let many = abi::exposed(plain.level(k).map_or(&[], |level| level.kept()), list, &mut out).first;
        out.truncate(many as usize);
        out
    };
    raising.levels().map(|level| (level.at(), more(level.at(), level.kept()))).filter(|(_, out)| !out.is_empty()).collect()
}

/// The most full sweeps that [`kept`], [`kept32`] and [`kept_raising`] make of this code, whatever its registers, tries and route: as many as it has jumps to
/// their own position or back, and two. At most one more is abandoned. It is known before the call, for a progress bar.
///
/// The loop of P5 in document 01 has one such jump, and needs them all:
///
/// ```
/// use turniploom::{Lowered, kept, marked, most_sweeps, op::*};
/// let p5 = [
///     Lowered::new(Move, 1, 0, 0, 0),
///     Lowered::new(LenR, 2, 1, 0, 0),
///     Lowered::new(JumpIfFalseR, 4, 1, 0, 0),
///     Lowered::new(Jump, 0, 0, 0, 0),
///     Lowered::new(ReturnR, 0, 2, 0, 0),
/// ];
/// let p5 = marked(&p5, |_| false);
/// assert_eq!((most_sweeps(&p5)?, kept(&p5, 3, &[], false)?.full), (3, 3));
/// # Ok::<(), turniploom::Refusal>(())
/// ```
///
/// # Errors
///
/// [`Refusal::Code`] or [`Refusal::Record`] for bad code.
pub fn most_sweeps(ins: &(impl Code + ?Sized)) -> Result<u64, Refusal> {
    // Any call that tests the whole code; then each instruction is asked about by itself, since every call tests all that it is lent.
    guarded(ins)?;
    let jumps = |i: &Ins| Ok(kinds(&around(i), 1)? & 16 != 0);
    let mut most = 2;
    for (k, w) in ins.words().chunks_exact(6).enumerate() {
        let i = Ins::of([w[0], w[1], w[2], w[3], w[4], w[5]]);
        most += u64::from(usize::from(i.a) <= k && jumps(&i)?);
    }
    Ok(most)
}

/// For each position, the registers that a call coming back into a level there must keep.
///
/// Code K of document 01 (P1, P2): the call at 2 keeps register 0, and with a try around it what the handler reads as well.
///
/// ```
/// use turniploom::{Lowered, Refusal, live_across, marked, op::*};
/// let k = [
///     Lowered::new(LoadGlobalR, 0, 7, 0, 0),
///     Lowered::new(LoadGlobalR, 1, 9, 0, 0),
///     Lowered::new(CallR, 1, 0, 0, 0),
///     Lowered::new(StoreTopR, 2, 0, 0, 0),
///     Lowered::new(AddR, 3, 0, 2, 0),
///     Lowered::new(ReturnR, 0, 3, 0, 0),
/// ];
/// let k = marked(&k, |_| false);
/// assert_eq!(live_across(&k, 4, &[])?[2], [0]);
/// assert_eq!(live_across(&k, 4, &[(1, 5)])?[2], [0, 3]);
/// assert_eq!(live_across(&k, 4, &[(3, 2)]), Err(Refusal::Try { index: 0 }));
/// # Ok::<(), Refusal>(())
/// ```
///
/// # Errors
///
/// [`Refusal::Code`] or [`Refusal::Record`] for bad code, [`Refusal::Registers`] for more than 1,024 registers, [`Refusal::Try`] for a bad try.
pub fn live_across(ins: &(impl Code + ?Sized), regs: usize, tries: &[(usize, usize)]) -> Result<Vec<Vec<u16>>, Refusal> {
    let kept = kept(ins, regs, tries, false)?;
    Ok((0..kept.offsets.len() - 1).map(|k| kept.at(k).to_vec()).collect())
}
