//! The frame saver: what a level keeps is put aside as a call is entered, and put back as it is left.

use crate::{Level, Refusal, abi};
use alloc::{boxed::Box, vec};

/// The words of the save area.
const AREA: usize = 4_096;

/// A saver's words: the number of registers and the words in use, the save area, the registers.
struct Words {
    head: [u64; 2],
    area: Box<[u64; AREA]>,
    file: [u64; 64],
}

impl Words {
    /// No register, and nothing in use; the area goes to the heap at once, past a small stack.
    fn empty() -> Box<Words> {
        let area = vec![0; AREA].into_boxed_slice().try_into().expect("as many words");
        Box::new(Words { head: [0; 2], area, file: [0; 64] })
    }
}

enum Held<'a> {
    Own(Box<Words>),
    Lent(&'a mut Words),
}

/// A file of registers for bodies that call one another, with a save area of 4,096 words.
///
/// [`enter`](Saver::enter) puts aside what a level keeps and hands out a saver for the call: the same registers, for it to overwrite as it
/// likes. It ends with [`leave`](Saver::leave), [`raise`](Saver::raise) or, if it is dropped, as by `raise`; every kept register is then as it was.
/// While the call's saver is there its caller's can't be touched, so calls are left in the order in which they must be.
///
/// A host that keeps its calls on a stack of its own lends three arrays to [`abi::saver_enter`] and its sisters.
///
/// ```
/// use turniploom::{Lowered, Refusal, Saver, kept, marked, op::*};
/// // r0 + what the call says.
/// let body = [Lowered::new(CallR, 1, 0, 0, 0), Lowered::new(StoreTopR, 2, 0, 0, 0), Lowered::new(AddR, 3, 0, 2, 0), Lowered::new(ReturnR, 0, 3, 0, 0)];
/// let found = kept(&marked(&body, |_| false), 4, &[], false)?;
/// let level = found.level(0).unwrap();
///
/// let mut saver = Saver::new(4)?;
/// saver.registers_mut().copy_from_slice(&[30, 31, 32, 33]);
/// let mut call = saver.enter(level)?;
/// call.registers_mut().fill(0);
/// call.leave(7)?;
/// assert_eq!((saver.registers()[0], saver.registers()[2], level.resume()), (30, 7, 1));
///
/// drop(saver.enter(level)?);
/// assert_eq!(saver.free(), 4_096);
/// assert_eq!(saver.leave(7), Err(Refusal::Nothing));
/// # Ok::<(), Refusal>(())
/// ```
///
/// The caller's saver can't be touched while its call is open:
///
/// ```compile_fail,E0499
/// # fn open(saver: &mut turniploom::Saver<'_>, level: turniploom::Level<'_>) -> Result<(), turniploom::Refusal> {
/// let call = saver.enter(level)?;
/// saver.registers_mut()[0] = 7;
/// call.leave(7)
/// # }
/// ```
pub struct Saver<'a> {
    held: Held<'a>,
    /// The words in use once its call was entered; none for the outermost.
    entered: Option<u64>,
}

impl Saver<'static> {
    /// A saver of `regs` registers, all 0, with nothing saved.
    ///
    /// # Errors
    ///
    /// [`Refusal::Registers`] for more than 64.
    pub fn new(regs: usize) -> Result<Saver<'static>, Refusal> {
        let mut words = Words::empty();
        abi::saver_make(&mut words.head, regs).granted()?;
        Ok(Saver { held: Held::Own(words), entered: None })
    }
}

impl Saver<'_> {
    const fn words(&self) -> &Words {
        match &self.held {
            Held::Own(words) => words,
            Held::Lent(words) => words,
        }
    }

    const fn words_mut(&mut self) -> &mut Words {
        match &mut self.held {
            Held::Own(words) => words,
            Held::Lent(words) => words,
        }
    }

    /// The registers.
    pub fn registers(&self) -> &[u64] { &self.words().file[..self.words().head[0] as usize] }

    /// The registers, to be written as the host likes.
    pub fn registers_mut(&mut self) -> &mut [u64] {
        let Words { head, file, .. } = self.words_mut();
        &mut file[..head[0] as usize]
    }

    /// The free words of the save area. A level takes [`Level::words`] of them.
    pub const fn free(&self) -> usize { AREA - self.words().head[1] as usize }

    /// Puts aside what the level keeps, and gives a saver for the call. Nothing changes if it is refused.
    ///
    /// # Errors
    ///
    /// [`Refusal::Room`] if the save area has no room, [`Refusal::Listed`] if the level keeps a register that is not in this file, which no
    /// level of a body with at most as many registers does.
    pub fn enter(&mut self, level: Level<'_>) -> Result<Saver<'_>, Refusal> {
        let words = self.words_mut();
        let Words { head, area, file } = words;
        let used = abi::saver_enter(head, area, file, level.kept(), level.result().map_or(65_536, u64::from)).granted()?.first;
        Ok(Saver { held: Held::Lent(words), entered: Some(used) })
    }

    /// Ends the call by a return: every register that its level keeps is as it was, and the result register, if there is one, has the value.
    ///
    /// # Errors
    ///
    /// [`Refusal::Nothing`] for the outermost saver, which is in no call.
    pub fn leave(mut self, value: u64) -> Result<(), Refusal> { self.close(Some(value)) }

    /// Ends the call by an exception: every register that its level keeps is as it was.
    ///
    /// # Errors
    ///
    /// [`Refusal::Nothing`] for the outermost saver, which is in no call.
    pub fn raise(mut self) -> Result<(), Refusal> { self.close(None) }

    fn close(&mut self, value: Option<u64>) -> Result<(), Refusal> {
        let used = self.entered.take().ok_or(Refusal::Nothing)?;
        let Words { head, area, file } = self.words_mut();
        // A call within it whose saver was forgotten, and so never left, is left first.
        while head[1] > used { abi::saver_exception(head, area, file).granted()?; }
        match value {
            Some(value) => abi::saver_return(head, area, file, value),
            None => abi::saver_exception(head, area, file),
        }.granted().map(drop)
    }
}

impl Drop for Saver<'_> {
    fn drop(&mut self) { if self.entered.is_some() { let _ = self.close(None); } }
}
