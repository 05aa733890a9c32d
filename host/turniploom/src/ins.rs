//! Instructions of block.rs and their marks.

use crate::{Op, abi, op::ArgsR};
use alloc::vec::Vec;
use core::fmt;

/// The mark of a wide call, whose further arguments stand in the ArgsR after it: the Rust's `lower::wide`.
pub const WIDE: u16 = 1;
/// The mark of an opcode that a dunder may run: the Rust's `lower::dunder_op`.
pub const DUNDER: u16 = 2;
/// The mark of a register form: the Rust's `is_register`.
pub const REGISTER: u16 = 4;

/// A lowered instruction as the Rust has it, without its marks. [`marked`] makes code of it.
///
/// A host that has the Rust's own instructions says once how they read, and hands its slices to [`marked`]:
///
/// ```
/// use turniploom::{Lowered, Op, live_across, marked};
///
/// # mod lower {
/// #     #[derive(Clone, Copy, Debug, PartialEq)]
/// #     pub enum OpCode { CallR, ArgsR, StoreTopR, AddR, GetItemR, ReturnR, Nop }
/// #     #[derive(Clone, Copy)]
/// #     pub struct Ins { pub op: OpCode, pub a: u16, pub b: u16, pub c: u16, pub x: u8 }
/// #     pub fn dunder_op(op: OpCode) -> bool { op == OpCode::GetItemR }
/// # }
/// # use lower::OpCode::*;
/// impl From<lower::Ins> for Lowered {
///     fn from(i: lower::Ins) -> Lowered {
///         let op = Op::named(&format!("{:?}", i.op)).unwrap_or(Op::OTHER);
///         Lowered::new(op, i.a, i.b, i.c, i.x)
///     }
/// }
///
/// # let ins = |op, a, b, c, x| lower::Ins { op, a, b, c, x };
/// # let body = [ins(CallR, 5, 0, 1, 5), ins(ArgsR, 9, 2, 3, 0), ins(StoreTopR, 6, 0, 0, 0), ins(AddR, 7, 6, 9, 0), ins(ReturnR, 0, 7, 0, 0)];
/// let code = marked(&body, |i| lower::dunder_op(i.op));
/// assert_eq!(live_across(&code, 10, &[])?[0], [9]);
/// # Ok::<(), turniploom::Refusal>(())
/// ```
#[derive(Clone, Copy, Debug, PartialEq, Eq, Hash)]
pub struct Lowered {
    /// The opcode.
    pub op: Op,
    /// The first field.
    pub a: u16,
    /// The second field.
    pub b: u16,
    /// The third field.
    pub c: u16,
    /// The count or variant.
    pub x: u8,
}

impl Lowered {
    /// An instruction.
    pub const fn new(op: Op, a: u16, b: u16, c: u16, x: u8) -> Lowered { Lowered { op, a, b, c, x } }
}

/// Code with its marks: `register` by the opcode, `wide` on one of the four calls right before an ArgsR, and `dunder` where the host's
/// own `dunder_op` says so.
///
/// Answers hang on the marks. Without `wide` a call seems to resume at its ArgsR, and a register that it must keep is lost; without
/// `dunder` an instruction that may call back into the body is no level, and keeps nothing at all.
///
/// ```
/// use turniploom::{Ins, Lowered, live_across, marked, op::*};
/// let plain = [
///     Lowered::new(CallR, 5, 0, 1, 5),
///     Lowered::new(ArgsR, 9, 2, 3, 0),
///     Lowered::new(StoreTopR, 6, 0, 0, 0),
///     Lowered::new(AddR, 7, 6, 9, 0),
///     Lowered::new(ReturnR, 0, 7, 0, 0),
/// ];
/// let code = marked(&plain, |i| i.op == GetItemR);
/// assert_eq!(live_across(&code, 10, &[])?[0], [9]);
///
/// // The same with no mark, by the constructor that says so.
/// let unmarked = plain.map(|i| Ins::unmarked(i.op, i.a, i.b, i.c, i.x));
/// assert_ne!(live_across(&unmarked, 10, &[])?[0], [9]);
/// # Ok::<(), turniploom::Refusal>(())
/// ```
pub fn marked<I: Clone + Into<Lowered>>(code: &[I], dunder_op: impl Fn(&I) -> bool) -> Vec<Ins> {
    let plain: Vec<Lowered> = code.iter().map(|i| i.clone().into()).collect();
    let args_follow = |k: usize| plain.get(k + 1).is_some_and(|next| next.op == ArgsR);
    let marks = |k: usize| {
        let Lowered { op, .. } = plain[k];
        let wide = op.is_call() && args_follow(k);
        u16::from(wide) * WIDE + u16::from(dunder_op(&code[k])) * DUNDER + u16::from(op.is_register()) * REGISTER
    };
    plain.iter().enumerate().map(|(k, &Lowered { op, a, b, c, x })| Ins { op, marks: marks(k), a, b, c, x: x.into() }).collect()
}

/// An instruction with its marks: six words of lent code. [`marked`] makes them.
#[repr(C)]
#[derive(Clone, Copy, Default, PartialEq, Eq, Hash)]
pub struct Ins {
    /// The opcode.
    pub op: Op,
    /// The marks [`WIDE`], [`DUNDER`] and [`REGISTER`].
    pub marks: u16,
    /// The first field.
    pub a: u16,
    /// The second field.
    pub b: u16,
    /// The third field.
    pub c: u16,
    /// The count or variant, at most 255.
    pub x: u16,
}

impl Ins {
    /// An instruction that has no mark, whatever the Rust's tests say of it. Answers hang on the marks: see [`marked`].
    pub const fn unmarked(op: Op, a: u16, b: u16, c: u16, x: u8) -> Ins { Ins { op, marks: 0, a, b, c, x: x as u16 } }

    /// The instruction of six words.
    pub const fn of([op, marks, a, b, c, x]: [u16; 6]) -> Ins { Ins { op: Op(op), marks, a, b, c, x } }

    /// The same instruction with more marks.
    pub const fn with(self, marks: u16) -> Ins { Ins { marks: self.marks | marks, ..self } }

    /// Whether it has the mark [`WIDE`].
    pub const fn wide(&self) -> bool { self.marks & WIDE != 0 }
}

/// As document 01 writes it: `AddR a3 b0 c2`, then its marks.
impl fmt::Debug for Ins {
    fn fmt(&self, f: &mut fmt::Formatter<'_>) -> fmt::Result {
        let Ins { op, marks, a, b, c, x } = self;
        write!(f, "{op} a{a} b{b} c{c} x{x}")?;
        for (mark, word) in [(WIDE, "wide"), (DUNDER, "dunder"), (REGISTER, "register")] { if marks & mark != 0 { write!(f, " {word}")? } }
        if marks & !(WIDE | DUNDER | REGISTER) != 0 { write!(f, " m{marks}")? }
        Ok(())
    }
}

/// Lent code: a slice of instructions with their marks, or of their words, marks among them.
pub trait Code {
    /// The words, six for each instruction.
    fn words(&self) -> &[u16];
}

impl Code for [u16] {
    fn words(&self) -> &[u16] { self }
}

impl Code for [Ins] {
    fn words(&self) -> &[u16] { abi::words(self) }
}

impl<T> Code for Vec<T> where [T]: Code {
    fn words(&self) -> &[u16] { self.as_slice().words() }
}

impl<T, const N: usize> Code for [T; N] where [T]: Code {
    fn words(&self) -> &[u16] { self.as_slice().words() }
}
