//! block.rs's own signatures, so that a host which has `mod block` swaps it for this one by changing imports.
//!
//! Each function panics on what document 01 refuses; the functions of the same name at the crate's root answer a `Result`.
//! Code has its marks, as [`marked`](crate::marked) sets them. An instruction that is asked about by itself is asked about as part of a code that holds it.
//!
//! ```
//! use turniploom::{Lowered, block, marked, op::*};
//! let add = marked(&[Lowered::new(AddR, 3, 0, 2, 0)], |_| false)[0];
//! assert_eq!(block::role(&add), Some((true, &[1, 2][..], false)));
//! ```

use crate::{Ins, Refusal, op};
use alloc::vec::Vec;

#[track_caller]
fn granted<T>(answer: Result<T, Refusal>) -> T { answer.unwrap_or_else(|refusal| panic!("turniploom: {refusal}")) }

/// A code that holds an instruction at 1: something before an ArgsR, and an ArgsR after a wide call.
pub(crate) fn around(i: &Ins) -> [Ins; 3] { [Ins::default(), *i, Ins { op: op::ArgsR, ..Ins::default() }] }

/// Functions that the crate's root has with the same parameters, and those about one instruction by itself.
macro_rules! calls {
    ($($(#[$doc:meta])* $name:ident($($arg:ident: $of:ty),*) -> $out:ty = $body:expr;)*) => { $(
        $(#[$doc])*
        ///
        /// # Panics
        ///
        /// On what document 01 refuses.
        #[track_caller]
        pub fn $name($($arg: $of),*) -> $out { granted($body) }
    )* };
}

calls! {
    /// The role of an instruction, none if it has none.
    role(ins: &Ins) -> Option<crate::Role> = crate::role(&around(ins), 1);
    /// `role` as bits: 1 writes `a`; 2, 4, 8 reads `a`, `b`, `c`; 16 jumps to `a`; 32 none.
    kinds(ins: &Ins) -> u8 = crate::kinds(&around(ins), 1);
    /// A field of an instruction: `a` for 0, `b` for 1, else `c`.
    field(i: &Ins, f: u8) -> u16 = crate::field(&around(i), 1, f);
    /// Whether an instruction writes register `r`.
    writes(i: &Ins, r: u16) -> bool = crate::writes(&around(i), 1, r);
    /// Whether code may be laid as a section.
    pure(ins: &[Ins]) -> bool = crate::pure(ins);
    /// Whether a generator's body may be laid as the section that a `for` steps.
    gen_pure(ins: &[Ins]) -> bool = crate::gen_pure(ins);
    /// Whether code has a `try` or a `with`.
    guarded(ins: &[Ins]) -> bool = crate::guarded(ins);
    /// Whether the slot `r` that the Phi at `k` writes is read on no path from it before a write.
    dead_phi(ins: &[Ins], k: usize, r: u16) -> bool = crate::dead_phi(ins, k, r);
    /// Whether laid code leaves nothing of its own on the stack between instructions.
    flat(ins: &[Ins]) -> bool = crate::flat(ins);
    /// For each position and the end, how many `for` loops it lies inside.
    loops_around(ins: &[Ins]) -> Vec<usize> = crate::loops_around(ins);
    /// Whether the PushRegs at `k` pushes the value that a ReturnValue returns.
    returns(ins: &[Ins], k: usize) -> bool = crate::returns(ins, k);
    /// The PushRegs that pushed the value which the StoreTopR at `d` takes back into `r` past a call.
    pushed_back(ins: &[Ins], d: usize, r: u16) -> Option<usize> = crate::pushed_back(ins, d, r);
    /// For each position, the registers that a call coming back into a level there must keep.
    live_across(ins: &[Ins], regs: usize, tries: &[(usize, usize)]) -> Vec<Vec<u16>> = crate::live_across(ins, regs, tries);
    /// The parameters, the first `arity` registers, that some instruction writes, a bit each for the first 64.
    params_written(ins: &[Ins], arity: usize) -> u64 = crate::params_written(ins, arity);
    /// Which positions a jump or the handler of one of `tries` lands on, the end too.
    targets(ins: &[Ins], tries: &[(usize, usize)]) -> Vec<bool> = crate::targets(ins, tries);
    /// For the call at `j`, the parameters that it passes on as they are, a bit each.
    passed(ins: &[Ins], j: usize, arity: usize) -> u64 = crate::passed(ins, j, arity);
    /// For the stack call at `j` of `n` positionals, the PushRegs that pushed its function, and the register.
    stack_callee(ins: &[Ins], j: usize, n: usize) -> Option<(usize, u16)> =
        crate::stack_callee(ins, j, n.try_into().expect("at most 65,535 positionals"));
}

/// The module binding that `call`, seen from `j`, calls.
///
/// # Panics
///
/// On what document 01 refuses.
#[track_caller]
pub fn global_of(ins: &[Ins], j: usize, call: Ins) -> Option<u16> {
    if ins.get(j) == Some(&call) { return granted(crate::global_of(ins, j)) }
    let mut seen = ins.to_vec();
    if let Some(i) = seen.get_mut(j) { *i = call }
    granted(crate::global_of(&seen, j))
}
