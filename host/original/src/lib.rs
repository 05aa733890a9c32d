//! The commit's own block.rs and optimizer.rs, read unchanged where they stand. What they lean on is cut word for word
//! from the commit's other files by build.rs; the shims below stand for what those files lean on in turn.
#![allow(dead_code, clippy::all)]

extern crate alloc;

/// `OpCode`, `Instruction`, `Value` and `SSAChunk`, cut from parser/types.rs.
pub mod parser {
    use crate::shims::{Diagnostic, ExternFn, HashMap, ImportEntry, hashbrown};
    use alloc::{string::String, vec::Vec};
    include!(concat!(env!("OUT_DIR"), "/parser.rs"));
}

/// `Val`, cut from value/mod.rs, and `int_divmod`, cut from value/math.rs.
pub mod value {
    use crate::shims::nan_box::*;
    include!(concat!(env!("OUT_DIR"), "/value.rs"));
}

/// optimizer.rs.
pub mod optimizer {
    include!(env!("OPTIMIZER_RS"));
}

/// block.rs beside a shim of `lower`.
pub mod vm {
    /// The two tests and the instruction that block.rs takes from a file that is not given.
    pub mod lower {
        use crate::parser::OpCode;
        use core::cell::Cell;

        /// A lowered instruction. `wide` is the lent mark.
        #[derive(Clone, Copy, Debug)]
        pub struct Ins { pub op: OpCode, pub a: u16, pub b: u16, pub c: u16, pub x: u8, pub wide: bool }

        thread_local! {
            /// The opcodes a dunder may run, a bit each, set by the harness before a call.
            static DUNDER: Cell<[u64; 4]> = const { Cell::new([0; 4]) };
        }

        /// Sets the opcodes for which `dunder_op` holds.
        pub fn set_dunder_ops(set: [u64; 4]) { DUNDER.set(set) }

        pub(crate) fn wide(i: Ins) -> bool { i.wide }

        pub(crate) fn dunder_op(op: OpCode) -> bool { DUNDER.get()[op as usize / 64] >> (op as usize % 64) & 1 != 0 }
    }

    /// block.rs, and a door to what it keeps to itself.
    pub mod block {
        include!(env!("BLOCK_RS"));

        /// Each function of block.rs that the port has, under its own name.
        pub mod open {
            use super::super::lower::Ins;

            macro_rules! open {
                ($($name:ident($($arg:ident: $of:ty),*) -> $out:ty;)*) => { $(
                    pub fn $name($($arg: $of),*) -> $out { super::$name($($arg),*) }
                )* };
            }

            open! {
                kinds(ins: &Ins) -> u8;
                role(ins: &Ins) -> Option<(bool, &'static [u8], bool)>;
                field(i: &Ins, f: u8) -> u16;
                writes(i: &Ins, r: u16) -> bool;
                pure(ins: &[Ins]) -> bool;
                flat(ins: &[Ins]) -> bool;
                guarded(ins: &[Ins]) -> bool;
                returns(ins: &[Ins], k: usize) -> bool;
                params_written(ins: &[Ins], arity: usize) -> u64;
                passed(ins: &[Ins], j: usize, arity: usize) -> u64;
                gen_pure(ins: &[Ins]) -> bool;
                dead_phi(ins: &[Ins], k: usize, r: u16) -> bool;
                loops_around(ins: &[Ins]) -> Vec<usize>;
                targets(ins: &[Ins], tries: &[(usize, usize)]) -> Vec<bool>;
                global_of(ins: &[Ins], j: usize, call: Ins) -> Option<u16>;
                pushed_back(ins: &[Ins], d: usize, r: u16) -> Option<usize>;
                stack_callee(ins: &[Ins], j: usize, n: usize) -> Option<(usize, u16)>;
                live_across(ins: &[Ins], regs: usize, tries: &[(usize, usize)]) -> Vec<Vec<u16>>;
                live_rows(ins: &[Ins], regs: usize, from: usize) -> Vec<u64>;
                first_read(ins: &[Ins], tries: &[(usize, usize)]) -> usize;
                level_at(i: &Ins) -> bool;
                after(ins: &[Ins], k: usize) -> (usize, Option<u16>);
            }
        }
    }
}

/// The text of block.rs and of optimizer.rs.
pub const TEXT: [&str; 2] = [include_str!(env!("BLOCK_RS")), include_str!(env!("OPTIMIZER_RS"))];

/// Types that the cut items name and that no call here looks into, and the tags of `Val`, any that fit `impl Val`.
mod shims {
    pub mod nan_box {
        pub const QNAN: u64 = 0x7FFC_0000_0000_0000;
        pub const SIGN: u64 = 1 << 63;
        pub const TAG_UNDEF: u64 = QNAN;
        pub const TAG_NONE: u64 = QNAN | 1;
        pub const TAG_TRUE: u64 = QNAN | 2;
        pub const TAG_FALSE: u64 = QNAN | 3;
        pub const TAG_HEAP: u64 = QNAN | 4;
        pub const TAG_FOREIGN: u64 = 0x7FFD_0000_0000_0000;
        pub const TAG_INT: u64 = QNAN | SIGN;
        pub const INT_PAYLOAD_MASK: u64 = 0x0000_FFFF_FFFF_FFFF;
    }

    pub mod hashbrown {
        #[derive(Clone)]
        pub struct HashTable<T>(core::marker::PhantomData<T>);
        impl<T> Default for HashTable<T> { fn default() -> Self { Self(core::marker::PhantomData) } }
    }

    pub type HashMap<K, V> = std::collections::BTreeMap<K, V>;
    #[derive(Clone)]
    pub struct Diagnostic;
    #[derive(Clone)]
    pub struct ExternFn;
    #[derive(Clone)]
    pub struct ImportEntry;
    #[derive(Debug, Clone, PartialEq)]
    pub struct BigInt;
}

mod frontend {
    pub mod bigint { pub use crate::shims::BigInt; }
}
