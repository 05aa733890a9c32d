//! The exported calls over the caller's own slices: nothing is allocated, and this is the one place with `unsafe`.
//!
//! [`CALLS`] is the table of all calls, for those who go through every one: tests, and hosts that load by name.

use crate::Ins;

/// What every exported call returns, by value.
#[repr(C)]
#[derive(Clone, Copy, Debug, Default, PartialEq, Eq)]
pub struct Answer {
    /// 0 for an answer, else the number of the refusal.
    pub refusal: u8,
    /// The first value of the answer or refusal. A value that is not used is 0.
    pub first: u64,
    /// The second value.
    pub second: u64,
    /// The third value.
    pub third: u64,
    /// The fourth value.
    pub fourth: u64,
}

/// Where the archive is that this crate was built with, a copy in the build's own folder.
#[doc(hidden)]
pub const ARCHIVE: &str = env!("TURNIPLOOM_ARCHIVE");

/// The words of a row: `max(1, registers / 64 rounded up)`.
pub const fn row_words(regs: usize) -> usize { if regs == 0 { 1 } else { regs.div_ceil(64) } }

/// The words of a row of 32 bits each, which [`kept32`] writes: `max(1, registers / 32 rounded up)`.
pub const fn row_words32(regs: usize) -> usize { if regs == 0 { 1 } else { regs.div_ceil(32) } }

/// The words of an instruction of a chunk: opcode, marks, operand, origin.
pub const CHUNK_WORDS: usize = 4;

/// The words of a slice of instructions, six each.
pub fn words(code: &[Ins]) -> &[u16] {
    // SAFETY: `Ins` is `repr(C)` and six `u16`, so it has their size and alignment and no padding.
    unsafe { core::slice::from_raw_parts(code.as_ptr().cast(), code.len() * 6) }
}

/// An exported call.
#[derive(Clone, Copy, Debug)]
#[non_exhaustive]
pub struct Call {
    /// Its name; the archive has it as `turniploom_NAME`.
    pub name: &'static str,
    /// What it is and what its buffers need, a line each.
    pub says: &'static [&'static str],
    /// Its parameters, in order.
    pub params: &'static [Param],
    /// What the used ones of first to fourth are.
    pub answer: &'static [(&'static str, &'static str)],
    /// Asks it with these arguments, in order. It panics if their number or one of their kinds is another.
    pub ask: fn(&mut [Arg<'_>]) -> Answer,
}

/// A parameter.
#[derive(Clone, Copy, Debug, PartialEq, Eq)]
#[non_exhaustive]
pub struct Param {
    /// Its name.
    pub name: &'static str,
    /// What it takes.
    pub kind: Kind,
}

/// What a parameter takes.
#[derive(Clone, Copy, Debug, PartialEq, Eq)]
#[non_exhaustive]
pub enum Kind {
    /// A truth value.
    Bool,
    /// A number of 8 bits.
    U8,
    /// A number of 16 bits.
    U16,
    /// A number of 64 bits.
    U64,
    /// A number as wide as a pointer.
    Size,
    /// A slice that is read.
    Slice(Width),
    /// A slice that is lent to be written.
    Buffer(Width),
    /// So many words of 64 bits that are read; C passes one pointer.
    Array(usize),
    /// So many words of 64 bits that are lent to be written; C passes one pointer.
    ArrayBuffer(usize),
}

impl Kind {
    /// Whether the parameter is lent to be written.
    pub const fn is_lent(self) -> bool { matches!(self, Kind::Buffer(_) | Kind::ArrayBuffer(_)) }

    /// How many words an array has, whose length is fixed.
    pub const fn fixed(self) -> Option<usize> { if let Kind::Array(n) | Kind::ArrayBuffer(n) = self { Some(n) } else { None } }

    /// The width of the elements, unless it is a number.
    pub const fn width(self) -> Option<Width> {
        match self {
            Kind::Slice(width) | Kind::Buffer(width) => Some(width),
            Kind::Array(_) | Kind::ArrayBuffer(_) => Some(Width::U64),
            _ => None,
        }
    }
}

/// The width of a slice's elements.
#[derive(Clone, Copy, Debug, PartialEq, Eq)]
pub enum Width {
    /// Bytes.
    U8,
    /// Words of 16 bits.
    U16,
    /// Words of 32 bits.
    U32,
    /// Words of 64 bits.
    U64,
}

/// An argument for [`Call::ask`].
#[derive(Debug)]
pub enum Arg<'a> {
    /// A number; for a truth value, 0 is false.
    Number(u64),
    /// A slice of bytes.
    U8(&'a mut [u8]),
    /// A slice of words of 16 bits.
    U16(&'a mut [u16]),
    /// A slice of words of 32 bits.
    U32(&'a mut [u32]),
    /// A slice of words of 64 bits.
    U64(&'a mut [u64]),
}

/// The type of a parameter: its kind, and the argument as that type.
trait Taken<'a> {
    const KIND: Kind;
    fn taken(arg: &'a mut Arg<'_>) -> Self;
}

macro_rules! numbers {
    ($($of:ty, $kind:ident, $value:ident => $taken:expr;)*) => { $(
        impl<'a> Taken<'a> for $of {
            const KIND: Kind = Kind::$kind;
            fn taken(arg: &'a mut Arg<'_>) -> $of {
                let Arg::Number($value) = *arg else { panic!("a number is asked for, not {arg:?}") };
                $taken
            }
        }
    )* };
}

numbers! {
    bool, Bool, v => v != 0;
    u8, U8, v => v.try_into().expect("a number of 8 bits");
    u16, U16, v => v.try_into().expect("a number of 16 bits");
    u64, U64, v => v;
    usize, Size, v => v.try_into().expect("a number as wide as a pointer");
}

macro_rules! slices {
    ($($of:ty, $width:ident;)*) => { $(
        impl<'a> Taken<'a> for &'a mut [$of] {
            const KIND: Kind = Kind::Buffer(Width::$width);
            fn taken(arg: &'a mut Arg<'_>) -> &'a mut [$of] {
                let Arg::$width(slice) = arg else { panic!("a slice of {} is asked for", stringify!($of)) };
                slice
            }
        }

        impl<'a> Taken<'a> for &'a [$of] {
            const KIND: Kind = Kind::Slice(Width::$width);
            fn taken(arg: &'a mut Arg<'_>) -> &'a [$of] { <&mut [$of]>::taken(arg) }
        }
    )* };
}

slices! { u8, U8; u16, U16; u32, U32; u64, U64; }

impl<'a, const N: usize> Taken<'a> for &'a mut [u64; N] {
    const KIND: Kind = Kind::ArrayBuffer(N);
    fn taken(arg: &'a mut Arg<'_>) -> &'a mut [u64; N] { <&mut [u64]>::taken(arg).try_into().expect("as many words as the array has") }
}

impl<'a, const N: usize> Taken<'a> for &'a [u64; N] {
    const KIND: Kind = Kind::Array(N);
    fn taken(arg: &'a mut Arg<'_>) -> &'a [u64; N] { <&mut [u64; N]>::taken(arg) }
}

/// A call: the extern function takes each slice as a pointer and a length, an array as a pointer, and anything else as it is.
macro_rules! call {
    ($head:tt $out:tt $c:tt $arg:tt ,) => { call! { $head $out $c $arg } };
    ($head:tt [$($out:tt)*] [$($c:tt)*] [$($arg:tt)*] $p:ident: &[$t:ty; $n:literal], $($rest:tt)*) => {
        call! { $head [$($out)* $p: &[$t; $n],] [$($c)* _: *const $t,] [$($arg)* $p.as_ptr(),] $($rest)* }
    };
    ($head:tt [$($out:tt)*] [$($c:tt)*] [$($arg:tt)*] $p:ident: &mut [$t:ty; $n:literal], $($rest:tt)*) => {
        call! { $head [$($out)* $p: &mut [$t; $n],] [$($c)* _: *mut $t,] [$($arg)* $p.as_mut_ptr(),] $($rest)* }
    };
    ($head:tt [$($out:tt)*] [$($c:tt)*] [$($arg:tt)*] $p:ident: &[$t:ty], $($rest:tt)*) => {
        call! { $head [$($out)* $p: &[$t],] [$($c)* _: *const $t, _: usize,] [$($arg)* $p.as_ptr(), $p.len(),] $($rest)* }
    };
    ($head:tt [$($out:tt)*] [$($c:tt)*] [$($arg:tt)*] $p:ident: &mut [$t:ty], $($rest:tt)*) => {
        call! { $head [$($out)* $p: &mut [$t],] [$($c)* _: *mut $t, _: usize,] [$($arg)* $p.as_mut_ptr(), $p.len(),] $($rest)* }
    };
    ($head:tt [$($out:tt)*] [$($c:tt)*] [$($arg:tt)*] $p:ident: $t:ty, $($rest:tt)*) => {
        call! { $head [$($out)* $p: $t,] [$($c)* _: $t,] [$($arg)* $p,] $($rest)* }
    };
    ([$(#[$doc:meta])* $name:ident] [$($out:tt)*] [$($c:tt)*] [$($arg:tt)*]) => {
        $(#[$doc])*
        #[allow(clippy::too_many_arguments)]
        pub fn $name($($out)*) -> Answer {
            unsafe extern "C" {
                #[link_name = concat!("turniploom_", stringify!($name))]
                fn exported($($c)*) -> Answer;
            }
            // SAFETY: the archive's function has this signature, asks nothing of its caller, and keeps to the slices lent.
            unsafe { exported($($arg)*) }
        }
    };
}

/// A call's entry in the table.
macro_rules! entry {
    ($name:ident [$($says:literal)*] [$($p:ident: $t:ty),*] [$($place:ident: $value:literal),*]) => {
        Call {
            name: stringify!($name),
            says: &[$($says),*],
            params: &[$(Param { name: stringify!($p), kind: <$t as Taken>::KIND }),*],
            answer: &[$((stringify!($place), $value)),*],
            ask: |args| {
                let [$($p),*] = args else { panic!("{} takes other arguments than these {}", stringify!($name), args.len()) };
                $name($(<$t as Taken>::taken($p)),*)
            },
        }
    };
}

macro_rules! calls {
    ($($(#[doc = $says:literal])* $name:ident($($params:tt)*) -> { $($place:ident: $value:literal),* };)*) => {
        $(call! {
            [$(#[doc = $says])* #[doc = ""] $(#[doc = concat!("- `", stringify!($place), "`: ", $value)])* $name]
            [] [] [] $($params)*,
        })*

        /// Every exported call, in order: call number k of a record stands at k - 1.
        pub const CALLS: &[Call] = &[$(entry! { $name [$($says)*] [$($params)*] [$($place: $value),*] }),*];
    };
}

include!("table.rs");

/// A call of every kind of parameter, in place of the archive's.
#[cfg(test)]
mod tests {
    use super::*;

    #[unsafe(no_mangle)]
    extern "C" fn turniploom_trial(head: *mut u64, file: *const u64, code: *const u16, length: usize, value: u64, all: bool) -> Answer {
        // SAFETY: the test passes an array of 2, one of 3 and a slice.
        let (head, file, code) = unsafe { (&mut *head.cast::<[u64; 2]>(), &*file.cast::<[u64; 3]>(), core::slice::from_raw_parts(code, length)) };
        head[1] = file[2] + u64::from(code[1]);
        Answer { refusal: 0, first: value, second: length as u64, third: all.into(), fourth: 0 }
    }

    #[unsafe(no_mangle)]
    extern "C" fn turniploom_trifle() -> Answer { Answer { first: 7, ..Answer::default() } }

    call! { [trifle] [] [] [] , }
    call! { [trial] [] [] [] head: &mut [u64; 2], file: &[u64; 3], code: &[u16], value: u64, all: bool, }

    #[test]
    fn every_kind_of_parameter() {
        let entry = entry! { trial [] [head: &mut [u64; 2], file: &[u64; 3], code: &[u16], value: u64, all: bool] [] };
        let kinds = [Kind::ArrayBuffer(2), Kind::Array(3), Kind::Slice(Width::U16), Kind::U64, Kind::Bool];
        assert!(entry.params.iter().map(|p| p.kind).eq(kinds) && kinds.map(Kind::is_lent) == [true, false, false, false, false]);
        let (mut head, mut file, mut code) = ([1, 2], [3, 4, 5], [6, 7]);
        let mut args = [Arg::U64(&mut head), Arg::U64(&mut file), Arg::U16(&mut code), Arg::Number(u64::MAX), Arg::Number(1)];
        let answer = (entry.ask)(&mut args);
        assert_eq!((answer.first, answer.second, answer.third, head), (u64::MAX, 2, 1, [1, 12]));
        let none = entry! { trifle [] [] [] };
        assert_eq!((none.params, (none.ask)(&mut []).first), (&[][..], 7));
    }
}
