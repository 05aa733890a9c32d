//! A question to one of the exported calls, and the reply: the same for the port, the Rust and the model.

use turniploom::abi::{self, Answer, Kind, Param, Width};

macro_rules! calls {
    ($first:ident, $($name:ident),*) => {
        /// The exported calls, in the order of the safe crate's table, from 1.
        #[derive(Clone, Copy, Debug, PartialEq, Eq)]
        pub enum Call { $first = 1, $($name),* }

        impl Call {
            /// Every call.
            pub const ALL: &[Call] = &[Call::$first, $(Call::$name),*];
        }
    };
}

calls! {
    Kinds, Role, Field, Writes, Pure, Flat, Guarded, Returns, ParamsWritten, Passed, GenPure, DeadPhi, LoopsAround, Targets, GlobalOf, PushedBack,
    StackCallee, Kept, Fold, Clear, Kept32, Level, SaverMake, SaverEnter, SaverReturn, SaverException, FiguresAdd, FiguresJoin, Replay, Touched, Needed,
    KeptRaising, Exposed, Version
}

pub use Call::*;

impl Call {
    /// Its entry in the safe crate's table.
    pub fn entry(self) -> &'static abi::Call { &abi::CALLS[self as usize - 1] }
    pub fn name(self) -> &'static str { self.entry().name }
    pub fn params(self) -> &'static [Param] { self.entry().params }
    /// Whether it has a parameter of that name.
    pub fn takes(self, name: &str) -> bool { self.params().iter().any(|p| p.name == name) }
    pub fn named(name: &str) -> Option<Call> { Call::ALL.iter().copied().find(|c| c.name() == name) }
    /// Whether it takes a chunk, and how many words an instruction then has.
    pub fn of_a_chunk(self) -> bool { matches!(self, Fold | Clear) }
    pub fn stride(self) -> usize { if self.of_a_chunk() { abi::CHUNK_WORDS } else { 6 } }
    /// Whether it tells the kept registers of document 01, and how many bits a word of its rows then has.
    pub fn keeps(self) -> bool { matches!(self, Kept | Kept32) }
    pub fn row_bits(self) -> usize { if self == Kept32 { 32 } else { 64 } }
    /// Whether it is one of the frame saver's.
    pub fn saves(self) -> bool { matches!(self, SaverMake | SaverEnter | SaverReturn | SaverException) }
    /// Whether the Rust has it not: the model alone decides what is right.
    pub fn is_new(self) -> bool { self.saves() || matches!(self, Clear | FiguresAdd | FiguresJoin | Replay | KeptRaising | Exposed | Version) }
}

/// A number or a slice.
#[derive(Clone, Debug, PartialEq, Eq)]
pub enum Arg {
    N(u64),
    U8(Vec<u8>),
    U16(Vec<u16>),
    U32(Vec<u32>),
    U64(Vec<u64>),
}

impl Arg {
    pub fn n(&self) -> u64 { if let Arg::N(v) = self { *v } else { panic!("no number") } }
    pub fn u8(&mut self) -> &mut Vec<u8> { if let Arg::U8(v) = self { v } else { panic!("no bytes") } }
    pub fn u16(&mut self) -> &mut Vec<u16> { if let Arg::U16(v) = self { v } else { panic!("no u16 words") } }
    pub fn u32(&mut self) -> &mut Vec<u32> { if let Arg::U32(v) = self { v } else { panic!("no u32 words") } }
    pub fn u64(&mut self) -> &mut Vec<u64> { if let Arg::U64(v) = self { v } else { panic!("no u64 words") } }

    /// How many words a slice has; a number has none.
    pub fn length(&self) -> usize {
        match self {
            Arg::N(_) => 0,
            Arg::U8(v) => v.len(),
            Arg::U16(v) => v.len(),
            Arg::U32(v) => v.len(),
            Arg::U64(v) => v.len(),
        }
    }

    /// No number, an empty slice, or an array of zeros.
    fn none(kind: Kind) -> Arg {
        if let Some(n) = kind.fixed() { return Arg::U64(vec![0; n]) }
        match kind.width() {
            None => Arg::N(0),
            Some(Width::U8) => Arg::U8(vec![]),
            Some(Width::U16) => Arg::U16(vec![]),
            Some(Width::U32) => Arg::U32(vec![]),
            Some(Width::U64) => Arg::U64(vec![]),
        }
    }

    /// The numbers of the argument, a slice's length first.
    pub fn numbers(&self) -> Vec<u64> {
        fn all<T: Copy + Into<u64>>(v: &[T]) -> Vec<u64> { std::iter::once(v.len() as u64).chain(v.iter().map(|&w| w.into())).collect() }
        match self {
            Arg::N(v) => vec![*v],
            Arg::U8(v) => all(v),
            Arg::U16(v) => all(v),
            Arg::U32(v) => all(v),
            Arg::U64(v) => all(v),
        }
    }
}

/// A call with all that it is lent.
#[derive(Clone, Debug, PartialEq, Eq)]
pub struct Question {
    pub call: Call,
    pub args: Vec<Arg>,
}

impl Question {
    /// A call with these arguments, by name and in any order; one that is not given is 0 or empty.
    pub fn of<const N: usize>(call: Call, mut given: [(&str, Arg); N]) -> Question {
        for (name, _) in &given { assert!(call.takes(name), "{} has no {name}", call.name()) }
        let args = call.params().iter().map(|p| match given.iter_mut().find(|(name, _)| *name == p.name) {
            Some((_, arg)) => std::mem::replace(arg, Arg::N(0)),
            None => Arg::none(p.kind),
        });
        Question { call, args: args.collect() }
    }

    /// The argument of that name.
    pub fn arg(&self, name: &str) -> &Arg { &self.args[self.place(name)] }

    pub fn n(&self, name: &str) -> u64 { self.arg(name).n() }
    pub fn u8(&self, name: &str) -> &[u8] { if let Arg::U8(v) = self.arg(name) { v } else { panic!("{name}") } }
    pub fn u16(&self, name: &str) -> &[u16] { if let Arg::U16(v) = self.arg(name) { v } else { panic!("{name}") } }
    pub fn u32(&self, name: &str) -> &[u32] { if let Arg::U32(v) = self.arg(name) { v } else { panic!("{name}") } }
    pub fn u64(&self, name: &str) -> &[u64] { if let Arg::U64(v) = self.arg(name) { v } else { panic!("{name}") } }
    /// The code, none if the call takes none.
    pub fn code(&self) -> &[u16] { if self.call.takes("code") { self.u16("code") } else { &[] } }

    fn place(&self, name: &str) -> usize {
        self.call.params().iter().position(|p| p.name == name).unwrap_or_else(|| panic!("no {name}"))
    }

    /// The buffers that are lent to be written, as they are lent.
    pub fn lent(&self) -> Lent {
        let buffers = self.call.params().iter().zip(&self.args).filter(|(p, _)| p.kind.is_lent()).map(|(_, a)| a.clone()).collect();
        Lent { call: self.call, buffers }
    }
}

/// The buffers that a call may write, by name.
#[derive(Clone, Debug, PartialEq, Eq)]
pub struct Lent {
    pub call: Call,
    pub buffers: Vec<Arg>,
}

impl Lent {
    pub fn get(&mut self, name: &str) -> &mut Arg {
        let at = self.call.params().iter().filter(|p| p.kind.is_lent()).position(|p| p.name == name).unwrap_or_else(|| panic!("no {name}"));
        &mut self.buffers[at]
    }
    pub fn u8(&mut self, name: &str) -> &mut Vec<u8> { self.get(name).u8() }
    pub fn u16(&mut self, name: &str) -> &mut Vec<u16> { self.get(name).u16() }
    pub fn u32(&mut self, name: &str) -> &mut Vec<u32> { self.get(name).u32() }
    pub fn u64(&mut self, name: &str) -> &mut Vec<u64> { self.get(name).u64() }
}

/// An answer, and what the lent buffers then hold.
#[derive(Clone, Debug, PartialEq, Eq)]
pub struct Reply {
    pub answer: Answer,
    pub lent: Lent,
}

impl Reply {
    /// Whether the reply is more than a refusal, a plain no, a none or a 0.
    pub fn telling(&self, asked: &Question) -> bool {
        let Answer { refusal, first, .. } = self.answer;
        refusal == 0 && match asked.call {
            Kinds => first != 32,
            LoopsAround | Targets => self.lent.buffers[0].numbers()[1..] != asked.lent().buffers[0].numbers()[1..] && self.marked(asked),
            Fold => first as usize * asked.call.stride() != asked.u16("code").len(),
            Clear => first != asked.n("constants"),
            SaverMake => asked.n("regs") != 0,
            SaverEnter => !asked.u16("list").is_empty(),
            FiguresJoin => self.answer.fourth != 0,
            SaverReturn | SaverException => self.lent.buffers[1] != *asked.arg("file"),
            Touched => self.values()[1..].iter().any(|&v| v != 0),
            Version => true,
            _ => first != 0,
        }
    }

    /// Whether one of the n + 1 words that the call wrote is not 0.
    fn marked(&self, asked: &Question) -> bool {
        let n = asked.u16("code").len() / 6;
        self.lent.buffers[0].numbers()[1..].iter().take(n + 1).any(|&w| w != 0)
    }

    /// The five numbers of the answer.
    pub fn values(&self) -> [u64; 5] {
        let Answer { refusal, first, second, third, fourth } = self.answer;
        [refusal.into(), first, second, third, fourth]
    }
}
