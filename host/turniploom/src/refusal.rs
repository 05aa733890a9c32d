//! The refusals, one for each number of document 01, in words.

use crate::{Chunk, Code, DUNDER, Ins, JUMP, NAMES, Op, REGISTER, WIDE, abi::Answer, op};
use alloc::{format, string::String};
use core::{error::Error, fmt};

/// Why a call gave no answer. Every lent buffer is then as it was, but for the rows of a kept-register call whose list is
/// too short.
///
/// It says which rule was broken; [`Refusal::in_code`] and [`Refusal::in_chunk`] look at what was lent and say how.
#[derive(Clone, Copy, Debug, PartialEq, Eq, Hash)]
#[non_exhaustive]
pub enum Refusal {
    /// 1: the code's length is no multiple of its stride, or it has too many instructions.
    Code {
        /// The code's length in words.
        length: u64,
    },
    /// 2: an instruction breaks a record rule.
    Record {
        /// The first such instruction.
        position: u64,
    },
    /// 3: there are more than 1,024 registers, or more than 64 in a saver.
    Registers {
        /// The number of registers.
        number: u64,
    },
    /// 4: a try breaks its rule.
    Try {
        /// The first such try.
        index: u64,
    },
    /// 5: a lent buffer is too short.
    Buffer {
        /// The first such buffer, counted from 1 in the order of docs/BUFFERS.md.
        buffer: u64,
        /// The length it needs, in its own elements.
        needed: u64,
    },
    /// 6: the position is at the end or beyond, or does not hold one of the four calls where one is asked for.
    Position {
        /// The position.
        position: u64,
    },
    /// 7: a table of the chunk breaks its rule.
    Table {
        /// The first such table: 1 constants, 2 phi_map, 3 phi_sources, 4 stmt_pos, 5 call_byte_pos.
        table: u64,
    },
    /// 8: the save area has no room for an entry, which takes twice its list plus two words.
    Room {
        /// The words that are free.
        free: u64,
    },
    /// 9: a call is left, and none is entered.
    Nothing,
    /// 10: a block of a trace is cut short, or its check is wrong.
    Check {
        /// The first such block.
        block: u64,
    },
    /// 11: a trace has a filler before a position.
    Filler {
        /// The block of that position.
        block: u64,
    },
    /// 12: a trace does not begin at 0, has a position not below n, or a move that no rule allows.
    Move {
        /// The first such step.
        step: u64,
    },
    /// 13: a total would pass 64 bits.
    Total {
        /// The first such: 1 bodies, 2 levels, 3 kept registers, 4 the number of the body with the longest list, moved up.
        total: u64,
    },
    /// 14: a list has a register that is not in the file, or that stands in it before.
    Listed {
        /// Its place in the list, the first such.
        place: u64,
    },
    /// 15: the offsets do not begin at 0, fall, give a list to a place that is no level, or do not end at the list's length.
    Offsets {
        /// The first such place, up to the end of the code.
        place: u64,
    },
}

impl Refusal {
    /// The number document 01 gives the refusal.
    pub const fn number(self) -> u8 {
        match self {
            Refusal::Code { .. } => 1,
            Refusal::Record { .. } => 2,
            Refusal::Registers { .. } => 3,
            Refusal::Try { .. } => 4,
            Refusal::Buffer { .. } => 5,
            Refusal::Position { .. } => 6,
            Refusal::Table { .. } => 7,
            Refusal::Room { .. } => 8,
            Refusal::Nothing => 9,
            Refusal::Check { .. } => 10,
            Refusal::Filler { .. } => 11,
            Refusal::Move { .. } => 12,
            Refusal::Total { .. } => 13,
            Refusal::Listed { .. } => 14,
            Refusal::Offsets { .. } => 15,
        }
    }

    /// What is wrong, whatever was lent: the header's `turniploom_refusal_text` says the same.
    pub const fn rule(self) -> &'static str {
        match self {
            Refusal::Code { .. } => "the code is no whole number of instructions, or has more than 65,535",
            Refusal::Record { .. } => "an instruction breaks a record rule",
            Refusal::Registers { .. } => "there are more than 1,024 registers, or more than 64 in a saver",
            Refusal::Try { .. } => "a try breaks its rule",
            Refusal::Buffer { .. } => "a lent buffer is too short",
            Refusal::Position { .. } => "the position is not one to ask about",
            Refusal::Table { .. } => "a table of the chunk breaks its rule",
            Refusal::Room { .. } => "the save area has no room for the entry",
            Refusal::Nothing => "nothing is saved: no call is entered that could be left",
            Refusal::Check { .. } => "a block of the trace is cut short, or its check is wrong",
            Refusal::Filler { .. } => "the trace has a filler before a position",
            Refusal::Move { .. } => "the trace does not begin at 0, or takes a step that the code does not allow",
            Refusal::Total { .. } => "a total would pass 64 bits",
            Refusal::Listed { .. } => "a listed register is not in the file, or is listed twice",
            Refusal::Offsets { .. } => "the offsets are not those of this code and its list",
        }
    }

    /// The refusal of a call over this code and these tries, with the rule that was broken.
    ///
    /// ```
    /// use turniploom::{Lowered, live_across, marked, op::PushRegs};
    /// let code = marked(&[Lowered::new(PushRegs, 1, 0, 0, 4)], |_| false);
    /// let refusal = live_across(&code, 2, &[]).unwrap_err();
    /// assert_eq!(refusal.in_code(&code, &[]), "the instruction at 0 breaks a record rule: PushRegs pushes at most 3 registers, not 4");
    /// ```
    pub fn in_code(self, code: &(impl Code + ?Sized), tries: &[(usize, usize)]) -> String {
        let words = code.words();
        match self {
            Refusal::Record { position } => {
                let at = position as usize * 6;
                let Some(&[op, marks, a, b, c, x]) = words.get(at..at + 6) else { return format!("{self}") };
                format!("{self}: {}", record(Ins { op: Op(op), marks, a, b, c, x }))
            }
            Refusal::Try { index } => self.in_try(tries.get(index as usize).copied(), words.len() / 6),
            _ => format!("{self}"),
        }
    }

    /// The refusal with the rule that a try of a code of `n` instructions breaks.
    fn in_try(self, bad: Option<(usize, usize)>, n: usize) -> String {
        match bad {
            Some((s, h)) if s > h => format!("{self}: it starts at {s}, past its handler at {h}"),
            Some((s, _)) => format!("{self}: it starts at {s}, past the end at {n}"),
            None => format!("{self}"),
        }
    }

    /// The refusal of a call over this chunk, with the rule that was broken.
    pub fn in_chunk(self, chunk: &Chunk) -> String {
        let n = chunk.instructions.len();
        match self {
            Refusal::Record { position } => match chunk.instructions.get(position as usize) {
                Some(i) => format!("{self}: {}", chunk_record(i.opcode, i.marks)),
                None => format!("{self}"),
            },
            Refusal::Try { index } => self.in_try(chunk.tries.get(index as usize).map(|&(s, h)| (s as usize, h as usize)), n),
            Refusal::Table { table: 1 } => format!("{self}: there are at most 65,536 constants, of the kinds 0 to 3, and a bool is 0 or 1"),
            Refusal::Table { table: 2 } => format!("{self}: phi_map has {} entries, not 0 and not {n}, one for each instruction", chunk.phi_map.len()),
            Refusal::Table { table: 3 } => format!("{self}: the numbers of phi_sources come in pairs"),
            Refusal::Table { table: 4 } => format!("{self}: the numbers of stmt_pos come in pairs"),
            Refusal::Table { table: 5 } => format!("{self}: the numbers of call_byte_pos come in pairs"),
            _ => format!("{self}"),
        }
    }
}

/// The record rule that a refused instruction breaks.
fn record(i: Ins) -> String {
    let Ins { op, marks, b, x, .. } = i;
    match op {
        _ if op.0 > 190 => format!("no opcode has the number {}", op.0),
        _ if marks & !(WIDE | DUNDER | REGISTER) != 0 => format!("{marks} has bits that are no mark"),
        _ if i.wide() && !op.is_call() => format!("{op} is none of the four calls that can be wide"),
        _ if x > 255 => format!("x is {x}, more than 255"),
        op::PushRegs => format!("PushRegs pushes at most 3 registers, not {x}"),
        op::UnpackR => "UnpackR unpacks into at least one register".into(),
        op::ArgsR => "ArgsR stands first, after no call".into(),
        _ if i.wide() => "a wide call is followed by its ArgsR".into(),
        _ => format!("b is {b}, and {op} writes registers from b on past 65,535"),
    }
}

/// The record rule that a refused instruction of a chunk breaks.
fn chunk_record(op: Op, marks: u16) -> String {
    match op {
        _ if op.0 > 190 => format!("no opcode has the number {}", op.0),
        _ if marks & !(JUMP | NAMES) != 0 => format!("{marks} has bits that are no mark"),
        _ if marks & JUMP != 0 && (op == op::LoadConst || op == op::Phi || op.folds()) => "LoadConst, Phi and the folding operators are no jumps".into(),
        op::LoadConst => "LoadConst names a constant, and lacks that mark".into(),
        _ => "a jump, a Phi and a folding operator name no constant".into(),
    }
}

impl Answer {
    /// The answer itself, or the refusal that it stands for.
    ///
    /// # Errors
    ///
    /// The refusal, if its number is not 0.
    ///
    /// # Panics
    ///
    /// On a number that no refusal has: the archive is of another version.
    pub fn granted(self) -> Result<Answer, Refusal> {
        let Answer { refusal, first, second, .. } = self;
        Err(match refusal {
            0 => return Ok(self),
            1 => Refusal::Code { length: first },
            2 => Refusal::Record { position: first },
            3 => Refusal::Registers { number: first },
            4 => Refusal::Try { index: first },
            5 => Refusal::Buffer { buffer: first, needed: second },
            6 => Refusal::Position { position: first },
            7 => Refusal::Table { table: first },
            8 => Refusal::Room { free: first },
            9 => Refusal::Nothing,
            10 => Refusal::Check { block: first },
            11 => Refusal::Filler { block: first },
            12 => Refusal::Move { step: first },
            13 => Refusal::Total { total: first },
            14 => Refusal::Listed { place: first },
            15 => Refusal::Offsets { place: first },
            other => panic!("no refusal has the number {other}: the archive is of another version"),
        })
    }
}

impl fmt::Display for Refusal {
    fn fmt(&self, f: &mut fmt::Formatter<'_>) -> fmt::Result {
        match self {
            Refusal::Code { length } => write!(f, "a code of {length} words is no whole number of instructions, or too long"),
            Refusal::Record { position } => write!(f, "the instruction at {position} breaks a record rule"),
            Refusal::Registers { number } if *number > 1_024 => write!(f, "{number} registers are more than 1,024"),
            Refusal::Registers { number } => write!(f, "{number} registers are more than the 64 of a saver"),
            Refusal::Try { index } => write!(f, "try {index} breaks its rule"),
            Refusal::Buffer { buffer, needed } => write!(f, "buffer {buffer} is too short: it needs {needed} entries"),
            Refusal::Position { position } => write!(f, "position {position} is not one to ask about"),
            Refusal::Table { table } => write!(f, "table {table} of the chunk breaks its rule"),
            Refusal::Room { free } => write!(f, "the save area has {free} free words, fewer than twice the list plus two"),
            Refusal::Nothing => f.write_str(self.rule()),
            Refusal::Check { block } => write!(f, "block {block} of the trace is cut short, or its check is wrong"),
            Refusal::Filler { block } => write!(f, "block {block} of the trace has a position after a filler"),
            Refusal::Move { step } => write!(f, "step {step} of the trace is none that the code allows"),
            Refusal::Total { total } => {
                let what = match total {
                    1 => "bodies",
                    2 => "levels",
                    3 => "kept registers",
                    _ => "bodies before the longest list",
                };
                write!(f, "the number of {what} would pass 64 bits")
            }
            Refusal::Offsets { place } => write!(f, "at {place} the offsets fall, do not run from 0 to the list's length, or give a list to what is no level"),
            Refusal::Listed { place } => write!(f, "the register at place {place} of the list is not in the file, or stands before it too"),
        }
    }
}

impl Error for Refusal {}
