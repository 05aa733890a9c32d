//! The call of optimizer.rs over a plain chunk, as near the Rust's as a refusal allows, and the clearing of its constants.

use crate::{Op, Refusal, abi::CHUNK_WORDS, op::LoadConst};
use alloc::{vec, vec::Vec};

/// An instruction of a chunk with its marks and its origin: four words.
#[derive(Clone, Copy, Debug, Default, PartialEq, Eq, Hash)]
#[non_exhaustive]
pub struct Instruction {
    /// The opcode.
    pub opcode: Op,
    /// The mark [`JUMP`] or [`NAMES`], or 0. A LoadConst gets the second of itself.
    pub marks: u16,
    /// The operand.
    pub operand: u16,
    /// The position in the script as it was first compiled, or none: it is then the position at which it is lent. Folding and clearing carry it
    /// along, and what folded stands where its first operand stood.
    pub origin: Option<u16>,
}

impl Instruction {
    /// An instruction marked by its opcode: a jump's operand is a position, and a LoadConst's names a constant.
    pub const fn new(opcode: Op, operand: u16) -> Instruction {
        let marks = if opcode.is_jump() { JUMP } else if opcode.0 == LoadConst.0 { NAMES } else { 0 };
        Instruction { opcode, marks, operand, origin: None }
    }

    /// An instruction whose operand names a constant, as the host knows of an opcode that is no LoadConst.
    pub const fn naming(opcode: Op, operand: u16) -> Instruction { Instruction { opcode, marks: NAMES, operand, origin: None } }

    /// An instruction that has no mark. A jump without its mark keeps its old target when the code shrinks.
    pub const fn unmarked(opcode: Op, operand: u16) -> Instruction { Instruction { opcode, marks: 0, operand, origin: None } }

    /// The same instruction with more marks.
    pub const fn with(self, marks: u16) -> Instruction { Instruction { marks: self.marks | marks, ..self } }

    /// The same instruction with that origin.
    pub const fn was(self, origin: u16) -> Instruction { Instruction { origin: Some(origin), ..self } }
}

/// The mark of a chunk's instruction whose operand is a position.
pub const JUMP: u16 = 1;

/// The mark of a chunk's instruction whose operand names a constant.
pub const NAMES: u16 = 2;

/// A constant of a chunk.
#[derive(Clone, Copy, Debug, PartialEq)]
pub enum Constant {
    /// One that is never folded, with a word of the host's own.
    Other(u64),
    /// An int.
    Int(i64),
    /// A float.
    Float(f64),
    /// A bool.
    Bool(bool),
}

/// A chunk with its tables.
#[derive(Clone, Debug, Default, PartialEq)]
#[non_exhaustive]
pub struct Chunk {
    /// The instructions.
    pub instructions: Vec<Instruction>,
    /// The constants that they load.
    pub constants: Vec<Constant>,
    /// For each instruction, the index of a Phi's sources; or empty.
    pub phi_map: Vec<usize>,
    /// The sources of Phis.
    pub phi_sources: Vec<(u16, u16)>,
    /// Positions of statements, each with a number of the host's own.
    pub stmt_pos: Vec<(u32, u32)>,
    /// Positions of calls, each with a number of the host's own.
    pub call_byte_pos: Vec<(u32, u32)>,
    /// The tries: where each begins, and where its handler stands.
    pub tries: Vec<(u32, u32)>,
}

impl Chunk {
    /// A chunk of instructions and constants, with no other table. An instruction without an origin gets its position.
    pub fn new(mut instructions: Vec<Instruction>, constants: Vec<Constant>) -> Chunk {
        for (k, i) in instructions.iter_mut().enumerate() { i.origin = Some(origin(k, i)) }
        Chunk { instructions, constants, ..Chunk::default() }
    }
}

/// Folds the constants of a chunk, drops the Phis that do nothing, and moves all that names a position. In strict mode
/// nothing folds that some jump or handler lands in. A refused chunk is as it was.
///
/// Answers how many jumps and handlers land on each position that is left, and on the end.
///
/// P13 of document 01: 2 + 3 folds, and the jump follows, which was 3 before; in strict mode the jump keeps it from folding.
///
/// ```
/// use turniploom::{Chunk, Constant::Int, Instruction, constant_fold, op::*};
/// let code = [(LoadConst, 0), (LoadConst, 1), (Add, 0), (Jump, 2)];
/// let p13 = Chunk::new(code.map(|(op, operand)| Instruction::new(op, operand)).into(), vec![Int(2), Int(3)]);
/// let mut strict = p13.clone();
/// constant_fold(&mut strict, true)?;
/// assert_eq!(strict, p13);
///
/// let mut plain = p13;
/// constant_fold(&mut plain, false)?;
/// assert_eq!(plain.constants, [Int(2), Int(3), Int(5)]);
/// assert_eq!(plain.instructions, [Instruction::new(LoadConst, 2).was(0), Instruction::new(Jump, 1).was(3)]);
/// # Ok::<(), turniploom::Refusal>(())
/// ```
///
/// A handler in the middle of 2 + 3 keeps it from folding in strict mode; in plain mode it follows.
///
/// ```
/// use turniploom::{Chunk, Constant::Int, Instruction, constant_fold, op::*};
/// let mut chunk = Chunk::new([(LoadConst, 0), (LoadConst, 1), (Add, 0)].map(|(op, operand)| Instruction::new(op, operand)).into(), vec![Int(2), Int(3)]);
/// chunk.tries = vec![(0, 1), (0, 3)];
/// assert_eq!(constant_fold(&mut chunk, true)?, [0, 1, 0, 1]);
/// assert_eq!(chunk.instructions.len(), 3);
///
/// assert_eq!(constant_fold(&mut chunk, false)?, [0, 2]);
/// assert_eq!((chunk.instructions.len(), chunk.tries), (1, vec![(0, 1), (0, 1)]));
/// # Ok::<(), turniploom::Refusal>(())
/// ```
///
/// # Errors
///
/// [`Refusal::Code`] or [`Refusal::Record`] for a bad instruction, [`Refusal::Try`] for a bad try, [`Refusal::Table`] for a bad table.
pub fn constant_fold(chunk: &mut Chunk, strict: bool) -> Result<Vec<u64>, Refusal> {
    let n = chunk.instructions.len();
    let count = chunk.constants.len();
    let mut code = words_of(chunk);
    // Room for a constant and a pair from every instruction is always enough.
    let (mut kinds, mut words): (Vec<u8>, Vec<u64>) = chunk.constants.iter().map(|&c| stored(c)).unzip();
    kinds.resize(count + n, 0);
    words.resize(count + n, 0);
    // An index past 32 bits lies past every table, as the largest of 32 bits does.
    let mut phi_map: Vec<u32> = chunk.phi_map.iter().map(|&p| u32::try_from(p).unwrap_or(u32::MAX)).collect();
    phi_map.resize(n.max(phi_map.len()), 0);
    let mut sources: Vec<u16> = chunk.phi_sources.iter().flat_map(|&(a, b)| [a, b]).collect();
    let pairs = sources.len();
    sources.resize(pairs.max(2 * n), 0);
    let mut stmts = flat(&chunk.stmt_pos);
    let mut calls = flat(&chunk.call_byte_pos);
    let (stmt_count, call_count) = (stmts.len(), calls.len());
    let (mut dead, mut remap) = (vec![0; n], vec![0; n + 1]);
    let (mut tries, mut landings) = (flat(&chunk.tries), vec![0; n + 1]);
    let folded = crate::abi::fold(
        &mut code, &mut kinds, &mut words, count, &mut phi_map, chunk.phi_map.len(), &mut sources, pairs, &mut stmts, stmt_count,
        &mut calls, call_count, &mut dead, &mut remap, &mut tries, &mut landings, strict,
    ).granted()?;
    chunk.instructions = instructions(&code, folded.first as usize);
    let pushed = |k: usize| if kinds[k] == 1 { Constant::Int(words[k] as i64) } else { Constant::Float(f64::from_bits(words[k])) };
    chunk.constants.extend((count..folded.second as usize).map(pushed));
    chunk.phi_map = phi_map[..folded.third as usize].iter().map(|&p| p as usize).collect();
    chunk.phi_sources = sources[..folded.fourth as usize].chunks(2).map(|p| (p[0], p[1])).collect();
    chunk.stmt_pos = pairs_of(&stmts);
    chunk.call_byte_pos = pairs_of(&calls);
    chunk.tries = pairs_of(&tries);
    // Past the end of what is left nothing lands.
    landings.truncate(chunk.instructions.len() + 1);
    Ok(landings)
}

/// Drops the constants that no instruction names. Those that are left keep their order, and what names them is renumbered;
/// an operand past the constants stays. A refused chunk is as it was.
///
/// After the fold of P13 of document 01 the sum alone is loaded, so it alone is left.
///
/// ```
/// use turniploom::{Chunk, Constant::Int, Instruction, op::*};
/// let mut folded = Chunk::new(vec![Instruction::new(LoadConst, 2), Instruction::new(Jump, 1)], vec![Int(2), Int(3), Int(5)]);
/// turniploom::clear(&mut folded)?;
/// assert_eq!(folded.constants, [Int(5)]);
/// assert_eq!(folded.instructions[0].operand, 0);
/// # Ok::<(), turniploom::Refusal>(())
/// ```
///
/// # Errors
///
/// [`Refusal::Code`] or [`Refusal::Record`] for a bad instruction, [`Refusal::Table`] for too many constants.
pub fn clear(chunk: &mut Chunk) -> Result<(), Refusal> {
    let count = chunk.constants.len();
    let mut code = words_of(chunk);
    let (mut kinds, mut words): (Vec<u8>, Vec<u64>) = chunk.constants.iter().map(|&c| stored(c)).unzip();
    let mut scratch = vec![0; count];
    let left = crate::abi::clear(&mut code, &mut kinds, &mut words, count, &mut scratch).granted()?.first as usize;
    chunk.instructions = instructions(&code, chunk.instructions.len());
    // Entry k of the scratch is the new place of constant k, if k is named: the next entry is then larger.
    let ends = scratch.iter().skip(1).copied().chain([left as u32]);
    let mut named = scratch.iter().zip(ends).map(|(&here, next)| here < next);
    chunk.constants.retain(|_| named.next() == Some(true));
    Ok(())
}

/// What is lent as the origin of the instruction at `k`.
fn origin(k: usize, i: &Instruction) -> u16 { i.origin.unwrap_or(k as u16) }

/// The lent words of a chunk. A LoadConst names a constant, whether it is marked so or not.
fn words_of(chunk: &Chunk) -> Vec<u16> {
    let marks = |i: &Instruction| if i.opcode == LoadConst { i.marks | NAMES } else { i.marks };
    chunk.instructions.iter().enumerate().flat_map(|(k, i)| [i.opcode.0, marks(i), i.operand, origin(k, i)]).collect()
}

/// The first `n` instructions of lent words.
fn instructions(code: &[u16], n: usize) -> Vec<Instruction> {
    code.chunks(CHUNK_WORDS).take(n).map(|w| Instruction { opcode: Op(w[0]), marks: w[1], operand: w[2], origin: Some(w[3]) }).collect()
}

fn stored(constant: Constant) -> (u8, u64) {
    match constant {
        Constant::Other(word) => (0, word),
        Constant::Int(i) => (1, i as u64),
        Constant::Float(f) => (2, f.to_bits()),
        Constant::Bool(b) => (3, b.into()),
    }
}

fn flat(pairs: &[(u32, u32)]) -> Vec<u32> { pairs.iter().flat_map(|&(a, b)| [a, b]).collect() }

fn pairs_of(words: &[u32]) -> Vec<(u32, u32)> { words.chunks(2).map(|p| (p[0], p[1])).collect() }
