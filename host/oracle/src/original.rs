//! Asks the Rust itself. What it decides is laid over the model's reply, so that equal replies mean that both agree.

use crate::{model::{self, code::Instruction, facts::fact, fold::{Chunk, Constant}, rows}, question::*};
use original::{optimizer::constant_fold, parser::{self, EVERY, OpCode, SSAChunk, Value}, vm::{block::open as rust, lower}};
use std::sync::LazyLock;
use turniploom::{DUNDER, Ins, JUMP, NAMES, Op, REGISTER, WIDE, abi::CHUNK_WORDS, op};

/// The Rust's opcode for each number but 0.
static NAMED: LazyLock<Vec<OpCode>> = LazyLock::new(|| {
    let by_name = |name: &str| *EVERY.iter().find(|o| format!("{o:?}") == name).unwrap_or_else(|| panic!("the Rust has no {name}"));
    let mut named = vec![OpCode::And; op::ALL.len() + 1];
    for o in op::ALL { named[o.0 as usize] = by_name(&o.to_string()) }
    named
});

/// The Rust's opcode for a number and its marks. Opcode 0 stands for four that block.rs and optimizer.rs do not name: whether
/// a dunder may run it, and whether it is a register form.
pub fn opcode(number: impl Into<Op>, marks: u16) -> OpCode {
    let Op(number) = number.into();
    match (number, marks & DUNDER != 0, marks & REGISTER != 0) {
        (0, false, false) => OpCode::And,
        (0, false, true) => OpCode::TurnR,
        (0, true, false) => OpCode::Or,
        (0, true, true) => OpCode::UnturnR,
        _ => NAMED[number as usize],
    }
}

/// The number of one of the Rust's opcodes.
pub fn number(o: OpCode) -> Op { Op((1..NAMED.len()).find(|&k| NAMED[k] == o).unwrap_or(0) as u16) }

/// The Rust's reply laid over the model's, or none where it can't say: to what it is never asked, in strict mode, and where
/// marks differ from its own tests.
pub fn ask(q: &Question, model: &Reply) -> Option<Reply> {
    let list_short = q.call.keeps() && model.answer.refusal == 5 && model.answer.first == 3;
    if model.answer.refusal != 0 && !list_short { return None }
    let mut reply = model.clone();
    match q.call {
        Fold => folding(q, &mut reply)?,
        call if call.is_new() => return None,
        _ => over_code(q, &mut reply)?,
    }
    Some(reply)
}

/// Code as the Rust has it.
pub fn lowered(words: &[u16]) -> Vec<lower::Ins> {
    words.chunks(6).map(|w| lower::Ins { op: opcode(w[0], w[1]), a: w[2], b: w[3], c: w[4], x: w[5] as u8, wide: w[1] & WIDE != 0 }).collect()
}

fn over_code(q: &Question, reply: &mut Reply) -> Option<()> {
    let words = q.u16("code");
    let code = lowered(words);
    let at = || q.n("at") as usize;
    let tries = || -> Vec<(usize, usize)> { q.u32("tries").chunks(2).map(|t| (t[0] as usize, t[1] as usize)).collect() };
    let r = || q.n("r") as u16;
    let values = match q.call {
        Kinds => [rust::kinds(&code[at()]).into(), 0, 0, 0],
        Role => rust::role(&code[at()]).map_or([0; 4], |(dest, reads, jumps)| [1, dest.into(), reads.iter().map(|f| 1 << f).sum(), jumps.into()]),
        Field => [rust::field(&code[at()], q.n("f") as u8).into(), 0, 0, 0],
        Writes => [rust::writes(&code[at()], r()).into(), 0, 0, 0],
        Pure => [rust::pure(&code).into(), 0, 0, 0],
        Flat => {
            // Its own test goes by the opcode, not by a mark.
            if !words.chunks(6).all(|w| w[0] == 0 || fact(w[0]).register == (w[1] & REGISTER != 0)) { return None }
            [rust::flat(&code).into(), 0, 0, 0]
        }
        Guarded => [rust::guarded(&code).into(), 0, 0, 0],
        Returns => [rust::returns(&code, at()).into(), 0, 0, 0],
        ParamsWritten => [rust::params_written(&code, q.n("arity") as usize), 0, 0, 0],
        Passed => [rust::passed(&code, at(), q.n("arity") as usize), 0, 0, 0],
        GenPure => [rust::gen_pure(&code).into(), 0, 0, 0],
        DeadPhi => [rust::dead_phi(&code, at(), r()).into(), 0, 0, 0],
        LoopsAround => {
            let depths = rust::loops_around(&code);
            for (e, d) in reply.lent.u32("out").iter_mut().zip(depths) { *e = d as u32 }
            [0; 4]
        }
        Targets => {
            let landed = rust::targets(&code, &tries());
            for (e, t) in reply.lent.u8("out").iter_mut().zip(landed) { *e = t.into() }
            [0; 4]
        }
        GlobalOf => rust::global_of(&code, at(), code[at()]).map_or([0; 4], |b| [1, b.into(), 0, 0]),
        PushedBack => rust::pushed_back(&code, at(), r()).map_or([0; 4], |p| [1, p as u64, 0, 0]),
        StackCallee => rust::stack_callee(&code, at(), q.n("count") as usize).map_or([0; 4], |(p, r)| [1, p as u64, r.into(), 0]),
        Kept | Kept32 => return keeping(q, &code, &tries(), reply),
        Level => {
            lower::set_dunder_ops(dunder_ops(words)?);
            let (resume, result) = rust::after(&code, at());
            if rust::level_at(&code[at()]) { [1, resume as u64, result.map_or(65_536, u64::from), 0] } else { [0; 4] }
        }
        Touched => touched(&code[at()], reply),
        // Its rows are one word each.
        Needed if q.n("regs") > 64 => return None,
        Needed => [u64::from(u64::from(r()) < q.n("regs")) & rust::live_rows(&code, q.n("regs") as usize, 0)[at()] >> (r() % 64), 0, 0, 0],
        call => unreachable!("{call:?} takes no code of block.rs"),
    };
    let a = &mut reply.answer;
    (a.first, a.second, a.third, a.fourth) = (values[0], values[1], values[2], values[3]);
    Some(())
}

/// What an instruction touches, read off its `writes` and its rows, with each field a register of its own. What it gives up and uses too, or gives up
/// where nothing comes after it, does not show in a row.
fn touched(i: &lower::Ins, reply: &Reply) -> [u64; 4] {
    let i = lower::Ins { a: if i.a == 0 { 0 } else { 40 }, b: 10, c: 20, ..*i };
    let fields = |named: &dyn Fn(u16) -> bool| -> u64 { [i.a, i.b, i.c].iter().enumerate().map(|(f, &r)| u64::from(named(r)) << f).sum() };
    let used = |r: u16| rust::live_rows(&[i], 64, 0)[0] >> r & 1 != 0;
    let given_up = |r: u16| {
        let reader = lower::Ins { op: opcode(op::PushRegs, 0), a: r, b: r, c: r, x: 1, wide: false };
        rust::live_rows(&[i, reader], 64, 0)[0] >> r & 1 == 0
    };
    let run = if rust::writes(&i, i.b + 1) { (i.b..i.c).take_while(|&r| rust::writes(&i, r) && given_up(r)).count() as u64 } else { 0 };
    let single = |r: u16| r != i.b || run == 0;
    let hidden = if matches!(number(i.op), op::ReturnR | op::Jump) { 7 } else { fields(&used) };
    let given = fields(&|r| single(r) && given_up(r)) & !hidden | reply.answer.second & hidden;
    [fields(&used), given, fields(&|r| single(r) && rust::writes(&i, r)), run]
}

/// The lists, and for up to 64 registers the rows, in words of the call's width. The Rust counts no sweeps.
fn keeping(q: &Question, code: &[lower::Ins], tries: &[(usize, usize)], reply: &mut Reply) -> Option<()> {
    lower::set_dunder_ops(dunder_ops(q.u16("code"))?);
    let regs = q.n("regs") as usize;
    if regs <= 64 {
        let bits = q.call.row_bits();
        let from = if q.n("wide") != 0 || regs > bits { 0 } else { rust::first_read(code, tries) };
        let parts = |row: u64| (0..rows::words(regs, bits)).map(move |w| row >> (w * bits) & u64::MAX >> (64 - bits));
        let rows: Vec<u64> = rust::live_rows(code, regs, from).into_iter().flat_map(parts).collect();
        model::lay_rows(&rows, &mut reply.lent);
    }
    let lists = rust::live_across(code, regs, tries);
    let total = lists.iter().map(Vec::len).sum::<usize>() as u64;
    if reply.answer.refusal == 5 {
        reply.answer.second = total;
    } else {
        reply.answer.first = total;
        model::lay_lists(&lists, &mut reply.lent);
    }
    Some(())
}

/// The opcodes with the dunder mark, if no opcode has it in one place and not in another.
fn dunder_ops(words: &[u16]) -> Option<[u64; 4]> {
    let (mut with, mut without) = ([0u64; 4], [0u64; 4]);
    for w in words.chunks(6) {
        let o = opcode(w[0], w[1]) as usize;
        let set = if w[1] & DUNDER != 0 { &mut with } else { &mut without };
        set[o / 64] |= 1 << (o % 64);
    }
    (0..4).all(|k| with[k] & without[k] == 0).then_some(with)
}

fn folding(q: &Question, reply: &mut Reply) -> Option<()> {
    let words = q.u16("code");
    let own = words.chunks(CHUNK_WORDS).all(|w| fact(w[0]).jump == (w[1] & JUMP != 0));
    if q.n("strict") != 0 || !own { return None }
    let n = words.len() / CHUNK_WORDS;
    let mut lent = q.lent();
    let mut chunk = ssa_chunk(q, &mut lent);
    let (lent_constants, pairs) = (chunk.constants.len(), chunk.phi_sources.len());
    let stmts = chunk.stmt_pos.len();
    // Every position joins the table of statements, so that the Rust's own remap is read off it, and so do the tries, which it does not have.
    chunk.stmt_pos.extend((0..=n as u32).chain(q.u32("tries").iter().copied()).map(|at| (at, 0)));
    constant_fold(&mut chunk);
    let tries: Vec<u32> = chunk.stmt_pos.drain(stmts + n + 1..).map(|p| p.0).collect();
    let remap: Vec<u32> = chunk.stmt_pos.drain(stmts..).map(|p| p.0).collect();
    let died = chunk.instructions.len() < n;
    let mut folded = plain(&chunk);
    folded.tries = tries.as_chunks().0.to_vec();
    // The Rust has no marks and no origins: a survivor has its own, and what folded to a bool dropped its mark.
    let live = (0..n).filter(|&k| remap[k] < remap[k + 1]).map(|k| &words[CHUNK_WORDS * k..][..CHUNK_WORDS]);
    for (i, old) in folded.code.iter_mut().zip(live) {
        i.names = i.op == op::LoadConst || Op(old[0]) == i.op && old[1] & NAMES != 0;
        i.origin = old[3];
    }
    let a = &mut reply.answer;
    (a.first, a.second, a.third, a.fourth) =
        (folded.code.len() as u64, folded.constants.len() as u64, folded.phi_map.len() as u64, 2 * folded.phi_sources.len() as u64);
    // From what was lent, so that nothing of the model's is taken for the Rust's.
    reply.lent = q.lent();
    for k in 0..n { reply.lent.u8("dead")[k] = u8::from(remap[k] == remap[k + 1]) }
    if died || folded.constants.len() != lent_constants {
        let phis = words.chunks(CHUNK_WORDS).filter(|w| Op(w[0]) == op::Phi).count();
        model::lay_chunk(&folded, &mut reply.lent, n, 2 * pairs.max(phis));
        reply.lent.u32("remap")[..=n].copy_from_slice(&remap);
    }
    model::lay_landings(&folded, &mut reply.lent, n);
    Some(())
}

/// The lent chunk as the Rust has it. A constant of kind 0 is any that it does not fold.
pub fn ssa_chunk(q: &Question, lent: &mut Lent) -> SSAChunk {
    let count = |name: &str| q.n(name) as usize;
    let (kinds, values) = (lent.u8("kinds").clone(), lent.u64("words").clone());
    let constant = |k: usize| match Constant::lent(kinds[k], values[k]) {
        Constant::Int(i) => Value::Int(i),
        Constant::Float(f) => Value::Float(f64::from_bits(f)),
        Constant::Bool(b) => Value::Bool(b),
        Constant::Other => Value::None,
    };
    let places = |t: &[u32], c: usize| t[..c].chunks(2).map(|p| (p[0], p[1])).collect();
    let mut chunk = SSAChunk::default();
    chunk.instructions = q.u16("code").chunks(CHUNK_WORDS).map(|w| parser::Instruction { opcode: opcode(w[0], 0), operand: w[2] }).collect();
    chunk.constants = (0..count("constants")).map(constant).collect();
    chunk.phi_map = lent.u32("phi_map")[..count("phi_map_count")].iter().map(|&p| p as usize).collect();
    chunk.phi_sources = lent.u16("phi_sources")[..count("phi_sources_count")].chunks(2).map(|p| (p[0], p[1])).collect();
    chunk.stmt_pos = places(lent.u32("stmt_pos"), count("stmt_pos_count"));
    chunk.call_byte_pos = places(lent.u32("call_byte_pos"), count("call_byte_pos_count"));
    chunk
}

/// The Rust's chunk in the model's form.
fn plain(chunk: &SSAChunk) -> Chunk {
    Chunk {
        code: chunk.instructions.iter().map(|i| {
            Instruction { op: number(i.opcode), jump: i.opcode.is_jump(), names: false, operand: i.operand, origin: 0 }
        }).collect(),
        constants: chunk.constants.iter().map(|c| match c {
            Value::Int(i) => Constant::Int(*i),
            Value::Float(f) => Constant::Float(f.to_bits()),
            Value::Bool(b) => Constant::Bool(*b),
            _ => Constant::Other,
        }).collect(),
        phi_map: chunk.phi_map.iter().map(|&p| p as u32).collect(),
        phi_sources: chunk.phi_sources.iter().map(|&(a, b)| [a, b]).collect(),
        stmt_pos: chunk.stmt_pos.iter().map(|&(a, b)| [a, b]).collect(),
        call_byte_pos: chunk.call_byte_pos.iter().map(|&(a, b)| [a, b]).collect(),
        tries: vec![],
    }
}

/// A difference between the Rust and document 01 that docs/DIFFERENCES.md lists.
#[derive(Clone, Copy, Debug, PartialEq, Eq)]
pub enum Listed {
    /// At 65 registers or more with no jump to itself or back, the Rust reads a JumpIfFalseR's own row while it is still empty.
    EarlyRow,
    /// The Rust keeps the sign of a NaN.
    NanSign,
}

/// The listed difference that explains, word for word, why the Rust's reply is not the model's.
pub fn listed(q: &Question, model: &Reply, rust: &Reply) -> Option<Listed> {
    match q.call {
        Kept | Kept32 => early_row(q, model, rust),
        Fold => nan_sign(q, rust),
        _ => None,
    }
}

fn early_row(q: &Question, model: &Reply, rust: &Reply) -> Option<Listed> {
    let code: Vec<Ins> = model::code::code(q.u16("code")).ok()?;
    let regs = q.n("regs") as usize;
    if regs <= 64 || rows::jumps_back(&code) > 0 { return None }
    let tries = model::code::tries(q.u32("tries"), code.len()).ok()?;
    let lists = rows::kept(&code, &rows::rows(&code, regs, q.call.row_bits(), true), &tries, true);
    let total = lists.iter().map(Vec::len).sum::<usize>() as u64;
    let mut expected = model.clone();
    if model.answer.refusal == 5 {
        expected.answer.second = total;
    } else {
        expected.answer.first = total;
        model::lay_lists(&lists, &mut expected.lent);
    }
    (expected == *rust).then_some(Listed::EarlyRow)
}

/// Whether the Rust's reply is the model's with a sign kept on each NaN result: the sign that the same operation has here, or,
/// since a compiler may swap operands, any choice of the first few.
fn nan_sign(q: &Question, rust: &Reply) -> Option<Listed> {
    let fits = |sign: &dyn Fn(u32, f64) -> bool| {
        let (mut nans, mut lent) = (0, q.lent());
        let mut nan = |f: f64| {
            nans += 1;
            model::fold::NAN | u64::from(sign(nans - 1, f)) << 63
        };
        let values = model::folding(q, &mut lent, &mut nan);
        nans > 0 && values.is_ok_and(|v| v[..] == rust.values()[1..]) && lent == rust.lent
    };
    let chosen = |signs: u32| fits(&|k, _| signs >> k.min(31) & 1 != 0);
    (fits(&|_, f| f.is_sign_negative()) || (1..1 << 12).any(chosen)).then_some(Listed::NanSign)
}
