//! A plain model of every exported call, written from document 01 and its settled points. It settles what the Rust cannot
//! say: the refusals, the lent buffers, strict mode, sweep counts, and the listed differences.

pub mod code;
pub mod day;
pub mod facts;
pub mod figures;
pub mod fold;
pub mod machine;
pub mod question;
pub mod roles;
pub mod rows;
pub mod saver;
pub mod walks;

use question::*;
use code::{Checked, Instruction, No, Tables};
use fold::{Chunk, Constant};
use turniploom::abi::{Answer, CHUNK_WORDS};

/// The reply that document 01 settles.
pub fn ask(q: &Question) -> Reply {
    let mut lent = q.lent();
    let answer = match q.call {
        Fold => folding(q, &mut lent, &mut |_| fold::NAN),
        Clear => clearing(q, &mut lent),
        Version => Ok([0, 2, 0, 0]),
        FiguresJoin => figures::join(q.u64("later"), lent.u64("report")),
        Exposed => exposing(q, &mut lent),
        _ if q.call.saves() => saver::answer(q, &mut lent).map(one),
        _ => over_code(q, &mut lent),
    };
    let answer = match answer {
        Ok([first, second, third, fourth]) => Answer { refusal: 0, first, second, third, fourth },
        Err(No(refusal, first, second)) => Answer { refusal, first, second, third: 0, fourth: 0 },
    };
    Reply { answer, lent }
}

fn yes(b: bool) -> [u64; 4] { one(b.into()) }

fn one(v: u64) -> [u64; 4] { [v, 0, 0, 0] }

fn over_code(q: &Question, lent: &mut Lent) -> Checked<[u64; 4]> {
    let code = code::code(q.u16("code"))?;
    let n = code.len();
    let at = || code::inside(&code, q.n("at"));
    Ok(match q.call {
        Kinds => one(roles::kinds(&code[at()?]).into()),
        Role => match roles::kinds(&code[at()?]) {
            roles::NONE => [0; 4],
            k => [1, (k & 1).into(), (k >> 1 & 7).into(), (k >> 4 & 1).into()],
        },
        Field => one(roles::field(&code[at()?], q.n("f") as u8).into()),
        Writes => yes(roles::writes(&code[at()?], q.n("r") as u16)),
        Pure => yes(walks::laid(&code, false)),
        Flat => yes(walks::flat(&code)),
        Guarded => yes(walks::guarded(&code)),
        Returns => yes(walks::returns(&code, at()?)),
        ParamsWritten => one(walks::params_written(&code, q.n("arity"))),
        Passed => one(walks::passed(&code, code::at_call(&code, q.n("at"))?, q.n("arity"))),
        GenPure => {
            waiting(lent, n)?;
            yes(walks::gen_pure(&code))
        }
        DeadPhi => {
            let k = at()?;
            waiting(lent, n)?;
            yes(walks::dead_phi(&code, k, q.n("r") as u16))
        }
        LoopsAround => {
            code::room(1, lent.u32("out").len(), n + 1)?;
            lent.u32("out")[..=n].copy_from_slice(&walks::loops_around(&code));
            [0; 4]
        }
        Targets => {
            let tries = code::tries(q.u32("tries"), n)?;
            code::room(1, lent.u8("out").len(), n + 1)?;
            lent.u8("out")[..=n].copy_from_slice(&walks::targets(&code, &tries));
            [0; 4]
        }
        GlobalOf => {
            let k = at()?;
            walks::global_of(&code, k, &code[k]).map_or([0; 4], |b| [1, b.into(), 0, 0])
        }
        PushedBack => walks::pushed_back(&code, at()?, q.n("r") as u16).map_or([0; 4], |p| [1, p as u64, 0, 0]),
        StackCallee => walks::stack_callee(&code, at()?, q.n("count") as u16).map_or([0; 4], |(p, r)| [1, p as u64, r.into(), 0]),
        Kept | Kept32 | KeptRaising => keeping(q, &code, lent)?,
        Level => {
            let k = at()?;
            let (resume, result) = rows::resume(&code, k);
            if rows::level(&code[k]) { [1, resume as u64, result.map_or(65_536, u64::from), 0] } else { [0; 4] }
        }
        FiguresAdd => figures::add(&code, q.u32("offsets"), q.u16("list").len(), lent.u64("report"))?,
        Replay => day::replay(q, &code, lent)?,
        Touched => {
            let t = roles::touch(&code[at()?]);
            [t.used.into(), t.given_up.into(), t.written.into(), t.run.into()]
        }
        Needed => {
            let regs = code::registers(q.n("regs"))?;
            let k = code::up_to(&code, q.n("at"))?;
            waiting(lent, n)?;
            yes(rows::needed(&code, regs, k, q.n("r") as u16))
        }
        call => unreachable!("{call:?} takes no code of block.rs"),
    })
}

/// The two buffers of a walk: n + 1 each, all 0 after an answer.
fn waiting(lent: &mut Lent, n: usize) -> Checked<()> {
    code::room(1, lent.u8("seen").len(), n + 1)?;
    code::room(2, lent.u32("todo").len(), n + 1)?;
    lent.u8("seen")[..=n].fill(0);
    lent.u32("todo")[..=n].fill(0);
    Ok(())
}

fn keeping(q: &Question, code: &[turniploom::Ins], lent: &mut Lent) -> Checked<[u64; 4]> {
    let n = code.len();
    let regs = code::registers(q.n("regs"))?;
    let tries = code::tries(q.u32("tries"), n)?;
    let bits = q.call.row_bits();
    code::room(1, lent.get("rows").numbers()[0] as usize, (n + 1) * rows::words(regs, bits))?;
    code::room(2, lent.u32("offsets").len(), n + 1)?;
    let raising = q.call == KeptRaising;
    let found = if raising { rows::rows_raising(code, regs, &tries, q.n("all") != 0) } else { rows::rows(code, regs, bits, q.n("wide") != 0) };
    let lists = rows::kept(code, &found, &tries, false);
    lay_rows(&found.rows, lent);
    let total: usize = lists.iter().map(Vec::len).sum();
    code::room(3, lent.u16("list").len(), total)?;
    lay_lists(&lists, lent);
    Ok([total as u64, found.full, found.abandoned, 0])
}

/// The registers of a list that the plain one has not.
fn exposing(q: &Question, lent: &mut Lent) -> Checked<[u64; 4]> {
    let (plain, list) = (q.u16("plain"), q.u16("list"));
    code::room(1, lent.u16("out").len(), list.len())?;
    let more: Vec<u16> = list.iter().copied().filter(|r| !plain.contains(r)).collect();
    lent.u16("out")[..more.len()].copy_from_slice(&more);
    Ok(one(more.len() as u64))
}

/// Writes the rows, in words of their width.
pub fn lay_rows(rows: &[u64], lent: &mut Lent) {
    match lent.get("rows") {
        Arg::U32(words) => for (e, &w) in words.iter_mut().zip(rows) { *e = w.try_into().expect("a word of 32 bits") },
        words => words.u64()[..rows.len()].copy_from_slice(rows),
    }
}

/// Writes the lists and their offsets, as far as there is room.
pub fn lay_lists(lists: &[Vec<u16>], lent: &mut Lent) {
    let mut at = 0;
    lent.u32("offsets")[0] = 0;
    for (k, list) in lists.iter().enumerate() {
        for &r in list {
            if let Some(e) = lent.u16("list").get_mut(at) { *e = r }
            at += 1;
        }
        lent.u32("offsets")[k + 1] = at as u32;
    }
}

/// Folding. `nan` gives the bits that a NaN result becomes.
pub fn folding(q: &Question, lent: &mut Lent, nan: &mut dyn FnMut(f64) -> u64) -> Checked<[u64; 4]> {
    let code = code::chunk(q.u16("code"))?;
    let n = code.len();
    code::tries(q.u32("tries"), n)?;
    let mut chunk = lent_chunk(q, lent, code)?;
    let phis = chunk.code.iter().filter(|i| i.op == turniploom::op::Phi).count();
    let operators = chunk.code.iter().filter(|i| facts::fact(i.op).folding != 0).count();
    let count = chunk.constants.len();
    let room = count.max((count + operators).min(65_535));
    let sources = 2 * chunk.phi_sources.len().max(phis);
    let needed = [("kinds", room), ("words", room), ("phi_map", n), ("phi_sources", sources), ("dead", n), ("remap", n + 1), ("landings", n + 1)];
    for (b, (name, needed)) in needed.into_iter().enumerate() { code::room(b as u64 + 1, lent.get(name).length(), needed)? }
    let folded = chunk.fold(q.n("strict") != 0, nan);
    for (mark, &dead) in lent.u8("dead").iter_mut().zip(&folded.dead) { *mark = dead.into() }
    if folded.died() {
        lay_chunk(&chunk, lent, n, sources);
        lent.u32("remap")[..=n].copy_from_slice(&folded.remap);
    }
    lay_landings(&chunk, lent, n);
    Ok([chunk.code.len() as u64, chunk.constants.len() as u64, chunk.phi_map.len() as u64, 2 * chunk.phi_sources.len() as u64])
}

/// Clearing: the constants that some instruction names, in their order; freed entries are 0.
fn clearing(q: &Question, lent: &mut Lent) -> Checked<[u64; 4]> {
    let mut code = code::chunk(q.u16("code"))?;
    let (kinds, words) = (lent.u8("kinds").clone(), lent.u64("words").clone());
    code::tables(&Tables { kinds: &kinds, words: &words, constants: q.n("constants"), phi_map: (0, 0), pairs: [(0, 0); 3] }, code.len())?;
    let count = q.n("constants") as usize;
    code::room(1, lent.u32("scratch").len(), count)?;
    let (named, before) = fold::clear(&mut code, count);
    let left: Vec<usize> = (0..count).filter(|&k| named[k]).collect();
    let laid: Vec<u16> = code.iter().flat_map(|i| i.words()).collect();
    lay(lent.u16("code"), &laid, 0);
    lay(lent.u8("kinds"), &left.iter().map(|&k| kinds[k]).collect::<Vec<_>>(), count);
    lay(lent.u64("words"), &left.iter().map(|&k| words[k]).collect::<Vec<_>>(), count);
    lay(lent.u32("scratch"), &before, 0);
    Ok(one(left.len() as u64))
}

/// The chunk that is lent, once its tables keep their rules.
fn lent_chunk(q: &Question, lent: &mut Lent, code: Vec<Instruction>) -> Checked<Chunk> {
    let Lent { buffers, .. } = lent.clone();
    let [_, Arg::U8(kinds), Arg::U64(words), Arg::U32(phi_map), Arg::U16(phi_sources), Arg::U32(stmt_pos), Arg::U32(call_byte_pos), ..] = &buffers[..]
    else { panic!("the buffers of a chunk") };
    let count = |name: &str| q.n(name);
    code::tables(&Tables {
        kinds,
        words,
        constants: count("constants"),
        phi_map: (phi_map.len(), count("phi_map_count")),
        pairs: [
            (phi_sources.len(), count("phi_sources_count")),
            (stmt_pos.len(), count("stmt_pos_count")),
            (call_byte_pos.len(), count("call_byte_pos_count")),
        ],
    }, code.len())?;
    let pairs = |table: &[u32], name: &str| table[..count(name) as usize].chunks(2).map(|p| [p[0], p[1]]).collect();
    Ok(Chunk {
        code,
        constants: (0..count("constants") as usize).map(|k| Constant::lent(kinds[k], words[k])).collect(),
        phi_map: phi_map[..count("phi_map_count") as usize].to_vec(),
        phi_sources: phi_sources[..count("phi_sources_count") as usize].chunks(2).map(|p| [p[0], p[1]]).collect(),
        stmt_pos: pairs(stmt_pos, "stmt_pos_count"),
        call_byte_pos: pairs(call_byte_pos, "call_byte_pos_count"),
        tries: q.u32("tries").as_chunks().0.to_vec(),
    })
}

/// Writes a folded chunk back: words past a new count, up to the needed length, are 0, except constants.
pub fn lay_chunk(chunk: &Chunk, lent: &mut Lent, n: usize, sources: usize) {
    let code: Vec<u16> = chunk.code.iter().flat_map(|i| i.words()).collect();
    lay(lent.u16("code"), &code, CHUNK_WORDS * n);
    for (k, c) in chunk.constants.iter().enumerate() {
        // A constant that was lent stays as it is, also one of a kind that has no word of its own.
        if *c != Constant::Other && k < lent.u8("kinds").len() && k < lent.u64("words").len() { (lent.u8("kinds")[k], lent.u64("words")[k]) = c.stored() }
    }
    lay(lent.u32("phi_map"), &chunk.phi_map, n);
    lay(lent.u16("phi_sources"), chunk.phi_sources.as_flattened(), sources);
    lay(lent.u32("stmt_pos"), chunk.stmt_pos.as_flattened(), 0);
    lay(lent.u32("call_byte_pos"), chunk.call_byte_pos.as_flattened(), 0);
    lay(lent.u32("tries"), chunk.tries.as_flattened(), 0);
}

/// Writes the landings of a folded chunk: entries past its new end are 0.
pub fn lay_landings(chunk: &Chunk, lent: &mut Lent, n: usize) { lay(lent.u64("landings"), &chunk.landings(), n + 1) }

fn lay<T: Copy + Default>(buffer: &mut [T], words: &[T], needed: usize) {
    for (k, e) in buffer.iter_mut().enumerate().take(needed.max(words.len())) { *e = words.get(k).copied().unwrap_or_default() }
}
