//! What the listing of a chunk shows: what folded into what.

use crate::{and, count, notation::{self, Chunk, constant_text, instruction_text, was}, unfolded::resultless};
use model::facts::fact;
use std::collections::BTreeMap;
use turniploom::{JUMP, NAMES, Op, Refusal, abi::CHUNK_WORDS, op};

/// A chunk before and after.
pub struct View {
    pub heading: String,
    pub before: Vec<Line>,
    pub remarks: Vec<String>,
    /// What ships: the chunk as it is folded and cleared, in the notation.
    pub ships: Chunk,
}

pub struct Line {
    pub text: String,
    /// Its new place and what stands there.
    pub after: Option<(usize, String)>,
    /// The origin that stands there.
    pub was: u16,
    /// The first operand it died into.
    pub into: Option<usize>,
    /// Whether something folded into it.
    pub result: bool,
    pub notes: Vec<String>,
    /// What the writer says of it.
    pub comment: String,
}

/// A chunk as the folding call left it, the dead marks of its old positions, and what became of its tables.
struct Folded {
    code: Vec<[u16; 3]>,
    origins: Vec<u16>,
    constants: Vec<(u8, u64)>,
    dead: Vec<bool>,
    stmt_pos: Vec<u32>,
    call_byte_pos: Vec<u32>,
    tries: Vec<u32>,
    /// How many jumps and handlers land on each position that is left, and on the end.
    landings: Vec<u64>,
    phi_map: Vec<u32>,
    phi_sources: Vec<u16>,
    /// The code and constants that the clearing call leaves of it.
    shipped: Shipped,
}

/// Code with its origins, and constants.
type Shipped = (Vec<u16>, Vec<(u8, u64)>);

/// Where jumps and handlers land, and the nearest instruction before each that was there when its operator was looked at.
struct Index {
    jumps: BTreeMap<usize, Vec<usize>>,
    handlers: BTreeMap<usize, Vec<usize>>,
    before: Vec<Option<usize>>,
}

impl Index {
    fn of(chunk: &Chunk, dead: &[bool]) -> Index {
        let (mut jumps, mut handlers) = (BTreeMap::<usize, Vec<usize>>::new(), BTreeMap::<usize, Vec<usize>>::new());
        for (k, i) in chunk.code.iter().enumerate().filter(|(_, i)| i[1] & JUMP != 0) { jumps.entry(i[2].into()).or_default().push(k) }
        for t in chunk.tries.chunks_exact(2) { handlers.entry(t[1] as usize).or_default().push(t[0] as usize) }
        let mut last = None;
        // Phis die after all folds.
        let before = (0..chunk.code.len()).map(|k| { let here = last; if !dead[k] || opcode(chunk, k) == op::Phi { last = Some(k) } here }).collect();
        Index { jumps, handlers, before }
    }

    /// The last so many instructions before `k`, the nearest first.
    fn operands(&self, k: usize, many: usize) -> Vec<usize> { std::iter::successors(self.before[k], |&p| self.before[p]).take(many).collect() }
}

impl View {
    pub fn of(chunk: &Chunk) -> Result<View, Refusal> {
        let folded = fold(chunk)?;
        let n = chunk.code.len();
        let line = |k: usize| {
            let comment = chunk.comments.get(k).cloned().unwrap_or_default();
            let text = shown(chunk.code[k], &chunk.constants) + &was(chunk.origins[k], k);
            Line { text, after: None, was: chunk.origins[k], into: None, result: false, notes: vec![], comment }
        };
        let mut before: Vec<Line> = (0..n).map(line).collect();
        let live = before.iter_mut().zip(&folded.dead).filter(|(_, dead)| !**dead);
        for (to, (line, _)) in live.enumerate() { (line.after, line.was) = (Some((to, shown(folded.code[to], &folded.constants))), folded.origins[to]) }
        let index = Index::of(chunk, &folded.dead);
        for k in 0..n { note(chunk, &folded, &index, k, &mut before) }
        let mode = if chunk.strict { "strict" } else { "plain" };
        let tries = if chunk.tries.is_empty() { String::new() } else { format!(", {}", count(chunk.tries.len() / 2, "try")) };
        let heading = format!("a chunk of {}, {}{tries}; {mode} mode", count(n, "instruction"), count(chunk.constants.len(), "constant"));
        let remarks = remarks(chunk, &folded);
        let Folded { shipped: (code, constants), phi_map, phi_sources, stmt_pos, call_byte_pos, tries, .. } = folded;
        let (code, origins) = notation::parted(&code);
        let ships = Chunk { code, origins, constants, phi_map, phi_sources, stmt_pos, call_byte_pos, tries, strict: chunk.strict, ..Chunk::default() };
        Ok(View { heading, before, remarks, ships })
    }
}

/// An instruction, with its constant beside it.
fn shown(i: [u16; 3], constants: &[(u8, u64)]) -> String {
    match constants.get(i[2] as usize) {
        Some(&(kind, word)) if i[1] & NAMES != 0 => format!("{} ({})", instruction_text(i), constant_text(kind, word)),
        _ => instruction_text(i),
    }
}

/// The folding call.
fn fold(chunk: &Chunk) -> Result<Folded, Refusal> {
    let (n, constants) = (chunk.code.len(), chunk.constants.len());
    let (mut kinds, mut values): (Vec<u8>, Vec<u64>) = chunk.constants.iter().copied().unzip();
    let (mut code, room) = (chunk.words(), constants + n);
    kinds.resize(room, 0);
    values.resize(room, 0);
    let (mut phi_map, mut sources) = (chunk.phi_map.clone(), chunk.phi_sources.clone());
    phi_map.resize(n.max(phi_map.len()), 0);
    sources.resize(sources.len().max(2 * n), 0);
    let (mut stmts, mut calls) = (chunk.stmt_pos.clone(), chunk.call_byte_pos.clone());
    let (stmt_count, call_count) = (stmts.len(), calls.len());
    let (mut dead, mut remap, mut tries, mut landings) = (vec![0; n], vec![0; n + 1], chunk.tries.clone(), vec![0; n + 1]);
    let a = turniploom::abi::fold(
        &mut code, &mut kinds, &mut values, constants, &mut phi_map, chunk.phi_map.len(), &mut sources, chunk.phi_sources.len(), &mut stmts,
        stmt_count, &mut calls, call_count, &mut dead, &mut remap, &mut tries, &mut landings, chunk.strict,
    ).granted()?;
    phi_map.truncate(a.third as usize);
    sources.truncate(a.fourth as usize);
    code.truncate(CHUNK_WORDS * a.first as usize);
    let constants: Vec<(u8, u64)> = (0..a.second as usize).map(|k| (kinds[k], values[k])).collect();
    let (left, origins) = notation::parted(&code);
    Ok(Folded {
        shipped: shipped(code, &constants)?,
        code: left,
        origins,
        constants,
        dead: dead.iter().map(|&d| d != 0).collect(),
        stmt_pos: stmts,
        call_byte_pos: calls,
        tries,
        landings,
        phi_map,
        phi_sources: sources,
    })
}

/// What the clearing call leaves.
fn shipped(mut code: Vec<u16>, constants: &[(u8, u64)]) -> Result<Shipped, Refusal> {
    let (mut kinds, mut values): (Vec<u8>, Vec<u64>) = constants.iter().copied().unzip();
    let a = turniploom::abi::clear(&mut code, &mut kinds, &mut values, constants.len(), &mut vec![0; constants.len()]).granted()?;
    Ok((code, (0..a.first as usize).map(|k| (kinds[k], values[k])).collect()))
}

fn opcode(chunk: &Chunk, k: usize) -> Op { Op(chunk.code[k][0]) }

/// Says what became of the instruction at `k`.
fn note(chunk: &Chunk, f: &Folded, index: &Index, k: usize, lines: &mut [Line]) {
    let [o, marks, operand] = chunk.code[k];
    let o = Op(o);
    for start in index.handlers.get(&k).into_iter().flatten() { lines[k].notes.push(format!("handler of the try at {start}")) }
    if f.dead[k] {
        if o == op::Phi { return lines[k].notes.push(format!("both sources are {operand}: it does nothing")) }
        let first = lines[..k].last().and_then(|l| if l.after.is_some() { Some(k - 1) } else { l.into }).or_else(|| (0..k).rev().find(|&p| !f.dead[p]))
            .expect("a first operand");
        lines[k].into = Some(first);
        lines[first].result = true;
        let last = f.dead.get(k + 1).is_none_or(|&d| !d) || opcode(chunk, k + 1) == op::Phi;
        if let (true, Some(expression)) = (last, expression(chunk, first, k)) {
            let [new, _, at] = f.code[lines[first].after.as_ref().expect("a live position").0];
            let (value, place) = match Op(new) {
                op::LoadTrue => ("true".into(), String::new()),
                op::LoadFalse => ("false".into(), String::new()),
                _ => {
                    let (kind, word) = f.constants[at as usize];
                    let place = if at as usize >= chunk.constants.len() { format!(", new constant {at}") } else { format!(", constant {at}") };
                    (constant_text(kind, word), place)
                }
            };
            lines[first].notes.push(format!("{expression} = {value}{place}"));
        }
    } else if o.folds() && let Some(why) = unfolded(chunk, f, index, k, lines) {
        lines[k].notes.push(why);
    } else if marks & JUMP != 0 && f.code.len() < f.dead.len() {
        let now = f.code[lines[k].after.as_ref().expect("a live position").0][2];
        if now != operand { lines[k].notes.push(format!("to {operand}, now {now}")) }
    }
}

fn sign(o: Op) -> &'static str {
    let signs = [
        (op::Add, "+"), (op::Sub, "-"), (op::Mul, "*"), (op::Div, "/"), (op::Mod, "%"), (op::FloorDiv, "//"), (op::Eq, "=="), (op::NotEq, "!="), (op::Lt, "<"),
        (op::Gt, ">"), (op::LtEq, "<="), (op::GtEq, ">="), (op::BitAnd, "&"), (op::BitOr, "|"), (op::BitXor, "^"), (op::Shl, "<<"), (op::Shr, ">>"),
            (op::Not, "not "), (op::Minus, "-"),
    ];
    signs.iter().find(|s| s.0 == o).map_or("?", |s| s.1)
}

/// The most instructions of an expression that is told.
const LONGEST: usize = 60;

/// The expression that the old positions `first` to `last` compute. What has an operator or a sign is bracketed as an operand.
fn expression(chunk: &Chunk, first: usize, last: usize) -> Option<String> {
    if last - first > LONGEST { return Some(count(last - first + 1, "instruction")) }
    let mut stack: Vec<String> = vec![];
    let bound = |text: String| if text.contains(' ') || text.starts_with('-') { format!("({text})") } else { text };
    for &[o, _, operand] in &chunk.code[first..=last] {
        let o = Op(o);
        let made = match if o == op::LoadConst { 0 } else { fact(o).folding } {
            1 => format!("{}{}", sign(o), bound(stack.pop()?)),
            2 => { let (right, left) = (bound(stack.pop()?), bound(stack.pop()?)); format!("{left} {} {right}", sign(o)) }
            _ => { let &(kind, word) = chunk.constants.get(operand as usize)?; constant_text(kind, word) }
        };
        stack.push(made);
    }
    let [text] = &stack[..] else { return None };
    Some(text.clone())
}

/// Why the operator at `k`, whose operands were constants, was not folded: it has no result, or something lands in its group, or both. In strict mode the
/// landings are those that the call counted: those of a group that did not fold are inside what is left of it.
fn unfolded(chunk: &Chunk, f: &Folded, index: &Index, k: usize, lines: &[Line]) -> Option<String> {
    let arity = fact(chunk.code[k][0]).folding as usize;
    let operands = index.operands(k, arity);
    if !operands.iter().all(|&p| opcode(chunk, p) == op::LoadConst) { return None }
    let Some(&first) = operands.last().filter(|_| operands.len() == arity) else {
        return Some(format!("not folded: it takes {}, and {} before it", count(arity, "operand"), if operands.is_empty() { "nothing stands" } else {
            "one stands" }));
    };
    let now = |p: usize| lines[p].after.as_ref().expect("a live position").0;
    if let Some(p) = operands.iter().rev().find(|&&p| Op(f.code[now(p)][0]) != op::LoadConst) {
        return Some(format!("not folded: its operand at {p} is no longer a LoadConst"));
    }
    let loads: Vec<u16> = operands.iter().rev().map(|&p| f.code[now(p)][2]).collect();
    let mut why: Vec<String> = resultless(opcode(chunk, k), &loads, &f.constants).into_iter().collect();
    let inside = first + 1..=k;
    let jumps = index.jumps.range(inside.clone()).flat_map(|(&at, from)| from.iter().map(move |&j| (j, at)));
    let mut landed: Vec<String> = jumps.filter(|&(j, _)| chunk.strict || j + 1 == first).map(|(j, at)| format!("the jump at {j} lands on {at}")).collect();
    if chunk.strict {
        let handlers = index.handlers.range(inside).flat_map(|(&at, from)| from.iter().map(move |&s| (s, at)));
        landed.extend(handlers.map(|(s, at)| format!("the handler of the try at {s} is at {at}")));
    }
    let barred = if chunk.strict { f.landings[now(first) + 1..=now(k)].iter().any(|&on| on != 0) } else { !landed.is_empty() };
    if barred { why.push(and(&landed)) }
    if why.is_empty() && f.constants.len() >= 65_535 { why.push("there is no room for one more constant".into()) }
    if why.is_empty() { why.push("the listing knows no reason".into()) }
    Some(format!("not folded: {}", why.join("; ")))
}

fn remarks(chunk: &Chunk, f: &Folded) -> Vec<String> {
    let (old, new) = (chunk.code.len(), f.code.len());
    let mut remarks = vec![if old == new { "Nothing folded.".into() } else { format!("{} became {new}.", count(old, "instruction")) }];
    let new = |k: usize| if k >= chunk.constants.len() { "new " } else { "" };
    let constants: Vec<String> = f.constants.iter().enumerate().map(|(k, &(kind, word))| format!("{}{k}: {}", new(k), constant_text(kind, word))).collect();
    if !constants.is_empty() { remarks.push(format!("Constants: {}.", constants.join(", "))) }
    let names: Vec<String> = f.shipped.1.iter().map(|&(kind, word)| constant_text(kind, word)).collect();
    remarks.push(format!("Cleared, it ships {}{}{}.", count(names.len(), "constant"), if names.is_empty() { "" } else { ": " }, names.join(", ")));
    for (name, old, new) in [("stmt_pos", &chunk.stmt_pos, &f.stmt_pos), ("call_byte_pos", &chunk.call_byte_pos, &f.call_byte_pos)] {
        let moved: Vec<String> = old.chunks(2).zip(new.chunks(2)).filter(|(a, b)| a != b).map(|(a, b)| format!("{} to {}", a[0], b[0])).collect();
        if !moved.is_empty() { remarks.push(format!("{name} moved: {}.", moved.join(", "))) }
    }
    let moved = chunk.tries.chunks(2).zip(f.tries.chunks(2)).filter(|(a, b)| a != b);
    let tries: Vec<String> = moved.map(|(a, b)| format!("{} {} to {} {}", a[0], a[1], b[0], b[1])).collect();
    if !tries.is_empty() { remarks.push(format!("tries moved: {}.", tries.join(", "))) }
    let landings: Vec<String> = f.landings.iter().enumerate().filter(|l| *l.1 != 0).map(|(k, on)| format!("{on} on {k}")).collect();
    if !landings.is_empty() { remarks.push(format!("Jumps and handlers that land in what is left: {}.", landings.join(", "))) }
    let (old, new) = (chunk.phi_sources.len() / 2, f.phi_sources.len() / 2);
    if new != old { remarks.push(format!("phi_sources: {} became {new}.", count(old, "pair"))) }
    let mode = ["Plain mode: a group stays only if the jump right before it lands in it.", "Strict mode: no group folds that a jump or a handler lands in."];
    remarks.push(mode[usize::from(chunk.strict)].into());
    remarks.push("By the archive: what folded, moved and ships, and how many land where. By the listing's own reckoning: why something was not folded.".into());
    remarks
}
