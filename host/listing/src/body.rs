//! What the listing of a body shows, found by the archive's calls.

use crate::{and, around::Around, callee::Callees, count, exposed::{self, Exposed, Exposures}, found::{self, Found}, notation::{Body, ins_text}, out::Out,
    own::Own};
pub use crate::line::{Level, Line, Part, put_registers, registers};
use crate::line::few;
use model::rows;
use turniploom::{DUNDER, Ins, Op, Refusal, op};

/// A body with all that is known of it.
pub struct View {
    pub heading: String,
    /// The registers of the picture.
    pub columns: Vec<u16>,
    /// A line for each position, the end's too.
    pub lines: Vec<Line>,
    pub tries: Vec<(usize, usize)>,
    /// From here on rows were looked for.
    pub start: usize,
    pub remarks: Vec<String>,
    /// What is exposed, with the ways by which it goes wrong.
    pub exposed: Exposures,
    /// Whether that was not asked for, since too much is inside tries.
    pub unasked: bool,
    /// The registers that no step of a replayed trace read; none if there is no trace.
    pub unread: Vec<u16>,
}

impl View {
    /// # Errors
    ///
    /// The refusal of the kept-register call.
    pub fn of(body: &Body) -> Result<View, Refusal> {
        let mut found = Found::of(body)?;
        let (code, n) = (&body.code, body.code.len());
        let tries = found::tries(body)?;
        let own: Vec<Own> = code.iter().map(Own::of).collect();
        let unasked = found.exposed.is_none();
        let (exposes, mut exposed) = (found.exposes(), found.exposed.take().unwrap_or_default().into_iter().peekable());
        let (mut callees, mut adding) = (Callees::of(code), Adding::of(&found, &tries));
        let mut lines: Vec<Line> = (0..n).map(|k| {
            let (used, given_up) = sets(code, k, &own[k], body.registers);
            let level = found.levels[k].map(|(resume, result)| Level {
                resume, result, callee: callees.at(k), unstored: unstored(code, k, resume), kept: parts(&found, k, resume, result, adding.at(k)),
                exposed: exposed.next_if(|e| e.0 == k).map_or(vec![], |e| e.1),
            });
            let comment = body.comments.get(k).cloned().unwrap_or_default();
            Line { text: ins_text(code, k), used, given_up, after: after(code, k, &own[k]), row: found.row(k), level, notes: vec![], comment }
        }).collect();
        lines.push(Line { text: "end".into(), row: found.row(n), ..Line::default() });
        note(code, &own, &tries, &mut lines);
        let exposed = exposed::of(&lines, code, &tries, body.registers);
        let columns = columns(&lines, body.registers);
        let width = if body.rows32 { ", rows of 32 bits" } else { "" };
        let heading = format!("{}, {}, {}{width}", count(n, "instruction"), count(body.registers, "register"), count(tries.len(), "try"));
        let start = found.start(body);
        let mut remarks = remarks(body, &lines, &found, exposes, &own);
        if callees.unasked > 0 { remarks.push(format!("{} not asked for: the way back to what they call is too long.", count(callees.unasked, "callee"))) }
        Ok(View { heading, columns, lines, tries, start, remarks, exposed, unasked, unread: vec![] })
    }

    /// Lays a recorded day beside the rows: how often each position was visited, and how often each register was read.
    ///
    /// # Errors
    ///
    /// The refusal of the trace.
    pub fn replay(&mut self, body: &Body, trace: &[u8]) -> Result<(), Refusal> {
        let day = turniploom::replay(&body.words(), body.registers, &self.tries, trace)?;
        let mut visits = vec![0; body.code.len()];
        for k in turniploom::positions(trace) { visits[k as usize] += 1 }
        for (line, &visits) in self.lines.iter_mut().zip(&visits) { line.notes.insert(0, visited(visits)) }
        self.unread = (0..).zip(&day.reads).filter(|r| *r.1 == 0).map(|r| r.0).collect();
        let reads: Vec<String> = (0..).zip(&day.reads).filter(|r| *r.1 != 0).map(|(r, reads): (u16, _)| format!("r{r} {reads}")).collect();
        let reads = if reads.is_empty() { "no register".into() } else { reads.join(", ") };
        self.remarks.insert(0, format!("Replayed: {}, {} met. Read: {reads}.", count(day.steps as usize, "step"), count(day.levels as usize, "level")));
        let lost: Vec<String> = self.unread.iter().filter(|r| self.lines.iter().any(|l| l.row.contains(r))).map(|r| format!("r{r}")).collect();
        if !lost.is_empty() { self.remarks.insert(1, format!("Needed by a row and never read on that day: {}.", and(&lost))) }
        Ok(())
    }

    /// What is said of a register that is exposed at a level.
    pub fn exposed_at(&self, k: usize, r: u16) -> Option<Exposed<'_>> {
        self.exposed.iter().find(|e| e.register == r && e.levels.binary_search(&(k as u32)).is_ok())
    }

    /// How many warnings there are.
    pub fn warned(&self) -> usize { self.exposed.len() + usize::from(self.unasked) }

    /// Writes the warnings, a sentence each, between these.
    pub fn put_warnings(&self, begin: &str, end: &str, out: &mut Out) {
        let mut put = |says: &dyn Fn(&mut String)| {
            out.push_str(begin);
            out.push_str("WARNING: ");
            says(out);
            out.push('.');
            out.push_str(end);
            out.pass();
        };
        for e in self.exposed.iter() { put(&|out| e.put(out)) }
        if self.unasked { put(&|out| out.push_str(UNASKED)) }
    }

    /// The warnings, a sentence each.
    pub fn warnings(&self) -> Vec<String> {
        let mut out = Out::default();
        self.put_warnings("", "\n", &mut out);
        out.text().lines().map(String::from).collect()
    }
}

/// What is said where it was not asked for.
pub const UNASKED: &str = "too much is inside tries to ask here what is exposed";

/// How often a position was visited.
fn visited(times: u64) -> String {
    match times {
        0 => "never visited".into(),
        1 => "visited once".into(),
        _ => format!("visited {times} times"),
    }
}

/// The registers used and given up, as the row equations have them.
fn sets(code: &[Ins], k: usize, own: &Own, registers: usize) -> (Vec<u16>, Vec<u16>) {
    if rows::pending(code, k) { return (vec![], vec![]) }
    let inside = |set: &[u16]| {
        let mut set: Vec<u16> = set.iter().copied().filter(|&r| usize::from(r) < registers).collect();
        set.sort();
        set.dedup();
        set
    };
    (inside(&own.touched.used), inside(&own.touched.given_up))
}

/// Whether the level at `k` is one of the four calls, and no StoreTopR stands where it resumes.
fn unstored(code: &[Ins], k: usize, resume: usize) -> bool { code[k].op.is_call() && code.get(resume).is_none_or(|i| i.op != op::StoreTopR) }

/// Of the handlers around positions that are gone through in order, those whose rows have more than the rows of the ones before.
struct Adding<'a> {
    found: &'a Found,
    around: Around<'a>,
    /// What all handlers' rows have together.
    all: Vec<u64>,
    handlers: Vec<usize>,
}

impl<'a> Adding<'a> {
    fn of(found: &'a Found, tries: &'a [(usize, usize)]) -> Adding<'a> {
        let mut all = vec![0; found.bits(0).len()];
        for &(_, h) in tries { join(&mut all, found.bits(h)); }
        Adding { found, around: Around::of(tries), all, handlers: vec![] }
    }

    /// Those around a position.
    fn at(&mut self, k: usize) -> &[usize] {
        if self.around.go(k) {
            self.handlers.clear();
            let mut seen = vec![0; self.all.len()];
            for h in self.around.handlers() {
                if seen == self.all { break }
                if join(&mut seen, self.found.bits(h)) { self.handlers.push(h) }
            }
        }
        &self.handlers
    }
}

/// Joins a row to a set: whether it has more.
fn join(set: &mut [u64], row: &[u64]) -> bool {
    let more = row.iter().zip(&*set).any(|(r, s)| r & !s != 0);
    for (s, r) in set.iter_mut().zip(row) { *s |= r }
    more
}

/// The kept list of the archive, taken apart by what each register is kept for.
fn parts(found: &Found, k: usize, resume: usize, result: Option<u16>, handlers: &[usize]) -> Vec<Part> {
    let mut left = found.kept(k);
    let mut seen = vec![0u64; found.bits(resume).len()];
    // What a row has besides is next in the list.
    let mut take = |row: &[u64], without: Option<u16>| {
        let mut registers = vec![];
        for (base, (row, seen)) in (0..).step_by(64).zip(row.iter().zip(&mut seen)) {
            let mut more = row & !*seen;
            while more != 0 {
                let r = base + more.trailing_zeros() as u16;
                if without != Some(r) && left.first() == Some(&r) {
                    left = &left[1..];
                    registers.push(r);
                }
                more &= more - 1;
            }
        }
        for &r in &registers { seen[usize::from(r) / 64] |= 1 << (r % 64) }
        registers
    };
    let mut parts = vec![Part { handler: None, registers: take(found.bits(resume), result) }];
    for &h in handlers {
        let registers = take(found.bits(h), None);
        if !registers.is_empty() { parts.push(Part { handler: Some(h), registers }) }
    }
    parts
}

/// What comes after an instruction.
fn after(code: &[Ins], k: usize, own: &Own) -> Vec<usize> {
    let to = usize::from(code[k].a).min(code.len());
    match code[k].op {
        op::ReturnR => vec![],
        op::Jump => vec![to],
        _ if own.jumps => vec![k + 1, to],
        _ => vec![k + 1],
    }
}

/// Says what each line writes where that is not plain, where it jumps, and what lands on it.
fn note(code: &[Ins], own: &[Own], tries: &[(usize, usize)], lines: &mut [Line]) {
    let n = code.len();
    let mut from = vec![vec![]; n + 1];
    for (k, i) in code.iter().enumerate() {
        let notes = &mut lines[k].notes;
        let (to, touched) = (usize::from(i.a), &own[k].touched);
        if rows::pending(code, k) { notes.push("pending under the call".into()) }
        if touched.written != touched.given_up {
            notes.push(if touched.written.is_empty() { "writes nothing".into() } else { format!("writes {}", registers(&touched.written)) });
        }
        if own[k].jumps {
            notes.push(if to > n { format!("to {to}, past the end") } else { format!("to {to}") });
            from[to.min(n)].push(k);
        }
    }
    for (line, from) in lines.iter_mut().zip(&from) { if !from.is_empty() { line.notes.push(format!("from {}", few(from))) } }
    for &(s, h) in tries { lines[h.min(n)].notes.push(format!("handler of the try at {s}")) }
}

/// All registers if they are few, else those that occur.
fn columns(lines: &[Line], registers: usize) -> Vec<u16> {
    if registers <= 16 { return (0..registers as u16).collect() }
    let mut occurs = vec![false; registers];
    for l in lines {
        let result = l.level.iter().filter_map(|v| v.result);
        for r in l.used.iter().chain(&l.given_up).chain(&l.row).copied().chain(result) { if let Some(o) = occurs.get_mut(usize::from(r)) { *o = true } }
    }
    (0..registers as u16).filter(|&r| occurs[usize::from(r)]).collect()
}

fn remarks(body: &Body, lines: &[Line], found: &Found, exposes: bool, own: &[Own]) -> Vec<String> {
    let (n, first, start) = (body.code.len(), found.first(), found.start(body));
    let from = match start {
        0 => String::new(),
        _ if first == n => " No level: no row is looked for.".into(),
        _ => format!(" Rows are looked for from {start} on, the first level; before it they are left blank."),
    };
    let mut remarks = vec![format!("{} of at most {}, {} abandoned.{from}", count(found.full as usize, "full sweep"), found.most, found.abandoned)];
    if exposes { remarks.insert(0, "A host whose calls may raise asks `kept_raising` in place of `kept`: it keeps what is exposed too.".into()) }
    let untrue = untrue(lines, found, start);
    if !untrue.is_empty() { remarks.push(format!("ROWS THAT BREAK THEIR EQUATION: {}", few(&untrue))) }
    let outside = outside(body, own);
    if !outside.is_empty() { remarks.push(format!("Not below the register count, so never kept: {}.", registers(&outside))) }
    remarks.extend(dunders(&body.code, found));
    remarks.extend(section(&body.code));
    let exposed = if exposes { "what is exposed, " } else { "" };
    remarks.push(format!("By the archive: rows, lists, {exposed}levels, callees, jumps, uses and gives up."));
    remarks.push("By the listing's own reckoning: what is pending under a call, and so touches no register; paths.".into());
    remarks
}

/// The rows of the archive that are not what the sets on their lines make of the rows after.
fn untrue(lines: &[Line], found: &Found, start: usize) -> Vec<usize> {
    let mut row = vec![0; found.bits(0).len()];
    (start..lines.len() - 1).filter(|&k| {
        row.fill(0);
        for &j in &lines[k].after { join(&mut row, found.bits(j)); }
        for &r in &lines[k].given_up { row[usize::from(r) / 64] &= !(1 << (r % 64)) }
        for &r in &lines[k].used { row[usize::from(r) / 64] |= 1 << (r % 64) }
        row != found.bits(k)
    }).collect()
}

/// Registers that an instruction touches and that are not below the count.
fn outside(body: &Body, own: &[Own]) -> Vec<u16> {
    let touched = |k: usize| own[k].touched.used.iter().chain(&own[k].touched.given_up).copied().filter(|&r| usize::from(r) >= body.registers);
    let mut all: Vec<u16> = (0..own.len()).filter(|&k| touched(k).next().is_some() && !rows::pending(&body.code, k)).flat_map(touched).collect();
    all.sort();
    all.dedup();
    all
}

/// Whether a dunder may run at an opcode, as far as its name tells: operators, comparisons, items and lengths. The Rust's own test is not given.
fn may_run_a_dunder(o: Op) -> bool {
    use op::*;
    let name = o.name().unwrap_or_default();
    o.folds() || name.starts_with("JumpUnless") || [
        AddR, SubR, MulR, DivR, ModR, FloorDivR, InPlaceAddR, InPlaceSubR, BitAndR, BitOrR, BitXorR, ShlR, ShrR, PowR, EqR, NotEqR, LtR, LtEqR, GtR,
            GtEqR, MinusR, NotR,
        GetItemR, StoreItemR, SetAttrR, InR, NotInR, LenR, GetItem, StoreItem, Pow, In, NotIn, InPlaceAdd, InPlaceSub, LoadAttr, StoreAttr, DelItem,
            DelAttr, BitNot,
    ].contains(&o)
}

/// With no mark `dunder` at all: which instructions would be levels if the host's test named their opcodes.
fn dunders(code: &[Ins], found: &Found) -> Option<String> {
    if code.iter().any(|i| i.marks & DUNDER != 0) { return None }
    let may: Vec<usize> = (0..code.len()).filter(|&k| found.levels[k].is_none() && may_run_a_dunder(code[k].op)).collect();
    let told: Vec<String> = may.iter().take(6).map(|&k| format!("{k} {}", code[k].op)).collect();
    let shown = match may.len() {
        0 => return None,
        1..=6 => and(&told),
        many => format!("{} and {} more", told[..5].join(", "), many - 5),
    };
    Some(format!("No mark `dunder` is given, which the host alone knows: if its dunder_op says so, these are levels too and keep registers: {shown}."))
}

/// What the walks say of the body as a whole.
fn section(code: &[Ins]) -> Option<String> {
    Some(format!(
        "As a section: {}, {}, {}.",
        if turniploom::pure(code).ok()? { "it may be laid" } else { "it may not be laid" },
        if turniploom::flat(code).ok()? { "it leaves nothing on the stack" } else { "it works on the stack" },
        if turniploom::guarded(code).ok()? { "it has a try or a with" } else { "it has no try and no with" },
    ))
}
