//! A line of a body: an instruction with what it uses and gives up, and the level that it may be.

use crate::put;

/// A position of a body, the end's too.
#[derive(Default)]
pub struct Line {
    pub text: String,
    pub used: Vec<u16>,
    pub given_up: Vec<u16>,
    /// The positions whose rows it reads.
    pub after: Vec<usize>,
    /// The registers needed before the instruction, if rows were looked for there.
    pub row: Vec<u16>,
    pub level: Option<Level>,
    /// Where it jumps and what jumps to it.
    pub notes: Vec<String>,
    /// What the writer says of it.
    pub comment: String,
}

/// An instruction that may call back into the body.
pub struct Level {
    pub resume: usize,
    pub result: Option<u16>,
    pub callee: Option<String>,
    /// Whether it is a call with no store where its result is due.
    pub unstored: bool,
    /// What is kept for the resume point, and what each handler adds that adds anything.
    pub kept: Vec<Part>,
    /// What is not kept, though a later exception may need it.
    pub exposed: Vec<u16>,
}

/// What is kept for the resume point, or added for a handler.
pub struct Part {
    pub handler: Option<usize>,
    pub registers: Vec<u16>,
}

impl Level {
    /// What the call does, where it comes back and where its result goes.
    pub fn says(&self) -> String { let mut says = String::new(); self.put_says(&mut says); says }

    /// Writes the same.
    pub fn put_says(&self, out: &mut String) {
        if let Some(callee) = &self.callee { out.push_str(callee); out.push_str(", ") }
        out.push_str("resumes at ");
        put(out, self.resume as u32);
        match self.result {
            None => out.push_str(", no result register"),
            Some(r) => { out.push_str(", result in r"); put(out, r.into()) }
        }
        if self.unstored { out.push_str("; its store is missing, a StoreTopR at "); put(out, self.resume as u32) }
    }

    /// What is kept, in words.
    pub fn keeps(&self) -> String { let mut keeps = String::new(); self.put_keeps(&mut keeps); keeps }

    /// Writes the same.
    fn put_keeps(&self, out: &mut String) {
        let from = out.len();
        for part in self.kept.iter().filter(|p| !p.registers.is_empty()) {
            if out.len() > from { out.push_str("; ") }
            put_registers(out, &part.registers);
            if let Some(h) = part.handler { out.push_str(" for the handler at "); put(out, h as u32) }
        }
        if out.len() == from { out.push_str("nothing") }
    }

    /// What is exposed, in words; nothing if nothing is.
    pub fn exposes(&self) -> Option<String> {
        let are = if self.exposed.len() == 1 { "is" } else { "are" };
        (!self.exposed.is_empty()).then(|| format!("{} {are} exposed", registers(&self.exposed)))
    }

    /// Writes what is kept and what is exposed.
    pub fn put_lists(&self, out: &mut String) {
        self.put_keeps(out);
        if self.exposed.is_empty() { return }
        out.push_str("; ");
        put_registers(out, &self.exposed);
        out.push_str(if self.exposed.len() == 1 { " is exposed" } else { " are exposed" });
    }

    /// All that is kept, in the list's order.
    pub fn registers(&self) -> Vec<u16> { self.kept.iter().flat_map(|p| p.registers.iter().copied()).collect() }
}

/// Registers in a row: `r0 r3-r7`.
pub fn registers(set: &[u16]) -> String { let mut out = String::new(); put_registers(&mut out, set); out }

/// Writes them.
pub fn put_registers(out: &mut String, mut set: &[u16]) {
    while let Some(&first) = set.first() {
        let run = set.iter().zip(first..).take_while(|(r, due)| *r == due).count();
        let one = |out: &mut String, sign: &str, r: u16| { out.push_str(sign); put(out, r.into()) };
        one(out, "r", first);
        if run > 1 { one(out, if run == 2 { " r" } else { "-r" }, set[run - 1]) }
        set = &set[run..];
        if !set.is_empty() { out.push(' ') }
    }
}

/// The first of many positions, and how many more there are.
pub fn few(positions: &[usize]) -> String {
    let mut out = String::new();
    put_few(&mut out, &positions.iter().map(|&k| k as u32).collect::<Vec<_>>());
    out
}

/// Writes the same.
pub fn put_few(out: &mut String, positions: &[u32]) {
    let (shown, more) = if positions.len() <= 9 { (positions.len(), 0) } else { (8, positions.len() - 8) };
    for (i, &k) in positions[..shown].iter().enumerate() {
        if i > 0 { out.push_str(if more == 0 && i + 1 == shown { " and " } else { ", " }) }
        put(out, k);
    }
    if more > 0 { out.push_str(&format!(" and {more} more")) }
}
