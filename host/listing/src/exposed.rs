//! Registers that are exposed: a level does not keep them, and a later exception may need them. Which they are the archive says; by which way each
//! goes wrong is found in ways.rs. A large body may have millions of warnings, so levels and ways stand in tables, and a sentence is made where it is said.

use crate::{count, line::{Line, put_few}, put, ways::{Leave, NONE, Step, Ways}};
use model::rows;
use turniploom::Ins;

/// All that is exposed, by its first level and its register.
#[derive(Clone, Debug, Default, PartialEq, Eq)]
pub struct Exposures {
    all: Vec<Told>,
    /// The levels of each, one list after another.
    levels: Vec<u32>,
    /// The leaves of all ways: where two come together they have the same from there on.
    steps: Vec<Step>,
}

/// A register, its place among the levels, and the first leave of its way.
#[derive(Clone, Copy, Debug, PartialEq, Eq)]
struct Told {
    register: u16,
    from: u32,
    until: u32,
    way: u32,
}

/// A register that levels do not keep, and the way by which it is read all the same.
#[derive(Clone, Copy, Debug)]
pub struct Exposed<'a> {
    of: &'a Exposures,
    pub register: u16,
    pub levels: &'a [u32],
    way: u32,
}

/// A way with more leaves than this is told by its first and its last.
const LONG: u32 = 4;

impl Leave {
    /// Says what happens there, and at the end of a way who reads the register.
    fn put(&self, read: Option<u32>, out: &mut String) {
        let Leave { at, to, raises } = *self;
        out.push_str(if raises { "if " } else { "by its mark `dunder` " });
        put(out, at);
        out.push_str(if raises { " raises, the handler at " } else { " goes on at " });
        put(out, to);
        match (raises, read) {
            (true, None) => out.push_str(" runs"),
            (false, None) => {}
            (true, Some(read)) => { out.push_str(" reads it at "); put(out, read) }
            (false, Some(read)) => { out.push_str(", and "); put(out, read); out.push_str(" reads it") }
        }
    }
}

impl<'a> Exposed<'a> {
    fn steps(&self) -> impl Iterator<Item = &'a Step> + use<'a> {
        let steps = &self.of.steps;
        std::iter::successors(steps.get(self.way as usize), |s| steps.get(s.next as usize))
    }

    /// Where the way leaves what the code by itself does.
    pub fn leaves(&self) -> impl Iterator<Item = Leave> + use<'a> { self.steps().map(|s| s.leave) }

    /// The last leave of the way.
    fn last(&self) -> Option<&'a Step> {
        let first = self.of.steps.get(self.way as usize)?;
        Some(if first.later == 0 { first } else { &self.of.steps[first.end as usize] })
    }

    /// The position that reads the register; none if no way to it is found.
    pub fn read(&self) -> Option<u32> { self.last().map(|last| last.end).filter(|&k| k != NONE) }

    /// The same of other levels.
    pub fn at<'b>(&self, levels: &'b [u32]) -> Exposed<'b> where 'a: 'b { Exposed { levels, ..*self } }

    /// Says the way.
    fn put_way(&self, out: &mut String) {
        let Some(last) = self.last() else { return out.push_str("no way to its reader is found") };
        let before = self.of.steps[self.way as usize].later;
        let shown = if before < LONG { before } else { 1 };
        for step in self.steps().take(shown as usize) { step.leave.put(None, out); out.push_str("; ") }
        if shown < before {
            out.push_str("and so on, ");
            out.push_str(&count((before - shown) as usize, "exception"));
            out.push_str(" later; ");
        }
        last.leave.put(self.read(), out);
    }

    /// Says the warning.
    pub fn put(&self, out: &mut String) {
        let one = self.levels.len() == 1;
        out.push_str(if one { "level " } else { "levels " });
        put_few(out, self.levels);
        out.push_str(if one { " does not keep r" } else { " do not keep r" });
        put(out, self.register.into());
        out.push_str(if one { ": its callee may overwrite it; " } else { ": their callees may overwrite it; " });
        self.put_way(out);
    }

    /// The way in words.
    pub fn way(&self) -> String { let mut way = String::new(); self.put_way(&mut way); way }

    /// The warning in a sentence.
    pub fn says(&self) -> String { let mut says = String::new(); self.put(&mut says); says }
}

impl Exposures {
    pub fn len(&self) -> usize { self.all.len() }

    pub fn is_empty(&self) -> bool { self.all.is_empty() }

    pub fn iter(&self) -> impl Iterator<Item = Exposed<'_>> {
        self.all.iter().map(|t| Exposed { of: self, register: t.register, levels: &self.levels[t.from as usize..t.until as usize], way: t.way })
    }

    /// Adds what is exposed of a register at these levels, those with the same way together.
    fn add(&mut self, register: u16, levels: &[u32], ways: &mut Ways) {
        ways.look(register);
        let (first, mut group) = (self.all.len(), Vec::with_capacity(levels.len()));
        for &k in levels {
            let way = ways.first(k, register);
            let told = ways.group(way, self.all.len() as u32);
            if told as usize == self.all.len() {
                let way = way.map_or(NONE, |(at, to)| ways.step(at, to, &mut self.steps));
                self.all.push(Told { register, from: 0, until: 0, way });
            }
            self.all[told as usize].until += 1;
            group.push(told);
        }
        let mut from = self.levels.len() as u32;
        for told in &mut self.all[first..] {
            let many = told.until;
            (told.from, told.until) = (from, from);
            from += many;
        }
        self.levels.resize(from as usize, 0);
        for (&told, &k) in group.iter().zip(levels) {
            let told = &mut self.all[told as usize];
            self.levels[told.until as usize] = k;
            told.until += 1;
        }
    }

    /// Puts them in order: by the first level, of the same by the register, in whose order they came.
    fn sort(&mut self, n: usize) {
        let first = |t: &Told| self.levels[t.from as usize] as usize;
        let mut place = vec![0; n + 1];
        for t in &self.all { place[first(t) + 1] += 1 }
        for k in 0..n { place[k + 1] += place[k] }
        let mut all = self.all.clone();
        for t in &self.all {
            all[place[first(t)]] = *t;
            place[first(t)] += 1;
        }
        self.all = all;
    }
}

/// Whether anything in the code goes where its rows do not lead; if not, nothing is exposed.
pub fn may_be(code: &[Ins], tries: &[(usize, usize)]) -> bool { !tries.is_empty() || code.iter().any(rows::stranded) }

/// Every register that is exposed at a level, with the levels that have the same way together.
pub fn of(lines: &[Line], code: &[Ins], tries: &[(usize, usize)], registers: usize) -> Exposures {
    let mut found = Exposures::default();
    if lines.iter().all(|l| l.level.as_ref().is_none_or(|v| v.exposed.is_empty())) { return found }
    let exposed = crate::ways::Lists::of(registers, || lines.iter().zip(0..).flat_map(|(l, k)| l.level.iter().flat_map(move |v| v.exposed.iter().map(
        move |&r| (r.into(), k)))));
    let mut ways = Ways::of(lines, code, tries, registers);
    for r in 0..registers { if !exposed.at(r).is_empty() { found.add(r as u16, exposed.at(r), &mut ways) } }
    found.sort(code.len());
    found
}
