//! A failing question made small: fewer instructions, shorter tables, smaller numbers, as long as it still fails.

use crate::question::*;
use listing::notation::{usual, usual_marks};
use turniploom::{Ins, Op, abi::CHUNK_WORDS};

/// How many questions a shrinking may ask.
const TRIALS: usize = 20_000;

/// A smaller question that fails too.
pub fn shrink(q: &Question, fails: &dyn Fn(&Question) -> bool) -> Question {
    let mut s = Shrink { best: q.clone(), fails, left: TRIALS };
    loop {
        let before = s.best.clone();
        s.instructions();
        s.tables();
        s.marks();
        s.numbers();
        if s.best == before || s.left == 0 { return s.best }
    }
}

struct Shrink<'a> {
    best: Question,
    fails: &'a dyn Fn(&Question) -> bool,
    left: usize,
}

impl Shrink<'_> {
    /// Takes a change if the question still fails.
    fn offer(&mut self, changed: Question) -> bool {
        if self.left == 0 || changed == self.best { return false }
        self.left -= 1;
        let taken = (self.fails)(&changed);
        if taken { self.best = changed }
        taken
    }

    /// Leaves out words past the last instruction, and runs of instructions, long ones first.
    fn instructions(&mut self) {
        let stride = self.best.call.stride();
        let mut whole = self.best.clone();
        let tail = whole.code().len() % stride;
        if tail != 0 { shorten(&mut whole.args[0], tail) }
        self.offer(whole);
        let mut run = (self.best.code().len() / stride).max(1);
        loop {
            let mut k = 0;
            while (k + run) * stride <= self.best.code().len() {
                let without = without(&self.best, k, run, stride);
                if !self.offer(without) { k += run }
            }
            if run == 1 { return }
            run /= 2;
        }
    }

    /// Shortens every other slice from its end, unless its length is fixed, and clears it.
    fn tables(&mut self) {
        for (k, p) in self.best.call.params().iter().enumerate() {
            if p.name == "code" { continue }
            let mut cut = if p.kind.fixed().is_some() { 0 } else { self.best.args[k].numbers().len() };
            while cut > 0 {
                let mut changed = self.best.clone();
                shorten(&mut changed.args[k], cut);
                if !self.offer(changed) { cut /= 2 }
            }
            let mut changed = self.best.clone();
            clear(&mut changed.args[k]);
            self.offer(changed);
        }
    }

    /// Gives each instruction the marks that it has if none are said, and in a chunk its position as origin.
    fn marks(&mut self) {
        if self.best.call.of_a_chunk() {
            for (k, at) in (0..self.best.u16("code").len() / CHUNK_WORDS).map(|k| (k, CHUNK_WORDS * k)) {
                let mut changed = self.best.clone();
                changed.args[0].u16()[at + 1] = usual_marks(Op(self.best.u16("code")[at]));
                self.offer(changed);
                let mut changed = self.best.clone();
                changed.args[0].u16()[at + 3] = k as u16;
                self.offer(changed);
            }
            return;
        }
        for k in 0..self.best.code().len() / 6 {
            let code: Vec<Ins> = self.best.u16("code").chunks_exact(6).map(|w| Ins { op: Op(w[0]), marks: w[1], a: w[2], b: w[3], c: w[4], x: w[5] }).collect();
            let mut changed = self.best.clone();
            changed.args[0].u16()[6 * k + 1] = usual(&code, k);
            self.offer(changed);
        }
    }

    /// Makes each number of the call, and each word of a slice that is not long, as small as it goes.
    fn numbers(&mut self) {
        for k in 0..self.best.args.len() {
            // Opcodes stay as they are, and so do marks and origins.
            let stride = (self.best.call.params()[k].name == "code").then_some(self.best.call.stride());
            let length = self.best.args[k].numbers().len() - usize::from(!matches!(self.best.args[k], Arg::N(_)));
            for w in (0..length.min(1_000)).filter(|w| stride.is_none_or(|s| w % s > 1 && (s, w % s) != (CHUNK_WORDS, 3))) {
                loop {
                    let now = word(&mut self.best.clone().args[k], w, None);
                    let smaller = [0, now / 2, now.saturating_sub(1)].into_iter().filter(|&v| v < now);
                    let mut taken = false;
                    for v in smaller {
                        let mut changed = self.best.clone();
                        word(&mut changed.args[k], w, Some(v));
                        if self.offer(changed) { taken = true; break }
                    }
                    if !taken { break }
                }
            }
        }
    }
}

/// The question without `run` instructions from `k` on; a position asked about and a full phi_map move along.
fn without(q: &Question, k: usize, run: usize, stride: usize) -> Question {
    let n = q.u16("code").len() / stride;
    let mut q = q.clone();
    for (p, a) in q.call.params().iter().zip(&mut q.args) {
        match (p.name, a) {
            ("code", a) => { a.u16().drain(k * stride..(k + run) * stride); }
            ("at", Arg::N(at)) if *at >= (k + run) as u64 => *at -= run as u64,
            ("phi_map", Arg::U32(map)) if map.len() >= n => { map.drain(k..k + run); }
            ("phi_map_count", Arg::N(count)) if *count == n as u64 => *count -= run as u64,
            _ => {}
        }
    }
    q
}

fn shorten(arg: &mut Arg, cut: usize) {
    match arg {
        Arg::N(_) => {}
        Arg::U8(v) => v.truncate(v.len().saturating_sub(cut)),
        Arg::U16(v) => v.truncate(v.len().saturating_sub(cut)),
        Arg::U32(v) => v.truncate(v.len().saturating_sub(cut)),
        Arg::U64(v) => v.truncate(v.len().saturating_sub(cut)),
    }
}

fn clear(arg: &mut Arg) {
    match arg {
        Arg::N(_) => {}
        Arg::U8(v) => v.fill(0),
        Arg::U16(v) => v.fill(0),
        Arg::U32(v) => v.fill(0),
        Arg::U64(v) => v.fill(0),
    }
}

/// A word of an argument, which is made `to` if that is given.
fn word(arg: &mut Arg, w: usize, to: Option<u64>) -> u64 {
    fn at<T: Copy + Into<u64> + TryFrom<u64>>(word: &mut T, to: Option<u64>) -> u64 {
        if let Some(Ok(v)) = to.map(T::try_from) { *word = v }
        (*word).into()
    }
    match arg {
        Arg::N(v) => at(v, to),
        Arg::U8(v) => at(&mut v[w], to),
        Arg::U16(v) => at(&mut v[w], to),
        Arg::U32(v) => at(&mut v[w], to),
        Arg::U64(v) => at(&mut v[w], to),
    }
}
