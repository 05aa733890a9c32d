//! Runs of random chunks as wish 14 has them. The model's machine runs each as it is lent, after the strict fold, after the clearing of what that
//! leaves, and after a fold of that: every run must end as the first did, or not at all if it does not.

use crate::{asked::{Ask, described}, chunks, model::machine::{End, Rule, Run}, question::*, rng::Rng, shrink::shrink};
use listing::notation;
use std::{fmt, thread};
use turniploom::abi::CHUNK_WORDS;

/// So many steps are run before a run counts as one that does not end.
const MOST: u64 = 2_000;

/// The chunk that is asked about, or what a call left of it: so many instructions and constants.
fn rule(code: &[u16], kinds: &[u8], words: &[u64], instructions: usize, constants: usize) -> Rule {
    let code = code.as_chunks::<CHUNK_WORDS>().0[..instructions].iter().map(|&[o, marks, operand, _]| [o, marks, operand]).collect();
    Rule { code, constants: (0..constants).map(|k| (kinds[k], words[k])).collect() }
}

/// The chunk of a question, if it is as the wish has it, in strict mode.
fn asked(q: &Question) -> Option<Rule> {
    let (code, constants) = (q.u16("code"), q.n("constants") as usize);
    let there = code.len().is_multiple_of(CHUNK_WORDS) && constants <= q.u8("kinds").len().min(q.u64("words").len()) && q.n("strict") != 0;
    let rule = there.then(|| rule(code, q.u8("kinds"), q.u64("words"), code.len() / CHUNK_WORDS, constants))?;
    rule.outside().is_none().then_some(rule)
}

/// Takes what is lent next out of a reply: the code cut at its count.
fn next(reply: &Reply, instructions: usize) -> (Arg, Arg, Arg) {
    let mut lent = reply.lent.clone();
    (Arg::U16(lent.u16("code")[..CHUNK_WORDS * instructions].to_vec()), lent.get("kinds").clone(), lent.get("words").clone())
}

/// What a reply left, as the machine reads it.
fn left(reply: &Reply, instructions: usize, constants: u64) -> Rule {
    let mut lent = reply.lent.clone();
    let code = lent.u16("code").clone();
    let kinds = lent.u8("kinds").clone();
    rule(&code, &kinds, lent.u64("words"), instructions, constants as usize)
}

/// What is left after the fold, after clearing, and after another fold; nothing if a call is refused.
fn stages(q: &Question, ask: Ask) -> Option<[(&'static str, Rule); 3]> {
    let answered = |q: &Question| Some(ask(q)).filter(|r| r.answer.refusal == 0);
    let folded = answered(q)?;
    let (n, m) = (folded.answer.first as usize, folded.answer.second);
    let (code, kinds, words) = next(&folded, n);
    let scratch = Arg::U32(vec![9; m as usize]);
    let cleared = answered(&Question::of(Clear, [("code", code), ("kinds", kinds), ("words", words), ("constants", Arg::N(m)), ("scratch", scratch)]))?;
    let (code, kinds, words) = next(&cleared, n);
    let again = answered(&Question::of(Fold, [
        ("code", code), ("kinds", kinds), ("words", words), ("constants", Arg::N(cleared.answer.first)), ("phi_map", Arg::U32(vec![9; n])),
        ("dead", Arg::U8(vec![9; n])), ("remap", Arg::U32(vec![9; n + 1])), ("tries", folded.lent.clone().get("tries").clone()),
        ("landings", Arg::U64(vec![9; n + 1])), ("strict", Arg::N(1)),
    ]))?;
    Some([
        ("folded", left(&folded, n, m)),
        ("cleared", left(&cleared, n, cleared.answer.first)),
        ("folded again", left(&again, again.answer.first as usize, again.answer.second)),
    ])
}

/// Whether a run of what is left ends as the first. A fold only drops steps, at most all but one of the chunk's for each that it leaves.
fn alike(before: &Rule, first: &Run, after: &Run) -> bool {
    match (first, after) {
        (Run::Ended(a, _), Run::Ended(b, _)) => a == b,
        (Run::Open, Run::Ended(b, steps)) => matches!(before.run((steps + 1) * before.code.len() as u64), Run::Ended(a, _) if a == *b),
        (Run::Ended(..), _) | (Run::Returns(_), Run::Ended(..)) => false,
        _ => true,
    }
}

/// Which of the four runs ends otherwise, and how.
fn broken(q: &Question, ask: Ask) -> Option<String> {
    let before = asked(q)?;
    let first = before.run(MOST);
    let other = stages(q, ask)?.into_iter().map(|(stage, rule)| (stage, rule.run(MOST))).find(|(_, run)| !alike(&before, &first, run))?;
    Some(format!("# before: {first:?}\n# {}: {:?}\n", other.0, other.1))
}

/// How the runs of some chunks end.
#[derive(Clone, Debug, Default, PartialEq, Eq)]
pub struct Ran {
    pub chunks: u64,
    /// Chunks that a call refused, which none does.
    pub refused: u64,
    /// Chunks that the fold made shorter, and those that lost a constant then.
    pub folded: u64,
    pub cleared: u64,
    /// Left with a stack, and stopped: no operand, no result, a short stack, a short test.
    pub ends: [u64; 5],
    /// Never ending, since a position and a stack come again; and not ended after so many steps.
    pub returns: u64,
    pub open: u64,
    pub wrong: u64,
    /// The first that was wrong, made small.
    pub shown: Option<String>,
}

impl Ran {
    fn one(&mut self, q: &Question, ask: Ask) {
        self.chunks += 1;
        let before = asked(q).expect("a chunk as the wish has it");
        let Some([(_, folded), (_, cleared), _]) = stages(q, ask) else { return self.refused += 1 };
        self.folded += u64::from(folded.code.len() < before.code.len());
        self.cleared += u64::from(cleared.constants.len() < folded.constants.len());
        match before.run(MOST) {
            Run::Ended(end, _) => self.ends[match end {
                End::Left(_) => 0,
                End::NoOperand(..) => 1,
                End::NoResult(..) => 2,
                End::Short(..) => 3,
                End::ShortTest => 4,
                End::Strange => unreachable!("an opcode that the machine has not"),
            }] += 1,
            Run::Returns(_) => self.returns += 1,
            Run::Open => self.open += 1,
        }
        if broken(q, ask).is_none() { return }
        self.wrong += 1;
        if self.shown.is_none() {
            let small = shrink(q, &|q| broken(q, ask).is_some());
            self.shown = Some(format!("{}{}{}", described(&small), broken(&small, ask).unwrap_or_default(), notation::asked(&small)));
        }
    }

    fn add(&mut self, other: Ran) {
        let mine = [&mut self.chunks, &mut self.refused, &mut self.folded, &mut self.cleared, &mut self.returns, &mut self.open, &mut self.wrong];
        let theirs = [other.chunks, other.refused, other.folded, other.cleared, other.returns, other.open, other.wrong];
        for (mine, theirs) in mine.into_iter().zip(theirs).chain(self.ends.iter_mut().zip(other.ends)) { *mine += theirs }
        if self.shown.is_none() { self.shown = other.shown }
    }

    /// Every run ended alike, none was refused, and all that can come of a run did.
    pub fn well(&self) -> bool {
        let came = [self.folded, self.cleared, self.returns, self.open].into_iter().chain(self.ends).all(|k| k > 0);
        self.wrong == 0 && self.refused == 0 && came
    }
}

impl fmt::Display for Ran {
    fn fmt(&self, f: &mut fmt::Formatter<'_>) -> fmt::Result {
        let [left, operand, result, short, test] = self.ends;
        if let Some(shown) = &self.shown { writeln!(f, "{shown}")? }
        let verdict = if self.well() { "" } else if self.wrong > 0 { "WRONG: " } else { "NOT ENOUGH WAS RUN: " };
        write!(
            f, "{verdict}{} chunks run before strict folding, after it, after clearing and after folding again, {} unlike, {} refused: {left} left a stack; \
            stopped {operand} for no operand, {result} for no result, {short} at a short stack, {test} at a short test; {} never end, \
            {} not within {MOST} steps. {} folded, and {} lost constants.",
            self.chunks, self.wrong, self.refused, self.returns, self.open, self.folded, self.cleared
        )
    }
}

/// Runs so many random chunks, on so many threads.
pub fn play(ask: Ask, seed: u64, chunks: u64, threads: usize) -> Ran {
    let threads = threads.max(1) as u64;
    let share = |t: u64| chunks / threads + u64::from(t < chunks % threads);
    let some = |t: u64| {
        let (mut rng, mut ran) = (Rng::new(seed, t), Ran::default());
        for _ in 0..share(t) { ran.one(&chunks::ruled(&mut rng), ask) }
        ran
    };
    let mut all = Ran::default();
    thread::scope(|s| {
        let parts: Vec<_> = (0..threads).map(|t| s.spawn(move || some(t))).collect();
        for part in parts { all.add(part.join().expect("some runs")) }
    });
    all
}
