//! Recorded answers: a sample of the Rust's own, and of the model's where it alone decides, as numbers, one record a line.

use crate::{model::{self, day::BLOCK}, original, question::*, questions, rng::Rng};
use std::{fmt::Write as _, fs, io};
use turniploom::abi::Param;

/// The records of a call, and the instructions that a code may have.
const RECORDS: usize = 64;
const INSTRUCTIONS: usize = 8;
/// The numbers that a record may have.
const NUMBERS: usize = 500;

/// What a record shows.
#[derive(Clone, Copy, PartialEq, Eq)]
enum Shows {
    /// The Rust's answer, and one that is not the plain no, none or 0.
    Telling,
    /// The Rust's plain answer.
    Plain,
    /// A refusal, which the model gives.
    Refused,
}

use Shows::*;

/// The kinds of record, in turn.
const TURN: [Shows; 8] = [Telling, Telling, Plain, Telling, Telling, Plain, Telling, Refused];

/// Writes a file with as many records of each call, and gives their number.
pub fn write(file: &str, calls: &[Call], seed: u64) -> io::Result<usize> {
    let text = text(calls, seed);
    fs::write(file, &text)?;
    Ok(text.lines().count())
}

/// The records of these calls, one a line.
pub fn text(calls: &[Call], seed: u64) -> String {
    let mut text = String::new();
    for &call in calls {
        let mut rng = Rng::new(seed, call as u64);
        for kind in TURN.into_iter().cycle().take(RECORDS) { text += &wanted(&mut rng, call, kind) }
    }
    text
}

/// A record of that kind, or after many tries of any kind.
fn wanted(rng: &mut Rng, call: Call, kind: Shows) -> String {
    let mut left = 10_000;
    loop {
        let q = questions::random(rng, call);
        left -= 1;
        if let Some((line, shows)) = record(&q) && (shows == kind || left < 0) { return line }
    }
}

/// The record of a small question, if the Rust answers it as the model does, or if the model alone decides it: a refusal, and
/// what the Rust does not have, strict mode and some calls.
fn record(q: &Question) -> Option<(String, Shows)> {
    let params = q.call.params();
    let long = |(p, a): (&Param, &Arg)| p.kind.fixed().is_none() && a.numbers().len() > if p.name == "trace" { 64 + BLOCK } else { 64 };
    if q.code().len() > INSTRUCTIONS * q.call.stride() || params.iter().zip(&q.args).any(long) { return None }
    let reply = model::ask(q);
    let shows = if reply.answer.refusal != 0 { Refused } else if reply.telling(q) { Telling } else { Plain };
    let alone = shows == Refused || q.call.is_new() || q.call == Fold && q.n("strict") != 0;
    if !alone && original::ask(q, &reply)? != reply { return None }
    let mut line = (q.call as u64).to_string();
    let lent = params.iter().filter(|p| p.kind.is_lent()).zip(&reply.lent.buffers).flat_map(recorded);
    let numbers = params.iter().zip(&q.args).flat_map(recorded).chain(reply.values()).chain(lent);
    for v in numbers { write!(line, " {v}").unwrap() }
    (line.split(' ').count() <= NUMBERS + if q.call == Replay { BLOCK } else { 0 }).then_some((line + "\n", shows))
}

/// An argument as a record has it; an array whose length is fixed goes up to the last word that is not 0.
fn recorded((p, arg): (&Param, &Arg)) -> Vec<u64> {
    let mut numbers = arg.numbers();
    if p.kind.fixed().is_some() {
        while numbers.len() > 1 && numbers.last() == Some(&0) { numbers.pop(); }
        numbers[0] = numbers.len() as u64 - 1;
    }
    numbers
}
