//! Traces: runs of the model, told in blocks, and what may be wrong with them.

use crate::{model::day::{BLOCK, FILLER, POSITIONS, check, moves}, question::*, rng::Rng};
use turniploom::{Ins, abi, op};

/// Entries as a trace: filled up to whole blocks, each with its check.
fn blocks(mut entries: Vec<u32>) -> Vec<u8> {
    let each = POSITIONS / 4;
    entries.resize(entries.len().div_ceil(each) * each, FILLER);
    entries.chunks(each).flat_map(|block| {
        let mut bytes: Vec<u8> = block.iter().flat_map(|e| e.to_le_bytes()).collect();
        bytes.extend(check(&bytes).to_le_bytes());
        bytes
    }).collect()
}

/// A run of the code, of at most so many steps.
fn run(rng: &mut Rng, code: &[Ins], tries: &[(usize, usize)], most: usize) -> Vec<u32> {
    let mut run = vec![];
    let mut next = (!code.is_empty()).then_some(0);
    while let Some(k) = next && run.len() < most {
        run.push(k as u32);
        let to = moves(code, tries, k);
        next = (!to.is_empty()).then(|| rng.pick(&to));
    }
    run
}

/// Something wrong in the entries, whose checks will be right.
fn misled(rng: &mut Rng, entries: &mut Vec<u32>, n: usize) {
    let at = rng.below(entries.len() + 1);
    let near = rng.below(n + 1) as u32;
    let strange = rng.pick(&[0, 1, n as u32, n as u32 + 1, 65_535, FILLER - 1, FILLER, near]);
    match rng.below(5) {
        0 => entries.insert(at, strange),
        1 => { if at < entries.len() { entries.remove(at); } }
        2 => entries.insert(at, FILLER),
        3 => { entries.resize(entries.len().max(1).next_multiple_of(POSITIONS / 4), FILLER); entries.push(strange) }
        _ => { if let Some(e) = entries.get_mut(at) { *e = strange } }
    }
}

/// Something wrong in the bytes.
fn damaged(rng: &mut Rng, trace: &mut Vec<u8>) {
    let at = rng.below(trace.len().max(1));
    match rng.below(6) {
        0 => trace.truncate(at),
        1 => trace.push(rng.word() as u8),
        2 => trace.truncate(at / BLOCK * BLOCK),
        _ => { if let Some(byte) = trace.get_mut(at) { *byte ^= 1 << rng.below(8) } }
    }
}

/// A trace over a code, mostly of a run.
pub fn random(rng: &mut Rng, words: &[u16], tries: &[u32]) -> Vec<u8> {
    let code = crate::model::code::code(words).unwrap_or_default();
    let tries = crate::model::code::tries(tries, code.len()).unwrap_or_default();
    let most = rng.weighted(&[(2, 0), (6, 9), (6, 40), (2, 126), (2, 127), (2, 128), (2, 254), (1, 400)]);
    let mut entries = run(rng, &code, &tries, most);
    if rng.once_in(4) { misled(rng, &mut entries, code.len()) }
    if rng.once_in(12) { entries.resize(entries.len() + rng.pick(&[1, 127, 200]), FILLER) }
    let mut trace = blocks(entries);
    if rng.once_in(6) { damaged(rng, &mut trace) }
    trace
}

/// A loop around two blocks and a bit, with every byte another, and with every length.
pub fn systematic(take: &mut dyn FnMut(Question)) {
    let code = [Ins::unmarked(op::AddR, 0, 1, 1, 0), Ins::unmarked(op::CallR, 2, 0, 0, 0), Ins::unmarked(op::StoreTopR, 1, 0, 0, 0), Ins::unmarked(op::Jump, 0, 0, 0, 0)];
    let whole = blocks((0..300).map(|k| k % 4).collect());
    let mut ask = |trace: Vec<u8>| take(Question::of(Replay, [
        ("code", Arg::U16(abi::words(&code).to_vec())), ("regs", Arg::N(3)), ("trace", Arg::U8(trace)), ("reads", Arg::U64(vec![7; 4])),
    ]));
    for at in 0..whole.len() {
        ask(whole[..at].to_vec());
        for bit in 0..8 {
            let mut trace = whole.clone();
            trace[at] ^= 1 << bit;
            ask(trace);
        }
    }
    ask(whole);
}
