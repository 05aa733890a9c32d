//! A recorded day through the crate: long traces, blocks at their edges, and readers that fail.
#![cfg(feature = "std")]

use std::{io, time::Instant};
use turniploom::{Block, Ins, Recorder, Refusal, Unread, op::*, positions, replay, replay_from};

/// A loop of four with one level, and a handler at its end.
fn body() -> [Ins; 5] {
    [Ins::unmarked(AddR, 0, 1, 1, 0), Ins::unmarked(CallR, 2, 0, 0, 0), Ins::unmarked(StoreTopR, 1, 0, 0, 0), Ins::unmarked(Jump, 0, 0, 0, 0), Ins::unmarked(ReturnR, 0, 2, 0, 0)]
}

fn recorded(steps: impl Iterator<Item = u32>) -> Vec<u8> {
    let mut recorder = Recorder::new(vec![]);
    for step in steps { recorder.step(step).unwrap() }
    recorder.finish().unwrap()
}

#[test]
fn ten_million_steps() {
    let trace = recorded((0..10_000_000).map(|k| k % 4));
    let start = Instant::now();
    let day = replay_from(&body(), 3, &[], &trace[..]).unwrap();
    println!("10,000,000 steps in {:?}", start.elapsed());
    assert_eq!((day.steps, day.levels, &day.reads[..]), (10_000_000, 2_500_000, &[0, 2_500_000, 2_500_000][..]));
}

#[test]
fn a_block_at_its_edges() {
    for steps in [0, 1, 126, 127, 128, 253, 254, 255] {
        let trace = recorded((0..steps).map(|k| k % 4));
        assert_eq!((trace.len(), positions(&trace).count()), (512 * (steps as usize).div_ceil(127), steps as usize));
        assert_eq!(replay(&body(), 3, &[], &trace).unwrap().steps, u64::from(steps));
        let empty = [&trace[..], &Block::default().bytes()].concat();
        assert_eq!(replay(&body(), 3, &[], &empty).unwrap().steps, u64::from(steps));
        if steps > 0 { assert_eq!(replay(&body(), 3, &[], &trace[..trace.len() - 1]), Err(Refusal::Check { block: u64::from((steps - 1) / 127) })) }
    }
}

/// Only a level goes to a handler, and only to one of a try around it.
#[test]
fn handlers() {
    let day = |tries: &[(usize, usize)], steps: &[u32]| replay(&body(), 3, tries, &Block::of(steps).bytes()).map(|d| d.steps);
    assert_eq!(day(&[(0, 4)], &[0, 1, 4]), Ok(3));
    assert_eq!(day(&[(1, 4)], &[0, 1, 4]), Err(Refusal::Move { step: 2 }));
    assert_eq!(day(&[(0, 4)], &[0, 1, 2, 4]), Err(Refusal::Move { step: 3 }));
    assert_eq!(day(&[(0, 4)], &[0, 1, 4, 0]), Err(Refusal::Move { step: 3 }));
    assert_eq!(day(&[], &[0, 5]), Err(Refusal::Move { step: 1 }));
    assert_eq!(day(&[], &[1]), Err(Refusal::Move { step: 0 }));
}

#[test]
fn a_reader_that_fails() {
    struct Broken;
    impl io::Read for Broken {
        fn read(&mut self, _: &mut [u8]) -> io::Result<usize> { Err(io::Error::other("the cable is cut")) }
    }
    let told = |r: Result<_, Unread>| r.map(|_: turniploom::Day| ()).unwrap_err().to_string();
    assert_eq!(told(replay_from(&body(), 3, &[], Broken)), "the trace can't be read: the cable is cut");
    assert_eq!(told(replay_from(&body(), 3, &[], &[0; 511][..])), "block 0 of the trace is cut short, or its check is wrong");
    assert_eq!(replay(&body(), 1_025, &[], &[]), Err(Refusal::Registers { number: 1_025 }));
}
