//! How far `needed` walks: each way out of an instruction to another once at most, so at most as many turns as instructions and jumps (`few_turns`,
//! crates/seek/proofs/Within.antt). Instructions of the archive are counted by callgrind, where valgrind is at hand.

use std::{env, fs, process::Command};
use turniploom::{Ins, abi, op::*};

const MOST: usize = 65_535;

/// No instruction uses register 9: a search for it from 0 ends where all is followed.
fn straight(n: usize) -> Vec<Ins> { vec![Ins::unmarked(Move, 2, 3, 0, 0); n] }

/// Every instruction is a jump with two ways out, to the next and back to the first.
fn jumps(n: usize) -> Vec<Ins> { vec![Ins::unmarked(JumpIfFalseR, 0, 3, 0, 0); n] }

/// The same search, its turns counted, those of instructions that were marked before too; n does not wait.
fn turns(code: &[Ins]) -> usize {
    let (mut seen, mut todo, mut turns) = (vec![false; code.len()], vec![0], 0);
    while let Some(k) = todo.pop() {
        turns += 1;
        if std::mem::replace(&mut seen[k], true) { continue }
        let over = (code[k].op == JumpIfFalseR).then_some(code[k].a.into());
        todo.extend([Some(k + 1), over].into_iter().flatten().filter(|&next| next < code.len()));
    }
    turns
}

/// What is counted, and nothing else.
#[unsafe(no_mangle)]
#[inline(never)]
fn turns_measured(code: &[u16], seen: &mut [u8], todo: &mut [u32]) -> abi::Answer { abi::needed(code, 16, 0, 9, seen, todo) }

fn ask(code: &[Ins]) {
    let (mut seen, mut todo) = (vec![0; code.len() + 1], vec![0; code.len() + 1]);
    let answer = turns_measured(abi::words(code), &mut seen, &mut todo);
    assert_eq!((answer.refusal, answer.first), (0, 0));
}

/// Met by code with no jump and by code of jumps alone, at 65,535 as at 1.
#[test]
fn the_most_turns() {
    for n in [1, 2, 1_000, MOST] {
        assert_eq!((turns(&straight(n)), turns(&jumps(n))), (n, 2 * n));
    }
}

const SIZES: [usize; 3] = [1_000, 10_000, MOST];

/// What runs under callgrind.
#[test]
#[ignore]
fn counted() {
    for n in SIZES { ask(&straight(n)) }
    for n in SIZES { ask(&jumps(n)) }
}

/// What a turn costs does not grow with the code: instructions over turns, from 1,000 to 65,535 instructions.
#[test]
fn a_turn_costs_the_same_in_long_code() {
    let dir = env::temp_dir().join(format!("turniploom-turns-{}", std::process::id()));
    fs::create_dir_all(&dir).unwrap();
    let run = Command::new("valgrind").args(["-q", "--tool=callgrind", "--toggle-collect=turns_measured", "--dump-after=turns_measured"])
        .arg(format!("--callgrind-out-file={}", dir.join("out").display()))
        .arg(env::current_exe().unwrap()).args(["--exact", "counted", "--ignored", "--test-threads=1"]).output();
    let Ok(run) = run else { return println!("skipped: there is no valgrind") };
    assert!(run.status.success(), "{}", String::from_utf8_lossy(&run.stderr));
    let cost = |k: usize| {
        let text = fs::read_to_string(dir.join(format!("out.{k}"))).unwrap();
        text.lines().find_map(|l| l.strip_prefix("totals: ").or(l.strip_prefix("summary: "))).unwrap().trim().parse::<u64>().unwrap()
    };
    let codes = SIZES.map(straight).into_iter().chain(SIZES.map(jumps));
    let each: Vec<f64> = codes.enumerate().map(|(k, code)| cost(k + 1) as f64 / turns(&code) as f64).collect();
    let _ = fs::remove_dir_all(dir);
    println!("instructions for each turn, straight code of 1,000, 10,000 and 65,535, then jumps: {each:.1?}");
    for of in each.chunks(3) { assert!(of[2] <= 1.05 * of[0], "{each:?}") }
}
