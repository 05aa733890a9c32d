//! A chunk run as it is, folded and cleared, in either mode.

use listing::{notation::{Text, read}, run};
use std::{fs, path::Path, process::Command};

fn lines(source: &str) -> Vec<String> {
    let Text::Chunk(c) = read(source).unwrap() else { panic!("a body") };
    run::lines(&c).unwrap()
}

/// What all five runs come to, if they come to one thing.
fn all(source: &str) -> String {
    let lines = lines(source);
    let ends: Vec<&str> = lines[1..6].iter().map(|l| &l[19..]).collect();
    assert!(ends.iter().all(|e| *e == ends[0]), "{lines:?}");
    ends[0].into()
}

fn sample(name: &str) -> std::path::PathBuf { Path::new(env!("CARGO_MANIFEST_DIR")).join("../../samples").join(name) }

/// P13: strict mode keeps the stop, and the plain mode makes a run of it that never ends.
#[test]
fn p13() {
    assert_eq!(lines(&fs::read_to_string(sample("P13.txt")).unwrap()), [
        "Run from an empty stack, the top of a stack last:",
        "  as it is         stops, short stack: Add of 5",
        "  strict, folded   stops, short stack: Add of 5",
        "  strict, cleared  stops, short stack: Add of 5",
        "  plain, folded    never ends: it comes to 1 with the same stack again",
        "  plain, cleared   never ends: it comes to 1 with the same stack again",
        "Strict mode promises that the run ends as it did, or that it never ends if it did not; the plain mode does not.",
    ]);
}

#[test]
fn ends_and_stops() {
    assert_eq!(all(&fs::read_to_string(sample("ships.txt")).unwrap()), "leaves -10, false");
    assert_eq!(all("chunk; LoadNone; JumpIfFalse 3; LoadTrue"), "leaves an empty stack");
    assert_eq!(all("chunk; constants other; LoadConst 0"), "stops, no operand: other");
    assert_eq!(all("chunk; constants 7 2; LoadConst 0; LoadConst 1; Div"), "stops, no result: Div of 7 and 2");
    assert_eq!(all("chunk; LoadNone; Minus"), "stops, no result: Minus of none");
    assert_eq!(all("chunk; Not"), "stops, short stack: Not of nothing");
    assert_eq!(all("chunk; JumpIfFalse 0"), "stops, short stack: JumpIfFalse of nothing");
    assert_eq!(all("chunk; LoadTrue; Jump 0"), "has not ended after 1,000,000 steps");
}

/// Of other chunks nothing is promised, and it says by which instruction.
#[test]
fn what_is_not_promised() {
    let said = lines(&fs::read_to_string(sample("handler.txt")).unwrap());
    assert_eq!(said[1], "  as it is         stops: the machine does not have this instruction");
    assert_eq!(said[6], "Nothing is promised of this run: wish 14 does not speak of PopTop at 3.");
    assert!(lines("chunk; constants 1; LoadConst 1")[6].ends_with("LoadConst 1 at 0."));
}

#[test]
fn the_command() {
    let said = |args: &[&str]| {
        let out = Command::new(env!("CARGO_BIN_EXE_listing")).args(args).output().unwrap();
        (out.status.success(), String::from_utf8(out.stdout).unwrap() + &String::from_utf8(out.stderr).unwrap())
    };
    let [p13, k] = ["P13.txt", "K.txt"].map(|name| sample(name).display().to_string());
    let (well, text) = said(&[&p13, "--run"]);
    assert!(well && text.contains("\nRun from an empty stack, the top of a stack last:\n  as it is         stops, short stack: Add of 5\n"), "{text}");
    let (well, text) = said(&[&k, "--run"]);
    assert!(!well && text.ends_with("K.txt: --run is for a chunk, and this is a body\n"), "{text}");
}
