//! The deepest callee trace on threads with little stack, from Rust and from C.

mod restarts;

use restarts::{MOST, restarts};
use std::{path::{Path, PathBuf}, process::Command, thread};
use turniploom::{Ins, abi, op::*};

/// What the last call of this code calls, asked on a thread with so much stack: 1 and the binding, or 0.
fn traced(code: Vec<Ins>, stack: usize) -> (u64, u64) {
    let ask = move || {
        let a = abi::global_of(abi::words(&code), code.len() - 1);
        assert_eq!(a.refusal, 0);
        (a.first, a.second)
    };
    thread::Builder::new().stack_size(stack).spawn(ask).unwrap().join().unwrap()
}

#[test]
fn every_restart_on_a_small_thread() {
    assert_eq!(restarts(MOST).len(), 65_534);
    for stack in [1 << 16, 1 << 15] {
        for count in [0, 1, 2_047, 2_048, 2_049, 4_097, MOST] { assert_eq!(traced(restarts(count), stack), (1, 7), "{count} restarts") }
    }
}

/// A push far before the call, and one whose register was never loaded.
#[test]
fn restarts_that_are_far_apart() {
    for gap in [0, 8_000, 8_188, 8_189, 8_190, 8_191, 8_192, 8_193, 30_000] {
        let mut code = vec![Ins::unmarked(LoadGlobalR, 0, 7, 0, 0)];
        for _ in 0..2 {
            code.extend(restarts(1)[1..5].iter().copied());
            code.extend(vec![Ins::unmarked(Move, 2, 3, 0, 0); gap]);
        }
        code.push(Ins::unmarked(CallR, 0, 0, 0, 0));
        assert_eq!(traced(code.clone(), 1 << 16), (1, 7), "{gap} apart");
        code[0] = Ins::unmarked(LoadGlobalR, 1, 7, 0, 0);
        assert_eq!(traced(code, 1 << 16), (0, 0), "{gap} apart");
    }
}

/// tests/c/deep.c makes the same code and asks on threads with 64 and 32 KiB of stack.
#[test]
fn every_restart_from_c() {
    let here = Path::new(env!("CARGO_MANIFEST_DIR"));
    let out = PathBuf::from(env!("CARGO_TARGET_TMPDIR")).join("deep");
    let gcc = Command::new("gcc").args(["-std=c11", "-Wall", "-Wextra", "-Werror", "-pedantic", "-pthread", "-I"]).arg(here.join("../../include"))
        .arg(here.join("tests/c/deep.c")).arg(env!("TURNIPLOOM_ARCHIVE")).arg("-o").arg(&out).output();
    let Ok(gcc) = gcc else { return println!("skipped: there is no gcc") };
    assert!(gcc.status.success(), "{}", String::from_utf8_lossy(&gcc.stderr));
    let run = Command::new(&out).output().unwrap();
    assert_eq!((run.status.success(), String::from_utf8_lossy(&run.stdout)), (true, "binding 7, binding 7\n".into()), "{}", run.status);
}
