//! Runs of random chunks end alike before folding and after; a wrong fold and a wrong clearing are caught.

use oracle::{port, question::*, runs::{Ran, play}};

#[test]
fn every_run_ends_alike() {
    let ran = play(port::ask, 7, 20_000, 2);
    assert!(ran.well() && ran.chunks == 20_000, "{ran}");
    let said = ran.to_string();
    assert!(said.starts_with("20000 chunks run before strict folding, after it, after clearing and after folding again, 0 unlike, 0 refused: "), "{said}");
}

fn changed(q: &Question, name: &str, arg: Arg) -> Question {
    let mut q = q.clone();
    let at = q.call.params().iter().position(|p| p.name == name).unwrap();
    q.args[at] = arg;
    q
}

/// A fold over what a jump lands in: the plain mode.
fn over_landings(q: &Question) -> Reply {
    if q.call == Fold { port::ask(&changed(q, "strict", Arg::N(0))) } else { port::ask(q) }
}

/// A fold that takes the operands of Sub in the other order.
fn other_order(q: &Question) -> Reply {
    use turniploom::{abi::CHUNK_WORDS, op::{LoadConst, Sub}};
    let mut code = q.u16("code").to_vec();
    let at = |k: usize, word: usize| CHUNK_WORDS * k + word;
    let loads = |k: usize, code: &[u16]| code[at(k, 0)] == LoadConst.0;
    for k in 2..if q.call == Fold { code.len() / CHUNK_WORDS } else { 0 } {
        if code[at(k, 0)] == Sub.0 && loads(k - 1, &code) && loads(k - 2, &code) { code.swap(at(k - 1, 2), at(k - 2, 2)) }
    }
    let reply = port::ask(&changed(q, "code", Arg::U16(code)));
    if q.call == Fold && reply.answer.first as usize == q.u16("code").len() / CHUNK_WORDS { port::ask(q) } else { reply }
}

/// A clearing that moves the constants and leaves the loads as they were.
fn not_renumbered(q: &Question) -> Reply {
    let mut reply = port::ask(q);
    if q.call == Clear { *reply.lent.u16("code") = q.u16("code").to_vec() }
    reply
}

#[test]
fn a_wrong_fold_or_clearing_is_caught() {
    for (ask, stage) in [(over_landings as fn(&Question) -> Reply, "folded"), (other_order, "folded"), (not_renumbered, "cleared")] {
        let ran = play(ask, 7, 5_000, 1);
        let said = ran.to_string();
        assert!(!ran.well() && ran.wrong > 10 && said.lines().last().unwrap().starts_with("WRONG: 5000 chunks "), "{said}");
        for part in ["# fold kinds=", "\n# before: Ended(", &format!("\n# {stage}: "), "\nchunk\n"] { assert!(said.contains(part), "{part}: {said}") }
    }
}

#[test]
fn what_was_not_run_is_told() {
    let few = play(port::ask, 7, 3, 1);
    assert!(!few.well() && few.to_string().starts_with("NOT ENOUGH WAS RUN: 3 chunks "), "{few}");
    assert!(!Ran::default().well());
    let refuses: fn(&Question) -> Reply = |q| Reply { answer: turniploom::abi::Answer { refusal: 1, ..Default::default() }, lent: q.lent() };
    assert!(!play(refuses, 7, 100, 1).well());
}
