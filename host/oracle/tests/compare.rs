//! The comparison cannot pass by accident: a wrong model or port is told with its question, and so is what was left out.

use oracle::{chunks, compare::{self, Comparison, Until}, model, original, port, question::*};
use std::sync::Once;

static QUIET: Once = Once::new();

/// What a short run over these calls says.
fn compared(port: Option<fn(&Question) -> Reply>, model: fn(&Question) -> Reply, calls: &[Call], rounds: u64) -> (bool, String) {
    QUIET.call_once(compare::quiet);
    let comparison = Comparison::of(port, model, calls);
    comparison.run(1, Until::Rounds(rounds), 2);
    let report = comparison.report();
    (report.well, report.text)
}

fn last(text: &str) -> &str { text.lines().last().unwrap() }

#[test]
fn all_is_well() {
    let (well, text) = compared(Some(port::ask), model::ask, &[GlobalOf, Clear], 1);
    let last = last(&text);
    assert!(well && last.starts_with("All is well: the port, the model and the Rust agree on ") && last.contains(" questions to 2 calls; "), "{text}");
    assert!(text.contains("calls: questions asked; refused: with a refusal; telling: "), "{text}");
}

/// A run says how far it is, on its own channel.
#[test]
fn progress_is_told() {
    let run = |every: &str| {
        let out = std::process::Command::new(env!("CARGO_BIN_EXE_oracle"))
            .args(["--calls", "pure", "--rounds", "2", "--threads", "1", "--progress", every]).output().unwrap();
        assert!(out.status.success() && String::from_utf8(out.stdout).unwrap().lines().last().unwrap().starts_with("All is well: "));
        String::from_utf8(out.stderr).unwrap()
    };
    let told = run("0");
    assert!(told.lines().any(|l| l.starts_with("round 1 of 2 rounds: ") && l.ends_with(" questions, 0 wrong so far")), "{told}");
    assert_eq!(run("600"), "");
}

/// A model that is wrong where a binding is 9.
fn wrong(q: &Question) -> Reply {
    let mut reply = model::ask(q);
    if reply.answer.second == 9 { reply.answer.second = 8 }
    reply
}

#[test]
fn a_wrong_model_is_caught() {
    for port in [None, Some(port::ask as fn(&Question) -> Reply)] {
        let (well, text) = compared(port, wrong, &[GlobalOf], 1);
        assert!(!well && last(&text).starts_with("WRONG: "), "{text}");
        assert!(text.contains("# the Rust: [0, 1, 9, 0, 0] \n# the model: [0, 1, 8, 0, 0] \n") && text.contains("# the port: ") == port.is_some(), "{text}");
    }
}

/// A model that can't say anything of a code with a ReturnR.
fn panics(q: &Question) -> Reply {
    assert!(!q.u16("code").chunks(6).any(|w| w[0] == turniploom::op::ReturnR.number()), "a ReturnR");
    model::ask(q)
}

#[test]
fn a_panic_of_the_model_is_told_with_its_question() {
    let (well, text) = compared(Some(port::ask), panics, &[Pure], 1);
    assert!(!well && text.contains("# the model: panicked: a ReturnR") && text.contains("\n0 ReturnR"), "{text}");
}

/// A port that leaves a buffer as it was lent.
fn idle(q: &Question) -> Reply { Reply { lent: q.lent(), ..port::ask(q) } }

#[test]
fn a_wrong_port_is_caught() {
    let (well, text) = compared(Some(idle), model::ask, &[Targets], 1);
    assert!(!well && text.contains("# the port: "), "{text}");
}

/// More sweeps than are told before the call, or at one width another list.
fn sweeps(q: &Question) -> Reply {
    let mut reply = model::ask(q);
    if reply.answer.refusal == 0 && reply.answer.second > 1 { reply.answer.second += 70_000 }
    reply
}

fn apart(q: &Question) -> Reply {
    let mut reply = model::ask(q);
    if q.call == Kept32 && reply.answer.refusal == 0 && reply.answer.first > 1 { reply.lent.u16("list").swap(0, 1) }
    reply
}

/// The Rust counts no sweeps, and where marks are not its own it tells no list: what holds of the replies by themselves is looked at too.
#[test]
fn a_port_and_a_model_that_are_wrong_alike_are_caught() {
    let (well, text) = compared(Some(sweeps), sweeps, &[Kept, Kept32], 1);
    assert!(!well && text.contains("# the bound: at most ") && text.contains(" full sweeps and 1 abandoned, not 7000"), "{text}");
    let (well, text) = compared(Some(apart), apart, &[Kept], 1);
    assert!(!well && text.contains("# the other width: [0, "), "{text}");
    let (well, text) = compared(None, apart, &[Kept], 1);
    assert!(!well && text.contains("# the other width: [0, "), "{text}");
}

#[test]
fn what_is_left_out_is_told() {
    let comparison = Comparison::of(Some(port::ask), model::ask, &[Kept, Fold]);
    let report = comparison.report();
    assert!(!report.well && last(&report.text) == "NOT ENOUGH WAS COMPARED: kept was never asked; fold was never asked.", "{}", report.text);
    assert!(last(&comparison.report_of_constants().text).starts_with("NOT ENOUGH WAS COMPARED: 0 questions were asked, not 1540819"));
    let refuses: fn(&Question) -> Reply = |q| Reply { answer: turniploom::abi::Answer { refusal: 1, ..Default::default() }, lent: q.lent() };
    let (well, text) = compared(Some(refuses), refuses, &[Clear], 0);
    assert!(!well && last(&text) == "NOT ENOUGH WAS COMPARED: clear never had a telling answer.", "{text}");
}

/// The questions have handlers that forbid a fold by themselves in strict mode, and tries that move. In plain mode tries change no fold.
#[test]
fn tries_tell() {
    let mut rng = oracle::rng::Rng::new(9, 0);
    let (mut forbade, mut moved, mut plain) = (0, 0, 0);
    for _ in 0..20_000 {
        let with = oracle::questions::random(&mut rng, Fold);
        let mut without = with.clone();
        without.args[with.call.params().iter().position(|p| p.name == "tries").unwrap()] = Arg::U32(vec![]);
        let (mut a, mut b) = (port::ask(&with), port::ask(&without));
        if with.u32("tries").is_empty() || a.answer.refusal != 0 { continue }
        moved += usize::from(a.lent.u32("tries")[..] != *with.u32("tries"));
        if with.n("strict") != 0 { forbade += usize::from(a != b && a.answer.first > b.answer.first); continue }
        plain += 1;
        for name in ["tries", "landings"] { (*a.lent.get(name), *b.lent.get(name)) = (Arg::N(0), Arg::N(0)) }
        assert_eq!(a, b, "{with:?}");
    }
    assert!(forbade > 500 && moved > 2_000 && plain > 5_000, "{forbade} {moved} {plain}");
}

/// Each question of `constants` is one that the Rust answers: no refusal, no strict mode.
#[test]
fn every_pair_is_answered_by_the_rust() {
    let constants = chunks::telling();
    let mut asked = 0;
    for &a in constants.iter().step_by(20) {
        chunks::plain_pairs(a, &constants, &mut |q| {
            let model = model::ask(&q);
            assert!(model.answer.refusal == 0 && original::ask(&q, &model).is_some(), "{q:?}");
            asked += 1;
        });
    }
    assert_eq!(asked, 16 * (17 * constants.len() + 2));
}
