//! Hostile input to the exported calls, watched for bad access: against guard pages, then under valgrind.

use crate::{asked, house::{Alone, House, Pages}, model, port, question::*, questions, rng::Rng};
use listing::notation;
use std::{env, process::{Command, Stdio}};
use turniploom::abi::Kind;

/// A question with a few of its words, numbers and lengths made extreme.
fn question(rng: &mut Rng, call: Call) -> Question {
    let mut q = questions::random(rng, call);
    if q.args.is_empty() { return q }
    for _ in 0..rng.below(4) {
        let k = rng.below(q.args.len());
        let extreme = rng.pick(&[0, 1, 255, 256, 1_024, 1_025, 65_535, 65_536, u64::from(u32::MAX), u64::MAX, u64::MAX / 2 + 1]);
        let number = rng.word();
        match &mut q.args[k] {
            Arg::N(v) if call.params()[k].kind == Kind::Bool => *v ^= 1,
            Arg::N(v) => *v = extreme,
            Arg::U8(v) => spoil(v, number, extreme as u8),
            Arg::U16(v) => spoil(v, number, extreme as u16),
            Arg::U32(v) => spoil(v, number, extreme as u32),
            Arg::U64(v) if call.params()[k].kind.fixed().is_some() => spoil(v, number | 2, extreme),
            Arg::U64(v) => spoil(v, number, extreme),
        }
    }
    q
}

/// Makes a word extreme, cuts the slice short or lengthens it.
fn spoil<T: Copy>(v: &mut Vec<T>, number: u64, extreme: T) {
    let at = (number >> 8) as usize;
    match number % 4 {
        0 => v.truncate(at % (v.len() + 1)),
        1 => v.push(extreme),
        _ if v.is_empty() => {}
        _ => { let k = at % v.len(); v[k] = extreme }
    }
}

/// Some parameters are narrower than a number.
fn narrowed(mut q: Question) -> Question {
    for (p, a) in q.call.params().iter().zip(&mut q.args) {
        match (p.kind, a) {
            (Kind::U8, Arg::N(v)) => *v &= 0xFF,
            (Kind::U16, Arg::N(v)) => *v &= 0xFFFF,
            _ => {}
        }
    }
    q
}

/// Asks the questions of one round of one call, telling of each before it is asked if `each`. Says whether it came to the end: it stops
/// at the first wrong reply, which is then the last one told.
fn round(call: Call, seed: u64, round: u64, questions: u64, house: &mut impl House, compared: bool, each: bool) -> bool {
    let mut rng = Rng::of(seed, round, call);
    (0..questions).all(|k| {
        let q = narrowed(question(&mut rng, call));
        if each { println!("# {} question {k}\n{}{}", call.name(), asked::described(&q), notation::asked(&q)) }
        let port = port::ask_in(house, &q);
        !compared || port == model::ask(&q)
    })
}

/// What this program does when it is started by `watch`: all rounds, a line before each, up to the first wrong reply.
pub fn inside(calls: &[Call], seed: u64, rounds: std::ops::Range<u64>, questions: u64, alone: bool, each: bool) -> bool {
    let mut pages = (!alone).then(Pages::new);
    let mut asked = rounds.flat_map(|r| calls.iter().map(move |&call| (r, call)));
    asked.all(|(r, call)| {
        println!("at {} {r}", call.name());
        match &mut pages {
            None => round(call, seed, r, questions, &mut Alone, false, each),
            Some(p) => { p.starts = r % 4 == 3; round(call, seed, r, questions, p, true, each) }
        }
    })
}

/// Runs this program again as `inside`, under valgrind or not, and says how it ended and which round came last.
fn again(valgrind: bool, words: &[String]) -> Result<(bool, String), String> {
    let me = env::current_exe().map_err(|e| e.to_string())?;
    let mut command = if valgrind { Command::new("valgrind") } else { Command::new(&me) };
    if valgrind { command.args(["-q", "--error-exitcode=9", "--leak-check=no"]).arg(&me) }
    else { &mut command }.args(["hostile", "--inside"]).args(words);
    let out = command.stderr(Stdio::inherit()).output().map_err(|e| e.to_string())?;
    Ok((out.status.success(), String::from_utf8_lossy(&out.stdout).into_owned()))
}

/// The two runs, and in words what they show.
pub fn watch(calls: &[Call], seed: u64, rounds: u64) -> Result<bool, String> {
    let names: Vec<&str> = calls.iter().map(|c| c.name()).collect();
    let words = |extra: &[&str]| -> Vec<String> {
        ["--seed", &seed.to_string(), "--calls", &names.join(",")].iter().chain(extra).map(|s| s.to_string()).collect()
    };
    let at_hand = Command::new("valgrind").arg("--version").output().is_ok();
    for (valgrind, rounds, questions, what) in [(false, rounds, 1_000, "every slice against a guard page"), (true, 1, 40 * rounds.min(25), "under valgrind")] {
        if valgrind && !at_hand {
            println!("valgrind is not at hand: the second run is left out");
            continue;
        }
        let (q, r) = (questions.to_string(), rounds.to_string());
        let mut extra = vec!["--questions", &q, "--rounds", &r];
        if valgrind { extra.push("--alone") }
        let (well, said) = again(valgrind, &words(&extra))?;
        if !well {
            let last = said.lines().rfind(|l| l.starts_with("at ")).unwrap_or("at the start").to_string();
            println!("bad access or wrong reply {last}, {what}");
            if let [_, call, r] = last.split(' ').collect::<Vec<_>>()[..] {
                let one: Vec<String> = ["--seed", &seed.to_string(), "--calls", call, "--only", r, "--questions", &q, "--each"].iter().map(|s| s.to_string()).collect();
                let (_, said) = again(false, &one)?;
                println!("the last question asked:\n{}", &said[said.rfind("# ").unwrap_or(0)..]);
            }
            return Ok(false);
        }
        let (found, asked) = (if valgrind { "no bad access" } else { "no bad access and no wrong reply" }, rounds * questions * calls.len() as u64);
        println!("{found} in {asked} hostile questions to {}, {what}", listing::count(calls.len(), "call"));
    }
    Ok(true)
}
