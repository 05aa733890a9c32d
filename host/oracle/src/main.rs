//! The command of the comparison.

use oracle::{compare::{self, Comparison, Until}, hostile, model, port, question::Call, record, runs, saver};
use std::{env, process::ExitCode, thread, time::Duration};

const USE: &str = "oracle [--seed S] [--rounds R | --minutes M] [--threads T]         compare the port with the Rust and the model
oracle model [--seed S] [--rounds R | --minutes M] [--threads T]   compare the model with the Rust
oracle constants [--threads T]                                     every folding operator over every pair of some 300 constants
oracle hostile [--seed S] [--rounds R]                             hostile input, watched for bad access by guard pages and by valgrind
oracle saver [--events E] [--seed S] [--threads T]                 random events of a saver, played on the port, the model and a plain stack
oracle runs [--chunks C] [--seed S] [--threads T]                   random rules, run before folding, after it, after clearing and after a second fold
oracle record FILE [--seed S]                                      write recorded answers
--calls NAME,.. asks these calls alone; without it, every call is asked. --progress S says every S seconds how far it is, 10 if not given.
A round asks 1,000 random questions of each call; the systematic questions come once, before them.";

struct Options {
    words: Vec<String>,
    seed: u64,
    rounds: Option<u64>,
    minutes: Option<u64>,
    threads: usize,
    calls: Vec<Call>,
    events: Option<u64>,
    chunks: Option<u64>,
    /// For a hostile run that another started: the questions of a round, one round only, each told, no guard pages.
    inside: bool,
    questions: u64,
    only: Option<u64>,
    each: bool,
    alone: bool,
    progress: Option<u64>,
}

fn options() -> Result<Options, String> {
    let threads = thread::available_parallelism().map_or(1, usize::from);
    let mut o = Options {
        words: vec![], seed: 1, rounds: None, minutes: None, threads, calls: vec![], events: None, chunks: None, inside: false, questions: 1_000,
        only: None, each: false, alone: false, progress: None,
    };
    let mut args = env::args().skip(1);
    while let Some(word) = args.next() {
        let mut value = || args.next().ok_or(format!("{word} wants a value"));
        let number = |v: String| v.parse::<u64>().map_err(|e| format!("{v}: {e}"));
        match word.as_str() {
            "--seed" => o.seed = number(value()?)?,
            "--rounds" => o.rounds = Some(number(value()?)?),
            "--minutes" => o.minutes = Some(number(value()?)?),
            "--threads" => o.threads = number(value()?)? as usize,
            "--events" => o.events = Some(number(value()?)?),
            "--chunks" => o.chunks = Some(number(value()?)?),
            "--questions" => o.questions = number(value()?)?,
            "--only" => o.only = Some(number(value()?)?),
            "--progress" => o.progress = Some(number(value()?)?),
            "--inside" => o.inside = true,
            "--each" => o.each = true,
            "--alone" => o.alone = true,
            "--calls" => for name in value()?.split(',') { o.calls.push(Call::named(name).ok_or(format!("no call {name}"))?) },
            _ if word.starts_with('-') => return Err(format!("no option {word}")),
            _ => o.words.push(word),
        }
    }
    Ok(o)
}

fn run() -> Result<bool, String> {
    let o = options()?;
    let words: Vec<&str> = o.words.iter().map(String::as_str).collect();
    let calls: Vec<Call> = if o.calls.is_empty() { Call::ALL.to_vec() } else { o.calls.clone() };
    let compared = |alone: bool, constants: bool| {
        compare::quiet();
        let mut comparison = Comparison::of((!alone).then_some(port::ask), model::ask, &calls);
        if let Some(seconds) = o.progress { comparison.every = Duration::from_secs(seconds) }
        let report = if constants {
            comparison.constants(o.threads);
            comparison.report_of_constants()
        } else {
            comparison.run(o.seed, o.minutes.map_or(Until::Rounds(o.rounds.unwrap_or(100)), Until::Minutes), o.threads);
            comparison.report()
        };
        print!("{}", report.text);
        Ok(report.well)
    };
    let played = |events: u64| {
        let played = saver::play(saver::PORT, o.seed, events, o.threads);
        println!("{played}");
        played.well()
    };
    let ran = |chunks: u64| {
        let ran = runs::play(port::ask, o.seed, chunks, o.threads);
        println!("{ran}");
        ran.well()
    };
    match words[..] {
        // Histories and runs first, so that the last line is the comparison's.
        [] => {
            let before = (!calls.iter().any(|c| c.saves()) || played(100_000)) & (!calls.iter().any(|c| c.of_a_chunk()) || ran(100_000));
            Ok(before & compared(false, false)?)
        }
        ["saver"] => Ok(played(o.events.unwrap_or(10_000_000))),
        ["runs"] => Ok(ran(o.chunks.unwrap_or(1_000_000))),
        ["model"] => compared(true, false),
        ["constants"] => compared(false, true),
        ["hostile"] if o.inside => {
            let rounds = o.only.map_or(1..o.rounds.unwrap_or(1) + 1, |r| r..r + 1);
            Ok(hostile::inside(&calls, o.seed, rounds, o.questions, o.alone, o.each))
        }
        ["hostile"] => hostile::watch(&calls, o.seed, o.rounds.unwrap_or(20)),
        ["record", file] => {
            let lines = record::write(file, &calls, o.seed).map_err(|e| format!("{file}: {e}"))?;
            println!("{lines} records of {} calls in {file}", calls.len());
            Ok(true)
        }
        _ => Err(USE.into()),
    }
}

fn main() -> ExitCode {
    match run() {
        Ok(true) => ExitCode::SUCCESS,
        Ok(false) => ExitCode::FAILURE,
        Err(message) => {
            eprintln!("{message}");
            ExitCode::from(2)
        }
    }
}
