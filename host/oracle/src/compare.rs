//! The comparison: each question to the port, the Rust and the model, and a row of counts per call.

use crate::{asked::{Ask, described, shown}, chunks, original, question::*, questions, rng::Rng, shrink::shrink, widths};
use listing::notation;
use std::{
    cell::Cell, collections::BTreeMap, panic::{AssertUnwindSafe, catch_unwind, set_hook, take_hook}, sync::{Mutex, atomic::{AtomicUsize, Ordering}}, thread,
    time::{Duration, Instant},
};

/// What a row counts.
#[derive(Clone, Copy, Default)]
pub struct Row {
    pub calls: u64,
    pub refused: u64,
    /// Answers that are not the plain no, none or 0.
    pub telling: u64,
    /// Answers that the Rust gave too.
    pub rust: u64,
    /// Differences that docs/DIFFERENCES.md lists.
    pub listed: u64,
    pub wrong: u64,
}

/// When a run ends: after so many rounds, or after so many minutes.
#[derive(Clone, Copy)]
pub enum Until {
    Rounds(u64),
    Minutes(u64),
}

/// The first failures of a run, each made small and printed.
const SHOWN: usize = 5;

/// How often a run says how far it is, unless it is told otherwise.
const PROGRESS: Duration = Duration::from_secs(10);

pub struct Comparison {
    /// The port, unless the model and the Rust are compared alone.
    port: Option<Ask>,
    model: Ask,
    calls: Vec<Call>,
    rows: Mutex<BTreeMap<usize, Row>>,
    failures: Mutex<Vec<String>>,
    failed: AtomicUsize,
    asked: AtomicUsize,
    told: Mutex<Instant>,
    /// How often it says how far it is.
    pub every: Duration,
}

/// What is found of one question.
struct Judged {
    /// The model's reply, unless it panicked.
    model: Option<Reply>,
    /// Whether the Rust answered as it should, and whether that is a listed difference.
    rust: bool,
    listed: bool,
    /// Who else said what.
    wrong: Vec<(&'static str, String)>,
}

/// What a run found.
pub struct Report {
    /// A row per call, the legend, the first failures, and a last line that says it all.
    pub text: String,
    pub well: bool,
}

impl Comparison {
    /// Compares the port, or none, and a model with the Rust on these calls.
    pub fn of(port: Option<Ask>, model: Ask, calls: &[Call]) -> Comparison {
        Comparison {
            port, model, calls: calls.to_vec(), rows: Mutex::default(), failures: Mutex::default(), failed: AtomicUsize::new(0), asked: AtomicUsize::new(0),
            told: Mutex::new(Instant::now()), every: PROGRESS,
        }
    }

    /// Asks all systematic questions once, then 1,000 random ones of each call in every round, on so many threads.
    pub fn run(&self, seed: u64, until: Until, threads: usize) {
        let start = Instant::now();
        let more = |round: u64| match until {
            Until::Rounds(rounds) => round <= rounds,
            Until::Minutes(minutes) => round == 0 || start.elapsed() < Duration::from_secs(60 * minutes),
        };
        let end = match until {
            Until::Rounds(rounds) => format!("{rounds} rounds"),
            Until::Minutes(minutes) => format!("{minutes} minutes"),
        };
        let next = Mutex::new((0..).flat_map(|round| self.calls.iter().map(move |&c| (c, round))));
        self.spread(threads, |rows| {
            let (call, round) = next.lock().unwrap().next().expect("rounds without end");
            if !more(round) { return false }
            self.job(call, seed, round, rows.entry(call as usize).or_default());
            self.progress(&format!("round {round} of {end}"));
            true
        });
    }

    /// Asks for every operator over every pair of the telling constants.
    pub fn constants(&self, threads: usize) {
        let constants = chunks::telling();
        let (count, next) = (constants.len(), AtomicUsize::new(0));
        self.spread(threads, |rows| {
            let k = next.fetch_add(1, Ordering::Relaxed);
            let Some(&a) = constants.get(k) else { return false };
            let row = rows.entry(Fold as usize).or_default();
            chunks::plain_pairs(a, &constants, &mut |q| self.ask(&q, row));
            self.progress(&format!("{} of {count} constants", k + 1));
            true
        });
    }

    /// Does jobs on so many threads until there are no more, and adds up their rows.
    fn spread(&self, threads: usize, job: impl Fn(&mut BTreeMap<usize, Row>) -> bool + Sync) {
        let work = || {
            let mut rows = BTreeMap::new();
            while job(&mut rows) {}
            let mut all = self.rows.lock().unwrap();
            for (call, row) in rows { all.entry(call).or_default().add(row) }
        };
        thread::scope(|s| for _ in 0..threads.max(1) { s.spawn(work); });
    }

    /// Says now and then how far the run is.
    fn progress(&self, at: &str) {
        let mut told = self.told.lock().unwrap();
        if told.elapsed() < self.every { return }
        *told = Instant::now();
        let (asked, failed) = (self.asked.load(Ordering::Relaxed), self.failed.load(Ordering::Relaxed));
        eprintln!("{at}: {asked} questions, {failed} wrong so far");
    }

    /// Round 0 is the systematic questions.
    fn job(&self, call: Call, seed: u64, round: u64, row: &mut Row) {
        let mut rng = Rng::of(if round == 0 { 0 } else { seed }, round, call);
        if round == 0 { return questions::systematic(&mut rng, call, &mut |q| self.ask(&q, row)) }
        for _ in 0..1_000 { let q = questions::random(&mut rng, call); self.ask(&q, row) }
    }

    fn ask(&self, q: &Question, row: &mut Row) {
        let j = self.judged(q);
        self.asked.fetch_add(1, Ordering::Relaxed);
        row.calls += 1;
        if let Some(model) = &j.model {
            row.refused += u64::from(model.answer.refusal != 0);
            row.telling += u64::from(model.telling(q));
        }
        row.rust += u64::from(j.rust);
        row.listed += u64::from(j.listed);
        row.wrong += j.wrong.len() as u64;
        for (who, _) in j.wrong { if self.failed.fetch_add(1, Ordering::Relaxed) < SHOWN { self.show(q, who) } }
    }

    /// Asks all three.
    fn judged(&self, q: &Question) -> Judged {
        let model = match caught(|| (self.model)(q)) {
            Ok(model) => model,
            Err(says) => return Judged { model: None, rust: false, listed: false, wrong: vec![("the model", says)] },
        };
        let (mut rust, mut listed, mut wrong) = (false, false, vec![]);
        match self.port.map(|port| caught(|| port(q))) {
            None => {}
            Some(Ok(port)) if port == model => {}
            Some(Ok(port)) => wrong.push(("the port", shown(&port))),
            Some(Err(says)) => wrong.push(("the port", says)),
        }
        // The Rust's reply, and whether it differs as it is listed to.
        let told = |r: Reply| (r != model && original::listed(q, &model, &r).is_some(), r);
        match caught(|| original::ask(q, &model).map(told)) {
            Ok(None) => {}
            Ok(Some((true, _))) => (rust, listed) = (true, true),
            Ok(Some((false, r))) if r == model => rust = true,
            Ok(Some((false, r))) => wrong.push(("the Rust", shown(&r))),
            Err(says) => wrong.push(("the Rust", says)),
        }
        if wrong.is_empty() {
            let broken = caught(|| widths::broken(q, &model, self.port.unwrap_or(self.model)));
            wrong.extend(broken.unwrap_or_else(|says| Some(("the other width", says))));
        }
        Judged { model: Some(model), rust, listed, wrong }
    }

    /// Makes a failure small, and keeps it to be printed in the listing's notation.
    fn show(&self, q: &Question, who: &'static str) {
        let said = |q: &Question| self.judged(q).wrong.into_iter().find(|w| w.0 == who).map(|w| w.1);
        let small = shrink(q, &|q| said(q).is_some());
        let beside = self.judged(&small).model.map_or(String::new(), |m| format!("# the model: {}\n", shown(&m)));
        let text = format!("{}# {who}: {}\n{beside}{}", described(&small), said(&small).unwrap_or_default(), notation::asked(&small));
        self.failures.lock().unwrap().push(text);
    }

    /// What a run over random questions found. Each call must have been asked, answered both ways and refused, and by the Rust, if it
    /// has it, so that no run passes because something was left out.
    pub fn report(&self) -> Report {
        let rows = self.rows.lock().unwrap();
        let missing = self.calls.iter().filter_map(|&call| {
            let row = rows.get(&(call as usize)).copied().unwrap_or_default();
            let lacks = match row {
                Row { calls: 0, .. } => "was never asked",
                Row { refused: 0, .. } if !call.params().is_empty() => "was never refused",
                Row { telling: 0, .. } => "never had a telling answer",
                Row { rust: 0, .. } if !call.is_new() => "was never answered by the Rust",
                _ => return None,
            };
            Some(format!("{} {lacks}", call.name()))
        });
        self.told(&rows, missing.collect())
    }

    /// What a run over pairs of constants found: the Rust must have answered every question.
    pub fn report_of_constants(&self) -> Report {
        let rows = self.rows.lock().unwrap();
        let row = rows.get(&(Fold as usize)).copied().unwrap_or_default();
        let (count, operators) = (chunks::telling().len() as u64, 17);
        let due = count * count * operators + 2 * count;
        let mut missing = vec![];
        if row.calls != due { missing.push(format!("{} questions were asked, not {due}", row.calls)) }
        if row.rust != row.calls && row.wrong == 0 { missing.push(format!("the Rust answered {} of them", row.rust)) }
        self.told(&rows, missing)
    }

    fn told(&self, rows: &BTreeMap<usize, Row>, missing: Vec<String>) -> Report {
        let mut text = format!("{:<16}{:>10}{:>10}{:>10}{:>10}{:>8}{:>8}\n", "call", "calls", "refused", "telling", "by Rust", "listed", "wrong");
        let mut total = Row::default();
        let line = |name: &str, r: &Row| format!("{name:<16}{:>10}{:>10}{:>10}{:>10}{:>8}{:>8}\n", r.calls, r.refused, r.telling, r.rust, r.listed, r.wrong);
        for (&call, row) in rows {
            text += &line(Call::ALL[call - 1].name(), row);
            total.add(*row);
        }
        text += &line("all", &total);
        text += LEGEND;
        let failures = self.failures.lock().unwrap();
        for f in failures.iter() { text += &format!("\n{f}") }
        let who = if self.port.is_some() { "the port, the model and the Rust" } else { "the model and the Rust" };
        let well = missing.is_empty() && total.wrong == 0;
        text += &match (total.wrong, missing.is_empty()) {
            (0, true) => format!(
                "All is well: {who} agree on {} questions to {}; the Rust answered {}, {} of them as docs/DIFFERENCES.md lists.\n",
                total.calls, listing::count(rows.len(), "call"), total.rust, total.listed
            ),
            (0, false) => format!("NOT ENOUGH WAS COMPARED: {}.\n", missing.join("; ")),
            (wrong, _) => format!("WRONG: {} of {} questions; the first {} made small above.\n", wrong, total.calls, failures.len()),
        };
        Report { text, well }
    }
}

const LEGEND: &str = "calls: questions asked; refused: with a refusal; telling: not the plain no, none or 0; by Rust: the Rust answered too; listed: it differs
as docs/DIFFERENCES.md says; wrong: any other difference.
";

impl Row {
    fn add(&mut self, r: Row) {
        self.calls += r.calls;
        self.refused += r.refused;
        self.telling += r.telling;
        self.rust += r.rust;
        self.listed += r.listed;
        self.wrong += r.wrong;
    }
}

thread_local! {
    /// Whether a panic of this thread is caught, and told with its question.
    static CAUGHT: Cell<bool> = const { Cell::new(false) };
}

/// Lets panics that are caught pass in silence; any other is told as ever.
pub fn quiet() {
    let hook = take_hook();
    set_hook(Box::new(move |info| if !CAUGHT.get() { hook(info) }));
}

/// What a question came to, or what it panicked with.
fn caught<T>(ask: impl FnOnce() -> T) -> Result<T, String> {
    CAUGHT.set(true);
    let found = catch_unwind(AssertUnwindSafe(ask));
    CAUGHT.set(false);
    found.map_err(|e| {
        let text = e.downcast_ref::<String>().cloned().or(e.downcast_ref::<&str>().map(|s| s.to_string()));
        format!("panicked: {}", text.unwrap_or_default())
    })
}
