//! The benchmarks: for each input, what the port and the Rust spend on it. Instructions are counted by callgrind where valgrind is
//! at hand, else the shortest of several times is taken.

mod inputs;

use oracle::{original as rust, question::*};
use original::{optimizer::constant_fold, vm::block::open::live_across};
use std::{env, fs, hint::black_box, process::{Command, ExitCode}, time::Instant};
use turniploom::{Ins, abi};

const USE: &str = "bench [--most N] [--time]
--most N   only codes of at most N instructions
--time     times, even where valgrind is at hand";

/// An input.
#[derive(Clone, Copy, PartialEq, Eq)]
struct Case {
    call: Call,
    shape: &'static str,
    n: usize,
    regs: usize,
}

fn cases(most: usize) -> Vec<Case> {
    let sizes = [100, 10_000, 65_535];
    let bodies = ["straight", "loops"].into_iter().flat_map(|shape| sizes.map(|n| (shape, n))).chain([("random", 4_000)]);
    let kept = bodies.flat_map(|(shape, n)| [8, 64, 65, 1_024].map(|regs| Case { call: Kept, shape, n, regs }));
    let folds = ["few constants", "new constants", "strict", "one sum"].into_iter().flat_map(|shape| sizes.map(|n| (shape, n)));
    kept.chain(folds.map(|(shape, n)| Case { call: Fold, shape, n, regs: 0 })).filter(|c| c.n <= most).collect()
}

/// What is measured, and nothing else: callgrind counts inside this function.
#[unsafe(no_mangle)]
#[inline(never)]
pub fn bench_measured(work: &mut dyn FnMut()) { work() }

/// Takes the work of one side, made ready anew for each run.
type Measure<'a> = &'a mut dyn FnMut(&mut dyn FnMut() -> Box<dyn FnMut()>);

/// Runs both sides of a case, the port first.
fn run(case: Case, measure: Measure) {
    if case.call == Kept {
        let code = match case.shape {
            "loops" => inputs::loops(case.n, case.regs),
            "random" => inputs::random(case.n, case.regs),
            _ => inputs::straight(case.n, case.regs),
        };
        keeping(&code, case.regs, measure);
    } else {
        let q = match case.shape {
            "strict" => inputs::thirds(case.n),
            "one sum" => inputs::chain(case.n),
            shape => inputs::sums(case.n, shape == "new constants"),
        };
        folding(&q, case.shape == "strict", measure);
    }
}

fn keeping(code: &[Ins], regs: usize, measure: Measure) {
    let words = abi::words(code).to_vec();
    let lowered = rust::lowered(&words);
    let n = code.len();
    let total = turniploom::kept(code, regs, &[], false).expect("good code").list.len();
    measure(&mut || {
        let (words, mut rows, mut offsets, mut list) = (words.clone(), vec![0; (n + 1) * abi::row_words(regs)], vec![0; n + 1], vec![0; total]);
        Box::new(move || assert_eq!(black_box(abi::kept(&words, regs, &[], false, &mut rows, &mut offsets, &mut list)).refusal, 0))
    });
    measure(&mut || {
        let lowered = lowered.clone();
        Box::new(move || { black_box(live_across(&lowered, regs, &[])); })
    });
}

/// The fold, in strict mode or not; the Rust has no strict mode and folds the same chunk plainly.
fn folding(q: &Question, strict: bool, measure: Measure) {
    measure(&mut || {
        let q = q.clone();
        let mut lent = q.lent();
        Box::new(move || {
            let n = |name: &str| q.n(name) as usize;
            let [Arg::U16(code), Arg::U8(kinds), Arg::U64(words), Arg::U32(phi_map), Arg::U16(sources), Arg::U32(stmts), Arg::U32(calls), Arg::U8(dead),
                Arg::U32(remap), Arg::U32(tries), Arg::U64(landings)] = &mut lent.buffers[..]
            else { panic!("the buffers of a chunk") };
            let answer = abi::fold(
                code, kinds, words, n("constants"), phi_map, n("phi_map_count"), sources, n("phi_sources_count"), stmts, n("stmt_pos_count"), calls,
                n("call_byte_pos_count"), dead, remap, tries, landings, strict,
            );
            assert_eq!(black_box(answer).refusal, 0);
        })
    });
    measure(&mut || {
        let mut chunk = rust::ssa_chunk(q, &mut q.lent());
        Box::new(move || { constant_fold(black_box(&mut chunk)) })
    });
}

/// What each side of each case costs, the port first: instructions, or nanoseconds.
type Costs = Vec<(u64, u64)>;

fn paired(cases: &[Case], mut costs: impl Iterator<Item = u64>) -> Option<Costs> {
    cases.iter().map(|_| Some((costs.next()?, costs.next()?))).collect()
}

/// Runs this program under callgrind, which writes a file for each measured run.
fn counted(cases: &[Case], most: usize) -> Option<Costs> {
    let dir = env::temp_dir().join(format!("turniploom-bench-{}", std::process::id()));
    fs::create_dir_all(&dir).ok()?;
    let status = Command::new("valgrind").args(["-q", "--tool=callgrind", "--toggle-collect=bench_measured", "--dump-after=bench_measured"])
        .arg(format!("--callgrind-out-file={}", dir.join("out").display()))
        .arg(env::current_exe().ok()?).args(["--inside", "--most", &most.to_string()]).status();
    let total = |k: usize| {
        let text = fs::read_to_string(dir.join(format!("out.{k}"))).ok()?;
        text.lines().find_map(|l| l.strip_prefix("totals: ").or(l.strip_prefix("summary: "))).and_then(|t| t.trim().parse().ok())
    };
    let costs = if status.is_ok_and(|s| s.success()) { paired(cases, (1..).map_while(total)) } else { None };
    let _ = fs::remove_dir_all(dir);
    costs
}

/// The shortest of several times.
fn timed(cases: &[Case]) -> Costs {
    let mut costs = vec![];
    for &case in cases {
        run(case, &mut |ready| {
            let times = (0..(200_000 / case.n).clamp(3, 200)).map(|_| {
                let mut work = ready();
                let start = Instant::now();
                bench_measured(&mut *work);
                start.elapsed().as_nanos() as u64
            });
            costs.push(times.min().expect("a time"));
        });
    }
    paired(cases, costs.into_iter()).expect("a cost for each side")
}

fn grouped(n: u64) -> String {
    let digits = n.to_string();
    let parts: Vec<&str> = digits.as_bytes().rchunks(3).rev().map(|c| std::str::from_utf8(c).unwrap()).collect();
    parts.join(",")
}

fn ratio(a: u64, b: u64) -> String { format!("{:.2}", a as f64 / b.max(1) as f64) }

fn report(cases: &[Case], costs: &Costs, unit: &str) {
    println!("{:<5} {:<14}{:>8}{:>11}{:>17}{:>17}{:>13}{:>10}{:>10}", "call", "shape", "n", "registers", format!("port, {unit}"), format!("Rust, {unit}"), "port / Rust", "port / n", "Rust / n");
    for (c, &(port, rust)) in cases.iter().zip(costs) {
        let regs = if c.call == Kept { grouped(c.regs as u64) } else { String::new() };
        let per = |v: u64| format!("{:.1}", v as f64 / c.n as f64);
        let (told, times, each) = (grouped(port), ratio(port, rust), per(port));
        println!("{:<5} {:<14}{:>8}{regs:>11}{told:>17}{:>17}{times:>13}{each:>10}{:>10}", c.call.name(), c.shape, grouped(c.n as u64), grouped(rust), per(rust));
    }
    println!("\nGrowth, each to the one before it:");
    let of = |c: Case| cases.iter().position(|&d| d == c).map(|k| costs[k]);
    let line = |what: String, by: String, a: (u64, u64), b: (u64, u64)| {
        println!("{what:<44}{by:>22}   port × {:>7}   Rust × {:>7}", ratio(b.0, a.0), ratio(b.1, a.1));
    };
    for &c in cases {
        let smaller = match c.n { 65_535 => 10_000, 10_000 => 100, _ => continue };
        let Some((a, b)) = of(Case { n: smaller, ..c }).zip(of(c)) else { continue };
        let regs = if c.call == Kept { format!(", {} registers", c.regs) } else { String::new() };
        line(format!("{} {}{regs}", c.call.name(), c.shape), format!("n {} to {} × {}", smaller, c.n, ratio(c.n as u64, smaller as u64)), a, b);
    }
    for &c in cases.iter().filter(|c| c.call == Kept && c.regs == 1_024) {
        let Some((a, b)) = of(Case { regs: 65, ..c }).zip(of(c)) else { continue };
        line(format!("{} {}, n of {}", c.call.name(), c.shape, c.n), "words of a row 2 to 16".into(), a, b);
    }
}

/// The check's time by crate, as the last check of each left it in target/log.
fn checked() {
    let root = concat!(env!("CARGO_MANIFEST_DIR"), "/../..");
    let Ok(list) = fs::read_to_string(format!("{root}/crates.txt")) else { return };
    println!("\nCheck, by crate:");
    for name in list.lines().filter(|l| !l.starts_with('#')).filter_map(|l| l.split_once(':')).map(|(name, _)| name) {
        let told = fs::read_to_string(format!("{root}/target/log/{name}.out")).unwrap_or_default();
        let took = told.lines().find_map(|l| l.strip_prefix(&format!("rt: {name} proved ("))?.strip_suffix(')')).unwrap_or("not checked here yet");
        println!("{name:<12}{took}");
    }
}

fn bench() -> Result<(), String> {
    let (mut most, mut inside, mut times) = (usize::MAX, false, false);
    let mut args = env::args().skip(1);
    while let Some(word) = args.next() {
        match word.as_str() {
            "--most" => most = args.next().and_then(|v| v.parse().ok()).ok_or(USE)?,
            "--inside" => inside = true,
            "--time" => times = true,
            _ => return Err(USE.into()),
        }
    }
    let cases = cases(most);
    if inside {
        for &case in &cases { run(case, &mut |ready| bench_measured(&mut *ready())) }
        return Ok(());
    }
    match if times { None } else { counted(&cases, most) } {
        Some(costs) => report(&cases, &costs, "instr."),
        None => report(&cases, &timed(&cases), "ns"),
    }
    checked();
    Ok(())
}

fn main() -> ExitCode {
    match bench() {
        Ok(()) => ExitCode::SUCCESS,
        Err(message) => {
            eprintln!("{message}");
            ExitCode::from(2)
        }
    }
}
