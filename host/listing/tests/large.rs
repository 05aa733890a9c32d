//! The largest code in hostile shapes, 65,535 instructions by 64 registers: each is listed within two seconds of one core, as the shell counts them.

use std::{fs, hint::black_box, path::Path, process::Command, sync::{Mutex, PoisonError}, time::Instant};

const N: usize = 65_535;

/// A level at every position.
fn level(k: usize) -> String { format!("GetAttrR a{} b{} c1", k % 64, k * 3 % 64) }

/// A body of these tries and instructions.
fn body(tries: impl IntoIterator<Item = (usize, usize)>, instruction: impl Fn(usize) -> String) -> String {
    let tries = tries.into_iter().map(|(s, h)| format!("try {s} {h}"));
    ["registers 64".into()].into_iter().chain(tries).chain((0..N).map(instruction)).collect::<Vec<_>>().join("\n")
}

/// Two seconds, and more on a core that is slower, or shared. A walk of a hundred million steps tells how slow it is: alone on the core that the two seconds are
/// said of it takes a quarter of one. How much it is shared tells the sorting of four million numbers, which feels what others do with its units and its
/// memory: alone it takes no longer than the walk and a fifth.
fn limit() -> f64 {
    let (began, mut x) = (Instant::now(), black_box(1_u64));
    for _ in 0..100_000_000 { x = (x ^ (x >> 29)).wrapping_mul(6_364_136_223_846_793_005) }
    black_box(x);
    let walk = began.elapsed().as_secs_f64();
    let mut numbers: Vec<u64> = (0..4_000_000).map(|k: u64| k.wrapping_mul(6_364_136_223_846_793_005).rotate_left(17)).collect();
    let began = Instant::now();
    numbers.sort_unstable();
    black_box(numbers);
    2.0 * (walk / 0.25).max(1.0) * (began.elapsed().as_secs_f64() / (1.2 * walk)).max(1.0)
}

/// Shapes are timed one after the other, however many tests run at a time.
static ALONE: Mutex<()> = Mutex::new(());

/// Lists it: how many warnings there are, if it took less than the limit. On a busy machine a core counts more, so it may try twelve times.
fn warnings(name: &str, text: &str) -> usize {
    let alone = ALONE.lock().unwrap_or_else(PoisonError::into_inner);
    let file = Path::new(env!("CARGO_TARGET_TMPDIR")).join(name);
    fs::write(&file, text).unwrap();
    let seconds = || {
        let shell = Command::new("sh").args(["-c", "\"$0\" \"$1\" > \"$1.out\" && times", env!("CARGO_BIN_EXE_listing")]).arg(&file).output().unwrap();
        // The second line has the minutes and seconds of what the shell ran, its own and the system's: 0m0.44s 0m0.11s
        let part = |word: &str| word.parse::<f64>().unwrap();
        let seconds = |word: &str| { let (m, s) = word.trim_end_matches('s').split_once('m').unwrap(); 60.0 * part(m) + part(s) };
        String::from_utf8(shell.stdout).unwrap().lines().nth(1).unwrap().split(' ').map(seconds).sum::<f64>()
    };
    let mut before = limit();
    let mut timed = || { let (took, after) = (seconds(), limit()); (took, std::mem::replace(&mut before, after).max(after)) };
    let (mut took, mut most) = timed();
    for _ in 1..12 { if took >= most { (took, most) = timed() } }
    drop(alone);
    let out = file.with_extension("txt.out");
    let listed = fs::read_to_string(&out).unwrap();
    assert!(took > 0.0 && took < most && listed.lines().any(|l| l.starts_with("65535 ") && l.contains(" end ")), "{name}: {took} seconds of {most}");
    fs::remove_file(&out).unwrap();
    listed.lines().filter(|l| l.starts_with("WARNING: ")).count()
}

/// A try in every 30 positions, 2,000 in all.
#[test]
fn many_tries() {
    let starts = || (0..2_000).map(|i| 30 * i);
    let text = body(starts().map(|s| (s, s + 26)), |k| if k.is_multiple_of(30) && k < 60_000 { format!("SetupExcept a{}", k + 26) } else { level(k) });
    assert_eq!(warnings("many.txt", &text), 109_491);
}

/// Each handler is inside the next try, so ways have many exceptions, and almost every level has its own.
#[test]
fn handlers_inside_tries() {
    assert_eq!(warnings("inside.txt", &body((0..1_000).map(|i| (60 * i, 60 * i + 90)), level)), 901_878);
}

/// Loops, each with a try that ends in it.
#[test]
fn tries_in_loops() {
    let in_loop = |k: usize| match k % 300 {
        0 => format!("SetupExcept a{}", (k + 296).min(N)),
        299 => format!("JumpIfFalseR a{} b{}", k - 299, k % 64),
        _ => level(k),
    };
    assert_eq!(warnings("loops.txt", &body((0..N).step_by(300).map(|k| (k, (k + 296).min(N))), in_loop)), 382_126);
}

/// Marked instructions that lead elsewhere, with no try, and with 1,819 tries.
#[test]
fn marked_instructions() {
    let mark = |to: &dyn Fn(usize) -> String, k: usize| if k.is_multiple_of(3) { format!("{} dunder", to(k)) } else { level(k) };
    let returns = body([], |k| mark(&|k| format!("ReturnR a{} b{}", k % 64, k * 3 % 64), k));
    assert_eq!(warnings("returns.txt", &returns), 909_471);
    let jumps = body((0..60_000).step_by(33).map(|k| (k, k + 20)), |k| mark(&|k| format!("Jump {}", (k + 17).min(N)), k));
    assert_eq!(warnings("jumps.txt", &jumps), 579_191);
}

/// One try around everything, and 60 around each other.
#[test]
fn tries_around_everything() {
    assert_eq!(warnings("one.txt", &body([(0, N)], level)), 0);
    assert_eq!(warnings("nested.txt", &body((0..60).map(|k| (k, N - 1 - k)), level)), NESTED);
}

/// Of 60 nested tries.
const NESTED: usize = 31;
