//! The header for C: a program in C is compiled with it, linked with the archive and run; its numbers are the crate's.

use std::{collections::BTreeSet, env, fs, path::{Path, PathBuf}, process::Command};
use turniploom::{Instruction, Lowered, Op, abi::{Answer, CALLS, Call, Kind, Param, Width}, marked, op};

fn here() -> &'static Path { Path::new(env!("CARGO_MANIFEST_DIR")) }

fn header() -> String { fs::read_to_string(here().join("../../include/turniploom.h")).unwrap() }

/// Compiles a program as the given language and runs it; none where there is no compiler.
fn built(language: &str, flags: &[&str], source: &str) -> Option<String> {
    let name = source.replace(['/', '.'], "-");
    let out = PathBuf::from(env!("CARGO_TARGET_TMPDIR")).join(format!("{name}-{language}"));
    let gcc = Command::new("gcc").args(["-x", language, "-Wall", "-Wextra", "-Werror", "-pedantic"]).args(flags)
        .arg("-I").arg(here().join("../../include")).arg(here().join(source)).args(["-x", "none"]).arg(env!("TURNIPLOOM_ARCHIVE")).arg("-o").arg(&out)
        .output().ok()?;
    let said = String::from_utf8_lossy(&gcc.stderr).into_owned();
    if said.contains("cc1plus") && said.contains("No such file") { return None }
    assert!(gcc.status.success(), "{said}");
    let run = Command::new(&out).output().unwrap();
    assert!(run.status.success(), "{}", String::from_utf8_lossy(&run.stdout));
    Some(String::from_utf8_lossy(&run.stdout).into_owned())
}

/// The marks of each opcode by itself, as the program prints them: of code, where GetItemR may run a dunder, and of a chunk.
fn marks() -> String {
    let line = |op: Op| {
        let code = marked(&[Lowered::new(op, 0, 0, 0, 0)], |i| i.op == op::GetItemR);
        format!("{} {} {}\n", op.number(), code[0].marks, Instruction::new(op, 0).marks)
    };
    (0..=191).map(|n| line(Op(n))).collect()
}

/// The numbers that refusals have.
const REFUSALS: [u8; 15] = [1, 2, 3, 4, 5, 6, 7, 8, 9, 10, 11, 12, 13, 14, 15];

/// The text of each refusal, as the program prints it.
fn texts() -> String {
    let refusal = |number: u8| Answer { refusal: number, ..Answer::default() }.granted().unwrap_err();
    let known = REFUSALS.into_iter().map(|n| { assert_eq!(refusal(n).number(), n); format!("{}\n", refusal(n).rule()) });
    known.chain(["no refusal\n".into(), "a refusal that this header does not know\n".into()]).collect()
}

#[test]
fn a_host_in_c() {
    match built("c", &["-std=c11"], "tests/c/host.c") {
        Some(said) => assert_eq!(said, marks() + &texts() + "all is well\n"),
        None => println!("skipped: there is no gcc"),
    }
}

#[test]
fn the_sample_in_c() {
    let said = built("c", &["-std=c11"], "../../samples/host.c");
    let due = "turniploom 0.2.0: 2 kept, in 1 full sweeps\n0 keeps r9\n3 keeps r7\n\
        0 goes on at 2 with r6 7\nr9 is 109 again\n\
        refused (3): there are more than 1,024 registers, or more than 64 in a saver, 2000 of them\n";
    if let Some(said) = said { assert_eq!(said, due) } else { println!("skipped: there is no gcc") }
}

/// The archive, the crate and the header are of one version.
#[test]
fn the_archive_has_the_crates_version() {
    assert_eq!(turniploom::abi::version(), Answer { refusal: 0, first: 0, second: 2, third: 0, fourth: 0 });
    let (major, minor, patch) = turniploom::version();
    assert_eq!(format!("{major}.{minor}.{patch}"), turniploom::VERSION);
}

#[test]
fn the_header_has_the_crates_version() {
    let text = header();
    let [major, minor, patch] = [env!("CARGO_PKG_VERSION_MAJOR"), env!("CARGO_PKG_VERSION_MINOR"), env!("CARGO_PKG_VERSION_PATCH")];
    for (name, value) in [("_MAJOR", major), ("_MINOR", minor), ("_PATCH", patch), ("", concat!("\"", env!("CARGO_PKG_VERSION"), "\""))] {
        assert!(text.contains(&format!("#define TURNIPLOOM_VERSION{name} {value}\n")), "TURNIPLOOM_VERSION{name} {value}");
    }
}

/// The calls that the archive defines are those of the table, neither fewer nor more.
#[test]
fn the_archive_has_exactly_the_calls_of_the_table() {
    let nm = Command::new("nm").args(["-g", "--defined-only"]).arg(env!("TURNIPLOOM_ARCHIVE")).output().unwrap();
    let text = String::from_utf8_lossy(&nm.stdout).into_owned();
    let defined: BTreeSet<&str> = text.lines().filter_map(|l| l.split(' ').nth(2)).collect();
    let table: Vec<String> = CALLS.iter().map(|c| format!("turniploom_{}", c.name)).collect();
    assert_eq!(defined, table.iter().map(String::as_str).collect());
}

#[test]
fn the_header_is_good_cpp_too() {
    if built("c++", &["-std=c++17"], "tests/c/host.c").is_none() { println!("skipped: there is no compiler for C++") }
}

/// The archive stands by itself: no allocator, no panic, no system. A compiler may still copy and compare by these.
#[test]
fn the_archive_leans_on_nothing() {
    let nm = Command::new("nm").arg("-u").arg(env!("TURNIPLOOM_ARCHIVE")).output().unwrap();
    let text = String::from_utf8_lossy(&nm.stdout).into_owned();
    let undefined: Vec<&str> = text.lines().filter_map(|l| l.trim().strip_prefix("U ")).collect();
    let defined = |s: &str| s.starts_with("turniploom_") || ["memcpy", "memmove", "memset", "memcmp", "bcmp"].contains(&s);
    assert!(undefined.iter().all(|s| defined(s)), "{undefined:?}");
}

/// A parameter as C has it: a slice is a pointer and a length, an array a pointer.
fn parameter(p: &Param) -> String {
    let word = |w: Width| ["uint8_t", "uint16_t", "uint32_t", "uint64_t"][w as usize];
    let name = p.name;
    match p.kind {
        Kind::Bool => format!("bool {name}"),
        Kind::U8 => format!("uint8_t {name}"),
        Kind::U16 => format!("uint16_t {name}"),
        Kind::Slice(w) => format!("const {} *{name}, size_t {name}_len", word(w)),
        Kind::Buffer(w) => format!("{} *{name}, size_t {name}_len", word(w)),
        Kind::Array(_) => format!("const uint64_t *{name}"),
        Kind::ArrayBuffer(_) => format!("uint64_t *{name}"),
        Kind::U64 => format!("uint64_t {name}"),
        _ => format!("size_t {name}"),
    }
}

/// Lines of at most 140 letters, each but the first after an indent.
fn wrapped(first: &str, indent: &str, parts: impl Iterator<Item = String>) -> String {
    let (mut text, mut line) = (String::new(), first.to_string());
    for (k, part) in parts.enumerate() {
        let space = if k == 0 { "" } else { " " };
        if line.len() + space.len() + part.len() > 140 {
            text += &line;
            text += "\n";
            line = indent.to_string() + &part;
        } else {
            line += space;
            line += &part;
        }
    }
    text + &line
}

/// A call as the header has it: what it is, what it answers, and its declaration.
fn declared(call: &Call) -> String {
    let answer: Vec<String> = call.answer.iter().map(|(place, value)| format!("{place}: {value}")).collect();
    let words = |text: &str| text.trim().split(' ').map(str::to_string).collect::<Vec<_>>().into_iter();
    let mut text = wrapped("/* ", " * ", words(&call.says.concat()));
    if !answer.is_empty() { text += &format!("\n{}.", wrapped(" * ", " * ", words(&answer.join("; ")))) }
    let head = format!("turniploom_answer turniploom_{}(", call.name);
    let params = if call.params.is_empty() { "void".into() } else { call.params.iter().map(parameter).collect::<Vec<_>>().join(", ") } + ");";
    // A parameter is not broken over lines.
    let params: Vec<String> = params.split_inclusive(", ").map(|p| p.trim().to_string()).collect();
    format!("{text} */\n{}\n", wrapped(&head, &" ".repeat(head.len()), params.into_iter()))
}

/// The header's calls follow from the table; if one is missing or differs, the text that is due is printed.
#[test]
fn the_header_has_every_call_as_the_table_has_it() {
    let due: Vec<String> = CALLS.iter().map(declared).collect();
    let text = header();
    for call in &due { assert!(text.contains(call), "the header lacks this; all that is due:\n\n{}", due.join("\n")) }
    assert_eq!(text.matches("\nturniploom_answer turniploom_").count(), due.len(), "the header has other calls than the table");
}

#[test]
fn the_header_has_every_opcode_number() {
    let text = header();
    let listed = text.split_once("enum turniploom_opcode {").unwrap().1.split_once('}').unwrap().0;
    let numbers: Vec<String> = listed.split(',').map(|n| n.trim().to_string()).collect();
    assert_eq!(numbers, op::ALL.map(|o| format!("TURNIPLOOM_{o} = {}", o.number())));
}
