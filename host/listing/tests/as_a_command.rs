//! The listing as a command: its words, what it reads and writes, and how it ends.

use std::{env, fs, io::Write, path::{Path, PathBuf}, process::{Command, Output, Stdio}};

const LISTING: &str = env!("CARGO_BIN_EXE_listing");

fn sample(name: &str) -> String { Path::new(env!("CARGO_MANIFEST_DIR")).join("../../samples").canonicalize().unwrap().join(name).display().to_string() }

fn run(words: &[&str]) -> Output { Command::new(LISTING).args(words).output().unwrap() }

fn out(output: &Output) -> String { String::from_utf8(output.stdout.clone()).unwrap() }

fn err(output: &Output) -> String { String::from_utf8(output.stderr.clone()).unwrap() }

/// What is printed where all is well.
fn printed(words: &[&str]) -> String {
    let output = run(words);
    assert!(output.status.success() && err(&output).is_empty(), "{}", err(&output));
    out(&output)
}

/// A folder of a test's own.
fn folder(name: &str) -> PathBuf {
    let path = Path::new(env!("CARGO_TARGET_TMPDIR")).join(name);
    let _ = fs::remove_dir_all(&path);
    fs::create_dir_all(&path).unwrap();
    path
}

fn file(folder: &Path, name: &str, text: &str) -> String {
    fs::write(folder.join(name), text).unwrap();
    folder.join(name).display().to_string()
}

/// What it says when it is given a text on its standard input.
fn given(words: &[&str], text: &[u8]) -> Output {
    let mut child = Command::new(LISTING).args(words).stdin(Stdio::piped()).stdout(Stdio::piped()).stderr(Stdio::piped()).spawn().unwrap();
    child.stdin.take().unwrap().write_all(text).unwrap();
    child.wait_with_output().unwrap()
}

#[test]
fn help_and_version() {
    let help = printed(&["--help"]);
    for word in ["--html", "--json", "--kept", "--diff", "--figures", "--replay", "--why", "--rows", "--strict", "--colour",
        "Exit status: 0 listed, 1 refused"] { assert!(help.contains(word), "{word}") }
    assert_eq!(printed(&["-h"]), help);
    let version = printed(&["--version"]);
    let due = format!("turniploom {}\narchive sha256 {}\nproved with {}\n", env!("CARGO_PKG_VERSION"), turniploom::ARCHIVE_SHA256, turniploom::KIT);
    assert_eq!(version, due);
}

/// The archive's sum is the one that a keeper of archives finds, and the last line of each listing tells it.
#[test]
fn whose_proof() {
    let sum = Command::new("sha256sum").arg(turniploom::abi::ARCHIVE).output().unwrap();
    assert_eq!(out(&sum).split(' ').next().unwrap(), turniploom::ARCHIVE_SHA256);
    let due = format!("turniploom {}; archive sha256 {}; proved with {}.", env!("CARGO_PKG_VERSION"), turniploom::ARCHIVE_SHA256, turniploom::KIT);
    for words in [vec![sample("K.txt")], vec![sample("P13.txt")], vec!["--kept".into(), sample("K.txt")], vec!["--figures".into(), sample("K.txt")],
        vec!["--diff".into(), sample("K.txt"), sample("P5.txt")]] {
        let words: Vec<&str> = words.iter().map(String::as_str).collect();
        assert_eq!(printed(&words).lines().last(), Some(due.as_str()), "{words:?}");
    }
    assert!(printed(&["--html=-", &sample("K.txt")]).contains(&format!("<footer>{due}</footer>")));
    assert!(!turniploom::KIT.is_empty() && turniploom::ARCHIVE_SHA256.len() == 64);
}

#[test]
fn how_it_ends() {
    let folder = folder("ends");
    let refused = file(&folder, "refused.txt", "registers 4\n0 Move a0 b1\n1 PushRegs a1 x4");
    let wrong = file(&folder, "wrong.txt", "registers 4\n0 Mvoe a0 b1\n1 Move q1");
    let status = |words: &[&str]| run(words).status.code();
    assert_eq!(status(&[&sample("K.txt")]), Some(0));
    assert_eq!(status(&[&refused]), Some(1));
    assert_eq!(err(&run(&[&refused])), format!("{refused}: line 3: refused (2): the instruction at 1 breaks a record rule: PushRegs pushes at most 3 \
        registers, not 4\n"));
    assert_eq!(status(&[&wrong]), Some(2));
    let says = err(&run(&[&wrong]));
    assert_eq!(says.lines().count(), 2, "{says}");
    assert!(says.contains(&format!("{wrong}: line 2: no opcode and no setting is called `Mvoe`; is `Move` meant?\n")) && says
        .contains(&format!("{wrong}: line 3: Move: `q1`")), "{says}");
    // The worst of several, and what can be listed is listed.
    let both = run(&[&refused, &sample("K.txt"), &wrong]);
    assert!(both.status.code() == Some(2) && out(&both).contains("K.txt: 6 instructions") && err(&both).lines().count() == 3);
    for words in [&[][..], &["--nothing"], &["--html"], &["--rows=16", "x"], &["--why", "1", "x", "y"], &["--strict=yes", "x"], &["--diff", "x"], &["-",
        "-"], &["/gone.txt"], &["--colour=pink", "x"]] {
        let output = run(words);
        assert!(output.status.code() == Some(2) && err(&output).lines().count() == 1 && out(&output).is_empty(), "{words:?}: {}", err(&output));
    }
}

/// A reader that goes away ends it, and nothing is said of it.
#[test]
fn a_closed_pipe() {
    let mut body = String::from("registers 64\n");
    for k in 0..20_000 { body += &format!("AddR a{} b1 c2\n", k % 64) }
    let long = file(&folder("pipe"), "long.txt", &body);
    let mut child = Command::new(LISTING).arg(&long).stdout(Stdio::piped()).stderr(Stdio::piped()).spawn().unwrap();
    drop(child.stdout.take());
    let output = child.wait_with_output().unwrap();
    assert!(output.status.success() && err(&output).is_empty(), "{:?} {}", output.status, err(&output));
}

#[test]
fn a_full_disk() {
    let full = || fs::OpenOptions::new().write(true).open("/dev/full").unwrap();
    for words in ["", "--kept", "--json", "--figures", "--html=-", "--why 1 0", "--diff -", "--help", "--version"] {
        let mut listing = Command::new(LISTING);
        listing.args(words.split_whitespace()).arg(sample("K.txt")).stdin(fs::File::open(sample("K.txt")).unwrap());
        let output = listing.stdout(full()).output().unwrap();
        let due = "listing: the standard output can't be written: No space left on device\n";
        assert_eq!((output.status.code(), err(&output).as_str()), (Some(2), due), "{words}");
    }
    let output = run(&[&sample("K.txt"), "--html=/dev/full"]);
    assert_eq!((output.status.code(), err(&output).as_str()), (Some(2), "listing: /dev/full can't be written: No space left on device\n"));
    let output = run(&[&sample("K.txt"), "--html", "/gone/page.html"]);
    assert!(output.status.code() == Some(2) && err(&output) == "listing: /gone/page.html can't be written: No such file or directory\n", "{}", err(&output));
}

#[test]
fn standard_input_and_output() {
    let text = fs::read(sample("K.txt")).unwrap();
    let listed = given(&["-"], &text);
    assert_eq!(out(&listed), printed(&[&sample("K.txt")]).replace(&sample("K.txt"), "-"));
    assert_eq!(out(&given(&["-"], &[b"\xef\xbb\xbf", &text[..]].concat())), out(&listed));
    let page = out(&given(&["-", "--html=-"], &text));
    assert!(page.starts_with("<!doctype html>") && page.trim_end().ends_with("</html>") && !page.contains("\x1b["), "{page}");
}

/// Files and the texts of a folder, and one page that lists them all.
#[test]
fn files_and_folders() {
    let folder = folder("many");
    for name in ["K.txt", "P13.txt"] { fs::copy(sample(name), folder.join(name)).unwrap(); }
    file(&folder, "wrong.txt", "registers");
    file(&folder, "other.md", "no text of ours");
    let (page, place) = (folder.join("page.html"), folder.display().to_string());
    let output = run(&[&sample("jacket.txt"), &place, "--html", page.to_str().unwrap()]);
    assert_eq!(output.status.code(), Some(2));
    let text = out(&output);
    let at = |what: &str| text.find(what).unwrap_or_else(|| panic!("{what}: {text}"));
    assert!(at("jacket.txt: 17") < at(&format!("{place}/K.txt: 6")) && at("/K.txt: 6") < at(&format!("{place}/P13.txt: a chunk")) && !text
        .contains("other.md"));
    assert_eq!(text.matches("archive sha256").count(), 1);
    let page = fs::read_to_string(page).unwrap();
    for k in 0..4 { assert!(page.contains(&format!("<a href=\"#f{k}\">")) && page.contains(&format!("<section id=\"f{k}\">")), "{k}") }
    let warned = printed(&["--html=-", &sample("exposed.txt"), &sample("K.txt")]);
    for due in ["exposed.txt</a>: 10 instructions, 6 registers, 1 try; 1 warning</li>", "K.txt</a>: 6 instructions, 4 registers, no try</li>"] { assert!(warned.contains(due)) }
    assert!(page.contains("not listed") && page.contains("wrong.txt: line 1: ") && page.matches("<table").count() == 3);
    assert!(page.matches("<section").count() == 4 && !err(&output).contains("other.md"), "{}", err(&output));
    let none = folder.join("empty");
    fs::create_dir(&none).unwrap();
    assert_eq!(err(&run(&[none.to_str().unwrap()])), format!("{}: there is no .txt file in this folder\n", none.display()));
}

/// A plain reader of JSON: enough to see that it is good, and to find what stands in it.
fn value<'a>(text: &'a str, mut depth: u32) -> Result<&'a str, String> {
    let text = text.trim_start();
    depth += 1;
    if depth > 50 { return Err("too deep".into()) }
    let many = |mut text: &'a str, end: char, pair: bool| {
        if let Some(rest) = text.trim_start().strip_prefix(end) { return Ok(rest) }
        loop {
            if pair { text = string(text)?.trim_start().strip_prefix(':').ok_or("no colon")? }
            text = value(text, depth)?.trim_start();
            if let Some(rest) = text.strip_prefix(end) { return Ok(rest) }
            text = text.strip_prefix(',').ok_or_else(|| format!("no comma at {:.40}", text))?;
        }
    };
    match text.chars().next() {
        Some('{') => many(&text[1..], '}', true),
        Some('[') => many(&text[1..], ']', false),
        Some('"') => string(text),
        _ => Ok(&text[text.find(|c: char| !c.is_alphanumeric() && c != '-').ok_or("an end")?..]),
    }
}

fn string(text: &str) -> Result<&str, String> {
    let text = text.trim_start().strip_prefix('"').ok_or_else(|| format!("no text at {:.40}", text))?;
    let mut escaped = false;
    for (k, c) in text.char_indices() {
        match c {
            _ if escaped => escaped = false,
            '\\' => escaped = true,
            '"' => return Ok(&text[k + 1..]),
            c if c < ' ' => return Err("a control letter".into()),
            _ => {}
        }
    }
    Err("a text without an end".into())
}

#[test]
fn json() {
    let folder = folder("json");
    let (wrong, odd) = (file(&folder, "wrong \"q\".txt", "registers"), file(&folder, "odd.txt", "registers 1\nReturnR b0 # a\ttab and a \\"));
    let output = run(&["--json", &sample("jacket.txt"), &sample("exposed.txt"), &sample("handler.txt"), &wrong, &odd]);
    let text = out(&output);
    assert_eq!(value(&text, 0).map(str::trim), Ok(""), "{text}");
    assert_eq!(output.status.code(), Some(2));
    for due in [
        "\"level\":{\"resumes\":9,\"result\":6,\"calls\":\"calls binding \
            9\",\"store_missing\":false,\"keeps\":[1,3,5],\"for_handlers\":[{\"handler\":13,\"keeps\":[5]}],\"exposed\":[]}",
        "{\"register\":5,\"not_kept_at\":[2],", "\"row\":null,", "\"row\":[0,3],", "\"comment\":\"r1: the part's own reading\"",
            "\"kind\":\"chunk\"", "\"ships\":\"chunk\\nstrict\\n",
        "\"file\":\"", "wrong \\\"q\\\".txt", "\"error\":", turniploom::ARCHIVE_SHA256,
    ] { assert!(text.contains(due), "{due}\n{text}") }
    // Where an instruction of a chunk is now, letters that JSON escapes, and the kit.
    let kit = format!("\"kit\":\"{}\"", turniploom::KIT);
    for due in ["{\"at\":6,\"instruction\":\"Add\",\"after\":{\"at\":4,\"instruction\":\"Add\",\"was\":6},", "\"comment\":\"a\\u0009tab and a \\\\\"", &kit] {
        assert!(text.contains(due), "{due}\n{text}");
    }
}

#[test]
fn levels_alone() {
    let text = printed(&["--kept", &sample("jacket.txt")]);
    assert!(text.contains("\n\n 0 GetAttrR a1 b0 c1  keeps r0 r3\n 1 GetAttrR a2 b0 c2  keeps r0 r1 r3\n 2 GetAttrR a5 b0 c3  keeps r1-r3\n 8 CallR \
        a4 b3 x1     keeps r1 r3; r5 for the handler at 13\nturniploom "), "{text}");
    assert!(printed(&["--kept", &sample("exposed.txt")]).contains("\nWARNING: level 2 does not keep r5"));
}

#[test]
fn what_differs() {
    let folder = folder("diff");
    let old = file(&folder, "old.txt", &fs::read_to_string(sample("K.txt")).unwrap());
    let new = file(&folder, "new.txt", "registers 4\n0 LoadGlobalR a0 b7\n1 Move a3 b0\n2 LoadGlobalR a1 b9\n3 CallR a1 x0\n4 StoreTopR a2\n5 AddR a3 \
        b3 c2\n6 ReturnR b3\n");
    let text = printed(&["--diff", &old, &new]);
    assert!(text.contains("+ 1 Move a3 b0\n") && text.contains("- 4 AddR a3 b0 c2\n+ 5 AddR a3 b3 c2\n"), "{text}");
    assert!(text.contains("  2, now 3 CallR a1 x0\n      row    + r3  - r0\n      keeps  + r3  - r0\n") && text
        .contains("\n1 instruction gone, 2 instructions new, rows or lists changed at 2 others.\n"), "{text}");
    // Rows that one of the two has not looked for are no difference.
    let wide = file(&folder, "wide.txt", &(fs::read_to_string(sample("K.txt")).unwrap() + "\nroute wide"));
    for same in [&old, &wide] { assert!(printed(&["--diff", &old, same]).contains("\nNothing differs: the same instructions, rows and lists.\n")) }
    assert!(printed(&["--diff", &sample("P13.txt"), &sample("ships.txt")]).contains("- Jump 1\n") && run(&["--diff", &old, &sample("P13.txt")]).status
        .code() == Some(2));
}

/// Colour on a terminal, unless NO_COLOR is set; `script` stands for a terminal.
#[test]
fn colour() {
    assert!(printed(&["--colour=always", &sample("K.txt")]).contains("\x1b[36m●●\x1b[0m") && !printed(&[&sample("K.txt")]).contains('\x1b'));
    let marked = file(&folder("colour"), "marked.txt", "registers 1\nReturnR b0 # ● is no mark here");
    assert!(!printed(&["--colour=always", "--json", &marked]).contains('\x1b') && printed(&["--colour=always", &marked]).contains("\x1b[36m●\x1b[0m is no"));
    assert!(printed(&["--colour=always", &sample("exposed.txt")]).contains("\n\x1b[31;1mWARNING: "));
    let on_a_terminal = |no_color: Option<&str>, more: &str| {
        let mut script = Command::new("script");
        script.args(["-qec", &format!("{LISTING} {} {more}", sample("K.txt")), "/dev/null"]).env_remove("NO_COLOR").stdin(Stdio::null());
        if let Some(value) = no_color { script.env("NO_COLOR", value); }
        script.output().map(|o| out(&o).contains('\x1b'))
    };
    match on_a_terminal(None, "") {
        Ok(coloured) => assert!(coloured && !on_a_terminal(Some("1"), "").unwrap() && on_a_terminal(Some(""), "").unwrap() && !on_a_terminal(None,
            "--colour=never").unwrap()),
        Err(e) => println!("left out: there is no `script`: {e}"),
    }
}

/// A body of many instructions and registers, with calls, jumps and tries.
fn large(instructions: usize, registers: usize) -> String {
    let mut text = format!("registers {registers}\n");
    for k in (0..instructions).step_by(4_000) { text += &format!("try {k} {}\n", (k + 3_000).min(instructions)) }
    for k in 0..instructions {
        let [a, b, c] = [k * 7 % registers, (k * 13 + 5) % registers, (k * 29 + 11) % registers];
        text += &match k % 16 {
            3 => format!("LoadGlobalR a{a} b9\n"),
            4 => format!("CallR a{} b{b} x1\n", (k - 1) * 7 % registers),
            5 => format!("StoreTopR a{a}\n"),
            9 => format!("GetAttrR a{a} b{b} c3\n"),
            12 => format!("JumpIfFalseR a{} b{b}\n", (k + 40).min(instructions)),
            15 if k % 4_096 == 15 && k > 2_000 => format!("Jump {}\n", k - 1_500),
            _ => format!("AddR a{a} b{b} c{c}\n"),
        }
    }
    text
}

/// The largest code in at most two seconds of one core, as the shell counts them: the machine may be busy.
#[test]
fn the_largest_code_is_listed_in_two_seconds() {
    let largest = file(&folder("largest"), "largest.txt", &large(65_535, 64));
    assert!(printed(&[&largest]).lines().any(|l| l.starts_with("65535 ") && l.contains(" end ")));
    let counted = out(&Command::new("sh").args(["-c", "\"$0\" \"$1\" > /dev/null && times", LISTING, &largest]).output().unwrap());
    // The second line has the minutes and seconds of what the shell ran, its own and the system's: 0m0.44s 0m0.11s
    let seconds = |word: &str| { let (m, s) = word.trim_end_matches('s').split_once('m').unwrap(); 60.0 * m.parse::<f64>().unwrap() + s.parse::<f64>()
        .unwrap() };
    let took: f64 = counted.lines().nth(1).unwrap().split(' ').map(seconds).sum();
    assert!(took > 0.0 && took < 2.0, "{took} seconds: {counted}");
}

/// A page of 2,000 instructions by 200 registers in at most 3 MB.
#[test]
fn a_large_page_is_small() {
    let text = large(2_000, 200);
    let page = out(&given(&["-", "--html=-"], text.as_bytes()));
    assert!(page.contains("<th scope=\"row\">2000</th>") && page.len() <= 3_000_000, "{}", page.len());
    assert_eq!(page.matches("class=\"marks\" aria-hidden=\"true\">").count(), 2_002);
}
