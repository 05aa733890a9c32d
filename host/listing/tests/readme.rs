//! README is held to what is so: its listing is the real one, its five lines of C are compiled and run, its pictures and pages are there. Its Rust is
//! a test of the documentation.

use std::{fs, path::{Path, PathBuf}, process::Command};

fn root() -> PathBuf { Path::new(env!("CARGO_MANIFEST_DIR")).join("../..").canonicalize().unwrap() }

fn readme() -> String { fs::read_to_string(root().join("README.md")).unwrap() }

/// The blocks of a language.
fn blocks<'a>(text: &'a str, language: &str) -> Vec<&'a str> { text.split(&format!("\n```{language}\n")).skip(1).map(|b| b.split("\n```").next()
    .unwrap()).collect() }

/// The last line tells of this archive and this kit, which README does not know.
#[test]
fn its_listing_is_the_real_one() {
    let text = readme();
    let shown = blocks(&text, "sh").into_iter().find_map(|b| b.strip_prefix("$ ./listing samples/jacket.txt\n")).expect("a listing");
    let out = Command::new(env!("CARGO_BIN_EXE_listing")).arg("samples/jacket.txt").current_dir(root()).output().unwrap();
    let real = String::from_utf8(out.stdout).unwrap().replace(turniploom::ARCHIVE_SHA256, "...").replace(turniploom::KIT, "...");
    assert_eq!(shown.trim_end(), real.trim_end());
}

#[test]
fn its_c_is_compiled_and_run() {
    let text = readme();
    let [block] = blocks(&text, "c")[..] else { panic!("one block of C") };
    assert!(block.lines().count() <= 5);
    let to = Path::new(env!("CARGO_TARGET_TMPDIR")).join("readme");
    fs::create_dir_all(&to).unwrap();
    let source = format!("#include \"turniploom.h\"\n#include <stdio.h>\nstatic bool my_dunder_op(uint16_t op) {{ return op == TURNIPLOOM_GetItemR; \
        }}\nint main(void) {{\n{block}\nreturn 0;\n}}\n");
    fs::write(to.join("readme.c"), source).unwrap();
    let gcc = Command::new("gcc").args(["-std=c11", "-Wall", "-Wextra", "-Werror", "-I"]).arg(root().join("include")).arg(to.join("readme.c"))
        .arg(turniploom::abi::ARCHIVE).arg("-o").arg(to.join("readme")).output();
    let Ok(gcc) = gcc else { return println!("left out: there is no gcc") };
    assert!(gcc.status.success(), "{}", String::from_utf8_lossy(&gcc.stderr));
    assert_eq!(Command::new(to.join("readme")).output().unwrap().stdout, b"1 kept: r0\n");
}

#[test]
fn its_rust_is_five_lines() {
    let text = readme();
    let [block] = blocks(&text, "rust")[..] else { panic!("one block of Rust") };
    assert!(block.lines().count() <= 5 && include_str!("../src/lib.rs").contains("include_str!(\"../../../README.md\")"));
}

/// Files that README names are there, and the order is that of a newcomer.
#[test]
fn what_it_names_is_there() {
    let text = readme();
    let words = text.split(|c: char| c.is_whitespace() || "`()|,;:".contains(c)).map(|w| w.trim_end_matches('.'));
    let named: Vec<&str> = words.filter(|w| ["docs/", "host/", "samples/", "include/", "crates/"].iter().any(|f| w.starts_with(f))).collect();
    for name in &named { assert!(root().join(name).exists(), "{name}") }
    assert!(named.len() > 15);
    let heads: Vec<&str> = text.lines().filter_map(|l| l.strip_prefix("## ")).collect();
    assert_eq!(heads, ["In one minute", "What it needs", "Two commands", "From Rust", "From C", "What is promised", "Where to read on"]);
    for word in ["**Level**", "**Row**", "**Section**"] { assert!(text.contains(word)) }
    assert!(!text.contains("| crate | holds |") && fs::read_to_string(root().join("docs/ARCHITECTURE.md")).unwrap().contains("| crate | holds |"));
}

/// Each section says what it is for: whom it is for, what the gate installs, two commands with their times, the promises, and every page of docs.
#[test]
fn what_each_section_says() {
    let text = readme();
    let head = text.split("\n## ").next().unwrap().split_whitespace().collect::<Vec<_>>().join(" ");
    assert!(head.contains("It is for hosts in Rust or C") && head.contains("for those who write rules"), "{head}");
    let section = |name: &str| text.split(&format!("\n## {name}\n")).nth(1).and_then(|s| s.split("\n## ").next()).unwrap();
    for word in ["Level", "Row", "Section"] { assert!(section("In one minute").contains(&format!("\n- **{word}**: ")), "{word}") }
    let (needs, gate) = (section("What it needs"), fs::read_to_string(root().join(".ci/run")).unwrap());
    let packages: Vec<&str> = gate.lines().filter_map(|l| l.strip_prefix("need ")?.split(' ').nth(1)).collect();
    for package in packages.iter().chain(&["rt"]) { assert!(needs.contains(&format!("`{package}`")), "{package}") }
    let commands = format!("\n{}", section("Two commands"));
    assert_eq!(blocks(&commands, "sh"), ["./listing samples/jacket.txt", ".ci/run"]);
    for after in commands.split("\n```sh\n").skip(1) { assert!(after.contains(" minutes ") || after.contains(" hour "), "no time: {after}") }
    let promised = format!("\n{}", section("What is promised"));
    assert!(["1. ", "2. ", "3. "].iter().all(|n| promised.contains(&format!("\n{n}**"))) && promised.contains("docs/PROMISES.md"), "{promised}");
    for page in fs::read_dir(root().join("docs")).unwrap().map(|f| f.unwrap().file_name().into_string().unwrap()).filter(|n| n.ends_with(".md")) {
        assert!(text.contains(&format!("docs/{page}")), "README does not name docs/{page}");
    }
}

/// The four pictures are shown, each as wide as it says, and drawn of the page as it is now: .ci/pages, which draws them, leaves the page's sum beside them.
#[test]
fn its_pictures_are_of_the_page_as_it_is() {
    let (text, places) = (readme(), root().join("docs/pages"));
    for (width, told) in [(1280u32, "1,280"), (390, "390")] {
        let row = text.lines().find(|l| l.starts_with(&format!("| {told} pixels |"))).expect("a row of pictures");
        for scheme in ["light", "dark"] {
            let name = format!("jacket-{width}-{scheme}.png");
            let png = fs::read(places.join(&name)).unwrap();
            let shown = row.contains(&format!("{scheme}](docs/pages/{name})"));
            assert!(shown && png.starts_with(b"\x89PNG") && png[16..20] == width.to_be_bytes(), "{name}: {row}");
        }
    }
    let sum = "\"$0\" --html=- samples/jacket.txt | sed '/^<footer>/d' | sha256sum | cut -d' ' -f1";
    let out = Command::new("sh").args(["-c", sum, env!("CARGO_BIN_EXE_listing")]).current_dir(root()).output().unwrap();
    let drawn = fs::read_to_string(places.join("jacket.sum")).unwrap();
    assert_eq!(String::from_utf8(out.stdout).unwrap(), drawn, "the pictures are of another page: run .ci/pages");
}

/// The crate map names every crate of crates.txt.
#[test]
fn the_map_has_every_crate() {
    let map = fs::read_to_string(root().join("docs/ARCHITECTURE.md")).unwrap();
    for line in fs::read_to_string(root().join("crates.txt")).unwrap().lines().filter(|l| !l.starts_with('#') && l.contains(':')) {
        let name = line.split([':', ' ']).next().unwrap();
        assert!(map.lines().any(|l| l.starts_with('|') && l.contains(&format!("`{name}`"))), "docs/ARCHITECTURE.md does not name the crate {name}");
    }
}

/// The tests that the table beside this file names are there.
#[test]
fn the_table_of_tests_is_true() {
    let table = include_str!("README.md");
    let named: Vec<&str> = table.lines().filter(|l| l.starts_with('|')).flat_map(|l| l.split('`').skip(1).step_by(2)).filter(|n| n.contains("::")).collect();
    for name in &named {
        let (file, function) = name.split_once("::").unwrap();
        let (package, file) = file.split_once('/').unwrap_or(("listing", file));
        let text = fs::read_to_string(root().join(format!("host/{package}/tests/{file}.rs"))).unwrap_or_default();
        assert!(text.contains(&format!("#[test]\nfn {function}() ")), "there is no test {name}");
    }
    assert!(named.len() > 60, "{}", named.len());
}
