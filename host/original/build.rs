//! Finds the Rust sources and cuts out, word for word, the items that block.rs and optimizer.rs lean on.

use std::{env, fs, path::{Path, PathBuf}};

/// Where the sources stand, seen from the repository's root, if EDGE_PYTHON_SRC does not say.
const DEFAULT: &str = "../shared/docs/src/src";

fn main() {
    println!("cargo::rerun-if-env-changed=EDGE_PYTHON_SRC");
    let root = Path::new(&env::var_os("CARGO_MANIFEST_DIR").unwrap()).join("../..");
    let src = root.join(env::var_os("EDGE_PYTHON_SRC").unwrap_or(DEFAULT.into()));
    let src = src.canonicalize().unwrap_or_else(|e| panic!("no Rust sources at {} ({e}): set EDGE_PYTHON_SRC", src.display()));
    println!("cargo::rustc-env=BLOCK_RS={}", watched(&src, "vm/block.rs").display());
    println!("cargo::rustc-env=OPTIMIZER_RS={}", watched(&src, "optimizer.rs").display());
    let out = PathBuf::from(env::var_os("OUT_DIR").unwrap());
    let types = text(&src, "parser/types.rs");
    let parser = ["pub enum OpCode {", "impl OpCode {", "pub struct Instruction {", "pub enum Value {", "pub struct SSAChunk {"];
    let mut parser: Vec<String> = parser.iter().map(|head| item(&types, head)).collect();
    parser.push(every(&parser[0]));
    parser.push(format!("impl SSAChunk {{\n{}\n}}", method(&types, "    pub(crate) fn index_phis(")));
    fs::write(out.join("parser.rs"), parser.join("\n")).unwrap();
    let value = text(&src, "value/mod.rs");
    let math = text(&src, "value/math.rs");
    let value = [item(&value, "pub struct Val("), item(&value, "impl Val {"), item(&math, "pub fn int_divmod(")];
    fs::write(out.join("value.rs"), value.join("\n")).unwrap();
}

/// A list of all variants of the opcodes' enum, which the Rust's own list ends before.
fn every(text: &str) -> String {
    let body = text.split_once("enum OpCode {").unwrap().1.trim_end_matches('}');
    let bare: String = body.lines().map(|l| l.split("//").next().unwrap()).filter(|l| !l.trim_start().starts_with("/*")).collect();
    let names = bare.split(',').map(str::trim).filter(|n| !n.is_empty());
    let listed: Vec<String> = names.map(|n| format!("OpCode::{n}")).collect();
    format!("/// Every opcode, in the order of the enum.\npub const EVERY: [OpCode; {}] = [{}];", listed.len(), listed.join(", "))
}

/// The path of a source file, which a change builds anew.
fn watched(src: &Path, file: &str) -> PathBuf {
    let path = src.join(file);
    println!("cargo::rerun-if-changed={}", path.display());
    path
}

fn text(src: &Path, file: &str) -> String {
    let path = watched(src, file);
    fs::read_to_string(&path).unwrap_or_else(|e| panic!("{}: {e}", path.display()))
}

/// The item whose first line begins with `head`, its attributes included, up to the line that closes it.
fn item(text: &str, head: &str) -> String { cut(text, head, "}") }

/// The method whose first line begins with `head`.
fn method(text: &str, head: &str) -> String { cut(text, head, "    }") }

fn cut(text: &str, head: &str, close: &str) -> String {
    let lines: Vec<&str> = text.lines().collect();
    let mut heads = (0..lines.len()).filter(|&k| lines[k].starts_with(head));
    let (Some(at), None) = (heads.next(), heads.next()) else { panic!("`{head}` is not there once") };
    let from = (0..at).rev().find(|&k| !lines[k].starts_with("#[")).map_or(0, |k| k + 1);
    let to = if lines[at].ends_with(';') { at } else { (at..lines.len()).find(|&k| lines[k] == close).expect("an item that ends") };
    lines[from..=to].join("\n")
}
