//! The opcode numbers: the Rust's names, the model's page of facts, and docs/OPCODES.md.

use oracle::{model::facts::fact, original::{number, opcode}};
use original::{TEXT, parser::EVERY};
use std::{collections::BTreeSet, fs, path::Path};
use turniploom::{Op, op};

#[test]
fn numbers_are_1_to_190_once_each() {
    let numbers: BTreeSet<u16> = op::ALL.iter().map(|o| o.number()).collect();
    assert_eq!(numbers, (1..=190).collect());
}

/// The opcodes that block.rs and optimizer.rs name outside comments are exactly those with a number.
#[test]
fn named_in_the_rust() {
    let code = TEXT.map(|t| t.lines().map(|l| l.split("//").next().unwrap()).filter(|l| !l.trim_start().starts_with("/*")).collect::<Vec<_>>().join("\n")).join("\n");
    let words: BTreeSet<&str> = code.split(|c: char| !c.is_alphanumeric()).collect();
    let named: BTreeSet<String> = EVERY.iter().map(|o| format!("{o:?}")).filter(|n| words.contains(n.as_str())).collect();
    assert_eq!(named, op::ALL.iter().map(|o| o.to_string()).collect());
}

#[test]
fn facts_are_the_rusts() {
    for n in op::ALL {
        let o = opcode(n, 0);
        assert_eq!((fact(n).jump, fact(n).register, number(o)), (o.is_jump(), o.is_register(), n), "{n}");
    }
}

/// The rows `| number | name | ..` of docs/OPCODES.md, cell by cell.
fn rows(text: &str) -> Vec<Vec<&str>> {
    let cells = text.lines().map(|l| l.split('|').skip(1).map(str::trim).collect::<Vec<_>>());
    cells.filter(|c| c.len() > 8 && c[0].parse::<u16>().is_ok()).collect()
}

#[test]
fn the_document_has_the_same_numbers_and_facts() {
    let path = Path::new(env!("CARGO_MANIFEST_DIR")).join("../../docs/OPCODES.md");
    let text = fs::read_to_string(&path).unwrap();
    let listed: Vec<(u16, String)> = rows(&text).iter().map(|c| (c[0].parse().unwrap(), c[1].to_string())).collect();
    assert_eq!(listed, op::ALL.map(|o| (o.number(), o.to_string())));
    for c in rows(&text) {
        let f = fact(Op::named(c[1]).unwrap());
        let yes = |b: bool| if b { "yes" } else { "" };
        let kinds: Vec<String> = f.role.iter().map(u8::to_string).collect();
        let kinds = if f.role == [f.role[0]; 5] { kinds[0].clone() } else { kinds.join(" ") };
        assert_eq!(c[2..8], [yes(f.jump), yes(f.register), &kinds, yes(f.stack), yes(f.level), ["", "unary", "binary"][f.folding as usize]], "{}", c[1]);
    }
}
