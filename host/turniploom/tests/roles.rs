//! The page of roles: the table that is proved (crates/roles/specs/Roles.antt), docs/OPCODES.md, and what the archive answers.

use std::{fs, path::Path};
use turniploom::{Op, abi, op};

fn text(path: &str) -> String { fs::read_to_string(Path::new(env!("CARGO_MANIFEST_DIR")).join("../..").join(path)).unwrap() }

/// The lines of the table, opcode 0 first: the bits for x of 0 to 4, and what the comment beside them names.
fn table() -> Vec<([u8; 5], String)> {
    let text = text("crates/roles/specs/Roles.antt");
    let lines = text.split_once("role_table =\n").expect("the table").1.lines();
    lines.map(|l| {
        let (bits, name) = l.split_once("--").unwrap_or((l, ""));
        let bits: Vec<u8> = bits.split('∷').filter_map(|b| b.trim().parse().ok()).collect();
        (bits.try_into().expect("five numbers"), name.trim().to_string())
    }).collect()
}

#[test]
fn the_page_is_the_table() {
    let table = table();
    assert_eq!(table.len(), 256);
    let named = |n: usize| op::ALL.iter().find(|o| usize::from(o.number()) == n).map(|o| format!("{n} {o}")).unwrap_or_default();
    for (n, line) in table.iter().enumerate() { assert_eq!(line.1, named(n)) }
    let page = text("docs/OPCODES.md");
    let cells = page.lines().map(|l| l.split('|').skip(1).map(str::trim).collect::<Vec<_>>());
    let rows: Vec<Vec<&str>> = cells.filter(|c| c.len() > 8 && c[0].parse::<u16>().is_ok()).collect();
    assert_eq!(rows.len(), op::ALL.len());
    for c in rows {
        let bits = table[c[0].parse::<usize>().unwrap()].0;
        let told = if bits == [bits[0]; 5] { bits[0].to_string() } else { bits.map(|b| b.to_string()).join(" ") };
        assert_eq!(c[4], told, "{}", c[1]);
    }
}

/// Every opcode, x of 0 to 5 and 255, a of 0, 1 and 65,535; what no code may have is refused.
#[test]
fn the_archive_answers_the_table() {
    let mut refused = vec![];
    for (n, (bits, _)) in table().into_iter().enumerate().take(191) {
        for (x, a) in [0, 1, 2, 3, 4, 5, 255].into_iter().flat_map(|x| [0, 1, 65_535].map(|a| (x, a))) {
            let code = [0, 0, 0, 0, 0, 0, n as u16, 0, a, 1, 2, x];
            let answer = abi::kinds(&code, 1);
            let raised = Op(n as u16) == op::Raise && a != 0;
            let bits = if raised { 32 } else { bits[x.min(4) as usize] };
            if answer.refusal != 0 { refused.push((n, x)) } else { assert_eq!(answer.first, u64::from(bits), "{n} {x} {a}") }
        }
    }
    refused.dedup();
    let (push, unpack) = (op::PushRegs.number().into(), op::UnpackR.number().into());
    assert_eq!(refused, [(push, 4), (push, 5), (push, 255), (unpack, 0)]);
}
