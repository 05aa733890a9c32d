//! A refusal says which rule was broken, and how: one sentence for each rule of docs/BUFFERS.md.

use turniploom::{Block, Chunk, Constant::Int, Ins, Instruction, JUMP, NAMES, Op, WIDE, constant_fold, kept, op::*, replay};

/// What is said of a code of this instruction between two others.
fn code(i: Ins) -> String {
    let code = [Ins::default(), i, Ins::default()];
    kept(&code, 4, &[], false).unwrap_err().in_code(&code, &[])
}

#[test]
fn every_record_rule_has_its_sentence() {
    let due = |rule: &str| format!("the instruction at 1 breaks a record rule: {rule}");
    let ins = |op: Op, b: u16, x: u16| Ins { op, marks: 0, a: 0, b, c: 0, x };
    for (i, rule) in [
        (ins(Op(191), 0, 0), "no opcode has the number 191"),
        (ins(Move, 0, 0).with(8), "8 has bits that are no mark"),
        (ins(Move, 0, 0).with(WIDE), "Move is none of the four calls that can be wide"),
        (ins(Move, 0, 256), "x is 256, more than 255"),
        (ins(PushRegs, 0, 4), "PushRegs pushes at most 3 registers, not 4"),
        (ins(UnpackR, 0, 0), "UnpackR unpacks into at least one register"),
        (ins(CallR, 0, 0).with(WIDE), "a wide call is followed by its ArgsR"),
        (ins(WithEnter, 65_534, 1), "b is 65534, and WithEnter writes registers from b on past 65,535"),
        (ins(WithExit, 65_531, 2), "b is 65531, and WithExit writes registers from b on past 65,535"),
    ] { assert_eq!(code(i), due(rule)) }
    let first = [Ins::unmarked(ArgsR, 0, 0, 0, 0)];
    assert_eq!(kept(&first, 4, &[], false).unwrap_err().in_code(&first, &[]), "the instruction at 0 breaks a record rule: ArgsR stands first, after no call");
}

#[test]
fn registers_tries_and_lengths() {
    let code = [Ins::default(); 2];
    let says = |regs: usize, tries: &[(usize, usize)]| kept(&code, regs, tries, false).unwrap_err().in_code(&code, tries);
    assert_eq!(says(1_025, &[]), "1025 registers are more than 1,024");
    assert_eq!(says(4, &[(0, 1), (2, 1)]), "try 1 breaks its rule: it starts at 2, past its handler at 1");
    assert_eq!(says(4, &[(3, 9)]), "try 0 breaks its rule: it starts at 3, past the end at 2");
    let words = [0u16; 7];
    assert_eq!(kept(&words, 4, &[], false).unwrap_err().in_code(&words, &[]), "a code of 7 words is no whole number of instructions, or too long");
}

#[test]
fn every_rule_of_a_chunk_has_its_sentence() {
    let says = |mut chunk: Chunk| constant_fold(&mut chunk, false).unwrap_err().in_chunk(&chunk);
    let of = |i: Instruction| says(Chunk::new(vec![i], vec![Int(1)]));
    let due = |rule: &str| format!("the instruction at 0 breaks a record rule: {rule}");
    assert_eq!(of(Instruction::new(Op(200), 0)), due("no opcode has the number 200"));
    assert_eq!(of(Instruction::new(PopTop, 0).with(4)), due("4 has bits that are no mark"));
    assert_eq!(of(Instruction::new(Add, 0).with(JUMP)), due("LoadConst, Phi and the folding operators are no jumps"));
    assert_eq!(of(Instruction::new(Jump, 0).with(NAMES)), due("a jump, a Phi and a folding operator name no constant"));
    let mut mapped = Chunk::new(vec![Instruction::new(PopTop, 0)], vec![]);
    mapped.phi_map = vec![0, 0];
    assert_eq!(says(mapped), "table 2 of the chunk breaks its rule: phi_map has 2 entries, not 0 and not 1, one for each instruction");
    let tried = |s: u32, h: u32| {
        let mut chunk = Chunk::new(vec![Instruction::new(PopTop, 0)], vec![]);
        chunk.tries = vec![(0, 1), (s, h)];
        says(chunk)
    };
    assert_eq!(tried(1, 0), "try 1 breaks its rule: it starts at 1, past its handler at 0");
    assert_eq!(tried(2, 3), "try 1 breaks its rule: it starts at 2, past the end at 1");
    let many = Chunk::new(vec![], vec![Int(0); 65_537]);
    assert_eq!(says(many), "table 1 of the chunk breaks its rule: there are at most 65,536 constants, of the kinds 0 to 3, and a bool is 0 or 1");
}

/// What a trace is refused with, in full sentences.
#[test]
fn every_rule_of_a_trace_has_its_sentence() {
    let code = [Ins::unmarked(Move, 0, 1, 0, 0); 200];
    let says = |trace: &[u8]| replay(&code, 2, &[], trace).unwrap_err().in_code(&code, &[]);
    let (full, rest) = (Block::of(&(0..127).collect::<Vec<_>>()).bytes(), Block::of(&[127]).bytes());
    assert_eq!(replay(&code, 2, &[], &[full, rest].concat()).unwrap().steps, 128);
    assert_eq!(says(&[&full[..], &rest[..511]].concat()), "block 1 of the trace is cut short, or its check is wrong");
    assert_eq!(says(&[rest, full].concat()), "step 0 of the trace is none that the code allows");
    assert_eq!(says(&[Block::default().bytes(), full].concat()), "block 1 of the trace has a position after a filler");
    assert_eq!(says(&[full, Block::of(&[128]).bytes()].concat()), "step 127 of the trace is none that the code allows");
}

/// The crate leans on core and alloc alone, but for the module that the feature `std` brings.
#[test]
fn no_std() {
    for file in std::fs::read_dir(concat!(env!("CARGO_MANIFEST_DIR"), "/src")).unwrap() {
        let path = file.unwrap().path();
        let text = std::fs::read_to_string(&path).unwrap();
        assert!(!text.contains("std::") || path.ends_with("trace.rs"), "{}", path.display());
    }
    let lib = include_str!("../src/lib.rs");
    assert!(lib.contains("#![no_std]") && lib.contains("#[cfg(feature = \"std\")]\nmod trace;"));
}
