//! The notation: what is read, what is written, and what is wrong by line.

use listing::{body, chunk, notation::{Body, Chunk, Text, Wrong, Wrongs, read}, refused};
use turniploom::{DUNDER, Ins, JUMP, NAMES, REGISTER, WIDE, op};

fn body(text: &str) -> Body {
    match read(text) {
        Ok(Text::Body(b)) => b,
        other => panic!("{other:?}"),
    }
}

fn chunk(text: &str) -> Chunk {
    match read(text) {
        Ok(Text::Chunk(c)) => c,
        other => panic!("{other:?}"),
    }
}

fn wrong(text: &str) -> (usize, String) {
    let Wrongs(all) = read(text).unwrap_err();
    let [Wrong { line, says }] = &all[..] else { panic!("{all:?}") };
    (*line, says.clone())
}

#[test]
fn the_examples_of_document_01() {
    let k = body("0 LoadGlobalR a0 b7; 1 LoadGlobalR a1 b9; 2 CallR a1 x0; 3 StoreTopR a2; 4 AddR a3 b0 c2; 5 ReturnR b3; 4 registers");
    assert_eq!((k.code.len(), k.registers), (6, 4));
    assert_eq!(k.code[4], Ins { op: op::AddR, marks: REGISTER, a: 3, b: 0, c: 2, x: 0 });
    assert_eq!(body("try (1, 5); registers 4").tries, [1, 5]);
    assert_eq!(body("Jump 0; registers 1").code[0].a, 0);
    let p13 = chunk("chunk; LoadConst 0; LoadConst 1; Add; jump 2; pool 2 and 3");
    assert_eq!(p13.code, [[op::LoadConst.0, NAMES, 0], [op::LoadConst.0, NAMES, 1], [op::Add.0, 0, 0], [op::Jump.0, JUMP, 2]]);
    assert_eq!(p13.constants, [(1, 2), (1, 3)]);
}

#[test]
fn marks_are_the_rusts_own_tests_unless_said() {
    let code = body("registers 4\nCallR a0 b1 c2 x3\nArgsR a3\nCallR a0\nAddR a0 b0 c0 dunder\nAdd\nAdd register\nCallR a0 m0\nArgsR\nOther m6").code;
    let marks: Vec<u16> = code.iter().map(|i| i.marks).collect();
    assert_eq!(marks, [WIDE | REGISTER, REGISTER, REGISTER, DUNDER | REGISTER, 0, REGISTER, 0, REGISTER, 6]);
    assert_eq!(chunk("chunk; ForIter 2; Jump 1 m0; PopTop jump").code, [[op::ForIter.0, 1, 2], [op::Jump.0, 0, 1], [op::PopTop.0, 1, 0]]);
    let named = "chunk\n0 LoadConst 1\n1 LoadName 2 names\n2 LoadConst 0 m0\n3 Jump 1 names\n4 LoadConst 0 jump\n";
    assert_eq!(chunk(named).code, [[op::LoadConst.0, 2, 1], [op::LoadName.0, 2, 2], [op::LoadConst.0, 0, 0], [op::Jump.0, 3, 1], [op::LoadConst.0, 3, 0]]);
    assert_eq!(chunk(named).to_string(), named);
}

/// An instruction of a chunk has its position as origin, unless its text says where it was.
#[test]
fn where_an_instruction_was() {
    let text = "chunk\n0 LoadTrue was 12\n1 PopTop\n2 LoadName 2 names was 0\n";
    assert_eq!((chunk(text).origins, chunk(text).to_string()), (vec![12, 1, 0], text.to_string()));
    assert_eq!(chunk(text).words(), [op::LoadTrue.0, 0, 0, 12, op::PopTop.0, 0, 0, 1, op::LoadName.0, 2, 2, 0]);
    assert_eq!(wrong("chunk\nAdd was 65536"), (2, "Add: `was`: 65536 is too large".into()));
    assert_eq!(wrong("chunk\nAdd was 1 jump").1, "Add: `was` is no field (a, b, c, x, m with a number) and no mark");
    assert_eq!(wrong("registers 4\nMove a1 was 1").1, "Move: `was` is no field (a, b, c, x, m with a number) and no mark");
}

#[test]
fn tries_of_a_chunk() {
    let text = "chunk\nstrict\ntry 0 2\ntry 1 4294967295\n0 PopTop\n";
    assert_eq!(chunk(text).tries, [0, 2, 1, u32::MAX]);
    assert_eq!(chunk(text).to_string(), text);
}

#[test]
fn constants_of_each_kind() {
    let c = chunk("chunk; constants -7 2.0 1e308 -inf true false other 2:0x7ff8000000000001 0:9");
    let kinds: Vec<u8> = c.constants.iter().map(|c| c.0).collect();
    assert_eq!(kinds, [1, 2, 2, 2, 3, 3, 0, 2, 0]);
    assert_eq!((c.constants[0].1, c.constants[3].1, c.constants[7].1), (-7i64 as u64, f64::NEG_INFINITY.to_bits(), 0x7FF8_0000_0000_0001));
}

#[test]
fn bad_text_is_named_by_line() {
    for (text, line, says) in [
        ("registers 4\n0 Move a0 b1\n2 Move a0 b1", 3, "position 2 stands where 1 is due"),
        ("registers 4\n\nLoadGlobal a0", 3, "no opcode and no setting is called `LoadGlobal`; is `LoadGlobalR` meant?"),
        ("registers 4\nXy a0", 2, "no opcode and no setting is called `Xy`"),
        ("registers 4\nMove a0 q3", 2, "Move: `q3` is no field (a, b, c, x, m with a number) and no mark"),
        ("registers 4\nMove a0 a1", 2, "Move: `a` is given twice"),
        ("registers 4\nMove a65536", 2, "Move: 65536 is too large"),
        ("registers four", 1, "registers wants a number, not `four`"),
        ("registers 4\nregisters 5", 2, "the registers are given twice"),
        ("Move a0 b1\n# nothing more\n", 2, "how many registers? Say `registers 4`, or `chunk` if this is a chunk"),
        ("constants 1", 1, "`constants` belongs to a chunk: say `chunk` on a line before it"),
        ("chunk\nregisters 4", 2, "a chunk has no `registers`"),
        ("chunk\ntry 1 x", 2, "a try wants a number, not `x`"),
        ("registers 4\nMove a0\nchunk", 3, "`chunk` must come before the first instruction"),
        ("chunk\nAdd b1", 2, "Add: an instruction of a chunk has one operand, not `b1`"),
        ("registers 1\n0", 2, "no instruction after position 0"),
        ("registers 1\nrows 16", 2, "`rows` is followed by `16`"),
        ("chunk\nrows 32", 2, "a chunk has no `rows`"),
    ] { assert_eq!(wrong(text), (line, says.to_string()), "{text}") }
    assert!(wrong("chunk\nconstants 1 none7").1.starts_with("`none7` is no constant"));
}

/// Every error of a text is told once, each with its line.
#[test]
fn all_errors_are_told() {
    let all = |text: &str| read(text).unwrap_err().0.into_iter().map(|w| (w.line, w.says)).collect::<Vec<_>>();
    let text = "registers four\n0 Move a0 b1\n2 Mvoe a0 b1\n3 Move q1\n5\n6 Move a1 b2\ntry x";
    let due = [
        (1, "registers wants a number, not `four`"), (3, "position 2 stands where 1 is due"), (4,
            "Move: `q1` is no field (a, b, c, x, m with a number) and no mark"),
        (5, "position 5 stands where 4 is due"), (7, "a try wants a number, not `x`"),
    ];
    assert_eq!(all(text), due.map(|(line, says)| (line, says.to_string())));
    let due = [(1, "no opcode and no setting is called `Mvoe`; is `Move` meant?"), (2, "no opcode and no setting is called `Xyz`"), (2,
        "how many registers? Say `registers 4`, or `chunk` if this is a chunk")];
    assert_eq!(all("Mvoe a0 b1\nXyz a1"), due.map(|(line, says)| (line, says.to_string())));
    assert_eq!(read("Mvoe a0 b1\nXyz a1").unwrap_err().to_string().lines().count(), 3);
}

#[test]
fn a_byte_order_mark_is_passed_over() {
    assert_eq!(body("\u{feff}registers 4\r\n0 Move a0 b1\r\n").code.len(), 1);
}

/// A comment stands beside the last instruction on its line.
#[test]
fn comments_are_kept() {
    let b = body("# above\nregisters 4 # how many\n0 Move a0 b1 # the first; and more\nMove a1 b0; Move a2 b0 # the third\n# alone");
    assert_eq!(b.comments, ["the first; and more", "", "the third"]);
}

/// The one NaN of folds has a name, and zero its sign.
#[test]
fn nan_and_the_sign_of_zero() {
    let c = chunk("chunk; constants nan -0.0 0.0 2:0x7ff8000000000001");
    assert_eq!(c.constants, [(2, 0x7FF8_0000_0000_0000), (2, 1 << 63), (2, 0), (2, 0x7FF8_0000_0000_0001)]);
    assert_eq!(c.to_string(), "chunk\nconstants nan -0.0 0.0 2:0x7ff8000000000001\n");
}

#[test]
fn refusals_in_words() {
    let refused = |text: &str| { let b = body(text); refused::body(body::View::of(&b).err().expect("a refusal"), &b) };
    assert_eq!(refused("registers 4\nMove a0\nPushRegs a1 x4"), "line 3: refused (2): the instruction at 1 breaks a record rule: PushRegs pushes at \
        most 3 registers, not 4");
    assert_eq!(refused("registers 1025"), "refused (3): 1025 registers are more than 1,024");
    assert_eq!(refused("registers 4\ntry 3 2"), "refused (4): try 0 breaks its rule: it starts at 3, past its handler at 2");
    assert_eq!(refused("registers 4\ntry 0 0 1"), "refused (4): try 1 breaks its rule: it has no handler: a try is two numbers, its start and its handler");
    assert_eq!(refused("registers 4\nwords 1 2"), "refused (1): a code of 2 words is no whole number of instructions, or too long");
    let refused = |text: &str| { let c = chunk(text); refused::chunk(chunk::View::of(&c).err().expect("a refusal"), &c) };
    assert_eq!(refused("chunk\nLoadConst 0 jump"), "line 2: refused (2): the instruction at 0 breaks a record rule: LoadConst, Phi and the folding \
        operators are no jumps");
    assert_eq!(refused("chunk\nLoadConst 0 m0"), "line 2: refused (2): the instruction at 0 breaks a record rule: LoadConst names a constant, and \
        lacks that mark");
    for bad in ["Jump 0", "Phi 0", "Add"] {
        assert_eq!(refused(&format!("chunk\n{bad} names")), "line 2: refused (2): the instruction at 0 breaks a record rule: a jump, a Phi and a \
            folding operator name no constant");
    }
    assert_eq!(refused("chunk\ntry 0 0\ntry 2 1"), "refused (4): try 1 breaks its rule: it starts at 2, past its handler at 1");
    assert_eq!(refused("chunk\ntry 1 2"), "refused (4): try 0 breaks its rule: it starts at 1, past the end at 0");
    assert_eq!(refused("chunk\ntry 0 0 0"), "refused (4): try 1 breaks its rule: it has no handler: a try is two numbers, its start and its handler");
    assert_eq!(refused("chunk\nstmt_pos 1"), "refused (7): table 4 of the chunk breaks its rule: the numbers of stmt_pos come in pairs");
}
