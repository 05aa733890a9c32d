//! Answers hang on the marks: `marked` sets them from the code and the host's own test, and a code without them loses a register.

use turniploom::{DUNDER, Ins, Instruction, JUMP, Lowered, NAMES, Op, REGISTER, WIDE, kept, live_across, marked, op::*};

/// A wide call whose result goes to r6; r9 is read after it.
const CALLED: [Lowered; 5] = [
    Lowered::new(CallR, 5, 0, 1, 5), Lowered::new(ArgsR, 9, 4, 5, 0), Lowered::new(StoreTopR, 6, 0, 0, 0), Lowered::new(AddR, 7, 6, 9, 0),
    Lowered::new(ReturnR, 0, 7, 0, 0),
];

fn none(_: &Lowered) -> bool { false }

#[test]
fn a_wide_call_is_marked_by_the_code() {
    let code = marked(&CALLED, none);
    assert_eq!(code.iter().map(|i| i.marks).collect::<Vec<_>>(), [WIDE | REGISTER, REGISTER, REGISTER, REGISTER, REGISTER]);
    assert_eq!(live_across(&code, 10, &[]).unwrap()[0], [9]);
    // With no mark the call seems to resume at its ArgsR, and r9 is lost.
    let unmarked = CALLED.map(|i| Ins::unmarked(i.op, i.a, i.b, i.c, i.x));
    assert_eq!(live_across(&unmarked, 10, &[]).unwrap()[0], [4, 5]);
}

#[test]
fn each_of_the_four_calls_and_no_other() {
    for op in ALL {
        let code = marked(&[Lowered::new(op, 0, 0, 0, 1), Lowered::new(ArgsR, 0, 0, 0, 0), Lowered::new(op, 0, 0, 0, 1)], none);
        assert_eq!(code[0].wide(), [CallGlobalR, CallR, CallMethodR, CallSpreadR].contains(&op), "{op}");
        assert!(!code[2].wide() && code[0].marks & REGISTER == code[2].marks & REGISTER, "{op}");
    }
    assert!(marked(&[Lowered::new(CallR, 0, 0, 0, 0)], none)[0].marks == REGISTER && marked::<Lowered>(&[], none).is_empty());
}

#[test]
fn a_dunder_makes_a_level() {
    let body = [Lowered::new(GetItemR, 1, 0, 2, 0), Lowered::new(AddR, 1, 1, 3, 0), Lowered::new(ReturnR, 0, 1, 0, 0)];
    assert_eq!(kept(&marked(&body, none), 4, &[], false).unwrap().at(0), []);
    let code = marked(&body, |i| i.op == GetItemR);
    assert_eq!(code[0].marks, DUNDER | REGISTER);
    assert_eq!(kept(&code, 4, &[], false).unwrap().at(0), [3]);
}

/// A host with instructions of its own says once how they read.
#[test]
fn the_hosts_own_instructions() {
    #[derive(Clone)]
    struct Own(&'static str, [u16; 4]);
    impl From<Own> for Lowered {
        fn from(Own(name, [a, b, c, x]): Own) -> Lowered { Lowered::new(Op::named(name).unwrap_or(Op::OTHER), a, b, c, x as u8) }
    }
    let own = [Own("CallR", [5, 0, 1, 5]), Own("ArgsR", [9, 4, 5, 0]), Own("StoreTopR", [6, 0, 0, 0]), Own("AddR", [7, 6, 9, 0]), Own("ReturnR", [0, 7, 0, 0])];
    assert_eq!(marked(&own, |_| false), marked(&CALLED, none));
    assert_eq!(marked(&[Own("Turn", [0; 4])], |i| i.0 == "Turn"), [Ins::unmarked(Op::OTHER, 0, 0, 0, 0).with(DUNDER)]);
}

#[test]
fn instructions_of_a_chunk() {
    let marks = |op: Op| Instruction::new(op, 1).marks;
    assert_eq!((marks(Jump), marks(ForIter), marks(LoadConst), marks(Add), marks(LoadName)), (JUMP, JUMP, NAMES, 0, 0));
    assert_eq!((Instruction::naming(LoadName, 1).marks, Instruction::unmarked(Jump, 1).marks), (NAMES, 0));
}

#[test]
fn instructions_are_shown_by_name() {
    assert_eq!(format!("{:?}", marked(&CALLED, none)[0]), "CallR a5 b0 c1 x5 wide register");
    assert_eq!(format!("{:?}", Instruction::new(LoadConst, 3)), "Instruction { opcode: LoadConst, marks: 2, operand: 3, origin: None }");
    assert_eq!(format!("{:?} {:?} {}", Op(191), Op::OTHER, AddR), "Op191 Other AddR");
}

/// Who reads how to use it reads that answers hang on the marks.
#[test]
fn it_is_said_where_it_is_read() {
    let [readme, header, buffers] = [include_str!("../../../README.md"), include_str!("../../../include/turniploom.h"), include_str!("../../../docs/BUFFERS.md")];
    for text in [readme, header, buffers, include_str!("../src/lib.rs")] {
        let words: Vec<&str> = text.split(|c: char| !c.is_alphanumeric()).filter(|w| !w.is_empty()).collect();
        assert!(words.windows(4).any(|w| w[0].eq_ignore_ascii_case("answers") && w[1..3] == ["hang", "on"] && ["the", "them"].contains(&w[3])));
    }
}
