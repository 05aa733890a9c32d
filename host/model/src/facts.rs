//! What document 01 takes as known of each opcode: a page of facts, tested against the Rust.

use std::sync::LazyLock;
use turniploom::Op;

/// The facts of one opcode. Role bits are those of `kinds`.
#[derive(Clone, Copy, Debug)]
pub struct Fact {
    /// `is_jump` and `is_register` of the Rust.
    pub jump: bool,
    pub register: bool,
    /// Role bits for x of 0, 1, 2, 3 and 4 or more, and for x of 0 with a not 0.
    pub role: [u8; 5],
    pub role_a: u8,
    /// Stack work that a section may hold.
    pub stack: bool,
    /// A level whatever its marks.
    pub level: bool,
    /// The operands of a folding operator, else 0.
    pub folding: u8,
}

/// Opcode 0 has no role and is nothing in particular.
const OTHER: Fact = Fact { jump: false, register: false, role: [32; 5], role_a: 32, stack: false, level: false, folding: 0 };

static PAGE: LazyLock<Vec<Fact>> = LazyLock::new(|| {
    let mut page = vec![OTHER; 191];
    for line in include_str!("opcodes.tsv").lines().skip(1) {
        let f: Vec<&str> = line.split('\t').collect();
        let n = |k: usize| f[k].parse::<u8>().unwrap();
        assert_eq!(Op::named(f[1]), Some(Op(n(0).into())), "{line}");
        page[n(0) as usize] = Fact {
            jump: n(2) != 0,
            register: n(3) != 0,
            role: [n(4), n(5), n(6), n(7), n(8)],
            role_a: n(9),
            stack: n(10) != 0,
            level: n(11) != 0,
            folding: n(12),
        };
    }
    page
});

/// The facts of a known opcode.
pub fn fact(op: impl Into<Op>) -> &'static Fact { &PAGE[op.into().0 as usize] }
