//! A host swaps block.rs for the port by changing imports: one text, compiled over each, on the comparison's own bodies. Its own
//! instructions go in by `marked`, with its own `dunder_op`.

use oracle::{bodies, original::{number, opcode}, question::Kept, rng::Rng};
use original::{parser::OpCode, vm::lower::set_dunder_ops};

mod over_the_rust {
    use original::{parser::OpCode::*, vm::{block::open as block, lower::Ins}};
    include!("swap/host.rs");
}

mod over_the_port {
    use turniploom::{Ins, block, op::*};
    include!("swap/host.rs");
}

/// The Rust's own instruction, which the port takes once it is said how it reads.
#[derive(Clone)]
struct Own(original::vm::lower::Ins);

impl From<Own> for turniploom::Lowered {
    fn from(Own(i): Own) -> turniploom::Lowered { turniploom::Lowered::new(number(i.op), i.a, i.b, i.c, i.x) }
}

/// A body as the Rust has it: the four calls before an ArgsR are wide.
fn lowered(code: &[turniploom::Ins]) -> Vec<original::vm::lower::Ins> {
    let wide = |k: usize| code[k].op.is_call() && code.get(k + 1).is_some_and(|n| n.op == turniploom::op::ArgsR);
    let own = |(k, i): (usize, &turniploom::Ins)| original::vm::lower::Ins { op: opcode(i.op, i.marks), a: i.a, b: i.b, c: i.c, x: i.x as u8, wide: wide(k) };
    code.iter().enumerate().map(own).collect()
}

#[test]
fn the_same_plans() {
    let mut rng = Rng::new(5, 0);
    let (mut laid, mut saved, mut dunders) = (0, 0, 0);
    for _ in 0..5_000 {
        let regs = rng.pick(&[3, 8, 64]);
        let body = lowered(&bodies::body(&mut rng, Kept, regs));
        let set = [0; 4].map(|_: u64| rng.word() & rng.word());
        let dunder_op = |o: OpCode| set[o as usize / 64] >> (o as usize % 64) & 1 != 0;
        set_dunder_ops(set);
        let own: Vec<Own> = body.iter().map(|&i| Own(i)).collect();
        let code = turniploom::marked(&own, |i| dunder_op(i.0.op));
        let s = rng.below(code.len() + 1);
        let tries = [(s, s + rng.below(9))];
        let (rust, port) = (over_the_rust::plan(&body, regs, &tries, 5), over_the_port::plan(&code, regs, &tries, 5));
        laid += usize::from(port.laid);
        saved += port.saves.iter().map(|s| s.kept.len()).sum::<usize>();
        dunders += code.iter().filter(|i| i.marks & turniploom::DUNDER != 0).count();
        assert_eq!(format!("{rust:?}"), format!("{port:?}"));
        assert_eq!(over_the_rust::unset(&body, regs as u16), over_the_port::unset(&code, regs as u16));
    }
    assert!(laid > 100 && saved > 10_000 && dunders > 10_000, "{laid} {saved} {dunders}");
}

#[test]
#[should_panic(expected = "turniploom: position 9 is not one to ask about")]
fn a_refusal_panics_there() { turniploom::block::global_of(&[turniploom::Ins::default()], 9, turniploom::Ins::default()); }
