//! A chunk is folded, and what no instruction names any more is dropped.
//!
//! cargo run --offline --example fold

use turniploom::{Chunk, Constant::{Float, Int}, Instruction, Refusal, clear, constant_fold, op::*};

fn main() -> Result<(), Refusal> {
    // (2 + 3) * 1.5, a test of it, and a jump over what follows.
    let code = [(LoadConst, 0), (LoadConst, 1), (Add, 0), (LoadConst, 2), (Mul, 0), (JumpIfFalse, 7), (LoadNone, 0), (LoadTrue, 0)];
    let mut chunk = Chunk::new(code.map(|(op, operand)| Instruction::new(op, operand)).into(), vec![Int(2), Int(3), Float(1.5)]);
    chunk.stmt_pos = vec![(0, 10), (5, 20)];
    // A try around it; its handler is no place that would fold, so strict mode folds all of it.
    chunk.tries = vec![(0, 6)];
    let landings = constant_fold(&mut chunk, true)?;
    println!("folded: {:?}, statements at {:?}, tries {:?}", chunk.constants, chunk.stmt_pos, chunk.tries);
    for (k, count) in landings.iter().enumerate().filter(|l| *l.1 != 0) { println!("{count} land on {k}") }
    clear(&mut chunk)?;
    println!("shipped: {:?}", chunk.constants);
    for i in &chunk.instructions { println!("{:?} {}", i.opcode, i.operand) }

    chunk.phi_map = vec![0];
    let refusal = constant_fold(&mut chunk, false).unwrap_err();
    println!("refused ({}): {}", refusal.number(), refusal.in_chunk(&chunk));
    Ok(())
}
