//! A host that takes the fields, numbers and kinds of today for all that there will be. A line that ends in `//= E` and a number must be refused with
//! that error, and no other line; the lines between show what a host may do.
use turniploom::{Chunk, Constant, Day, Instruction, Kept, Refusal, Touched, abi::{Call, Kind, Param}, op::PopTop};

fn matched(refusal: Refusal, kind: Kind) -> u8 {
    let number = match refusal { //= E0004
        Refusal::Code { .. } | Refusal::Record { .. } | Refusal::Registers { .. } | Refusal::Try { .. } | Refusal::Buffer { .. } => 1,
        Refusal::Position { .. } | Refusal::Table { .. } | Refusal::Room { .. } | Refusal::Nothing | Refusal::Check { .. } => 2,
        Refusal::Filler { .. } | Refusal::Move { .. } | Refusal::Total { .. } | Refusal::Listed { .. } | Refusal::Offsets { .. } => 3,
    };
    let width = match kind { //= E0004
        Kind::Bool | Kind::U8 | Kind::U16 | Kind::U64 | Kind::Size => 1,
        Kind::Slice(_) | Kind::Buffer(_) | Kind::Array(_) | Kind::ArrayBuffer(_) => 2,
    };
    number + width + match refusal { Refusal::Nothing => 1, _ => 0 } + match kind { Kind::Bool => 1, _ => 0 }
}

fn taken(kept: Kept, touched: Touched, day: Day) -> usize {
    let Touched { used, given_up, written } = touched; //= E0638
    let Day { steps, levels, reads } = day; //= E0638
    let Kept { rows, words, .. } = kept;
    used.len() + given_up.len() + written.len() + reads.len() + rows.len() + words + (steps + levels) as usize
}

fn made() -> (Chunk, Instruction) {
    let instruction = Instruction { opcode: PopTop, marks: 0, operand: 0, origin: None }; //= E0639
    let chunk = Chunk { instructions: vec![instruction], constants: vec![Constant::Int(1)], ..Chunk::default() }; //= E0639
    let mut grown = Chunk::new(vec![Instruction::new(PopTop, 0)], vec![]);
    grown.tries = vec![(0, 1)];
    (if chunk == grown { chunk } else { grown }, instruction)
}

fn tabled(call: Call, param: Param) -> usize {
    let Call { name, says, params, answer, ask } = call; //= E0638
    let Param { name: of, kind } = param; //= E0638
    let _ = (ask, kind);
    name.len() + says.len() + params.len() + answer.len() + of.len()
}

fn main() {
    let _ = (matched, taken, made, tabled);
}
