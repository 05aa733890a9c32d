//! A refusal in the safe crate's words, with its number and the line it stands on.

use crate::notation::{Body, Chunk};
use turniploom::{Instruction, Op, Refusal};

/// The refusal of a body in words.
pub fn body(refusal: Refusal, body: &Body) -> String {
    let tries: Vec<(usize, usize)> = body.tries.chunks_exact(2).map(|t| (t[0] as usize, t[1] as usize)).collect();
    said(refusal, &body.lines, refusal.in_code(&body.code, &tries) + half(refusal, tries.len()))
}

/// Only a text can have half a try, after its whole ones.
fn half(refusal: Refusal, whole: usize) -> &'static str {
    let half = matches!(refusal, Refusal::Try { index } if index as usize == whole);
    if half { ": it has no handler: a try is two numbers, its start and its handler" } else { "" }
}

/// The refusal of a chunk in words.
pub fn chunk(refusal: Refusal, chunk: &Chunk) -> String {
    let instruction = |&[op, marks, operand]: &[u16; 3]| Instruction::unmarked(Op(op), operand).with(marks);
    let mut safe = turniploom::Chunk::new(chunk.code.iter().map(instruction).collect(), vec![]);
    safe.phi_map = chunk.phi_map.iter().map(|&p| p as usize).collect();
    safe.tries = chunk.tries.chunks_exact(2).map(|t| (t[0], t[1])).collect();
    said(refusal, &chunk.lines, refusal.in_chunk(&safe) + half(refusal, safe.tries.len()))
}

/// The words after the refusal's number, and before it the line of an instruction.
fn said(refusal: Refusal, lines: &[usize], words: String) -> String {
    let line = match refusal {
        Refusal::Record { position } => lines.get(position as usize).map_or(String::new(), |l| format!("line {l}: ")),
        _ => String::new(),
    };
    format!("{line}refused ({}): {words}", refusal.number())
}
