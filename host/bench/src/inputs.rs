//! The inputs: code and chunks of a given size, the same at every run.

use oracle::{chunks::numbered, question::{Arg, Fold, Question}, rng::Rng};
use turniploom::{Ins, Lowered, marked, op::*};

/// Code with no jump back: sums over the registers, a call with its store every eight instructions, a branch forward now and then.
pub fn straight(n: usize, regs: usize) -> Vec<Ins> {
    let mut rng = Rng::new(1, regs as u64);
    let mut r = || rng.below(regs) as u16;
    let plain: Vec<Lowered> = (0..n).map(|k| match k % 8 {
        _ if k + 1 == n => Lowered::new(ReturnR, 0, r(), 0, 0),
        2 => Lowered::new(JumpIfFalseR, (k + 6).min(n) as u16, r(), 0, 0),
        5 => Lowered::new(CallR, r(), r(), 0, 1),
        6 => Lowered::new(StoreTopR, r(), 0, 0, 0),
        _ => Lowered::new(AddR, r(), r(), r(), 0),
    }).collect();
    marked(&plain, |_| false)
}

/// Loops in loops, four deep: each unit of 40 instructions has four heads, work with a call in the innermost, and four jumps back.
pub fn loops(n: usize, regs: usize) -> Vec<Ins> {
    const UNIT: usize = 40;
    let mut rng = Rng::new(2, regs as u64);
    let mut r = || rng.below(regs) as u16;
    let plain: Vec<Lowered> = (0..n).map(|k| {
        let (base, at) = (k / UNIT * UNIT, k % UNIT);
        match at {
            _ if k + 1 == n => Lowered::new(ReturnR, 0, r(), 0, 0),
            // The heads at 0, 2, 4, 6 leave past the jumps at 39, 38, 37, 36 that lead back to them.
            0 | 2 | 4 | 6 => Lowered::new(ForIterR, (base + UNIT - at / 2).min(n) as u16, r(), 0, 0),
            36..40 => Lowered::new(Jump, (base + 2 * (39 - at)) as u16, 0, 0, 0),
            20 => Lowered::new(CallR, r(), r(), 0, 1),
            21 => Lowered::new(StoreTopR, r(), 0, 0, 0),
            _ => Lowered::new(AddR, r(), r(), r(), 0),
        }
    }).collect();
    marked(&plain, |_| false)
}

/// Any opcodes in any order, over the registers, with x of 0 to 3: what a sweep meets on every way through its cases.
pub fn random(n: usize, regs: usize) -> Vec<Ins> {
    let mut rng = Rng::new(3, regs as u64);
    let plain: Vec<Lowered> = (0..n).map(|k| {
        let mut r = || rng.below(regs) as u16;
        let (a, b, c) = (r(), r(), r());
        let (op, x) = (rng.pick(&ALL), rng.below(4) as u8);
        // No code begins with ArgsR, and UnpackR has an x of its own.
        if op == ArgsR && k == 0 { Lowered::new(Move, a, b, c, x) } else { Lowered::new(op, a, b, c, if op == UnpackR { x.max(1) } else { x }) }
    }).collect();
    marked(&plain, |_| false)
}

/// Sums of two constants, each dropped again, and a jump on; every fourth sum has a third operand. The results are among a few
/// constants, or each is new.
pub fn sums(n: usize, new: bool) -> Question {
    let mut code = vec![];
    let mut pool: Vec<i64> = if new { vec![] } else { (0..16).collect() };
    let load = |pool: &mut Vec<i64>, k: usize| {
        if new { pool.push(1_000_000 * k as i64) }
        [LoadConst.0, 2, if new { pool.len() - 1 } else { k % 5 } as u16]
    };
    for k in 0.. {
        if code.len() + 7 > n { break }
        let (a, b) = (load(&mut pool, k), load(&mut pool, 2 * k + 1));
        code.extend([a, b, [Add.0, 0, 0]]);
        if k % 4 == 0 { code.extend([load(&mut pool, 3 * k + 2), [Add.0, 0, 0]]) }
        code.push([PopTop.0, 0, 0]);
        if k % 16 == 0 { code.push([Jump.0, 1, (code.len() + 1).min(n) as u16]) }
    }
    code.resize(n, [PopTop.0, 0, 0]);
    lent(code, &pool)
}

/// An operator every third instruction: sums of two of a few constants, and nothing else.
pub fn thirds(n: usize) -> Question {
    let code = (0..n).map(|k| if k % 3 == 2 { [Add.0, 0, 0] } else { [LoadConst.0, 2, (k % 5) as u16] }).collect();
    lent(code, &(0..16).collect::<Vec<_>>())
}

/// One sum of many, each result an operand of the next: between its operands lies all that is dead.
pub fn chain(n: usize) -> Question {
    let code = (0..n).map(|k| if k > 0 && k % 2 == 0 { [Add.0, 0, 0] } else { [LoadConst.0, 2, 0] }).collect();
    lent(code, &[0])
}

/// The question that folds a chunk, with the room that it needs.
fn lent(code: Vec<[u16; 3]>, pool: &[i64]) -> Question {
    let n = code.len();
    let mut kinds = vec![1; pool.len()];
    let mut words: Vec<u64> = pool.iter().map(|&i| i as u64).collect();
    kinds.resize(pool.len() + n, 0);
    words.resize(pool.len() + n, 0);
    let stmts: Vec<u32> = (0..n as u32).step_by(8).flat_map(|k| [k, k]).collect();
    let count = stmts.len() as u64;
    Question::of(Fold, [
        ("code", Arg::U16(numbered(&code))), ("kinds", Arg::U8(kinds)), ("words", Arg::U64(words)), ("constants", Arg::N(pool.len() as u64)),
        ("phi_map", Arg::U32(vec![0; n])), ("phi_sources", Arg::U16(vec![0; 2 * n])), ("stmt_pos", Arg::U32(stmts)), ("stmt_pos_count", Arg::N(count)),
        ("dead", Arg::U8(vec![0; n])), ("remap", Arg::U32(vec![0; n + 1])), ("landings", Arg::U64(vec![0; n + 1])),
    ])
}
