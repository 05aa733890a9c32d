//! Random chunks: constants, operators over them, jumps among them, Phis, and tables that follow.

use crate::{lent::{self, lend}, model::facts::fact, question::*, rng::Rng};
use turniploom::{JUMP, NAMES, Op, abi::CHUNK_WORDS, op::{self, *}};

const BINARY: [Op; 17] = [Add, Sub, Mul, Div, Mod, FloorDiv, Eq, NotEq, Lt, Gt, LtEq, GtEq, BitAnd, BitOr, BitXor, Shl, Shr];
const LEAST: i64 = -140_737_488_355_328;
const INTS: [i64; 28] = [
    0, 1, -1, 2, -2, 3, 7, -7, 10, 46, 47, 48, 61, 62, 63, 64, LEAST, LEAST + 1, -LEAST, -LEAST - 1, LEAST - 1, 1 << 24, -(1 << 23), 1 << 46, 11_863_283, i64::MIN, i64::MAX, 255,
];
const FLOATS: [f64; 18] = [
    0.0, -0.0, 1.0, -1.0, 2.0, 0.5, 3.5, 0.1, 1e308, -1e308, f64::INFINITY, f64::NEG_INFINITY, f64::NAN, f64::MIN_POSITIVE, 5e-324, 140_737_488_355_328.0, 1e-300, 7.0,
];

fn constant(rng: &mut Rng) -> (u8, u64) {
    match rng.below(20) {
        0 => (0, rng.word()),
        1 => (3, rng.below(2) as u64),
        2..12 => (1, rng.pick(&INTS) as u64),
        12 => (1, (rng.word() as i64 >> 17) as u64),
        13 => (2, rng.word()),
        14 => (2, rng.pick(&[0xFFF8_0000_0000_0000, 0x7FF8_0000_0000_0001, 0xFFF0_0000_0000_0001, 0x7FF0_0000_0000_0001])),
        _ => (2, rng.pick(&FLOATS).to_bits()),
    }
}

/// A chunk under way.
#[derive(Default)]
struct Chunk {
    code: Vec<[u16; 3]>,
    kinds: Vec<u8>,
    words: Vec<u64>,
    phi_map: Vec<u32>,
    phi_sources: Vec<u16>,
    stmt_pos: Vec<u32>,
    call_byte_pos: Vec<u32>,
    tries: Vec<u32>,
}

pub fn random(rng: &mut Rng) -> Question {
    let mut c = Chunk::default();
    let full = rng.once_in(4_000);
    let count = if full { 65_534 + rng.below(3) } else { rng.pick(&[0, 1, 2, 3, 4, 6, 9]) };
    for _ in 0..count {
        let (k, w) = if full { (1, rng.word() % 97 + 1_000) } else { constant(rng) };
        c.kinds.push(k);
        c.words.push(w);
    }
    if full { for k in 0..6 { (c.kinds[k], c.words[k]) = constant(rng) } }
    let length = rng.weighted(&[(1, 0), (6, 3), (8, 6), (8, 12), (4, 24), (1, 90)]);
    while c.code.len() < length { piece(rng, &mut c, count) }
    aim(rng, &mut c);
    tables(rng, &mut c);
    lent(rng, c)
}

/// A chunk as wish 14 has it, to be folded in strict mode: loads, operators, jumps and tests, every constant there, and room for what folds push.
pub fn ruled(rng: &mut Rng) -> Question {
    let constants: Vec<(u8, u64)> = (0..1 + rng.below(6)).map(|_| if rng.once_in(3) { constant(rng) } else { (1, rng.below(7) as u64) }).collect();
    let mut c = pool(&constants, vec![]);
    let length = 1 + rng.weighted(&[(4, 4), (8, 8), (8, 14), (2, 40)]);
    while c.code.len() < length { ruled_piece(rng, &mut c.code, constants.len()) }
    let n = c.code.len();
    for k in 0..n {
        let to = match rng.below(8) {
            0..5 => k + 1 + rng.below(6),
            5 => rng.pick(&[n, n + 1, 65_535]),
            _ => rng.below(n + 1),
        };
        if c.code[k][1] & JUMP != 0 { c.code[k][2] = to as u16 }
    }
    let mut tries = vec![];
    if rng.once_in(4) { let h = rng.below(n + 1); tries.extend([rng.below(h + 1) as u32, h as u32]) }
    let room = constants.len() + n;
    c.kinds.resize(room, 9);
    c.words.resize(room, 9);
    Question::of(Fold, [
        ("code", Arg::U16(numbered(&c.code))), ("kinds", Arg::U8(c.kinds)), ("words", Arg::U64(c.words)), ("constants", Arg::N(constants.len() as u64)),
        ("phi_map", Arg::U32(vec![9; n])), ("dead", Arg::U8(vec![9; n])), ("remap", Arg::U32(vec![9; n + 1])), ("tries", Arg::U32(tries)),
        ("landings", Arg::U64(vec![9; n + 1])), ("strict", Arg::N(1)),
    ])
}

/// What folds, what does not since its operands are no constants, and what jumps by what was computed.
fn ruled_piece(rng: &mut Rng, code: &mut Vec<[u16; 3]>, count: usize) {
    let load = |rng: &mut Rng| [LoadConst.0, NAMES, rng.below(count) as u16];
    let any = |rng: &mut Rng| if rng.once_in(3) { [rng.pick(&[LoadTrue, LoadFalse, LoadNone]).0, 0, 0] } else { load(rng) };
    match rng.below(12) {
        0..4 => { let (a, b) = (load(rng), load(rng)); code.extend([a, b, [rng.pick(&BINARY).0, 0, 0]]) }
        4 => { let (a, b) = (any(rng), any(rng)); code.extend([a, b, [rng.pick(&BINARY).0, 0, 0]]) }
        5 => { let a = any(rng); code.extend([a, [rng.pick(&[Not, Minus]).0, 0, 0]]) }
        6 | 7 => { let a = any(rng); code.extend([a, [JumpIfFalse.0, JUMP, 0]]) }
        8 => code.push([rng.pick(&[Jump, JumpIfFalse]).0, JUMP, 0]),
        9 => code.push([rng.pick(&[Not, Minus, Add, Lt]).0, 0, 0]),
        _ => { let a = any(rng); code.push(a) }
    }
}

fn piece(rng: &mut Rng, c: &mut Chunk, count: usize) {
    let load = |rng: &mut Rng| [LoadConst.0, NAMES, if rng.once_in(30) { rng.pick(&[count, count + 1, 65_535]) } else { rng.below(count.clamp(1, 6)) } as u16];
    match rng.below(16) {
        0..7 => {
            let (a, b) = (load(rng), load(rng));
            let o = rng.pick(&BINARY);
            c.code.extend([a, b, [o.0, 0, 0]]);
        }
        7 | 8 => {
            let (a, o) = (load(rng), rng.pick(&[Not, Minus]));
            c.code.extend([a, [o.0, 0, 0]]);
        }
        9 => c.code.push(load(rng)),
        10 => c.code.push([rng.pick(&BINARY).0, 0, 0]),
        11 => c.code.push([rng.pick(&[Not, Minus]).0, 0, 0]),
        12 | 13 => {
            // Before an operand, where a jump may skip into what would fold.
            c.code.push([rng.pick(&[Jump, JumpIfFalse, JumpIfFalseOrPop, JumpIfTrueOrPop, ForIter, SetupExcept, SetupFinally]).0, JUMP, 0]);
        }
        14 => c.code.push([op::Phi.0, 0, rng.below(3) as u16]),
        _ => c.code.push([rng.pick(&[LoadTrue, LoadNone, LoadName, PopTop, Pow, JumpIfFalseR, Op::OTHER]).0, 0, rng.below(4) as u16]),
    }
}

/// Gives each jump a target, and a few instructions marks that are not the Rust's.
fn aim(rng: &mut Rng, c: &mut Chunk) {
    let n = c.code.len();
    let strange = rng.once_in(12);
    for k in 0..n {
        let o = Op(c.code[k][0]);
        let free = o != LoadConst && o != op::Phi && fact(o).folding == 0;
        if strange && free && rng.once_in(3) { c.code[k][1] ^= JUMP }
        // Other opcodes may name constants too.
        if free && c.code[k][1] == 0 && rng.once_in(4) { c.code[k][1] = NAMES }
        if c.code[k][1] & JUMP != 0 {
            let to = match rng.below(8) {
                0..4 => k + 1 + rng.below(5),
                4 => rng.pick(&[n, n + 1, 65_535]),
                _ => rng.below(n + 1),
            };
            c.code[k][2] = to.min(65_535) as u16;
        }
    }
}

fn tables(rng: &mut Rng, c: &mut Chunk) {
    let n = c.code.len();
    let pairs = rng.below(5);
    for _ in 0..pairs {
        let a = rng.below(3) as u16;
        c.phi_sources.extend([a, if rng.once_in(2) { a } else { rng.below(3) as u16 }]);
    }
    if !rng.once_in(4) { c.phi_map = (0..n).map(|_| if rng.once_in(12) { rng.pick(&[4, 5, u32::MAX]) } else { rng.below(pairs + 1) as u32 }).collect() }
    for _ in 0..rng.below(4) { c.stmt_pos.extend([rng.below(n + 3) as u32, rng.word() as u32]) }
    for _ in 0..rng.below(3) { c.call_byte_pos.extend([if rng.once_in(8) { u32::MAX } else { rng.below(n + 2) as u32 }, 7]) }
    c.tries = lent::tries(rng, n, &around(&c.code));
}

/// The places at an operator, at each of its operands, and right after it.
fn around(code: &[[u16; 3]]) -> Vec<usize> {
    (0..code.len()).filter(|&k| Op(code[k][0]).folds()).flat_map(|k| k.saturating_sub(2)..k + 2).collect()
}

/// The lent words of this code, with origins that count up from somewhere, or with any.
fn words(rng: &mut Rng, code: &[[u16; 3]]) -> Vec<u16> {
    let (from, any) = (rng.word() as u16, rng.once_in(4));
    let mut origin = |k: usize| if any { rng.word() as u16 } else { from.wrapping_add(k as u16) };
    code.iter().enumerate().flat_map(|(k, &[o, marks, operand])| [o, marks, operand, origin(k)]).collect()
}

/// The lent words of this code, each instruction with its position as origin.
pub fn numbered(code: &[[u16; 3]]) -> Vec<u16> {
    code.iter().enumerate().flat_map(|(k, &[o, marks, operand])| [o, marks, operand, k as u16]).collect()
}

/// A table in a buffer of the needed length, or not quite.
fn buffer<T: Copy + TryFrom<u64>>(rng: &mut Rng, table: &[T], needed: usize) -> Vec<T> {
    let mut b: Vec<T> = lend(rng, needed.max(table.len()));
    let kept = b.len().min(table.len());
    b[..kept].copy_from_slice(&table[..kept]);
    b
}

/// The question: each table in a buffer with the room it needs, or not quite.
fn lent(rng: &mut Rng, c: Chunk) -> Question {
    let n = c.code.len();
    let mut code = words(rng, &c.code);
    let counted = |pred: fn(Op) -> bool| c.code.iter().filter(|i| pred(Op(i[0]))).count();
    let room = c.kinds.len().max((c.kinds.len() + counted(Op::folds)).min(65_535));
    let sources = c.phi_sources.len().max(2 * counted(|o| o == op::Phi));
    let mut counts = [c.kinds.len(), c.phi_map.len(), c.phi_sources.len(), c.stmt_pos.len(), c.call_byte_pos.len()].map(|v| v as u64);
    let (mut kinds, mut words) = (buffer(rng, &c.kinds, room), buffer(rng, &c.words, room));
    // Buffers are mostly exactly full or longer; a few tables break a rule.
    match rng.below(60) {
        0 => counts[rng.below(5)] += 1,
        1 => counts[rng.below(5)] = rng.pick(&[65_537, u64::MAX, 2, 3]),
        2 if !kinds.is_empty() => { let k = rng.below(kinds.len()); (kinds[k], words.get_mut(k).map(|w| *w = 2)).1.unwrap_or(()); kinds[k] = rng.pick(&[3, 4, 255]) }
        3 if n > 0 => damage(rng, &mut code),
        4 => { code.push(0) }
        _ => {}
    }
    Question::of(Fold, [
        ("code", Arg::U16(code)), ("kinds", Arg::U8(kinds)), ("words", Arg::U64(words)), ("constants", Arg::N(counts[0])),
        ("phi_map", Arg::U32(buffer(rng, &c.phi_map, n))), ("phi_map_count", Arg::N(counts[1])),
        ("phi_sources", Arg::U16(buffer(rng, &c.phi_sources, sources))), ("phi_sources_count", Arg::N(counts[2])),
        ("stmt_pos", Arg::U32(buffer(rng, &c.stmt_pos, 0))), ("stmt_pos_count", Arg::N(counts[3])),
        ("call_byte_pos", Arg::U32(buffer(rng, &c.call_byte_pos, 0))), ("call_byte_pos_count", Arg::N(counts[4])),
        ("dead", Arg::U8(lend(rng, n))), ("remap", Arg::U32(lend(rng, n + 1))), ("tries", Arg::U32(c.tries)), ("landings", Arg::U64(lend(rng, n + 1))),
        ("strict", Arg::N(rng.once_in(3).into())),
    ])
}

/// An instruction whose opcode or marks may break a record rule: often bit 1, missing or set.
fn damage(rng: &mut Rng, code: &mut [u16]) {
    let k = CHUNK_WORDS * rng.below(code.len() / CHUNK_WORDS);
    if rng.once_in(2) { return code[k + 1] ^= NAMES }
    code[k] = rng.pick(&[Op(191), Op(256), Op::OTHER, LoadConst, Phi, Add, Not, Jump]).0;
    code[k + 1] = rng.pick(&[0, 1, 2, 3, 4, 0x8000]);
}

/// A question of the clearing call: folded code or not, and a few constants or many.
pub fn random_clear(rng: &mut Rng) -> Question {
    let count = rng.weighted(&[(1, 0), (4, 1), (8, 3), (8, 6), (4, 12), (1, 200)]);
    let constants: Vec<(u8, u64)> = (0..count).map(|_| constant(rng)).collect();
    let mut c = pool(&constants, vec![]);
    let length = rng.weighted(&[(1, 0), (4, 2), (8, 5), (8, 12), (2, 60)]);
    while c.code.len() < length { piece(rng, &mut c, count) }
    aim(rng, &mut c);
    // Operands all over the pool, at its end and past it.
    for i in c.code.iter_mut().filter(|i| i[1] & NAMES != 0) {
        if rng.once_in(2) { i[2] = if rng.once_in(8) { rng.pick(&[count, count + 1, 65_535]) } else { rng.below(count.max(1)) } as u16 }
    }
    clearing(rng, c)
}

/// The clearing of this code over these constants: the buffers are mostly exactly full, some longer, a few short by one.
fn clearing(rng: &mut Rng, c: Chunk) -> Question {
    let (mut code, mut count) = (words(rng, &c.code), c.kinds.len() as u64);
    let (mut kinds, mut words) = (buffer(rng, &c.kinds, 0), buffer(rng, &c.words, 0));
    match rng.below(40) {
        0 => count += 1,
        1 => count = rng.pick(&[65_537, u64::MAX, 2, 3]),
        2 if !kinds.is_empty() && !words.is_empty() => { let k = rng.below(kinds.len().min(words.len())); (kinds[k], words[k]) = (rng.pick(&[3, 4, 255]), 2) }
        3 | 4 if !code.is_empty() => damage(rng, &mut code),
        5 => code.push(0),
        _ => {}
    }
    let scratch = lend(rng, c.kinds.len());
    Question::of(Clear, [
        ("code", Arg::U16(code)), ("kinds", Arg::U8(kinds)), ("words", Arg::U64(words)), ("constants", Arg::N(count)), ("scratch", Arg::U32(scratch)),
    ])
}

/// Some 300 telling constants: powers of two and their neighbours up to and past the limits, zeros of both signs, NaNs with
/// payload and sign, infinities, subnormals, halves, bools and a constant of no kind.
pub fn telling() -> Vec<(u8, u64)> {
    let powers = (0..64).flat_map(|k| [-1, 0, 1].map(|d| (1i64 << k).wrapping_add(d)));
    let mut ints: Vec<i64> = powers.chain(INTS).flat_map(|i| [i, i.wrapping_neg()]).filter(|i| i.unsigned_abs() <= 1 << 50 || i.count_ones() < 2).collect();
    ints.sort();
    ints.dedup();
    ints.retain(|i| i.unsigned_abs() < 70 || i.unsigned_abs() > 1 << 31 || i.unsigned_abs().is_power_of_two());
    let halves = (0..6).map(|k| k as f64 + 0.5);
    let scaled = [-1074, -1073, -1022, -53, -1, 52, 53, 54, 1023].map(|k| 2f64.powi(k));
    let floats = FLOATS.into_iter().chain(halves).chain(scaled).flat_map(|f| [f, -f, f64::from_bits(f.to_bits().wrapping_add(1))]);
    let mut all: Vec<(u8, u64)> = ints.into_iter().map(|i| (1, i as u64)).chain(floats.map(|f| (2, f.to_bits()))).collect();
    all.extend([(3, 0), (3, 1), (0, 5)]);
    all.extend([0xFFF8_0000_0000_0000, 0x7FF0_0000_0000_0001, 0xFFF0_0000_0000_0001, 0x7FFF_FFFF_FFFF_FFFF].map(|w| (2, w)));
    all.sort();
    all.dedup();
    all
}

/// A chunk of this code over these constants.
fn pool(pair: &[(u8, u64)], code: Vec<[u16; 3]>) -> Chunk {
    Chunk { code, kinds: pair.iter().map(|p| p.0).collect(), words: pair.iter().map(|p| p.1).collect(), ..Chunk::default() }
}

/// Every operator over `a` and each of the constants after it.
fn pairs(a: (u8, u64), constants: &[(u8, u64)], take: &mut dyn FnMut(Chunk)) {
    for o in [Not, Minus] { take(pool(&[a], vec![[LoadConst.0, NAMES, 0], [o.0, 0, 0]])) }
    for &b in constants {
        for o in BINARY { take(pool(&[a, b], vec![[LoadConst.0, NAMES, 0], [LoadConst.0, NAMES, 1], [o.0, 0, 0]])) }
    }
}

/// The same as questions that the Rust answers, every one: plain mode, and each buffer as long as it needs to be.
pub fn plain_pairs(a: (u8, u64), constants: &[(u8, u64)], take: &mut dyn FnMut(Question)) {
    pairs(a, constants, &mut |mut c| {
        let (n, count) = (c.code.len(), c.kinds.len() as u64);
        c.kinds.push(0);
        c.words.push(0);
        take(Question::of(Fold, [
            ("code", Arg::U16(numbered(&c.code))), ("kinds", Arg::U8(c.kinds)), ("words", Arg::U64(c.words)), ("constants", Arg::N(count)),
            ("phi_map", Arg::U32(vec![0; n])), ("dead", Arg::U8(vec![9; n])), ("remap", Arg::U32(vec![9; n + 1])), ("landings", Arg::U64(vec![9; n + 1])),
        ]))
    });
}

/// The sum of 2 and 3 before and after other code, and a jump, as a question with these tries, this landings buffer, and this jump's target.
fn landed(tries: Vec<u32>, landings: usize, to: u16, strict: bool) -> Question {
    let code = [[LoadNone.0, 0, 0], [LoadConst.0, NAMES, 0], [LoadConst.0, NAMES, 1], [Add.0, 0, 0], [PopTop.0, 0, 0], [Jump.0, JUMP, to]];
    let n = code.len();
    Question::of(Fold, [
        ("code", Arg::U16(numbered(&code))), ("kinds", Arg::U8(vec![1, 1, 0])), ("words", Arg::U64(vec![2, 3, 0])), ("constants", Arg::N(2)),
        ("phi_map", Arg::U32(vec![9; n])), ("dead", Arg::U8(vec![9; n])), ("remap", Arg::U32(vec![9; n + 1])), ("tries", Arg::U32(tries)),
        ("landings", Arg::U64(vec![9; landings])), ("strict", Arg::N(strict.into())),
    ])
}

/// Every try over a short chunk, two of them, half a try, every target of a jump, and every length of the table of landings.
fn every_landing(take: &mut dyn FnMut(Question)) {
    let places = || (0..9).chain([65_535, 65_536, u32::MAX]);
    for (strict, s, h) in [false, true].into_iter().flat_map(|m| places().flat_map(move |s| places().map(move |h| (m, s, h)))) {
        for tries in [vec![s, h], vec![0, 2, s, h], vec![s, h, h, h], vec![s, h, 1]] { take(landed(tries, 7, 6, strict)) }
        take(landed(vec![s, h], 9, 2, strict));
    }
    for (strict, to) in [false, true].into_iter().flat_map(|m| (0..9).chain([65_535]).map(move |to| (m, to))) {
        for length in 0..12 { for tries in [vec![], vec![0, 1], vec![0, 3], vec![6, 9], vec![9, 6], vec![2]] { take(landed(tries, length, to, strict)) } }
    }
}

/// Every opcode with every mark that it may or may not have.
fn every_mark(rng: &mut Rng, lent: fn(&mut Rng, Chunk) -> Question, take: &mut dyn FnMut(Question)) {
    for o in (0..193).chain([256, 65_535]) {
        for marks in [0, 1, 2, 3, 4, 5, 6, 0x8000] { take(lent(rng, pool(&[(1, 7), (2, 9)], vec![[LoadNone.0, 0, 0], [o, marks, 1]]))) }
    }
}

/// Every short code of loads over a few constants, then the longest code and as many constants as there may be.
pub fn systematic_clear(rng: &mut Rng, take: &mut dyn FnMut(Question)) {
    every_mark(rng, clearing, take);
    let constants = [(1, 5), (2, 6), (3, 1), (0, 8)];
    for count in 0..=4 {
        for (a, b, c) in (0..6).flat_map(|a| (0..6).flat_map(move |b| (0..6).map(move |c| (a, b, c)))) {
            take(clearing(rng, pool(&constants[..count], vec![[LoadConst.0, NAMES, a], [LoadName.0, NAMES, b], [LoadName.0, 0, c]])));
        }
    }
    for (n, count) in [(65_535, 65_536), (65_536, 3), (65_535, 1), (3, 65_536), (3, 65_537)] {
        let constants: Vec<(u8, u64)> = (0..count as u64).map(|k| (1, k)).collect();
        let code = (0..n).map(|k| if k % 3 == 0 { [LoadConst.0, NAMES, (k * 7 % 65_536) as u16] } else { [PopTop.0, 0, 0] }).collect();
        take(clearing(rng, pool(&constants, code)));
    }
}

/// Every operator over every pair of the listed constants, and the longest chunk.
pub fn systematic(rng: &mut Rng, take: &mut dyn FnMut(Question)) {
    every_mark(rng, lent, take);
    every_landing(take);
    let mut constants: Vec<(u8, u64)> = INTS.iter().map(|&i| (1, i as u64)).chain(FLOATS.iter().map(|f| (2, f.to_bits()))).collect();
    constants.extend([(3, 0), (3, 1), (0, 5), (2, 0xFFF8_0000_0000_0000), (2, 0x7FF0_0000_0000_0001)]);
    for &a in &constants { pairs(a, &constants, &mut |c| take(lent(rng, c))) }
    for n in [65_535, 65_536] {
        let code = (0..n).map(|k| match k % 8 { 0 | 1 => [LoadConst.0, NAMES, 0], 2 => [Add.0, 0, 0], 3 => [Jump.0, JUMP, (k % 65_536) as u16], _ => [PopTop.0, 0, 0] }).collect();
        let mut chunk: Chunk = pool(&[(1, 1)], code);
        if n == 65_535 { chunk.tries = (0..n as u32).step_by(5).flat_map(|s| [s, s + s % 8]).collect() }
        let mut q = lent(rng, chunk);
        for strict in [0, 1] {
            *q.args.last_mut().expect("the mode") = Arg::N(strict);
            take(q.clone());
        }
    }
}
