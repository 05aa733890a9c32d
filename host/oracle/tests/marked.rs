//! The marked examples of document 01: the model has them, and so has the Rust but for the listed difference of P4. P1 to P6 keep the same
//! with rows of 32 bits.

use oracle::{chunks::numbered, model::{self, rows}, original, port, question::*, widths};
use turniploom::{Ins, NAMES, Op, abi::{self, CHUNK_WORDS}, op};

fn i(op: Op, a: u16, b: u16, c: u16, x: u16) -> Ins { Ins { op, marks: 0, a, b, c, x } }

/// The reply on which the model, the port and, where it answers, the Rust agree.
fn agreed(q: &Question) -> Reply {
    let model = model::ask(q);
    if let Some(rust) = original::ask(q, &model) { assert!(rust == model || original::listed(q, &model, &rust).is_some(), "{q:?}\n{rust:?}\n{model:?}") }
    assert_eq!(port::ask(q), model);
    model
}

#[derive(Debug, PartialEq)]
struct Told {
    refusal: u8,
    rows: Vec<u64>,
    lists: Vec<Vec<u16>>,
    full: u64,
    abandoned: u64,
}

/// What the call of either width tells.
fn told(call: Call, code: &[Ins], regs: usize, tries: &[u32], wide: bool) -> Told {
    let n = code.len();
    let length = (n + 1) * rows::words(regs, call.row_bits());
    let rows = if call == Kept32 { Arg::U32(vec![9; length]) } else { Arg::U64(vec![9; length]) };
    let q = Question::of(call, [
        ("code", Arg::U16(abi::words(code).to_vec())), ("regs", Arg::N(regs as u64)), ("tries", Arg::U32(tries.to_vec())), ("wide", Arg::N(wide.into())),
        ("rows", rows), ("offsets", Arg::U32(vec![9; n + 1])), ("list", Arg::U16(vec![9; n * regs])),
    ]);
    let mut r = agreed(&q);
    assert_eq!(widths::broken(&q, &r, port::ask), None);
    let (rows, offsets, list) = (r.lent.get("rows").numbers()[1..].to_vec(), r.lent.u32("offsets").clone(), r.lent.u16("list").clone());
    let lists = if r.answer.refusal == 0 { offsets.windows(2).map(|o| list[o[0] as usize..o[1] as usize].to_vec()).collect() } else { vec![] };
    Told { refusal: r.answer.refusal, rows, lists, full: r.answer.second, abandoned: r.answer.third }
}

/// What the call of 64 bits tells; with up to 32 registers the other tells it too.
fn kept(code: &[Ins], regs: usize, tries: &[u32], wide: bool) -> Told {
    let told = |call: Call| told(call, code, regs, tries, wide);
    if regs <= 32 { assert_eq!(told(Kept), told(Kept32)) } else { assert_eq!(told(Kept).lists, told(Kept32).lists) }
    told(Kept)
}

fn code_k() -> Vec<Ins> {
    vec![i(op::LoadGlobalR, 0, 7, 0, 0), i(op::LoadGlobalR, 1, 9, 0, 0), i(op::CallR, 1, 0, 0, 0), i(op::StoreTopR, 2, 0, 0, 0), i(op::AddR, 3, 0, 2, 0), i(op::ReturnR, 0, 3, 0, 0)]
}

#[test]
fn p1() {
    let t = kept(&code_k(), 4, &[], false);
    assert_eq!((t.rows, t.full, t.abandoned), (vec![0, 0, 3, 1, 5, 8, 0], 1, 0));
    assert_eq!(t.lists[2], [0]);
    let q = Question { call: GlobalOf, args: vec![Arg::U16(abi::words(&code_k()).to_vec()), Arg::N(2)] };
    assert_eq!(agreed(&q).values(), [0, 1, 9, 0, 0]);
}

#[test]
fn p2_and_p3() {
    assert_eq!(kept(&code_k(), 4, &[1, 5], false).lists[2], [0, 3]);
    assert_eq!(kept(&code_k(), 4, &[2, 5], false).lists[2], [0]);
    assert_eq!(kept(&code_k(), 4, &[3, 2], false).refusal, 4);
    assert_eq!(kept(&code_k(), 4, &[6, 9], false).refusal, 0);
}

#[test]
fn p4() {
    let code = [i(op::JumpIfFalseR, 2, 0, 0, 0), i(op::ReturnR, 0, 1, 0, 0), i(op::ReturnR, 0, 2, 0, 0)];
    for regs in [64, 65] { assert_eq!(kept(&code, regs, &[], false).lists[0], [0, 1, 2]) }
}

#[test]
fn p5() {
    let code = [i(op::Move, 1, 0, 0, 0), i(op::LenR, 2, 1, 0, 0), i(op::JumpIfFalseR, 4, 1, 0, 0), i(op::Jump, 0, 0, 0, 0), i(op::ReturnR, 0, 2, 0, 0)];
    let t = kept(&code, 3, &[], false);
    assert_eq!((t.rows, t.full, t.abandoned), (vec![1, 3, 7, 1, 4, 0], 3, 1));
}

#[test]
fn p6() {
    let code = [i(op::PushRegs, 5, 0, 0, 1), i(op::CallGlobalR, 3, 0, 0, 0), i(op::StoreTopR, 1, 0, 0, 0), i(op::StoreTopR, 5, 0, 0, 0), i(op::ReturnR, 0, 5, 0, 0)];
    assert_eq!(kept(&code, 6, &[], false).lists[1], [5]);
}

/// A jump to itself before the only level, with 33 registers: words of 64 bits take the word route, which begins at the level, and words of
/// 32 the wide one, which begins at 0.
#[test]
fn the_widths_count_apart() {
    let code = [i(op::Jump, 0, 0, 0, 0), i(op::GetAttrR, 0, 0, 0, 0)];
    let (by_64, by_32) = (told(Kept, &code, 33, &[], false), told(Kept32, &code, 33, &[], false));
    assert_eq!((by_64.full, by_64.rows, by_32.full, by_32.rows), (1, vec![0, 1, 0], 2, vec![0, 0, 1, 0, 0, 0]));
    assert_eq!(by_64.lists, by_32.lists);
    assert_eq!((told(Kept, &code, 33, &[], true).full, told(Kept32, &code, 32, &[], false).full), (2, 1));
}

/// What a chunk becomes: its instructions and its pool.
fn fold(code: &[[u16; 3]], pool: &[(u8, u64)], strict: bool) -> (Vec<[u16; 3]>, Vec<(u8, u64)>) {
    let Folded { code, pool, .. } = fold_with(&[], code, pool, strict);
    (code, pool)
}

/// A folded chunk: its instructions and their origins, its pool, its tries, and all n + 1 landings.
struct Folded {
    code: Vec<[u16; 3]>,
    origins: Vec<u16>,
    pool: Vec<(u8, u64)>,
    tries: Vec<u32>,
    landings: Vec<u64>,
}

fn fold_with(tries: &[u32], code: &[[u16; 3]], pool: &[(u8, u64)], strict: bool) -> Folded {
    let n = code.len();
    let room = |mut v: Vec<u64>| { v.resize(pool.len() + n, 0); v };
    let kinds = room(pool.iter().map(|c| c.0.into()).collect()).iter().map(|&k| k as u8).collect();
    let mut r = agreed(&Question::of(Fold, [
        ("code", Arg::U16(numbered(code))), ("kinds", Arg::U8(kinds)), ("words", Arg::U64(room(pool.iter().map(|c| c.1).collect()))),
        ("constants", Arg::N(pool.len() as u64)), ("phi_map", Arg::U32(vec![0; n])), ("phi_sources", Arg::U16(vec![0; 2 * n])),
        ("dead", Arg::U8(vec![9; n])), ("remap", Arg::U32(vec![9; n + 1])), ("tries", Arg::U32(tries.to_vec())),
        ("landings", Arg::U64(vec![9; n + 1])), ("strict", Arg::N(strict.into())),
    ]));
    assert_eq!(r.answer.refusal, 0);
    let (left, _) = r.lent.u16("code")[..CHUNK_WORDS * r.answer.first as usize].as_chunks();
    let (code, origins) = left.iter().map(|&[o, marks, operand, origin]| ([o, marks, operand], origin)).unzip();
    let pool = (0..r.answer.second as usize).map(|k| (r.lent.u8("kinds")[k], r.lent.u64("words")[k])).collect();
    Folded { code, origins, pool, tries: r.lent.u32("tries").clone(), landings: r.lent.u64("landings").clone() }
}

fn int(i: i64) -> (u8, u64) { (1, i as u64) }

fn float(f: f64) -> (u8, u64) { (2, f.to_bits()) }

/// The result of a fold, or none.
fn result(o: Op, operands: &[(u8, u64)]) -> Option<(u8, u64)> {
    let loads = (0..operands.len() as u16).map(|k| [op::LoadConst.0, NAMES, k]);
    let code: Vec<[u16; 3]> = loads.chain([[o.0, 0, 0]]).collect();
    let (folded, pool) = fold(&code, operands, false);
    (folded.len() == 1).then(|| pool[folded[0][2] as usize])
}

#[test]
fn p7_to_p12() {
    assert_eq!(result(op::FloorDiv, &[int(-7), int(2)]), Some(int(-4)));
    assert_eq!(result(op::Mod, &[int(-7), int(2)]), Some(int(1)));
    assert_eq!(result(op::Mod, &[int(7), int(-2)]), Some(int(-1)));
    assert_eq!(result(op::Shl, &[int(-1), int(47)]), Some(int(-140_737_488_355_328)));
    assert_eq!(result(op::Shl, &[int(1), int(47)]), None);
    assert_eq!(result(op::Shl, &[int(0), int(62)]), Some(int(0)));
    assert_eq!(result(op::Shl, &[int(0), int(63)]), None);
    assert_eq!(result(op::Minus, &[int(-140_737_488_355_328)]), None);
    assert_eq!(result(op::Div, &[int(7), int(2)]), None);
    assert_eq!(result(op::Div, &[int(7), float(2.0)]), Some(float(3.5)));
    assert_eq!(fold(&[[op::LoadConst.0, NAMES, 0], [op::Minus.0, 0, 0]], &[float(0.0)], false), (vec![[op::LoadConst.0, NAMES, 1]], vec![float(0.0), float(-0.0)]));
}

#[test]
fn p13() {
    let code = [[op::LoadConst.0, NAMES, 0], [op::LoadConst.0, NAMES, 1], [op::Add.0, 0, 0], [op::Jump.0, 1, 2]];
    let pool = [int(2), int(3)];
    assert_eq!(fold(&code, &pool, false), (vec![[op::LoadConst.0, NAMES, 2], [op::Jump.0, 1, 1]], vec![int(2), int(3), int(5)]));
    assert_eq!(fold(&code, &pool, true), (code.to_vec(), pool.to_vec()));
}

/// Document 02, wish 2: a handler inside (first operand, operator] keeps a group from folding in strict mode. One on the first operand, after
/// the operator or past the end does not, and neither does a try's start. In plain mode all fold, and the tries follow.
#[test]
fn handlers_are_landings() {
    let code = [[op::LoadNone.0, 0, 0], [op::LoadConst.0, NAMES, 0], [op::LoadConst.0, NAMES, 1], [op::Add.0, 0, 0], [op::PopTop.0, 0, 0]];
    let pool = [int(2), int(3)];
    for (tries, stays, moved) in [
        ([0, 1], false, [0, 1]),
        ([0, 2], true, [0, 2]),
        ([1, 3], true, [1, 2]),
        ([1, 4], false, [1, 2]),
        ([2, 5], false, [2, 3]),
        ([3, 9], false, [2, 9]),
        ([3, u32::MAX], false, [2, u32::MAX]),
    ] {
        let strict = fold_with(&tries, &code, &pool, true);
        assert_eq!(strict.code.len(), if stays { 5 } else { 3 }, "{tries:?}");
        assert_eq!(strict.tries, if stays { tries } else { moved }, "{tries:?}");
        let plain = fold_with(&tries, &code, &pool, false);
        assert_eq!((plain.code.len(), &plain.tries[..]), (3, &moved[..]), "{tries:?}");
    }
}

/// Document 02, wish 10: the table of what lands where, of the chunk that is left; past its end it is 0.
#[test]
fn landings_are_counted() {
    let code = [[op::Jump.0, 1, 1], [op::LoadConst.0, NAMES, 0], [op::LoadConst.0, NAMES, 1], [op::Add.0, 0, 0], [op::Jump.0, 1, 5], [op::Jump.0, 1, 6]];
    let (pool, tries) = ([int(2), int(3)], [0, 1, 1, 6, 2, 7, 0, 1]);
    let strict = fold_with(&tries, &code, &pool, true);
    assert_eq!((strict.code.len(), strict.tries, strict.landings), (4, vec![0, 1, 1, 4, 2, 7, 0, 1], vec![0, 3, 0, 1, 2, 0, 0]));
    let barred = fold_with(&[0, 1, 1, 3], &code, &pool, true);
    assert_eq!((barred.code.len(), barred.landings), (6, vec![0, 2, 0, 1, 0, 1, 1]));
    let p13 = [[op::LoadConst.0, NAMES, 0], [op::LoadConst.0, NAMES, 1], [op::Add.0, 0, 0], [op::Jump.0, 1, 2]];
    assert_eq!(fold_with(&[], &p13, &pool, true).landings, [0, 0, 1, 0, 0]);
    assert_eq!(fold_with(&[], &p13, &pool, false).landings, [0, 1, 0, 0, 0]);
    assert_eq!(fold_with(&[0, 0, 0, 0, 0, 1], &[], &[], true).landings, [2]);
}

/// Document 02, wish 8: survivors keep their origins, in order; what folded has its first operand's.
#[test]
fn origins_are_carried() {
    let code = [[op::Jump.0, 1, 1], [op::LoadConst.0, NAMES, 0], [op::LoadConst.0, NAMES, 1], [op::Add.0, 0, 0], [op::PopTop.0, 0, 0], [op::Jump.0, 1, 3]];
    let pool = [int(2), int(3)];
    assert_eq!(fold_with(&[], &code, &pool, false).origins, [0, 1, 4, 5]);
    assert_eq!(fold_with(&[], &code, &pool, true).origins, [0, 1, 2, 3, 4, 5]);
}

/// Tries are tested after the code and before the tables, the table of landings last; a refusal leaves both as they were lent.
#[test]
fn refusals_of_tries_and_landings() {
    let code = [op::LoadConst.0, NAMES, 0, 7, op::Minus.0, 0, 0, 8];
    let asked = |code: &[u16], tries: &[u32], kind: u8, remap: usize, landings: usize| {
        let q = Question::of(Fold, [
            ("code", Arg::U16(code.to_vec())), ("kinds", Arg::U8(vec![kind, 0])), ("words", Arg::U64(vec![2, 0])), ("constants", Arg::N(1)),
            ("phi_map", Arg::U32(vec![0; 2])), ("dead", Arg::U8(vec![9; 2])), ("remap", Arg::U32(vec![9; remap])), ("tries", Arg::U32(tries.to_vec())),
            ("landings", Arg::U64(vec![9; landings])),
        ]);
        let r = agreed(&q);
        if r.answer.refusal != 0 { assert_eq!(r.lent, q.lent()) }
        let [refusal, first, second, ..] = r.values();
        (refusal, first, second)
    };
    assert_eq!(asked(&[191, 0, 0, 0, 2, 2, 0, 0], &[3, 2], 4, 0, 0), (2, 0, 0));
    assert_eq!(asked(&code, &[0, 1, 2, 1, 9, 9], 4, 0, 0), (4, 1, 0));
    assert_eq!(asked(&code, &[0, 1, 2, 9, 3], 4, 0, 0), (4, 2, 0));
    assert_eq!(asked(&code, &[0, 1, 3, 9], 1, 3, 3), (4, 1, 0));
    assert_eq!(asked(&code, &[0, 1], 4, 0, 0), (7, 1, 0));
    assert_eq!(asked(&code, &[0, 1], 1, 2, 0), (5, 6, 3));
    for landings in 0..3 { assert_eq!(asked(&code, &[0, 1], 1, 3, landings), (5, 7, 3)) }
    assert_eq!(asked(&code, &[0, 1], 1, 3, 3), (0, 1, 2));
}

/// The sweeps end at the least solution of the row equations, on both routes.
#[test]
fn sweeps_end_at_the_least_solution() {
    let mut rng = oracle::rng::Rng::new(7, 0);
    for k in 0..20_000 {
        let (regs, bits) = (rng.pick(&[3, 8, 32, 33, 64, 65, 130]), if k % 2 == 0 { 64 } else { 32 });
        let code = oracle::bodies::body(&mut rng, Kept, regs);
        let least = rows::least(&code, regs, bits);
        assert_eq!(rows::rows(&code, regs, bits, true).rows, least);
        let word = rows::rows(&code, regs, bits, false);
        let start = if word.abandoned > 0 || regs > bits { 0 } else { code.iter().position(rows::level).unwrap_or(code.len()) };
        assert!(word.rows[..start].iter().all(|&w| w == 0));
        if regs <= bits { assert_eq!(word.rows[start..], least[start..]) }
    }
}
