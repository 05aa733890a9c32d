//! The questions: systematic ones, the same at every seed, and random ones.

use crate::{bodies::{body, damage}, chunks, figures, lent::{junk, lend, tries}, model::{code::is_call, rows}, question::*, rng::Rng, saver, traces};
use turniploom::{Ins, Op, WIDE, abi::{self, Kind, Width}, op};

/// A random question of a call.
pub fn random(rng: &mut Rng, call: Call) -> Question {
    match call {
        Fold => return chunks::random(rng),
        Clear => return chunks::random_clear(rng),
        FiguresJoin => return figures::random_join(rng),
        Exposed => return random_exposed(rng),
        Version => return Question::of(Version, []),
        _ if call.saves() => return saver::random(rng, call),
        _ => {}
    }
    let regs = registers(rng, call);
    let code = body(rng, call, regs);
    let words = if rng.once_in(12) { damage(rng, &code) } else { abi::words(&code).to_vec() };
    ask(rng, call, &code, words, regs)
}

/// How many registers the code is to have.
fn registers(rng: &mut Rng, call: Call) -> usize {
    match call {
        Kept | KeptRaising => rng.weighted(&[(1, 0), (1, 1), (4, 4), (8, 8), (3, 31), (2, 63), (3, 64), (3, 65), (2, 66), (2, 127), (1, 128), (1, 129), (1, 500), (1, 1_023), (1, 1_024)]),
        Kept32 => rng.weighted(&[
            (1, 0), (1, 1), (4, 4), (8, 8), (2, 31), (3, 32), (3, 33), (2, 34), (2, 63), (3, 64), (2, 65), (1, 96), (1, 97), (1, 500), (1, 1_024),
        ]),
        Needed => rng.weighted(&[(1, 0), (1, 1), (6, 4), (6, 8), (2, 64), (2, 65), (1, 1_024)]),
        GlobalOf | PushedBack | DeadPhi => 3,
        _ => rng.pick(&[3, 6, 6, 12, 70]),
    }
}

/// The instructions that a call's position is most often asked about.
fn asked_about(call: Call, code: &[Ins], k: usize) -> bool {
    let i = &code[k];
    let last_store = |code: &[Ins]| i.op == op::StoreTopR && code.get(k + 1).is_none_or(|n| n.op != op::StoreTopR);
    match call {
        Returns => i.op == op::PushRegs,
        Passed => is_call(i),
        DeadPhi => i.op == op::Phi,
        GlobalOf => matches!(i.op, op::CallR | op::CallGlobalR),
        PushedBack => last_store(code),
        StackCallee => matches!(i.op, op::Call | op::Add),
        Level => i.op.0 <= 190 && rows::level(i),
        _ => true,
    }
}

/// A question of a call about code, with the other arguments chosen.
fn ask(rng: &mut Rng, call: Call, code: &[Ins], words: Vec<u16>, regs: usize) -> Question {
    if call == FiguresAdd { return figures::ask(rng, words, regs) }
    let n = words.len() / 6;
    let at = place(rng, call, code, n);
    let near = code.get(at as usize).copied().unwrap_or_default();
    let r = match rng.below(16) {
        0 => rng.below(8) as u64,
        1 => rng.pick(&[63, 64, 65_535, 65_534, 65_531]),
        2 => u64::from(near.b) + rng.below(6) as u64,
        _ => rng.pick(&[near.a, near.a, near.b, near.c]).into(),
    } & 0xFFFF;
    let arity = rng.weighted(&[(4, 3), (4, 5), (2, 8), (1, 0), (1, 63), (1, 64), (1, 65), (1, u64::MAX)]);
    let count = rng.weighted(&[(8, 0), (6, 1), (3, 2), (2, 3), (1, 9), (1, 65_535)]);
    let mut around = vec![];
    let args = call.params().iter().map(|p| match p.name {
        "code" => Arg::U16(words.clone()),
        "at" => Arg::N(at),
        "f" => Arg::N(rng.weighted(&[(4, 0), (4, 1), (4, 2), (1, 3), (1, 255)])),
        "r" => Arg::N(r),
        "arity" => Arg::N(arity),
        "count" => Arg::N(count),
        "regs" => Arg::N(if rng.once_in(40) { rng.pick(&[1_025, 65_536, u64::MAX]) } else { regs as u64 }),
        "tries" => { around = tries(rng, n, &[]); Arg::U32(around.clone()) }
        "trace" => Arg::U8(traces::random(rng, &words, &around)),
        "reads" => buffer(rng, p.kind, regs),
        "wide" => Arg::N(rng.once_in(3).into()),
        "all" => Arg::N(rng.once_in(2).into()),
        "seen" | "todo" | "out" | "offsets" => buffer(rng, p.kind, n + 1),
        "rows" => buffer(rng, p.kind, (n + 1) * crate::model::rows::words(regs, call.row_bits())),
        "list" => { let room = if rng.once_in(12) { rng.below(8) } else { n * regs.min(1_024) }; Arg::U16(junk(rng, room)) }
        other => panic!("no {other}"),
    }).collect();
    Question { call, args }
}

fn place(rng: &mut Rng, call: Call, code: &[Ins], n: usize) -> u64 {
    if n == 0 || rng.once_in(24) { return rng.pick(&[n as u64, n as u64 + 1, u64::MAX, 65_535]) }
    let fitting: Vec<usize> = (0..code.len().min(n)).filter(|&k| asked_about(call, code, k)).collect();
    if fitting.is_empty() || rng.once_in(8) { rng.below(n) as u64 } else { rng.pick(&fitting) as u64 }
}

/// A buffer of that kind, mostly long enough.
fn buffer(rng: &mut Rng, kind: Kind, needed: usize) -> Arg {
    match kind.width().expect("a buffer") {
        Width::U8 => Arg::U8(lend(rng, needed)),
        Width::U16 => Arg::U16(lend(rng, needed)),
        Width::U32 => Arg::U32(lend(rng, needed)),
        Width::U64 => Arg::U64(lend(rng, needed)),
    }
}

/// Every opcode by every x, and boundaries of a, b, c and of the register asked about.
fn every_opcode(rng: &mut Rng, call: Call, take: &mut dyn FnMut(Question)) {
    let bounds = [0, 1, 2, 63, 64, 65_530, 65_531, 65_533, 65_534, 65_535];
    for o in (0..193).chain([255, 256, 65_535]) {
        for x in 0..=256 {
            if !matches!(call, Kinds | Role) && x > 5 && x < 255 { continue }
            for a in [0, 1, 65_535] {
                let (b, c) = (rng.pick(&bounds), rng.pick(&bounds));
                // ArgsR may not stand first, nor a wide call last.
                let code = [Ins::default(), Ins { op: Op(o), marks: 0, a, b, c, x }];
                let words = abi::words(&code).to_vec();
                let r = if rng.once_in(2) { b.wrapping_add(rng.below(6) as u16) } else { rng.pick(&[a, b, c]) };
                let mut args = vec![Arg::U16(words), Arg::N(1)];
                match call {
                    Field => args.push(Arg::N(rng.below(4) as u64)),
                    Writes => args.push(Arg::N(r.into())),
                    _ => {}
                }
                take(Question { call, args });
            }
        }
    }
}

/// The instructions of which all short codes are made.
fn chosen() -> Vec<Ins> {
    let i = |op: Op, a: u16, b: u16, c: u16, x: u16| Ins { op, marks: 0, a, b, c, x };
    let mut all = vec![
        i(Op::OTHER, 0, 1, 2, 0), i(op::Jump, 0, 0, 0, 0), i(op::Jump, 1, 0, 0, 0), i(op::Jump, 2, 0, 0, 1), i(op::Jump, 3, 0, 0, 0),
        i(op::JumpIfFalseR, 0, 1, 0, 0), i(op::JumpIfFalseR, 1, 0, 0, 0), i(op::JumpIfFalseR, 2, 0, 0, 0), i(op::JumpUnlessLt, 1, 0, 1, 0),
        i(op::ReturnR, 0, 0, 0, 0), i(op::ReturnR, 0, 1, 0, 0), i(op::ReturnValue, 0, 0, 0, 0), i(op::PopTop, 0, 0, 0, 0),
        i(op::PushRegs, 0, 1, 2, 0), i(op::PushRegs, 0, 1, 2, 1), i(op::PushRegs, 1, 0, 0, 2), i(op::PushRegs, 0, 1, 2, 3), i(op::PushRegs, 0, 0, 0, 4),
        i(op::StoreTopR, 0, 0, 0, 0), i(op::StoreTopR, 1, 0, 0, 0), i(op::StoreTopR, 0, 0, 0, 1), i(op::LoadGlobalR, 0, 9, 0, 0),
        i(op::UnpackR, 0, 1, 2, 0), i(op::UnpackR, 0, 1, 2, 1), i(op::UnpackR, 2, 0, 1, 2), i(op::UnpackR, 0, 1, 2, 9),
        i(op::WrapCellR, 0, 0, 0, 0), i(op::Move, 0, 1, 0, 0), i(op::AddR, 0, 1, 0, 0), i(op::GetAttrR, 1, 0, 0, 0),
        i(op::CallR, 0, 1, 2, 0), i(op::CallR, 0, 1, 2, 2), i(op::CallGlobalR, 7, 0, 1, 2), i(op::CallMethodR, 0, 0, 1, 1), i(op::CallSpreadR, 0, 1, 0, 0),
        i(op::ArgsR, 0, 1, 2, 0), i(op::Raise, 0, 0, 0, 0), i(op::Raise, 1, 0, 0, 0), i(op::Call, 0, 0, 0, 0), i(op::Call, 256, 0, 0, 0),
        i(op::ForIterR, 2, 0, 0, 0), i(op::ForIterR, 0, 1, 0, 1), i(op::ForIter, 0, 0, 0, 0), i(op::GetIter, 0, 0, 0, 0),
        i(op::JumpIfFalse, 0, 0, 0, 0), i(op::Del, 0, 0, 0, 0), i(op::Del, 0, 0, 0, 1), i(op::Phi, 0, 0, 0, 0), i(op::LoadName, 0, 0, 0, 0),
        i(op::StoreName, 0, 0, 0, 0), i(op::MakeFunction, 0, 0, 0, 0), i(op::CallSectionR, 0, 0, 0, 0), i(op::Yield, 0, 0, 0, 0), i(op::Yield, 0, 0, 0, 1),
        i(op::LoadYieldFrom, 0, 0, 0, 0), i(op::SetupExcept, 1, 0, 0, 0), i(op::PopExcept, 0, 0, 0, 0),
        i(op::WithEnter, 0, 0, 2, 0), i(op::WithEnter, 0, 0, 2, 2), i(op::WithEnter, 0, 65_533, 0, 1), i(op::WithEnter, 0, 65_534, 0, 1),
        i(op::WithExit, 0, 0, 0, 2), i(op::WithExit, 0, 65_530, 0, 1), i(op::WithExit, 0, 65_531, 0, 1), i(op::WithJudge, 0, 0, 0, 1),
        i(op::Dup, 0, 0, 0, 0), i(op::Add, 0, 0, 0, 0), i(op::BuildList, 0, 0, 0, 0), i(Op(191), 0, 0, 0, 0), i(op::Move, 0, 1, 0, 256),
    ];
    let marked = |o: Op, marks: u16| Ins { marks, ..i(o, 0, 1, 2, 1) };
    all.extend([marked(op::CallR, WIDE), marked(op::CallSpreadR, WIDE), marked(op::AddR, 2), marked(op::AddR, 4), marked(op::AddR, 1), marked(op::Add, 8), marked(Op::OTHER, 6)]);
    all
}

/// All codes of one and two instructions over the chosen ones, asked at every position and at the end.
fn short_codes(rng: &mut Rng, call: Call, take: &mut dyn FnMut(Question)) {
    let chosen = chosen();
    let mut codes: Vec<Vec<Ins>> = chosen.iter().map(|&i| vec![i]).collect();
    codes.extend(chosen.iter().flat_map(|&i| chosen.iter().map(move |&j| vec![i, j])));
    codes.push(vec![]);
    for code in codes {
        let words = abi::words(&code).to_vec();
        let positions = if call.takes("at") { code.len() + 1 } else { 1 };
        for at in 0..positions {
            let regs = rng.pick(&[3, 3, call.row_bits(), call.row_bits() + 1]);
            let mut q = ask(rng, call, &code, words.clone(), regs);
            if let Some(k) = call.params().iter().position(|p| p.name == "at") { q.args[k] = Arg::N(at as u64) }
            take(q);
        }
    }
}

/// The longest code, and one that is too long.
fn long_codes(rng: &mut Rng, call: Call, take: &mut dyn FnMut(Question)) {
    for n in [65_535, 65_536] {
        let mut code = vec![Ins { op: op::Move, marks: 4, a: 0, b: 1, c: 0, x: 0 }; n];
        code[n - 1] = Ins { op: op::ReturnR, marks: 4, a: 0, b: 0, c: 0, x: 0 };
        code[n - 2] = Ins { op: op::JumpIfFalseR, marks: 4, a: 65_535, b: 2, c: 0, x: 0 };
        let words = abi::words(&code).to_vec();
        take(ask(rng, call, &code, words, 3));
    }
}

/// Two lists of one level: the longer has the plain one's registers and some besides, in any order; or they have little to do with each other.
fn random_exposed(rng: &mut Rng) -> Question {
    let mut some = |most: usize| -> Vec<u16> { (0..rng.below(9)).map(|_| rng.below(most) as u16).collect() };
    let (plain, more) = (some(12), some(12));
    let list = if rng.once_in(4) { more } else { [&plain[..], &more].concat() };
    let out = lend(rng, list.len());
    Question::of(Exposed, [("plain", Arg::U16(plain)), ("list", Arg::U16(list)), ("out", Arg::U16(out))])
}

/// Every two lists of up to three of the registers 0, 1 and 65,535, with room for all, for one too few and for one too many.
fn systematic_exposed(take: &mut dyn FnMut(Question)) {
    let registers = [0, 1, 65_535];
    let mut lists = vec![vec![]];
    for k in 0.. {
        let Some(list) = lists.get(k).cloned() else { break };
        if list.len() < 3 { lists.extend(registers.map(|r| [&list[..], &[r]].concat())) }
    }
    for (plain, list) in lists.iter().flat_map(|p| lists.iter().map(move |l| (p, l))) {
        for room in list.len().saturating_sub(1)..list.len() + 2 {
            take(Question::of(Exposed, [("plain", Arg::U16(plain.clone())), ("list", Arg::U16(list.clone())), ("out", Arg::U16(vec![9; room]))]))
        }
    }
}

/// Many values pushed, and a call or a list that takes as many of them as one may, or one more.
fn many_pushed(take: &mut dyn FnMut(Question)) {
    for (o, a, count) in [op::Call, op::BuildList].into_iter().flat_map(|o| (253..258).flat_map(move |a| (0..3).map(move |count| (o, a, count)))) {
        let mut code = vec![Ins { op: op::PushRegs, marks: 0, a: 1, b: 2, c: 3, x: 3 }; 90];
        code.extend([Ins { op: o, marks: 0, a, b: 0, c: 0, x: 0 }, Ins { op: op::Call, ..Ins::default() }]);
        take(Question { call: StackCallee, args: vec![Arg::U16(abi::words(&code).to_vec()), Arg::N(91), Arg::N(count)] });
    }
}

/// The systematic questions of a call.
pub fn systematic(rng: &mut Rng, call: Call, take: &mut dyn FnMut(Question)) {
    match call {
        Fold => return chunks::systematic(rng, take),
        Clear => return chunks::systematic_clear(rng, take),
        FiguresJoin => return figures::systematic_join(take),
        Exposed => return systematic_exposed(take),
        Version => return take(Question::of(Version, [])),
        _ if call.saves() => return saver::systematic(rng, call, take),
        _ => {}
    }
    if matches!(call, Kinds | Role | Field | Writes | Level | Touched) { every_opcode(rng, call, take) }
    if call == StackCallee { many_pushed(take) }
    if call == Replay { traces::systematic(take) }
    short_codes(rng, call, take);
    long_codes(rng, call, take);
}
