//! Walks over whole code, and the callee trace.

use super::{code::{is_call, wide}, facts::fact, roles::*};
use turniploom::{Ins, Op, REGISTER, op};

fn is(code: &[Ins], k: usize, op: Op) -> bool { code.get(k).is_some_and(|i| i.op == op) }

/// Where the result of the call at `k` is stored: past the ArgsR of a wide one.
pub fn store(code: &[Ins], k: usize) -> usize { if wide(&code[k]) { k + 2 } else { k + 1 } }

/// Whether each instruction may be laid as part of a section, or of a generator's.
pub fn laid(code: &[Ins], yields: bool) -> bool { (0..code.len()).all(|k| if has_role(&code[k]) { role_laid(code, k) } else { stack_laid(code, k, yields) }) }

fn role_laid(code: &[Ins], k: usize) -> bool {
    let i = code[k];
    let to = i.a as usize;
    let step = |t: &Ins| t.op == op::ForIterR && t.x == 0 && t.a as usize > k;
    match i.op {
        op::Jump => if to > k { to <= code.len() } else { i.x == 0 },
        _ if jumps(&i) => to > k && to <= code.len() || code.get(to).is_some_and(step),
        _ if is_call(&i) => code.get(store(code, k)).is_some_and(|s| s.op == op::StoreTopR && s.x == 0),
        op::ArgsR => k > 0 && wide(&code[k - 1]),
        _ => true,
    }
}

fn stack_laid(code: &[Ins], k: usize, yields: bool) -> bool {
    let i = code[k];
    let popped = is(code, k + 1, op::PopTop);
    fact(i.op).stack || yields && match i.op {
        op::Yield => i.x == 1 || popped,
        op::LoadYieldFrom => popped,
        op::BeginArgs | op::UnpackArgs | op::CallSpread => true,
        _ => false,
    }
}

pub fn gen_pure(code: &[Ins]) -> bool {
    let none = |ops: &[Op]| !code.iter().any(|i| ops.contains(&i.op));
    let phis = (0..code.len()).filter(|&k| code[k].op == op::Phi).all(|k| dead_phi(code, k, code[k].a));
    laid(code, true) && phis && none(&[op::MakeFunction, op::MakeCoroutine]) && returns_outside(code)
}

/// Whether every return lies where as many `try`s and `with`s were closed as opened.
fn returns_outside(code: &[Ins]) -> bool {
    let change = |i: &Ins| match i.op {
        op::SetupExcept | op::SetupFinally => 1,
        op::PopExcept => -1,
        op::WithExit if i.x == 2 => -1,
        _ => 0,
    };
    let leaves = |k: usize| matches!(code[k].op, op::ReturnR | op::ReturnValue) || returns(code, k);
    let mut depth = 0;
    (0..code.len()).all(|k| {
        depth += change(&code[k]);
        depth == 0 || !leaves(k)
    })
}

/// Whether no path from past `k` reads `r` before it writes it.
pub fn dead_phi(code: &[Ins], k: usize, r: u16) -> bool {
    let read = |i: &Ins| match i.op {
        op::ForIterR => false,
        op::LoadName => i.a == r,
        _ => reads(i).contains(&r),
    };
    let ends = |i: &Ins| match i.op {
        op::ReturnR | op::ReturnValue | op::Raise => true,
        op::ForIterR => i.x == 0 && i.b == r,
        op::StoreName => i.a == r,
        _ => dest(i) && i.a == r,
    };
    let mut reached = vec![false; code.len() + 1];
    let mut next = vec![k + 1];
    while let Some(j) = next.pop() {
        if j >= code.len() || reached[j] { continue }
        reached[j] = true;
        let i = &code[j];
        if ends(i) { continue }
        if jumps(i) { next.push(i.a as usize) }
        if i.op != op::Jump { next.push(j + 1) }
    }
    (0..code.len()).all(|j| !reached[j] || !read(&code[j]))
}

pub fn flat(code: &[Ins]) -> bool {
    (0..code.len()).all(|k| match code[k].op {
        op::PushRegs => is(code, k + 1, op::Raise),
        op::Jump | op::Raise => true,
        _ => code[k].marks & REGISTER != 0,
    })
}

pub fn guarded(code: &[Ins]) -> bool { code.iter().any(|i| [op::SetupExcept, op::SetupFinally, op::WithEnter].contains(&i.op)) }

pub fn returns(code: &[Ins], k: usize) -> bool {
    let value = |m: usize| is(code, m, op::ReturnValue);
    is(code, k, op::PushRegs) && code[k].x == 1 && (value(k + 1) || is(code, k + 1, op::Jump) && value(code[k + 1].a as usize))
}

/// For each position 0 to n, the loops around it: those whose GetIter is before it and whose first step leaves past it.
pub fn loops_around(code: &[Ins]) -> Vec<u32> {
    let n = code.len();
    let loops: Vec<(usize, usize)> = (0..n)
        .filter(|&g| code[g].op == op::GetIter)
        .filter_map(|g| (g + 1..n).find(|&f| matches!(code[f].op, op::ForIterR | op::ForIter)).map(|f| (g, n.min(code[f].a as usize))))
        .collect();
    let mut change = vec![0i64; n + 2];
    for (g, end) in loops.into_iter().filter(|&(g, end)| g + 1 < end) {
        change[g + 1] += 1;
        change[end] -= 1;
    }
    change[..=n].iter().scan(0, |depth, c| { *depth += c; Some(*depth as u32) }).collect()
}

pub fn targets(code: &[Ins], tries: &[(usize, usize)]) -> Vec<u8> {
    let mut landed = vec![0; code.len() + 1];
    let jumps = code.iter().filter(|i| jumps(i)).map(|i| i.a as usize);
    for to in jumps.chain(tries.iter().map(|t| t.1)).filter(|&to| to <= code.len()) { landed[to] = 1 }
    landed
}

pub fn params_written(code: &[Ins], arity: u64) -> u64 {
    (0..arity.min(64)).filter(|&r| code.iter().any(|i| writes(i, r as u16))).map(|r| 1 << r).sum()
}

pub fn passed(code: &[Ins], j: usize, arity: u64) -> u64 {
    let c = code[j];
    let rest = if wide(&c) { code[j + 1] } else { c };
    let arguments = [c.b, c.c, rest.a, rest.b, rest.c];
    let count = u64::from(c.x) + u64::from(c.op == op::CallMethodR);
    (0..count.min(5).min(arity)).filter(|&q| u64::from(arguments[q as usize]) == q).map(|q| 1 << q).sum()
}

/// The binding that the call `call`, seen from `j`, calls.
pub fn global_of(code: &[Ins], j: usize, call: &Ins) -> Option<u16> {
    match call.op {
        op::CallGlobalR => return Some(call.a),
        op::CallR => {}
        _ => return None,
    }
    // The last instruction before `j` that decides: it wrote the callee's register, or could have.
    let d = (0..j).rev().find(|&d| {
        let i = &code[d];
        let unpacks = i.op == op::UnpackR && unpacked(i)[1..].contains(&call.a);
        let unknown = !has_role(i) && ![op::CallSectionR, op::SectionR, op::MakeFunction, op::CallIsInstance].contains(&i.op);
        dest(i) && i.a == call.a || unpacks || unknown
    })?;
    let i = &code[d];
    match i.op {
        op::StoreTopR if has_role(i) => global_of(code, pushed_back(code, d, i.a)?, call),
        op::LoadGlobalR => Some(i.b),
        _ => None,
    }
}

/// The PushRegs whose values, pending under one call, the stores up to `d` take back, `r` among them.
pub fn pushed_back(code: &[Ins], d: usize, r: u16) -> Option<usize> {
    let before = (0..d).rev().find(|&k| code[k].op != op::StoreTopR)?;
    let call = if code[before].op == op::ArgsR { before - 1 } else { before };
    let push = call.checked_sub(1)?;
    let p = &code[push];
    if !matches!(code[call].op, op::CallR | op::CallGlobalR | op::CallMethodR) || p.op != op::PushRegs { return None }
    let pushed = unpacked(p);
    // The call's own store, then one for each value, the last pushed first.
    if d - before != pushed.len() + 1 { return None }
    let taken = pushed.iter().rev().zip(before + 2..).all(|(&v, k)| code[k].op == op::StoreTopR && code[k].a == v);
    (taken && pushed.contains(&r)).then_some(push)
}

/// The PushRegs and register that hold the function of a stack call with `count` arguments at `j`.
pub fn stack_callee(code: &[Ins], j: usize, count: u16) -> Option<(usize, u16)> {
    let mut need = count as usize + 1;
    for k in (0..j).rev() {
        let i = &code[k];
        let (pops, pushes) = effect(i)?;
        if need <= pushes { return (i.op == op::PushRegs).then(|| (k, [i.a, i.b, i.c][pushes - need])) }
        need = need - pushes + pops;
    }
    None
}

/// How many values an instruction takes off the stack and puts on it, where that is plain.
fn effect(i: &Ins) -> Option<(usize, usize)> {
    let a = i.a as usize;
    match i.op {
        op::PushRegs => Some((0, i.x as usize)),
        op::StoreTopR => (i.x == 0).then_some((1, 0)),
        op::PopTop => Some((1, 0)),
        op::Dup => Some((1, 2)),
        op::BuildSlice | op::BuildList | op::BuildTuple | op::BuildSet => Some((a, 1)),
        op::Call => (a < 256).then_some((a + 1, 1)),
        op::Minus | op::Not | op::LoadAttr => Some((1, 1)),
        op::GetItem | op::Pow | op::In | op::NotIn | op::Is | op::IsNot => Some((2, 1)),
        _ if fact(i.op).folding == 2 => Some((2, 1)),
        _ => has_role(i).then_some((0, 0)),
    }
}
