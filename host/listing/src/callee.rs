//! What each call calls, asked of the archive. Its two calls go back from the call by position alone, so what stands near it is lent first, and the
//! whole code only where that does not tell.

use std::collections::BTreeSet;
use turniploom::{Ins, WIDE, op};

/// How many instructions before a call are lent, first and then.
const NEAR: [usize; 2] = [64, 2_048];

/// How many instructions are lent in all; past that a callee is asked for near its call alone.
const MOST: usize = 12_000_000;

pub struct Callees<'a> {
    code: &'a [Ins],
    /// A binding that no instruction loads: it stands for what is cut off.
    cut: u16,
    lent: usize,
    pub unasked: usize,
}

impl<'a> Callees<'a> {
    pub fn of(code: &'a [Ins]) -> Callees<'a> {
        let bindings: BTreeSet<u16> = code.iter().filter(|i| i.op == op::LoadGlobalR).map(|i| i.b).collect();
        // At most 65,535 instructions load one, so of 65,536 one is free.
        let cut = (0..=u16::MAX).rev().find(|b| !bindings.contains(b)).unwrap_or(u16::MAX);
        Callees { code, cut, lent: 0, unasked: 0 }
    }

    /// What the instruction at `k` calls, if it is a call and the archive can trace it.
    pub fn at(&mut self, k: usize) -> Option<String> {
        let i = self.code[k];
        let found = match i.op {
            _ if i.op.is_call() => self.binding(k).map(|found| found.map(|b| format!("calls binding {b}"))),
            op::Call if i.a < 256 => self.pushed(k).map(|found| found.map(|(p, r)| format!("calls r{r}, pushed at {p}"))),
            _ => return None,
        };
        if found.is_none() { self.unasked += 1 }
        Some(found.unwrap_or(Some("calls a function that was not asked for".into())).unwrap_or("calls a function not known here".into()))
    }

    /// The code from `from` on up to the call at `k` and what follows it, after a first instruction.
    fn part(&mut self, from: usize, k: usize, first: Ins) -> Vec<Ins> {
        let after = self.code.get(k + 1).map(|&i| Ins { marks: i.marks & !WIDE, ..i });
        let part: Vec<Ins> = [first].into_iter().chain(self.code[from..=k].iter().copied()).chain(after).collect();
        self.lent += part.len();
        part
    }

    /// The binding, if there is one; nothing if it is not asked for.
    fn binding(&mut self, k: usize) -> Option<Option<u16>> {
        for near in NEAR {
            if near > NEAR[0] { self.may_ask()? }
            let from = self.whole_from(k.saturating_sub(near));
            let cut = Ins { op: op::LoadGlobalR, a: self.code[k].a, b: self.cut, ..Ins::default() };
            let part = self.part(from, k, cut);
            let found = turniploom::global_of(&part, k - from + 1).expect("good code");
            if found != Some(self.cut) || from == 0 { return Some(found.filter(|&b| b != self.cut || self.code[k].op == op::CallGlobalR)) }
        }
        self.asked()?;
        Some(turniploom::global_of(self.code, k).expect("good code"))
    }

    /// A place at or before `from` where no push, call and its stores are taken apart.
    fn whole_from(&self, mut from: usize) -> usize {
        while from > 0 && (matches!(self.code[from].op, op::StoreTopR | op::ArgsR) || self.code[from - 1].op == op::PushRegs) { from -= 1 }
        from
    }

    /// The push and its register; nothing if they are not asked for.
    fn pushed(&mut self, k: usize) -> Option<Option<(usize, u16)>> {
        for near in NEAR {
            if near > NEAR[0] { self.may_ask()? }
            let from = k.saturating_sub(near);
            let part = self.part(from, k, Ins::default());
            let found = turniploom::stack_callee(&part, k - from + 1, self.code[k].a).expect("good code");
            if found.is_some() { return Some(found.map(|(p, r)| (p + from - 1, r))) }
            if from == 0 { return Some(None) }
        }
        self.asked()?;
        Some(turniploom::stack_callee(self.code, k, self.code[k].a).expect("good code"))
    }

    /// Something as long as not too much is lent already.
    fn may_ask(&self) -> Option<()> { (self.lent <= MOST).then_some(()) }

    /// Counts the whole code as lent, as long as that is not too much.
    fn asked(&mut self) -> Option<()> {
        self.may_ask()?;
        self.lent += self.code.len();
        Some(())
    }
}
