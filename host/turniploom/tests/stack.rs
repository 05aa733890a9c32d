//! The stack of every call, measured: each call is made on a painted stack of its own, over inputs that go deep, and what it used is held to
//! the number that include/turniploom.h and docs/BUFFERS.md state.
#![cfg(target_arch = "x86_64")]

mod restarts;

use std::{arch::asm, collections::{BTreeMap, BTreeSet}, fs, path::Path};
use turniploom::{Block, Ins, WIDE, abi::{self, Answer}, op::*};

const PAINT: u64 = 0x5afe_5afe_5afe_5afe;

/// A painted stack, with room for far more than a call may use.
struct Stack(Vec<u64>);

impl Stack {
    fn new() -> Stack { Stack(vec![PAINT; (2 << 20) / 8]) }

    /// Makes a call on this stack.
    fn make<F: FnOnce() -> Answer>(&mut self, call: F) -> Answer {
        extern "C" fn enter<F: FnOnce() -> Answer>(job: &mut (Option<F>, Answer)) { job.1 = job.0.take().unwrap()() }
        let mut job = (Some(call), Answer::default());
        let top = (self.0.as_mut_ptr_range().end as usize) & !15;
        // SAFETY: the stack pointer is put back, r12 is kept by what is called, and no call unwinds.
        unsafe {
            asm!(
                "mov r12, rsp", "mov rsp, {top}", "call {enter}", "mov rsp, r12",
                top = in(reg) top, enter = in(reg) enter::<F> as extern "C" fn(&mut (Option<F>, Answer)), in("rdi") &mut job, out("r12") _, clobber_abi("C"),
            );
        }
        job.1
    }

    /// The bytes that were ever written, from the top to the deepest.
    fn used(&self) -> usize { self.0.len() * 8 - self.0.iter().take_while(|w| **w == PAINT).count() * 8 }
}

/// A stack for each call, by its name.
#[derive(Default)]
struct Stacks(BTreeMap<&'static str, Stack>);

impl Stacks {
    fn make(&mut self, name: &'static str, call: impl FnOnce() -> Answer) -> Answer { self.0.entry(name).or_insert_with(Stack::new).make(call) }

    /// Every call that asks about a position.
    fn at(&mut self, code: &[u16], at: usize) {
        let (mut seen, mut todo) = (vec![9; code.len() / 6 + 1], vec![9; code.len() / 6 + 1]);
        self.make("kinds", || abi::kinds(code, at));
        self.make("role", || abi::role(code, at));
        self.make("field", || abi::field(code, at, 1));
        self.make("returns", || abi::returns(code, at));
        self.make("passed", || abi::passed(code, at, 64));
        self.make("global_of", || abi::global_of(code, at));
        self.make("level", || abi::level(code, at));
        self.make("touched", || abi::touched(code, at));
        for r in [0, 1, 1_023] {
            for regs in [2, 1_024] { self.make("needed", || abi::needed(code, regs, at, r, &mut seen, &mut todo)); }
            self.make("writes", || abi::writes(code, at, r));
            self.make("pushed_back", || abi::pushed_back(code, at, r));
            self.make("stack_callee", || abi::stack_callee(code, at, r));
            self.make("dead_phi", || abi::dead_phi(code, at, r, &mut seen, &mut todo));
        }
    }

    /// Every call that asks about the whole code.
    fn whole(&mut self, code: &[u16], tries: &[u32]) {
        self.make("version", abi::version);
        let n = code.len() / 6;
        let (mut bytes, mut words) = (vec![9; n + 1], vec![9; n + 1]);
        self.make("pure", || abi::pure(code));
        self.make("flat", || abi::flat(code));
        self.make("guarded", || abi::guarded(code));
        self.make("params_written", || abi::params_written(code, 64));
        self.make("gen_pure", || abi::gen_pure(code, &mut bytes, &mut words));
        self.make("loops_around", || abi::loops_around(code, &mut words));
        self.make("targets", || abi::targets(code, tries, &mut bytes));
    }

    /// The kept registers, on both routes and at both widths.
    fn kept(&mut self, code: &[u16], tries: &[u32], regs: usize) {
        let n = code.len() / 6;
        let (mut rows, mut offsets) = (vec![9; (n + 1) * abi::row_words(regs)], vec![9; n + 1]);
        let mut rows32 = vec![9; (n + 1) * abi::row_words32(regs)];
        for wide in [false, true] {
            let short = self.make("kept", || abi::kept(code, regs, tries, wide, &mut rows, &mut offsets, &mut []));
            let mut list = vec![9; if short.refusal == 0 { 0 } else { short.second as usize }];
            let a = self.make("kept", || abi::kept(code, regs, tries, wide, &mut rows, &mut offsets, &mut list));
            assert_eq!((a.refusal, a.first), (0, list.len() as u64));
            let mut report = [0; 7];
            let a = self.make("figures_add", || abi::figures_add(code, &offsets, &list, &mut report));
            assert_eq!((a.refusal, a.second), (0, list.len() as u64));
            assert_eq!(self.make("figures_join", || abi::figures_join(&[1, 2, 3, 2_000, 1, 0, 5], &mut report)).refusal, 0);
            let a = self.make("kept32", || abi::kept32(code, regs, tries, wide, &mut rows32, &mut offsets, &mut list));
            assert_eq!((a.refusal, a.first), (0, list.len() as u64));
            let short = self.make("kept_raising", || abi::kept_raising(code, regs, tries, wide, &mut rows, &mut offsets, &mut []));
            let mut raising = vec![9; if short.refusal == 0 { 0 } else { short.second as usize }];
            let a = self.make("kept_raising", || abi::kept_raising(code, regs, tries, wide, &mut rows, &mut offsets, &mut raising));
            assert!(a.refusal == 0 && a.first >= list.len() as u64);
            let (some, mut out) = (&raising[..raising.len().min(1_024)], vec![9; 1_024]);
            assert_eq!(self.make("exposed", || abi::exposed(&[], some, &mut out)).first, some.len() as u64);
        }
    }

    /// A saver, entered as often as there is room and left both ways.
    fn saver(&mut self, list: &[u16]) {
        let (mut head, mut area, mut file) = ([9; 2], [9; 4096], [9; 64]);
        assert_eq!(self.make("saver_make", || abi::saver_make(&mut head, 64)).refusal, 0);
        while self.make("saver_enter", || abi::saver_enter(&mut head, &mut area, &file, list, 3)).refusal == 0 {}
        assert_eq!(self.make("saver_enter", || abi::saver_enter(&mut head, &mut area, &file, &[7, 7], 3)).refusal, 14);
        while self.make("saver_return", || abi::saver_return(&mut head, &area, &mut file, 5)).refusal == 0
            && self.make("saver_exception", || abi::saver_exception(&mut head, &area, &mut file)).refusal == 0 {}
    }

    /// A trace of one block, of whatever steps.
    fn replay(&mut self, code: &[u16], tries: &[u32], positions: &[u32]) {
        let (trace, mut reads) = (Block::of(positions).bytes(), vec![9; 1_024]);
        for regs in [0, 1_024] { self.make("replay", || abi::replay(code, regs, tries, &trace, &mut reads)); }
    }

    /// A chunk folded and cleared.
    fn chunk(&mut self, code: &[u16], kinds: &[u8], words: &[u64], sources: &[u16], strict: bool) {
        let (n, count) = (code.len() / abi::CHUNK_WORDS, kinds.len());
        let (mut code, mut kinds, mut words) = (code.to_vec(), [kinds, &vec![0; n]].concat(), [words, &vec![0; n]].concat());
        let (mut map, mut pairs) = ((0..n as u32).map(|k| k % 5).collect::<Vec<_>>(), [sources, &vec![0; 2 * n]].concat());
        let (mut stmts, mut calls, mut dead, mut remap) = ([0, 7, 3, 9], [1, 2], vec![9; n], vec![9; n + 1]);
        let (mut tries, mut landings) = ([0, 9, n as u32 / 2, n as u32], vec![9; n + 1]);
        let a = self.make("fold", || abi::fold(
            &mut code, &mut kinds, &mut words, count, &mut map, n, &mut pairs, sources.len(), &mut stmts, 4, &mut calls, 2, &mut dead, &mut remap,
            &mut tries, &mut landings, strict,
        ));
        assert_eq!(a.refusal, 0);
        let mut scratch = vec![9; a.second as usize];
        let left = &mut code[..abi::CHUNK_WORDS * a.first as usize];
        assert_eq!(self.make("clear", || abi::clear(left, &mut kinds, &mut words, a.second as usize, &mut scratch)).refusal, 0);
    }
}

/// Numbers that look like any, the same each time.
struct Dice(u64);

impl Dice {
    fn below(&mut self, n: usize) -> usize {
        self.0 = self.0.wrapping_mul(6_364_136_223_846_793_005).wrapping_add(1_442_695_040_888_963_407);
        (self.0 >> 33) as usize % n
    }

    fn of<T: Copy>(&mut self, all: &[T]) -> T { all[self.below(all.len())] }

    /// Code of any opcodes that no record rule refuses.
    fn code(&mut self, n: usize) -> Vec<Ins> {
        let mut code = vec![];
        while code.len() < n {
            let op = self.of(&ALL);
            let x = if op == UnpackR { 1 } else { self.below(4) as u8 };
            let mut field = || if self.below(9) == 0 { self.of(&[63, 64, 65, 1_000, 1_023, 1_024]) } else { self.below(9) as u16 };
            let i = Ins::unmarked(op, field(), field(), field(), x);
            let wide = op.is_call() && self.below(2) == 0;
            if op != ArgsR || !code.is_empty() { code.push(if wide { i.with(WIDE) } else { i }) }
            if wide { code.push(Ins::unmarked(ArgsR, 0, 1, 2, 3)) }
        }
        code
    }

    /// The code of a chunk that no record rule refuses.
    fn chunk(&mut self, n: usize) -> Vec<u16> {
        let operators = [Add, Sub, Mul, Div, Mod, FloorDiv, Eq, NotEq, Lt, Gt, LtEq, GtEq, BitAnd, BitOr, BitXor, Shl, Shr, Not, Minus];
        (0..n).flat_map(|k| match self.below(9) {
            0..4 => [LoadConst.0, 2, self.below(12) as u16, k as u16],
            4..7 => [self.of(&operators).0, 0, 0, k as u16],
            7 => [Phi.0, 0, self.below(4) as u16, k as u16],
            _ => [Jump.0, 1, self.below(n + 2) as u16, k as u16],
        }).collect()
    }
}

/// A file of the repository.
fn text(file: &str) -> String { fs::read_to_string(Path::new(env!("CARGO_MANIFEST_DIR")).join("../..").join(file)).unwrap() }

/// The bytes that a file states, in KiB: of every call, and of kept_raising.
fn stated(file: &str) -> [usize; 2] {
    let line = text(file).split_whitespace().filter(|w| *w != "*").collect::<Vec<_>>().join(" ");
    let said = line.split_once("No call needs more than ").and_then(|(_, rest)| rest.split_once(" KiB of stack, but kept_raising "));
    let (all, rest) = said.unwrap_or_else(|| panic!("{file} does not say it"));
    let raising: String = rest.chars().take_while(char::is_ascii_digit).collect();
    [all, &raising].map(|n| n.parse::<usize>().unwrap() * 1024)
}

#[test]
fn no_call_needs_more_than_is_stated() {
    let (mut stacks, mut dice) = (Stacks::default(), Dice(1));
    let deep = restarts::restarts(restarts::MOST);
    for back in 1..6 { stacks.at(abi::words(&deep), deep.len() - back) }
    stacks.whole(abi::words(&deep), &[0, 9, 5, 65_534]);
    for regs in [2, 65] { stacks.kept(abi::words(&deep), &[0, 9, 5, 65_534], regs) }
    for n in (0..40).chain([400]) {
        let code = dice.code(n);
        let code = abi::words(&code);
        let tries = [0, 9, n as u32 / 2, n as u32];
        for at in 0..=n { stacks.at(code, at) }
        stacks.whole(code, &tries);
        for steps in [0, 1, 3, 127] { stacks.replay(code, &tries, &(0..steps).collect::<Vec<_>>()) }
        for regs in [0, 1, 32, 33, 64, 65, 1_024] { stacks.kept(code, &tries, regs) }
    }
    for length in [0, 1, 9, 64] { stacks.saver(&(0..length).collect::<Vec<_>>()) }
    let (kinds, ints) = ([1, 1, 1, 2, 2, 2, 3, 3, 0], [7, 2, 1, 2.5f64.to_bits(), (-0.0f64).to_bits(), f64::NAN.to_bits(), 1, 0, 5]);
    for n in (0..60).chain([4_000]) {
        let code = dice.chunk(n);
        for strict in [false, true] { stacks.chunk(&code, &kinds, &ints, &[1, 1, 2, 2, 3, 1], strict) }
    }
    let limits = stated("include/turniploom.h");
    assert_eq!(stated("docs/BUFFERS.md"), limits);
    for (name, stack) in &stacks.0 {
        println!("{:5} bytes {name}", stack.used());
        let limit = limits[usize::from(*name == "kept_raising")];
        assert!(stack.used() <= limit, "{name} needs {} bytes", stack.used());
    }
    let header = text("include/turniploom.h");
    let calls: BTreeSet<&str> = header.split("turniploom_answer turniploom_").skip(1).map(|c| c.split_once('(').unwrap().0).collect();
    assert_eq!(stacks.0.into_keys().collect::<BTreeSet<_>>(), calls);
}
