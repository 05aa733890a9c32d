//! Random code, made of fragments that belong together, so that every call answers both ways often.

use crate::{model::{code::is_call, facts::fact, roles}, question::*, rng::Rng};
use turniploom::{DUNDER, Ins, Op, REGISTER, WIDE, op};

/// A piece of code.
#[derive(Clone, Copy)]
enum Piece {
    Plain,
    Called,
    Pending,
    Branch,
    Stack,
    Return,
    Loop,
    Try,
    With,
    Global,
    Unpack,
    Join,
    Name,
    Yielding,
    Push,
    Passing,
    Made,
    Taken,
    Any,
}

use Piece::*;

/// What a call's code is made of, by weight.
fn pieces(call: Call) -> &'static [(usize, Piece)] {
    match call {
        Pure => &[(10, Plain), (5, Called), (4, Branch), (5, Stack), (2, Return), (3, Loop), (1, With)],
        GenPure => &[(8, Plain), (4, Called), (3, Branch), (5, Stack), (1, Return), (3, Loop), (2, Try), (2, With), (3, Join), (1, Name), (4, Yielding)],
        DeadPhi => &[(6, Plain), (4, Branch), (4, Join), (3, Name), (2, Return), (2, Loop), (1, Stack), (1, Unpack), (1, Called)],
        Flat => &[(9, Plain), (3, Called), (2, Branch), (2, Push), (1, Global)],
        Guarded => &[(12, Plain), (6, Called), (6, Branch), (1, Try), (1, With)],
        Returns => &[(6, Return), (1, Push), (1, Branch), (1, Plain)],
        Passed => &[(6, Passing), (2, Called), (1, Plain), (1, Any)],
        GlobalOf => &[(6, Global), (6, Called), (6, Pending), (3, Plain), (2, Unpack), (2, Made), (1, Stack), (1, Any)],
        PushedBack => &[(8, Pending), (2, Called), (1, Plain), (1, Push)],
        StackCallee => &[(9, Push), (6, Stack), (3, Plain), (1, Taken)],
        LoopsAround => &[(4, Loop), (3, Plain), (1, Any)],
        Kept | Kept32 | KeptRaising | FiguresAdd | Replay => &[
            (8, Plain), (6, Called), (5, Pending), (5, Branch), (2, Stack), (2, Return), (2, Loop), (2, Try), (3, With), (2, Global), (2, Unpack), (1, Any),
        ],
        _ => &[(6, Plain), (4, Called), (2, Pending), (4, Branch), (4, Stack), (2, Return), (2, Loop), (2, Try), (2, With), (2, Global), (2, Unpack), (1, Join), (1, Name), (1, Push), (6, Any)],
    }
}

/// Where jumps go.
#[derive(Clone, Copy)]
enum Aim {
    Forward,
    Near,
    Anywhere,
    Past,
}

/// Code under way.
pub struct Body<'r> {
    rng: &'r mut Rng,
    pub code: Vec<Ins>,
    /// Registers are mostly below this.
    registers: usize,
    /// Keep to what a section may hold.
    clean: bool,
}

const FOUR: [Op; 4] = [op::CallGlobalR, op::CallR, op::CallMethodR, op::CallSpreadR];

/// Valid code for `call`, its registers mostly below `registers`.
pub fn body(rng: &mut Rng, call: Call, registers: usize) -> Vec<Ins> {
    let length = match rng.below(100) {
        0..2 => 0,
        2..30 => 1 + rng.below(4),
        30..85 => 5 + rng.below(12),
        85..98 => 17 + rng.below(48),
        _ => 65 + rng.below(200),
    };
    let clean = rng.once_in(2);
    let mut body = Body { rng, code: vec![], registers, clean };
    while body.code.len() < length {
        let piece = body.rng.weighted(pieces(call));
        body.add(piece);
    }
    body.aim();
    if !clean && body.rng.once_in(2) { body.disturb() }
    body.mark();
    mend(&mut body.code);
    body.code
}

impl Body<'_> {
    fn reg(&mut self) -> u16 {
        match self.rng.below(24) {
            0 => self.rng.pick(&[63, 64, 65, 127, 128, 1023, 1024, 65_530, 65_535]),
            1 => self.registers as u16,
            _ => self.rng.below(self.registers.max(1)) as u16,
        }
    }

    fn push(&mut self, o: Op, a: u16, b: u16, c: u16, x: u16) { self.code.push(Ins { op: o, marks: 0, a, b, c, x }) }

    /// An instruction with registers in all its fields.
    fn on_registers(&mut self, o: Op, x: u16) {
        let (a, b, c) = (self.reg(), self.reg(), self.reg());
        self.push(o, a, b, c, x);
    }

    fn any_of(&mut self, fits: fn(Op) -> bool) -> Op {
        loop {
            let o = self.rng.pick(&op::ALL);
            if fits(o) { return o }
        }
    }

    fn add(&mut self, piece: Piece) {
        match piece {
            Plain => {
                let plain = |o: Op| fact(o).register && !FOUR.contains(&o) && !fact(o).role.iter().any(|&r| r & (roles::JUMPS | roles::NONE) != 0) && ![op::ArgsR, op::PushRegs, op::ReturnR].contains(&o);
                let o = self.any_of(plain);
                let x = self.rng.below(4) as u16;
                self.on_registers(o, x);
            }
            Called => self.call(),
            Pending => self.pending(),
            Branch => {
                let o = self.rng.pick(&[op::Jump, op::Jump, op::JumpIfFalseR, op::JumpIfFalseR, op::JumpUnlessLt, op::JumpUnlessEq, op::JumpIfFalse, op::JumpIfFalseOrPop]);
                let x = u16::from(self.rng.once_in(8));
                self.on_registers(o, x);
            }
            Stack => {
                let o = self.rng.pick(&[op::Add, op::Sub, op::Minus, op::Not, op::GetItem, op::Dup, op::PopTop, op::BuildList, op::BuildTuple, op::BuildSlice, op::LoadAttr, op::Call, op::LoadNone, op::CallLen, op::Eq, op::Swap, op::StoreTopR]);
                let a = self.rng.pick(&[0, 0, 1, 1, 2, 3, 255, 256]);
                self.push(o, a, 0, 0, 0);
            }
            Return => match self.rng.below(5) {
                0 | 1 => self.on_registers(op::ReturnR, 0),
                2 => { self.on_registers(op::PushRegs, 1); self.push(op::ReturnValue, 0, 0, 0, 0) }
                3 => { self.on_registers(op::PushRegs, 1); self.push(op::Jump, 0, 0, 0, 0) }
                _ => { let o = self.rng.pick(&[op::ReturnValue, op::Raise]); self.push(o, 0, 0, 0, 0) }
            },
            Loop => {
                self.push(op::GetIter, 0, 0, 0, 0);
                let o = self.rng.pick(&[op::ForIterR, op::ForIterR, op::ForIterR, op::ForIter]);
                let x = self.rng.pick(&[0, 0, 0, 0, 1]);
                self.on_registers(o, if self.clean { 0 } else { x });
            }
            Try => {
                let o = self.rng.pick(&[op::SetupExcept, op::SetupFinally]);
                self.push(o, 0, 0, 0, 0);
                if !self.rng.once_in(4) { self.add(Plain) }
                if !self.rng.once_in(6) { self.push(op::PopExcept, 0, 0, 0, 0) }
            }
            With => {
                let o = self.rng.pick(&[op::WithEnter, op::WithExit, op::WithExit, op::WithJudge]);
                let x = self.rng.below(3) as u16;
                self.on_registers(o, x);
            }
            Global => self.on_registers(op::LoadGlobalR, 0),
            Unpack => { let x = 1 + self.rng.below(4) as u16; self.on_registers(op::UnpackR, x) }
            Join => self.on_registers(op::Phi, 0),
            Name => { let o = self.rng.pick(&[op::LoadName, op::StoreName, op::Del]); self.on_registers(o, 0) }
            Yielding => {
                let o = self.rng.pick(&[op::Yield, op::Yield, op::LoadYieldFrom, op::BeginArgs, op::UnpackArgs, op::CallSpread]);
                let x = self.rng.below(2) as u16;
                self.push(o, 0, 0, 0, x);
                if self.clean || self.rng.once_in(2) { self.push(op::PopTop, 0, 0, 0, 0) }
            }
            Push => {
                let x = self.rng.pick(&[0, 1, 1, 2, 2, 3, 3]);
                self.on_registers(op::PushRegs, x);
                if self.rng.once_in(3) { self.push(op::Raise, 0, 0, 0, 0) }
            }
            Passing => {
                // Arguments that are parameters in their places, but for a few.
                let o = self.rng.pick(&FOUR);
                let (x, wide) = (self.rng.below(7) as u16, self.rng.once_in(2));
                let mut f = [2, 0, 1, 2, 3, 4];
                if self.rng.once_in(2) { let k = self.rng.below(6); f[k] = self.reg() }
                self.push(o, f[0], f[1], f[2], x);
                if wide { self.push(op::ArgsR, f[3], f[4], f[5], 0) }
                self.on_registers(op::StoreTopR, 0);
            }
            Made => {
                // What a trace of the callee steps over.
                let o = self.rng.pick(&[op::MakeFunction, op::CallIsInstance, op::CallSectionR, op::SectionR]);
                self.on_registers(o, 0);
            }
            Taken => {
                // A store into a module binding; many values pushed for a call that takes them all.
                if self.rng.once_in(2) { return self.on_registers(op::StoreTopR, 1) }
                for _ in 0..90 { self.on_registers(op::PushRegs, 3) }
                let (o, a) = (self.rng.pick(&[op::Call, op::Call, op::BuildList]), self.rng.pick(&[254, 255, 256, 257]));
                self.push(o, a, 0, 0, 0);
            }
            Any => {
                let o = Op(self.rng.below(191) as u16);
                let x = self.rng.pick(&[0, 0, 1, 2, 3, 4, 5, 255]);
                self.on_registers(o, x);
            }
        }
    }

    /// A call with its store, or without one.
    fn call(&mut self) {
        let o = self.rng.pick(&FOUR);
        let x = self.rng.below(4) as u16;
        self.on_registers(o, x);
        if self.rng.once_in(4) { self.on_registers(op::ArgsR, 0) }
        if self.clean || !self.rng.once_in(6) { self.on_registers(op::StoreTopR, 0) }
    }

    /// Values pushed under a call and taken back past it, the last pushed first.
    fn pending(&mut self) {
        let x = self.rng.pick(&[0, 1, 1, 1, 2, 2, 3]);
        self.on_registers(op::PushRegs, x);
        let p = self.code[self.code.len() - 1];
        let o = self.rng.pick(&[op::CallR, op::CallR, op::CallGlobalR, op::CallMethodR, op::CallSpreadR]);
        let args = self.rng.below(3) as u16;
        self.on_registers(o, args);
        if self.rng.once_in(4) { self.on_registers(op::ArgsR, 0) }
        self.on_registers(op::StoreTopR, 0);
        for &r in [p.a, p.b, p.c][..x as usize].iter().rev() {
            let (r, x) = if self.rng.once_in(20) { (self.reg(), u16::from(self.rng.once_in(2))) } else { (r, 0) };
            let o = if self.rng.once_in(30) { op::PopTop } else { op::StoreTopR };
            self.push(o, r, 0, 0, x);
        }
    }

    /// Gives each jump a target: near, far or past the end.
    fn aim(&mut self) {
        let n = self.code.len();
        let style = if self.clean { Aim::Forward } else { self.rng.pick(&[Aim::Forward, Aim::Near, Aim::Anywhere, Aim::Past]) };
        for k in 0..n {
            if !roles::jumps(&self.code[k]) && !matches!(self.code[k].op, op::ForIterR | op::SetupExcept) { continue }
            let to = match style {
                // A section may also hold a loop's back-edge.
                Aim::Forward if self.code[k].op == op::Jump && self.rng.once_in(4) => self.rng.below(k + 1),
                Aim::Forward => k + 1 + self.rng.below(n - k),
                Aim::Near => (k + self.rng.below(6)).saturating_sub(2),
                Aim::Anywhere => self.rng.below(n + 1),
                Aim::Past => self.rng.pick(&[n, n + 1, 65_535, k, 0]),
            };
            let back = (0..n).find(|&v| self.code[v].op == op::ReturnValue && self.rng.once_in(2));
            self.code[k].a = match back {
                Some(v) if self.rng.once_in(3) => v,
                _ if !self.clean && self.rng.once_in(10) => self.rng.below(n + 2),
                _ => to,
            } as u16;
        }
    }

    /// Changes a few fields at will.
    fn disturb(&mut self) {
        for _ in 0..1 + self.rng.below(3) {
            if self.code.is_empty() { return }
            let k = self.rng.below(self.code.len());
            match self.rng.below(6) {
                0 => self.code[k].op = Op(self.rng.below(191) as u16),
                1 => self.code[k].a = self.reg(),
                2 => self.code[k].b = self.reg(),
                3 => self.code[k].c = self.reg(),
                4 => self.code[k].x = self.rng.pick(&[0, 1, 2, 3, 4, 255]),
                _ => { self.code.remove(k); }
            }
        }
    }

    /// Sets the marks: mostly as the Rust's own tests would have them.
    fn mark(&mut self) {
        let dunder = [self.rng.word() & self.rng.word(), self.rng.word() & self.rng.word(), self.rng.word() & self.rng.word()];
        let (some, honest) = (self.rng.once_in(2), !self.rng.once_in(10));
        for i in &mut self.code {
            if i.op.0 > 190 { continue }
            let is = some && dunder[i.op.0 as usize / 64] >> (i.op.0 % 64) & 1 != 0;
            i.marks = if is { DUNDER } else { 0 } | if fact(i.op).register { REGISTER } else { 0 };
            if !honest || i.op == Op::OTHER { i.marks = self.rng.below(8) as u16 & !WIDE }
        }
        for k in 1..self.code.len() {
            if self.code[k].op == op::ArgsR && is_call(&self.code[k - 1]) && !self.rng.once_in(8) { self.code[k - 1].marks |= WIDE }
        }
    }
}

/// Makes code keep the record rules.
pub fn mend(code: &mut [Ins]) {
    for k in 0..code.len() {
        let next_args = code.get(k + 1).is_some_and(|n| n.op == op::ArgsR);
        let i = &mut code[k];
        if i.op.0 > 190 || i.op == op::ArgsR && k == 0 { i.op = Op::OTHER }
        i.marks &= WIDE | DUNDER | REGISTER;
        if !is_call(i) || !next_args { i.marks &= !WIDE }
        i.x = match i.op {
            op::PushRegs => i.x.min(3),
            op::UnpackR => i.x.clamp(1, 255),
            _ => i.x.min(255),
        };
        match i.op {
            op::WithEnter if i.x != 0 => i.b = i.b.min(65_533),
            op::WithExit if i.x != 0 => i.b = i.b.min(65_530),
            _ => {}
        }
    }
}

/// Breaks one rule of the code, if it has an instruction.
pub fn damage(rng: &mut Rng, code: &[Ins]) -> Vec<u16> {
    let mut code = code.to_vec();
    if !code.is_empty() {
        let k = rng.below(code.len());
        let i = &mut code[k];
        match rng.below(12) {
            0 => i.op = Op(rng.pick(&[191, 192, 255, 256, 65_535])),
            1 => i.marks |= rng.pick(&[8, 16, 0x8000]),
            2 => i.marks |= WIDE,
            3 => i.x = rng.pick(&[256, 257, 65_535]),
            4 => (i.op, i.x) = (op::PushRegs, rng.pick(&[4, 5, 255])),
            5 => (i.op, i.x) = (op::UnpackR, 0),
            6 => code[0].op = op::ArgsR,
            7 => (i.op, i.marks) = (rng.pick(&FOUR), WIDE),
            8 => (i.op, i.x, i.b) = (op::WithEnter, rng.pick(&[0, 1, 2]), rng.pick(&[65_533, 65_534, 65_535])),
            9 => (i.op, i.x, i.b) = (op::WithExit, rng.pick(&[0, 1, 2]), rng.pick(&[65_530, 65_531, 65_535])),
            10 => (i.op, i.marks) = (op::ArgsR, WIDE),
            _ => i.op = Op(rng.below(256) as u16),
        }
    }
    let mut words = turniploom::abi::words(&code).to_vec();
    if rng.once_in(8) { words.truncate(words.len().saturating_sub(1 + rng.below(5))) }
    if rng.once_in(16) { words.push(0) }
    words
}
