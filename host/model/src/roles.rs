//! Roles: `kinds`, `field`, `writes`, and what an instruction touches.

use super::facts::fact;
use turniploom::{Ins, op};

pub const DEST: u8 = 1;
pub const JUMPS: u8 = 16;
pub const NONE: u8 = 32;

pub fn kinds(i: &Ins) -> u8 {
    let f = fact(i.op);
    if i.x == 0 && i.a != 0 { f.role_a } else { f.role[i.x.min(4) as usize] }
}

pub fn has_role(i: &Ins) -> bool { kinds(i) != NONE }

pub fn jumps(i: &Ins) -> bool { kinds(i) & JUMPS != 0 }

pub fn dest(i: &Ins) -> bool { kinds(i) & DEST != 0 }

/// The registers that the role reads.
pub fn reads(i: &Ins) -> Vec<u16> { fields(i, kinds(i)) }

/// The fields that the bits of a role read.
pub fn fields(i: &Ins, kinds: u8) -> Vec<u16> { (0..3).filter(|f| kinds >> (f + 1) & 1 != 0).map(|f| field(i, f)).collect() }

pub fn field(i: &Ins, f: u8) -> u16 { [i.a, i.b, i.c][f.min(2) as usize] }

/// The first x of a, b, c, as an UnpackR names them.
pub fn unpacked(i: &Ins) -> Vec<u16> { [i.a, i.b, i.c][..i.x.min(3) as usize].to_vec() }

/// What an instruction by itself touches: fields as bits, 1 a, 2 b, 4 c, and how many registers from b on are given up and written besides.
pub struct Touch {
    pub used: u8,
    pub given_up: u8,
    pub written: u8,
    pub run: u16,
}

impl Touch {
    /// The registers of the fields that these bits name.
    fn of(bits: u8, i: &Ins) -> impl Iterator<Item = u16> { fields(i, bits << 1).into_iter() }
    fn run(&self, i: &Ins) -> impl Iterator<Item = u16> { (0..self.run).map(|k| i.b + k) }
    pub fn uses(&self, i: &Ins) -> Vec<u16> { Touch::of(self.used, i).collect() }
    pub fn gives_up(&self, i: &Ins) -> Vec<u16> { Touch::of(self.given_up, i).chain(self.run(i)).collect() }
    pub fn writes(&self, i: &Ins) -> Vec<u16> { Touch::of(self.written, i).chain(self.run(i)).collect() }
}

pub fn touch(i: &Ins) -> Touch {
    let (kinds, not_0) = (kinds(i), i.x != 0);
    let (used, given_up, written, run) = match i.op {
        op::StoreTopR => (0, 1, u8::from(!not_0), 0),
        op::UnpackR => { let first = (1 << i.x.min(3)) - 1; (0, first, first, 0) }
        op::WithEnter => (if i.x == 2 { 4 } else { 0 }, 0, 0, if not_0 { 2 } else { 0 }),
        op::WithExit => (0, 0, 0, if not_0 { 5 } else { 0 }),
        op::WithJudge => (u8::from(i.x == 1), 0, 0, 0),
        op::ForIterR => { let b = if not_0 { 0 } else { 2 }; (b, 0, b, 0) }
        // No role has none of these bits.
        _ => (kinds >> 1 & 7, kinds & DEST, kinds & DEST, 0),
    };
    Touch { used, given_up, written, run }
}

pub fn writes(i: &Ins, r: u16) -> bool { touch(i).writes(i).contains(&r) }
