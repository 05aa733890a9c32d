//! Code whose callee trace starts again as often as it can.

use turniploom::{Ins, op::*};

/// The most restarts that 65,535 instructions have room for.
pub const MOST: usize = 16_383;

/// Code that loads binding 7 into register 0, pushes and takes it back under so many calls, and calls it at its end.
pub fn restarts(count: usize) -> Vec<Ins> {
    let mut code = vec![Ins::unmarked(LoadGlobalR, 0, 7, 0, 0)];
    for _ in 0..count {
        code.extend([Ins::unmarked(PushRegs, 0, 0, 0, 1), Ins::unmarked(CallGlobalR, 3, 0, 0, 0)]);
        code.extend([1, 0].map(|a| Ins::unmarked(StoreTopR, a, 0, 0, 0)));
    }
    code.push(Ins::unmarked(CallR, 0, 0, 0, 0));
    code
}
