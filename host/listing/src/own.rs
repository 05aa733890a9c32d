//! What the archive says of one instruction by itself, asked about in a code of its own, since every call tests all that it is lent.

use turniploom::{Ins, Touched, op};

/// The registers an instruction touches, and whether it jumps to `a`.
pub struct Own {
    pub touched: Touched,
    pub jumps: bool,
}

impl Own {
    pub fn of(i: &Ins) -> Own {
        let code = [Ins::default(), *i, Ins { op: op::ArgsR, ..Ins::default() }];
        let touched = turniploom::touched(&code, 1).expect("good code");
        Own { touched, jumps: turniploom::kinds(&code, 1).expect("good code") & 16 != 0 }
    }
}
