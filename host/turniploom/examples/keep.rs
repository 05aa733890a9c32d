//! Which registers a rule must keep when it calls itself: a body is marked, asked about, and a bad one is refused in words.
//!
//! cargo run --offline --example keep

use turniploom::{Lowered, Refusal, kept, marked, op::*};

fn main() -> Result<(), Refusal> {
    // r1 counts up over the items of r0; `seen` is called for each, and r2 is what it says.
    let body = [
        Lowered::new(PushRegs, 0, 0, 0, 1),
        Lowered::new(GetIter, 0, 0, 0, 0),
        Lowered::new(ForIterR, 8, 3, 0, 0),
        Lowered::new(LoadGlobalR, 4, 9, 0, 0),
        Lowered::new(CallR, 4, 3, 0, 1),
        Lowered::new(StoreTopR, 2, 0, 0, 0),
        Lowered::new(InPlaceAddR, 1, 1, 2, 0),
        Lowered::new(Jump, 2, 0, 0, 0),
        Lowered::new(ReturnR, 0, 1, 0, 0),
    ];
    // The host's own `dunder_op`: here, an addition may run one.
    let code = marked(&body, |i| i.op == InPlaceAddR);
    let found = kept(&code, 5, &[], false)?;
    for level in found.levels() { println!("{} {:?} keeps {:?}", level.at(), code[level.at()].op, level.kept()) }
    println!("r1 is needed at the loop's head: {}", found.needed(2, 1));

    let bad = marked(&[Lowered::new(PushRegs, 0, 1, 2, 4)], |_| false);
    let refusal = kept(&bad, 5, &[], false).unwrap_err();
    println!("refused ({}): {}", refusal.number(), refusal.in_code(&bad, &[]));
    Ok(())
}
