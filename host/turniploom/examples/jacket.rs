//! A rule that calls itself down a structure: a jacket carries legs, a leg carries anodes. Every identifier that is needed after a call comes
//! back; with one register fewer on the list, one does not.
//!
//! cargo run --offline --example jacket

use turniploom::{Level, Lowered, Refusal, Saver, abi, kept_raising, marked, op::*};

/// A part: its identifier, its own reading, and the parts that it carries. One without a reading can't be surveyed.
struct Part {
    name: u64,
    reading: Option<u64>,
    carries: Vec<Part>,
}

fn part(name: u64, reading: u64, carries: Vec<Part>) -> Part { Part { name, reading: Some(reading), carries } }

/// The rule of samples/jacket.txt: it adds up the readings of a part and of all that it carries. If the survey of one fails, the handler at 13
/// notes the name of the part that carries it.
fn rule() -> [Lowered; 17] {
    [
        Lowered::new(GetAttrR, 1, 0, 1, 0), // r1: the part's own reading
        Lowered::new(GetAttrR, 2, 0, 2, 0), // r2: the parts it carries
        Lowered::new(GetAttrR, 5, 0, 3, 0), // r5: its name
        Lowered::new(PushRegs, 2, 0, 0, 1),
        Lowered::new(GetIter, 0, 0, 0, 0),
        Lowered::new(ForIterR, 16, 3, 0, 0), // r3: the next part, or on to 16
        Lowered::new(SetupExcept, 13, 0, 0, 0),
        Lowered::new(LoadGlobalR, 4, 9, 0, 0), // r4: this rule
        Lowered::new(CallR, 4, 3, 0, 1),       // the rule calls itself
        Lowered::new(StoreTopR, 6, 0, 0, 0),   // r6: what it found
        Lowered::new(InPlaceAddR, 1, 1, 6, 0),
        Lowered::new(PopExcept, 0, 0, 0, 0),
        Lowered::new(Jump, 5, 0, 0, 0),
        Lowered::new(LoadGlobalR, 7, 4, 0, 0), // the handler; r7: the list of faults
        Lowered::new(ListPushR, 7, 5, 0, 0),
        Lowered::new(Jump, 5, 0, 0, 0),
        Lowered::new(ReturnR, 0, 1, 0, 0),
    ]
}

/// The survey of a part failed.
struct Fault;

/// The rule at work on a part: it overwrites the registers as its caller did before it.
fn survey(saver: &mut Saver<'_>, call: Level<'_>, part: &Part, faults: &mut Vec<u64>) -> Result<u64, Fault> {
    saver.registers_mut().fill(part.name);
    saver.registers_mut()[1] = part.reading.ok_or(Fault)?;
    for next in &part.carries {
        saver.registers_mut()[3] = next.name;
        let held: Vec<u64> = call.kept().iter().map(|&r| saver.registers()[usize::from(r)]).collect();
        let mut callee = saver.enter(call).expect("room for an entry");
        let found = survey(&mut callee, call, next, faults);
        match found {
            Ok(found) => callee.leave(found),
            Err(Fault) => callee.raise(),
        }.expect("it was entered");
        assert!(call.kept().iter().zip(held).all(|(&r, v)| saver.registers()[usize::from(r)] == v), "every kept register is back");
        if found.is_ok() { saver.registers_mut()[1] += saver.registers()[6] } else { faults.push(saver.registers()[5]) }
        let [_, readings, _, next, _, name, ..] = *saver.registers() else { unreachable!("eight registers") };
        println!("in {name} after {next}: readings {readings}{}", if found.is_ok() { "" } else { ", a fault" });
    }
    Ok(saver.registers()[1])
}

fn main() -> Result<(), Refusal> {
    let code = marked(&rule(), |_| false);
    // A survey may fail: what a handler reads later on is kept too.
    let found = kept_raising(&code, 8, &[(6, 13)], true)?;
    let call = found.level(8).expect("a call is a level");
    println!("the call at {} keeps {:?}, goes on at {} with its result in r{}, and takes {} words", call.at(), call.kept(), call.resume(),
        call.result().expect("a store"), call.words());

    // Jacket 1 with legs 10 and 20; the second anode of leg 20 can't be surveyed.
    let bad = Part { name: 22, reading: None, carries: vec![] };
    let legs = vec![part(10, 3, vec![part(11, 4, vec![]), part(12, 5, vec![])]), part(20, 6, vec![part(21, 7, vec![]), bad])];
    let (mut saver, mut faults) = (Saver::new(8)?, vec![]);
    let total = survey(&mut saver, call, &part(1, 2, legs), &mut faults).unwrap_or(0);
    println!("readings {total}, a fault under {faults:?}, {} words free again", saver.free());

    // The crate hands out no list but the right one; by the lent arrays, a host could leave the last register out.
    let (mut head, mut area, mut file) = ([0; 2], [0; 4096], [0; 64]);
    file[..8].copy_from_slice(&[10, 3, 0, 11, 0, 10, 0, 0]);
    abi::saver_make(&mut head, 8).granted()?;
    let (last, fewer) = call.kept().split_last().expect("a register");
    abi::saver_enter(&mut head, &mut area, &file, fewer, 6).granted()?;
    file[..8].fill(11);
    abi::saver_exception(&mut head, &area, &mut file).granted()?;
    println!("without r{last} on the list, the handler in leg 10 notes a fault under {}", file[usize::from(*last)]);

    // And a file of one register fewer is refused before anything is put aside.
    let refusal = Saver::new(5)?.enter(call).err().expect("a refusal");
    println!("refused ({}): {refusal}", refusal.number());
    Ok(())
}
