//! Histories of a saver: the port's are the model's and those of a plain stack, and a wrong saver is caught.

use oracle::saver::{Calls, PORT, Played, play};
use turniploom::abi::{self, Answer};

#[test]
fn every_event_is_right() {
    let played = play(PORT, 7, 200_000, 2);
    assert!(played.well() && played.events == 200_000, "{played}");
    assert!(played.to_string().starts_with("200000 events of a saver, 0 wrong: "), "{played}");
}

/// What is said of a saver with one wrong call.
fn wrong(calls: Calls) -> String {
    let played = play(calls, 7, 20_000, 1);
    assert!(!played.well() && played.wrong > 0, "{played}");
    played.to_string()
}

/// An exception that writes a result.
fn writes(head: &mut [u64; 2], area: &[u64; 4096], file: &mut [u64; 64]) -> Answer { abi::saver_return(head, area, file, 9) }

/// An exception that does not free the entry's room.
fn hoards(head: &mut [u64; 2], area: &[u64; 4096], file: &mut [u64; 64]) -> Answer {
    let before = head[1];
    let answer = abi::saver_exception(head, area, file);
    head[1] = before;
    answer
}

/// A list taken with a register that stands in it twice.
fn takes_twice(head: &mut [u64; 2], area: &mut [u64; 4096], file: &[u64; 64], list: &[u16], result: u64) -> Answer {
    let answer = abi::saver_enter(head, area, file, list, result);
    let place = answer.first as usize;
    if answer.refusal == 14 && u64::from(list[place]) < head[0] { abi::saver_enter(head, area, file, &list[..place], result) } else { answer }
}

/// A word of the area beside the entry written.
fn spills(head: &mut [u64; 2], area: &mut [u64; 4096], file: &[u64; 64], list: &[u16], result: u64) -> Answer {
    let answer = abi::saver_enter(head, area, file, list, result);
    if answer.refusal == 0 && head[1] < 4_096 { area[head[1] as usize] ^= 1 }
    answer
}

#[test]
fn a_wrong_saver_is_caught() {
    for calls in [
        Calls { leave_by_exception: writes, ..PORT }, Calls { leave_by_exception: hoards, ..PORT },
        Calls { enter: takes_twice, ..PORT }, Calls { enter: spills, ..PORT },
        Calls { leave_by_return: |head, area, file, value| abi::saver_return(head, area, file, value ^ 1), ..PORT },
        Calls { make: |head, regs| abi::saver_make(head, regs.min(64)), ..PORT },
    ] {
        let said = wrong(calls);
        assert!(said.starts_with("event ") && said.contains("  the port Answer {") && said.lines().last().unwrap().starts_with("WRONG: "), "{said}");
    }
}

#[test]
fn what_was_not_played_is_told() {
    let few = play(PORT, 7, 10, 1);
    assert!(!few.well() && few.to_string().starts_with("NOT ENOUGH WAS PLAYED: 10 events of a saver, 0 wrong: "), "{few}");
    assert!(!Played::default().well());
}
