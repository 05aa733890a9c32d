//! The recorded answers of the safe crate are those that `oracle record` writes today.

use oracle::{question::Call, record};

#[test]
fn the_file_is_what_is_recorded_today() {
    let today = record::text(Call::ALL, 1);
    let differs = today.lines().zip(include_str!("../../turniploom/tests/recorded.txt").lines()).position(|(a, b)| a != b);
    assert_eq!(differs, None, "the first line that differs, from 0");
    assert_eq!(today, include_str!("../../turniploom/tests/recorded.txt"));
}
