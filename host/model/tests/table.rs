//! The model has every call of the safe crate's table, under its name and in its order.

use model::question::Call;
use turniploom::abi::CALLS;

#[test]
fn every_call_of_the_table() {
    let plain: Vec<String> = Call::ALL.iter().map(|c| format!("{c:?}").to_lowercase()).collect();
    assert_eq!(plain, CALLS.iter().map(|c| c.name.replace('_', "")).collect::<Vec<_>>());
    assert!(Call::ALL.iter().all(|c| c.entry().name == c.name() && Call::named(c.name()) == Some(*c)));
}
