//! optimizer.rs's own signature, so that a host swaps it for this one by changing imports.

/// Folds the constants of a chunk, drops the Phis that do nothing, and moves all that names a position. The Rust's chunk has no tries;
/// those that a host gives this one forbid no fold here, and follow the code.
///
/// [`constant_fold`](crate::constant_fold) at the crate's root answers a `Result`.
///
/// # Panics
///
/// On what document 01 refuses.
#[track_caller]
pub fn constant_fold(chunk: &mut crate::Chunk) {
    if let Err(refusal) = crate::constant_fold(chunk, false) { panic!("turniploom: {refusal}") }
}
