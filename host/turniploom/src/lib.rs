//! The proved calls of turniploom, safe to use from Rust: slices in, a value or a [`Refusal`] out.
//!
//! Every call tests all that it is lent, so no input is undefined. There are three levels, for three kinds of host:
//!
//! - the functions here have the Rust's names, size and allocate the buffers they need, and answer a `Result`;
//! - [`block`] and [`optimizer`] have the Rust's signatures as well, so that a host swaps its own modules for them by changing
//!   imports; they panic on what is refused;
//! - [`abi`] lends the caller's own buffers and allocates nothing.
//!
//! No call takes more than 4 KiB of stack, but kept_raising 6. [`abi::CALLS`] lists the exported calls. The archive must have every one: if one is missing, the build fails and names it.
//! Answers hang on the marks of the code that is lent: [`marked`] sets them as the Rust's own tests do, from the code and the host's
//! `dunder_op`. Code that has none takes [`Ins::unmarked`].
#![no_std]
#![deny(missing_docs, clippy::missing_errors_doc, clippy::missing_panics_doc)]

extern crate alloc;
#[cfg(feature = "std")]
extern crate std;

pub mod abi;
pub mod block;
mod calls;
mod chunk;
mod day;
mod figures;
mod ins;
mod level;
pub mod op;
pub mod optimizer;
mod refusal;
mod saver;
#[cfg(feature = "std")]
mod trace;
mod whose;

pub use calls::*;
pub use chunk::*;
pub use day::{Block, Day, positions, replay};
pub use figures::{Figures, Longest};
pub use ins::{Code, DUNDER, Ins, Lowered, REGISTER, WIDE, marked};
pub use level::{Level, level};
pub use op::Op;
pub use refusal::Refusal;
pub use saver::Saver;
pub use whose::{ARCHIVE_SHA256, KIT, VERSION, version};
#[cfg(feature = "std")]
pub use trace::{Recorder, Unread, replay_from};
