//! The comparison of the port with the Rust and with a plain model of document 01.

pub mod asked;
pub mod bodies;
pub mod chunks;
pub mod compare;
pub mod figures;
pub mod hostile;
pub mod house;
pub mod lent;
pub mod original;
pub mod port;
pub mod questions;
pub mod record;
pub mod rng;
pub mod runs;
pub mod saver;
pub mod shrink;
pub mod traces;
pub mod widths;

pub use model::{self, question};
