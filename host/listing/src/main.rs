//! The command of the listing.

use listing::{command, options::Options};
use std::{env, process::ExitCode};

fn main() -> ExitCode { command::finished(Options::read(env::args().skip(1)).map_err(command::Trouble::Use).and_then(|options| command::run(&options))) }
