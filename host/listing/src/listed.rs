//! A file that was listed, and why one was not.

use crate::{body, chunk, notation::{Body, Chunk}};

/// Why something was not listed.
#[derive(Clone, Debug, PartialEq, Eq)]
pub enum Trouble {
    /// The proved calls refuse it.
    Refused(String),
    /// The text is wrong, or can't be read.
    Text(String),
    /// The command line is wrong.
    Use(String),
    /// Something can't be written.
    Unwritten(String),
    /// The reader of the standard output has gone.
    Closed,
}

impl Trouble {
    pub(crate) fn says(&self) -> &str {
        match self {
            Trouble::Refused(why) | Trouble::Text(why) | Trouble::Use(why) | Trouble::Unwritten(why) => why,
            Trouble::Closed => "",
        }
    }

    pub(crate) fn status(&self) -> u8 {
        match self {
            Trouble::Closed => 0,
            Trouble::Refused(_) => 1,
            Trouble::Text(_) | Trouble::Use(_) | Trouble::Unwritten(_) => 2,
        }
    }
}

/// What was done, or why not.
pub type Done<T> = Result<T, Trouble>;

/// A file that was listed, or why it was not.
pub struct Listed {
    pub file: String,
    pub of: Done<Of>,
}

/// What a file holds, with all that is known of it.
pub enum Of {
    Body(Box<(Body, body::View)>),
    Chunk(Box<(Chunk, chunk::View)>),
}
