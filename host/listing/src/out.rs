//! Text on its way out. A listing may have hundreds of megabytes: what is written to a file is passed on in parts, and nothing holds it whole.

use std::ops::{Deref, DerefMut};

/// So many bytes are passed on at once.
const PART: usize = 1 << 18;

/// Text as it is written, which is handed on part by part if it is for somebody.
#[derive(Default)]
pub struct Out<'a> {
    text: String,
    to: Option<&'a mut dyn FnMut(&str)>,
}

impl<'a> Out<'a> {
    /// Text for somebody.
    pub fn to(to: &'a mut dyn FnMut(&str)) -> Out<'a> { Out { text: String::new(), to: Some(to) } }

    /// At the end of a line: passes on what there is if it is much.
    pub fn pass(&mut self) { if self.text.len() >= PART { self.flush() } }

    /// Passes on what there is.
    pub fn flush(&mut self) {
        if let Some(to) = &mut self.to {
            to(&self.text);
            self.text.clear();
        }
    }

    /// What was not passed on: all of it, if it is for nobody.
    pub fn text(self) -> String { self.text }
}

impl Deref for Out<'_> {
    type Target = String;
    fn deref(&self) -> &String { &self.text }
}

impl DerefMut for Out<'_> {
    fn deref_mut(&mut self) -> &mut String { &mut self.text }
}
