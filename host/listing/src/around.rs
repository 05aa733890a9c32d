//! The tries around positions that are gone through in order.

use std::collections::BTreeSet;

/// The tries around a position, and those that begin or end further on.
pub struct Around<'a> {
    tries: &'a [(usize, usize)],
    /// Where each try begins to be around, and where it ends; what is passed by is left out.
    changes: std::iter::Peekable<std::vec::IntoIter<(usize, usize)>>,
    open: BTreeSet<usize>,
}

impl<'a> Around<'a> {
    pub fn of(tries: &'a [(usize, usize)]) -> Around<'a> {
        let inside = || tries.iter().enumerate().filter(|(_, t)| t.0 + 1 < t.1);
        let mut changes: Vec<(usize, usize)> = inside().flat_map(|(i, &(s, h))| [(s + 1, i), (h, i)]).collect();
        changes.sort_unstable();
        Around { tries, changes: changes.into_iter().peekable(), open: BTreeSet::new() }
    }

    /// Goes on to a position: whether other tries are around it than before.
    pub fn go(&mut self, k: usize) -> bool {
        let mut other = false;
        while let Some((at, i)) = self.changes.next_if(|c| c.0 <= k) {
            if at == self.tries[i].1 { self.open.remove(&i); } else { self.open.insert(i); }
            other = true;
        }
        other
    }

    /// The handlers of the tries around it, in the tries' order.
    pub fn handlers(&self) -> impl Iterator<Item = usize> { self.open.iter().map(|&i| self.tries[i].1) }
}
