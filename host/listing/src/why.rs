//! Why a register is needed at a position: a shortest path to an instruction that uses it.

use crate::{and, body::View, notation::Body};
use std::collections::{BTreeMap, VecDeque};
use turniploom::Refusal;

/// The positions of such a path, the first and the last too, if there is one that at most so many positions tell.
fn path(view: &View, k: usize, r: u16, most: usize) -> Option<Vec<usize>> {
    let mut from = BTreeMap::from([(k, k)]);
    let mut next = VecDeque::from([k]);
    while let Some(j) = next.pop_front() {
        let line = &view.lines[j];
        if line.used.contains(&r) {
            let mut path = vec![j];
            while path[path.len() - 1] != k { path.push(from[&path[path.len() - 1]]) }
            path.reverse();
            return Some(path);
        }
        if line.given_up.contains(&r) || from.len() > most { continue }
        for &s in &line.after { from.entry(s).or_insert_with(|| { next.push_back(s); j }); }
    }
    None
}

/// Which instruction uses the register, and by way of which others; nothing if no short search tells.
pub fn because(view: &View, k: usize, r: u16, most: usize) -> Option<String> {
    Some(match &path(view, k, r, most)?[..] {
        [_] => "it uses it".into(),
        [_, last] => format!("{last} uses it"),
        [_, way @ .., last] => format!("{last} uses it, by way of {}", and(way)),
        [] => return None,
    })
}

/// The answer to `--why K R`, by the archive's call for one register at one position.
pub fn why(body: &Body, view: &View, k: usize, r: u16) -> Result<String, Refusal> {
    if !turniploom::needed(&body.words(), body.registers, k, r)? { return Ok(format!("r{r} is not needed at {k}.")) }
    Ok(format!("r{r} is needed at {k}: {}.", because(view, k, r, usize::MAX).expect("a path to a use")))
}
