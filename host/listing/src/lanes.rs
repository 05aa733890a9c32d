//! The lines beside the positions that tries cover: each try has a lane of its own as long as it is open, and lanes are used again.

/// The most lanes that are drawn; tries past them are told in words alone.
const MOST: usize = 16;

pub struct Lanes {
    /// For each position, what stands in each lane, and what on the line below it.
    marks: Vec<Vec<(usize, char)>>,
    many: usize,
}

/// The lanes of the tries of a code of `n` instructions.
pub fn of(n: usize, tries: &[(usize, usize)]) -> Lanes {
    let mut open: Vec<(usize, usize)> = tries.iter().map(|&(s, h)| (s, h.min(n))).filter(|&(s, h)| s < h).collect();
    // The outermost first, so that it stands to the left.
    open.sort_by_key(|&(s, h)| (s, usize::MAX - h));
    let (mut ends, mut lanes) = (vec![], Lanes { marks: vec![vec![]; n + 1], many: 0 });
    for (s, h) in open {
        let lane = ends.iter().position(|&end| end < s).unwrap_or(ends.len());
        if lane >= MOST { continue }
        if lane == ends.len() { ends.push(h) } else { ends[lane] = h }
        for k in s..=h { lanes.marks[k].push((lane, if k == s { '┌' } else if k == h { '└' } else { '│' })) }
    }
    lanes.many = ends.len();
    lanes
}

impl Lanes {
    pub fn many(&self) -> usize { self.many }

    /// The marks beside a position, or beside the line below it.
    pub fn gutter(&self, k: usize, below: bool) -> String {
        let mut gutter = vec![' '; self.many];
        for &(lane, mark) in &self.marks[k] { gutter[lane] = match (mark, below) { ('┌', true) => '│', ('└', true) => ' ', _ => mark } }
        gutter.into_iter().collect()
    }
}
