//! The ways by which an exposed register goes wrong, by the listing's own reckoning: from where the level goes on, or from the level itself if it
//! raises, to a position inside a try, on in its handler, and so on until an instruction uses the register. One search for each register finds them all.

use crate::line::Line;
use model::rows;
use turniploom::Ins;

/// No number.
pub(crate) const NONE: u32 = u32::MAX;

/// A leave of a way, and the one after it.
#[derive(Clone, Copy, Debug, PartialEq, Eq)]
pub(crate) struct Step {
    pub leave: Leave,
    pub next: u32,
    /// How many leaves come after it.
    pub later: u32,
    /// The last of them; of the last itself, where the register is read.
    pub end: u32,
}

/// From a position inside a try to its handler; or past a marked instruction, whose call goes on at the next position though it does not lead there.
#[derive(Clone, Copy, Debug, PartialEq, Eq)]
pub struct Leave {
    pub at: u32,
    pub to: u32,
    pub raises: bool,
}

/// Lists one after another.
pub(crate) struct Lists {
    from: Vec<u32>,
    all: Vec<u32>,
}

impl Lists {
    /// So many lists of what they are given, in that order: the number of a list, and what it has.
    pub fn of<I: Iterator<Item = (usize, u32)>>(many: usize, given: impl Fn() -> I) -> Lists {
        let mut from = vec![0; many + 2];
        for (list, _) in given() { from[list + 2] += 1 }
        for k in 2..many + 2 { from[k] += from[k - 1] }
        let mut all = vec![0; from[many + 1] as usize];
        for (list, has) in given() {
            all[from[list + 1] as usize] = has;
            from[list + 1] += 1;
        }
        Lists { from, all }
    }

    pub fn at(&self, k: usize) -> &[u32] { &self.all[self.from[k] as usize..self.from[k + 1] as usize] }
}

/// Positions out of which the first at or past another is found fast.
#[derive(Clone)]
struct Left(Vec<u32>);

impl Left {
    fn of(n: usize, has: impl Fn(usize) -> bool) -> Left { Left((0..=n).map(|k| if k == n || has(k) { k as u32 } else { k as u32 + 1 }).collect()) }
    fn without(&mut self, k: u32) { if self.0[k as usize] == k { self.0[k as usize] = k + 1 } }

    /// The first, or the end.
    fn first(&mut self, mut k: u32) -> u32 {
        while self.0[k as usize] != k {
            let next = self.0[self.0[k as usize] as usize];
            self.0[k as usize] = next;
            k = next;
        }
        k
    }
}

/// What ways go over.
struct Ground {
    /// For each position, where its level goes on, and its result register; none if it is no level or has no such register.
    levels: Vec<(u32, u32)>,
    /// For each position, those that step to it.
    before: Lists,
    /// For each register, the positions that use it and that give it up.
    used: Lists,
    given_up: Lists,
    /// For each position, the lowest of those right before it that may leave for it; itself if none may.
    lowest: Vec<u32>,
    /// For each handler, the first start of its tries.
    starts: Vec<u32>,
    /// The tries with a position inside, each with its handler.
    tries: Vec<(u32, u32)>,
    /// The levels, and all positions.
    left: [Left; 2],
}

impl Ground {
    fn of(lines: &[Line], code: &[Ins], tries: &[(usize, usize)], registers: usize) -> Ground {
        let n = code.len();
        let tries: Vec<(u32, u32)> = tries.iter().map(|&(s, h)| (s.min(n) as u32, h.min(n) as u32)).collect();
        let mut starts = vec![NONE; n + 1];
        for &(s, h) in &tries { starts[h as usize] = s.min(starts[h as usize]) }
        let mut lowest: Vec<u32> = (0..=n as u32).collect();
        for (k, _) in code.iter().enumerate().filter(|(_, i)| rows::stranded(i)) { lowest[k + 1] = k as u32 }
        for (low, &s) in lowest.iter_mut().zip(&starts).filter(|(_, s)| **s != NONE) { *low = (*low).min(s + 1) }
        let each = || lines.iter().zip(0..);
        let level = |l: &Line| l.level.as_ref().map_or((NONE, NONE), |v| (v.resume.min(n) as u32, v.result.map_or(NONE, u32::from)));
        Ground {
            before: Lists::of(n + 1, || each().flat_map(|(l, k)| l.after.iter().map(move |&j| (j, k)))),
            used: Lists::of(registers, || each().flat_map(|(l, k)| l.used.iter().map(move |&r| (r.into(), k)))),
            given_up: Lists::of(registers, || each().flat_map(|(l, k)| l.given_up.iter().map(move |&r| (r.into(), k)))),
            lowest, starts, tries, levels: lines.iter().map(level).collect(), left: [Left::of(n, |k| lines[k].level.is_some()), Left::of(n, |_| true)],
        }
    }
}

/// The ways to the uses of one register, with as few leaves as may be, and at levels if it may be: a reader believes first that a call raises.
pub(crate) struct Ways {
    ground: Ground,
    /// Where the steps from each position end: there the register is used, or the way leaves.
    end: Vec<u32>,
    /// Where it leaves for; none where the register is used.
    to: Vec<u32>,
    /// How often the way from each position leaves.
    many: Vec<u32>,
    /// Those with a way, in the order in which it is found, and those of them that one may leave for.
    next: Vec<u32>,
    ready: Vec<u32>,
    /// Of the levels and of all positions, those without a way.
    left: [Left; 2],
    /// The register that each position gives up, of those looked for, and one.
    gives: Vec<u32>,
    /// For each level the handler by which it raises itself.
    own: Vec<u32>,
    /// Among the leaves that are told, that of each position; and by their first leave, the groups of levels.
    steps: Vec<u32>,
    groups: Vec<u32>,
}

impl Ways {
    pub fn of(lines: &[Line], code: &[Ins], tries: &[(usize, usize)], registers: usize) -> Ways {
        let ground = Ground::of(lines, code, tries, registers);
        let none = || vec![NONE; lines.len()];
        let left = ground.left.clone();
        Ways {
            ground, end: none(), to: none(), many: none(), next: vec![], ready: vec![], left, gives: vec![0; lines.len()], own: none(), steps: none(),
            groups: vec![NONE; 2 * lines.len() + 1],
        }
    }

    /// Finds the ways of a register.
    pub fn look(&mut self, r: u16) {
        for of in [&mut self.end, &mut self.to, &mut self.own, &mut self.steps, &mut self.groups] { of.fill(NONE) }
        (0..2).for_each(|which| self.left[which].0.copy_from_slice(&self.ground.left[which].0));
        self.next.clear();
        self.ready.clear();
        for &k in self.ground.given_up.at(r.into()) { self.gives[k as usize] = u32::from(r) + 1 }
        for at in 0..self.ground.used.at(r.into()).len() { let k = self.ground.used.at(r.into())[at]; self.settle(k, k) }
        self.search(r);
        self.raise();
    }

    /// Steps back as far as may be, then leaves at levels, then anywhere, and so on.
    fn search(&mut self, r: u16) {
        let (mut looked, mut done) = (0, [0, 0]);
        loop {
            looked = self.step_back(looked, r);
            let ready = self.ready.len();
            for (which, done) in done.iter_mut().enumerate() {
                if looked < self.next.len() { break }
                self.leave(which, *done, ready);
                *done = ready;
            }
            if looked == self.next.len() { return }
        }
    }

    fn settle(&mut self, k: u32, end: u32) {
        let at = k as usize;
        if self.end[at] != NONE { return }
        self.end[at] = end;
        let to = self.to[end as usize];
        self.many[at] = if to == NONE { 0 } else { self.many[to as usize] + 1 };
        self.next.push(k);
        if self.ground.lowest[at] < k { self.ready.push(k) }
        for left in &mut self.left { left.without(k) }
    }

    /// Finds all that step to a position with a way, and do not give up the register.
    fn step_back(&mut self, mut looked: usize, r: u16) -> usize {
        while let Some(&j) = self.next.get(looked) {
            looked += 1;
            let end = self.end[j as usize];
            for at in 0..self.ground.before.at(j as usize).len() {
                let k = self.ground.before.at(j as usize)[at];
                if self.gives[k as usize] != u32::from(r) + 1 { self.settle(k, end) }
            }
        }
        looked
    }

    /// Finds those that may leave for what is ready, the innermost handlers first.
    fn leave(&mut self, which: usize, from: usize, until: usize) {
        let mut ready = self.ready[from..until].to_vec();
        ready.sort_unstable();
        for j in ready {
            let mut k = self.left[which].first(self.ground.lowest[j as usize]);
            while k < j {
                self.to[k as usize] = j;
                self.settle(k, k);
                k = self.left[which].first(k);
            }
        }
    }

    /// Finds for each level inside a try the handler from which the fewest leaves are left, of several the first.
    fn raise(&mut self) {
        let ways = self.ground.tries.iter().zip(0..).filter(|&(&(s, h), _)| s + 1 < h && self.end[h as usize] != NONE);
        let mut ways: Vec<(u32, u32)> = ways.map(|(&(_, h), i)| (self.many[h as usize], i)).collect();
        ways.sort_unstable();
        let mut left = self.ground.left[0].clone();
        for (_, i) in ways {
            let (s, h) = self.ground.tries[i as usize];
            let mut k = left.first(s + 1);
            while k < h {
                self.own[k as usize] = h;
                left.without(k);
                k = left.first(k);
            }
        }
    }

    /// Where the way from a level first leaves: after it goes on, or by raising itself if that has fewer leaves, or as many and begins at a level.
    pub fn first(&self, k: u32, r: u16) -> Option<(u32, u32)> {
        let (resume, result) = self.ground.levels[k as usize];
        let own = Some((k, self.own[k as usize])).filter(|own| own.1 != NONE);
        let end = if result == u32::from(r) { NONE } else { self.end[resume as usize] };
        if end == NONE || self.to[end as usize] == NONE { return own }
        let on = (end, self.to[end as usize]);
        let key = |(at, to): (u32, u32)| (self.many[to as usize], self.ground.levels[at as usize].0 == NONE);
        own.filter(|&own| key(own) < key(on)).or(Some(on))
    }

    /// The group of the levels whose ways first leave there, which is `new` if there is none yet.
    pub fn group(&mut self, first: Option<(u32, u32)>, new: u32) -> u32 {
        // From a position a way leaves as it does for all that step to it, or the level there raises itself.
        let place = first.map_or(self.groups.len() - 1, |(at, to)| 2 * at as usize + usize::from(self.to[at as usize] != to));
        if self.groups[place] == NONE { self.groups[place] = new }
        self.groups[place]
    }

    /// The number of a leave among those that are told, with all that come after it.
    pub fn step(&mut self, at: u32, to: u32, steps: &mut Vec<Step>) -> u32 {
        let (mut way, mut at, mut to) = (vec![], at, to);
        let (mut next, read) = loop {
            let known = self.steps[at as usize];
            if known != NONE && self.to[at as usize] == to { break (known, NONE) }
            way.push((at, to));
            at = self.end[to as usize];
            to = if at == NONE { NONE } else { self.to[at as usize] };
            if to == NONE { break (NONE, at) }
        };
        for (at, to) in way.into_iter().rev() {
            let (later, end) = match steps.get(next as usize) {
                None => (0, read),
                Some(s) => (s.later + 1, if s.later == 0 { next } else { s.end }),
            };
            let leave = Leave { at, to, raises: self.ground.starts[to as usize] < at };
            steps.push(Step { leave, next, later, end });
            next = steps.len() as u32 - 1;
            if self.to[at as usize] == to { self.steps[at as usize] = next }
        }
        next
    }
}
