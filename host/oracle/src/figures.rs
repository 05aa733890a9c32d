//! Questions about figures: bodies with their answers from the model's kept registers, some of them spoilt, and reports of any size.

use crate::{model::{self, rows}, question::*, rng::Rng};

/// A body to be added to a report.
pub fn ask(rng: &mut Rng, words: Vec<u16>, regs: usize) -> Question {
    let n = words.len() / 6;
    let lists = model::code::code(&words).map_or(vec![vec![]; n], |code| rows::kept(&code, &rows::rows(&code, regs, 64, false), &[], false));
    let mut offsets: Vec<u32> = std::iter::once(0).chain(lists.iter().scan(0, |at, l| { *at += l.len() as u32; Some(*at) })).collect();
    let mut list = lists.concat();
    match rng.below(24) {
        0 => { let k = rng.below(n + 1); offsets[k] = offsets[k].wrapping_add(rng.pick(&[1, 2, u32::MAX, 1 << 31])) }
        1 => { let k = rng.below(n + 1); offsets[k..].iter_mut().for_each(|o| *o += 1); list.push(9) }
        2 => { let cut = rng.below(n + 1); offsets.truncate(cut) }
        3 => list.push(7),
        4 => { list.pop(); }
        5..8 => offsets.extend([9, 0, u32::MAX]),
        _ => {}
    }
    Question::of(FiguresAdd, [("code", Arg::U16(words)), ("offsets", Arg::U32(offsets)), ("list", Arg::U16(list)), ("report", Arg::U64(report(rng)))])
}

/// A report: of no body, of some, of many, or of no group at all.
fn report(rng: &mut Rng) -> Vec<u64> {
    let mut some = |most: usize| rng.below(most) as u64;
    let (bodies, levels, longest) = (1 + some(30), some(90), some(8));
    let mut report = vec![bodies, levels, some(200), longest, u64::from(levels > 0), some(bodies as usize), some(40)];
    match rng.below(10) {
        0..3 => report.fill(0),
        3 => report[3..].fill(0),
        4 => { let k = rng.below(7); report[k] = u64::MAX - rng.below(3) as u64 }
        5 => report[rng.below(7)] = rng.word(),
        6 => report[rng.below(3)] = u64::MAX - rng.below(40) as u64,
        _ => {}
    }
    report
}

pub fn random_join(rng: &mut Rng) -> Question {
    let (later, report) = (report(rng), report(rng));
    Question::of(FiguresJoin, [("later", Arg::U64(later)), ("report", Arg::U64(report))])
}

/// Every pair of groups with and without levels, lists shorter, as long and longer; and every total at its edge.
pub fn systematic_join(take: &mut dyn FnMut(Question)) {
    let join = |later: [u64; 7], report: [u64; 7]| [("later", Arg::U64(later.to_vec())), ("report", Arg::U64(report.to_vec()))];
    let mut join = |later, report| take(Question::of(FiguresJoin, join(later, report)));
    for (a, b, found, longest) in (0..2).flat_map(|a| (0..2).flat_map(move |b| (0..9).flat_map(move |f| (0..9).map(move |l| (a, b, f, l))))) {
        join([a, 2, 3, longest % 3, found % 3, 5, 6], [b, 20, 30, longest / 3, found / 3, 50, 60]);
    }
    for k in [0, 1, 2, 5] {
        for (a, b) in [(0, u64::MAX), (1, u64::MAX), (u64::MAX, 0), (u64::MAX, 1), (1 << 63, (1 << 63) - 1), (1 << 63, 1 << 63)] {
            let (mut later, mut report) = ([1, 1, 1, 1, 1, 0, 0], [1, 1, 1, 1, 1, 0, 0]);
            later[k] = a;
            report[if k == 5 { 0 } else { k }] = b;
            join(later, report);
        }
    }
}
