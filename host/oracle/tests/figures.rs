//! Random months: what the port reports, body by body or group by group, is what one plain loop over all levels finds.

use oracle::{bodies::body, model::rows, question::Kept, rng::Rng};
use turniploom::{Figures, Ins, kept};

/// The report of a month, by a loop over every level of every body.
fn plain(month: &[(Vec<Ins>, usize)]) -> [u64; 7] {
    let mut report = [month.len() as u64, 0, 0, 0, 0, 0, 0];
    for (b, (code, regs)) in month.iter().enumerate() {
        let lists = rows::kept(code, &rows::rows(code, *regs, 64, false), &[], false);
        for k in (0..code.len()).filter(|&k| rows::level(&code[k])) {
            let length = lists[k].len() as u64;
            report[1] += 1;
            report[2] += length;
            if report[4] == 0 || length > report[3] { report[3..].copy_from_slice(&[length, 1, b as u64, k as u64]) }
        }
    }
    report
}

#[test]
fn a_month_is_the_loop_over_its_levels() {
    let mut rng = Rng::new(12, 0);
    for _ in 0..400 {
        let size = rng.below(12);
        let month: Vec<(Vec<Ins>, usize)> = (0..size).map(|_| { let regs = rng.pick(&[1, 4, 9, 70]); (body(&mut rng, Kept, regs), regs) }).collect();
        let due = plain(&month);
        let each: Vec<Figures> = month.iter().map(|(code, regs)| Figures::of(code, &kept(code, *regs, &[], false).unwrap()).unwrap()).collect();
        let mut added = Figures::default();
        for (code, regs) in &month { added.add(code, &kept(code, *regs, &[], false).unwrap()).unwrap(); }
        assert_eq!(added.words(), due);
        let (a, b) = (rng.below(size + 1), rng.below(size + 1));
        let groups = [&each[..a.min(b)], &each[a.min(b)..a.max(b)], &each[a.max(b)..]];
        let joined: Figures = groups.iter().map(|g| g.iter().copied().collect::<Figures>()).collect();
        assert_eq!(joined.words(), due);
    }
}
