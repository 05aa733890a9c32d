//! A month of scripts in figures: a plain loop over the levels of all bodies. A report is bodies, levels, kept registers, the longest list,
//! whether there is a level, and body and position of the first list so long.

use super::{code::{Checked, No, holds, room}, rows};
use turniploom::Ins;

/// Refusal 13.
fn total(a: u64, b: u64, which: u64) -> Checked<u64> { a.checked_add(b).ok_or(No(13, which, 0)) }

/// The levels of a body with the lengths of their lists, by offsets that keep their rules: refusals 5 and 15.
fn lists(code: &[Ins], offsets: &[u32], list: usize) -> Checked<Vec<(u64, u64)>> {
    let n = code.len();
    room(1, offsets.len(), n + 1)?;
    let wrong = |&k: &usize| {
        let here = offsets[k];
        let on = match code.get(k) {
            None => here as usize == list,
            Some(i) => here == offsets[k + 1] || here < offsets[k + 1] && rows::level(i),
        };
        !on || k == 0 && here != 0
    };
    let wrong = (0..=n).find(wrong);
    holds(wrong.is_none(), No(15, wrong.unwrap_or(0) as u64, 0))?;
    Ok((0..n).filter(|&k| rows::level(&code[k])).map(|k| (k as u64, u64::from(offsets[k + 1] - offsets[k]))).collect())
}

/// A body more.
pub fn add(code: &[Ins], offsets: &[u32], list: usize, report: &mut [u64]) -> Checked<[u64; 4]> {
    let lists = lists(code, offsets, list)?;
    let (levels, kept) = (lists.len() as u64, lists.iter().map(|l| l.1).sum());
    let body = report[0];
    let totals = [total(body, 1, 1)?, total(report[1], levels, 2)?, total(report[2], kept, 3)?];
    report[..3].copy_from_slice(&totals);
    report[4] = report[4].min(1);
    for (at, length) in lists { if report[4] == 0 || length > report[3] { report[3..].copy_from_slice(&[length, 1, body, at]) } }
    Ok([levels, kept, report[2], report[1]])
}

/// A later group more.
pub fn join(later: &[u64], report: &mut [u64]) -> Checked<[u64; 4]> {
    let (bodies, levels, kept) = (total(report[0], later[0], 1)?, total(report[1], later[1], 2)?, total(report[2], later[2], 3)?);
    let body = total(report[0], later[5], 4)?;
    if later[4] != 0 && (report[4] == 0 || later[3] > report[3]) { report[3..].copy_from_slice(&[later[3], 1, body, later[6]]) }
    report[4] = report[4].min(1);
    report[..3].copy_from_slice(&[bodies, levels, kept]);
    Ok([0, 0, kept, levels])
}
