//! What differs between two bodies, or two chunks: instructions that came and went, rows and lists that changed, and what is exposed now.

use crate::{body::{Line, UNASKED, View, registers}, chunk, count, exposed::Exposed};
use std::{collections::BTreeSet, fmt::Write};

/// The most pairs of lines that are looked at for the longest common part.
const MOST: usize = 16_000_000;

/// Pairs of lines that are the same, in order: what both begin and end with, and the longest common part between.
fn common(old: &[String], new: &[String]) -> Vec<(usize, usize)> {
    let begin = old.iter().zip(new).take_while(|(a, b)| a == b).count();
    let end = old[begin..].iter().rev().zip(new[begin..].iter().rev()).take_while(|(a, b)| a == b).count();
    let (a, b) = (&old[begin..old.len() - end], &new[begin..new.len() - end]);
    let mut pairs: Vec<(usize, usize)> = (0..begin).map(|k| (k, k)).collect();
    if a.len() * b.len() <= MOST { pairs.extend(longest(a, b).into_iter().map(|(i, j)| (i + begin, j + begin))) }
    pairs.extend((0..end).map(|k| (old.len() - end + k, new.len() - end + k)));
    pairs
}

/// The longest common part.
fn longest(a: &[String], b: &[String]) -> Vec<(usize, usize)> {
    let mut best = vec![vec![0u32; b.len() + 1]; a.len() + 1];
    for i in (0..a.len()).rev() {
        for j in (0..b.len()).rev() { best[i][j] = if a[i] == b[j] { best[i + 1][j + 1] + 1 } else { best[i + 1][j].max(best[i][j + 1]) } }
    }
    let (mut i, mut j, mut pairs) = (0, 0, vec![]);
    while i < a.len() && j < b.len() {
        if a[i] == b[j] {
            pairs.push((i, j));
            (i, j) = (i + 1, j + 1);
        } else if best[i + 1][j] >= best[i][j + 1] { i += 1 } else { j += 1 }
    }
    pairs
}

/// An instruction by which lines are matched: where a jump goes does not count, since that moves.
fn key(line: &Line) -> String {
    let jumps = line.notes.iter().any(|n| n.starts_with("to "));
    let target = |w: &&str| !(jumps && (w.starts_with('a') && w.len() > 1 || w.parse::<u32>().is_ok()));
    line.text.split(' ').filter(target).collect::<Vec<_>>().join(" ")
}

/// What came into a set and what left it.
fn changed(old: &[u16], new: &[u16]) -> Option<String> {
    let without = |a: &[u16], b: &[u16]| a.iter().copied().filter(|r| !b.contains(r)).collect::<Vec<_>>();
    let (came, left) = (without(new, old), without(old, new));
    let told: Vec<String> = [("+", came), ("-", left)].iter().filter(|s| !s.1.is_empty()).map(|(sign, set)| format!("{sign} {}", registers(set))).collect();
    (!told.is_empty()).then(|| told.join("  "))
}

/// Goes through both texts, with what is the same in both.
fn walk(old: &[String], new: &[String], same: &mut dyn FnMut(usize, usize) -> Option<String>, text: &dyn Fn(bool, usize) -> String) -> (String, [usize; 3]) {
    let (mut out, mut i, mut j, mut counts) = (String::new(), 0, 0, [0; 3]);
    let ends = [(old.len(), new.len())];
    for (a, b) in common(old, new).into_iter().chain(ends) {
        for k in i..a { writeln!(out, "- {}", text(false, k)).unwrap() }
        for k in j..b { writeln!(out, "+ {}", text(true, k)).unwrap() }
        (counts[0], counts[1]) = (counts[0] + a - i, counts[1] + b - j);
        if a < old.len() && let Some(told) = same(a, b) {
            out += &told;
            counts[2] += 1;
        }
        (i, j) = (a + 1, b + 1);
    }
    (out, counts)
}

/// What differs between two bodies.
pub fn bodies(old: &View, new: &View) -> String {
    let keys = |v: &View| v.lines.iter().map(key).collect::<Vec<_>>();
    let kept = |l: &Line| l.level.as_ref().map(|v| v.registers());
    let exposed = |l: &Line| l.level.as_ref().map_or(vec![], |v| v.exposed.clone());
    let mut were = BTreeSet::new();
    let mut same = |a: usize, b: usize| {
        let (l, m) = (&old.lines[a], &new.lines[b]);
        let row = if a < old.start || b < new.start { None } else { changed(&l.row, &m.row) };
        let keeps = match (kept(l), kept(m)) {
            (Some(l), Some(m)) => changed(&l, &m).or((l != m).then(|| "in another order".into())),
            (Some(_), None) => Some("no longer a level".into()),
            (None, Some(m)) => Some(format!("now a level, keeps {}", if m.is_empty() { "nothing".into() } else { registers(&m) })),
            (None, None) => None,
        };
        were.extend(exposed(l).into_iter().map(|r| (b, r)));
        let exposed = changed(&exposed(l), &exposed(m));
        if row.is_none() && keeps.is_none() && exposed.is_none() { return None }
        let place = if a == b { a.to_string() } else { format!("{a}, now {b}") };
        let mut told = format!("  {place} {}\n", m.text);
        if let Some(row) = row { told += &format!("      row    {row}\n") }
        if let Some(keeps) = keeps { told += &format!("      keeps  {keeps}\n") }
        if let Some(exposed) = exposed { told += &format!("      exposed  {exposed}\n") }
        Some(told)
    };
    let text = |is_new: bool, k: usize| format!("{k} {}", if is_new { &new.lines[k].text } else { &old.lines[k].text });
    let (mut out, [gone, came, changed]) = walk(&keys(old), &keys(new), &mut same, &text);
    if old.heading != new.heading { out = format!("{}\n{}\n\n{out}", old.heading, new.heading) }
    let told = format!("{} gone, {} new, rows or lists changed at {}.\n", count(gone, "instruction"), count(came, "instruction"), count(changed, "other"));
    let told = if gone + came + changed == 0 { "Nothing differs: the same instructions, rows and lists.\n".into() } else { format!("\n{told}") };
    out + &told + &now(new, &were)
}

/// The warnings of what is exposed and was not.
fn now(new: &View, were: &BTreeSet<(usize, u16)>) -> String {
    let came = |e: Exposed| {
        let levels: Vec<u32> = e.levels.iter().copied().filter(|&k| !were.contains(&(k as usize, e.register))).collect();
        (!levels.is_empty()).then(|| format!("WARNING: {}.\n", e.at(&levels).says()))
    };
    let unasked = if new.unasked { format!("WARNING: {UNASKED}.\n") } else { String::new() };
    new.exposed.iter().filter_map(came).collect::<String>() + &unasked
}

/// What differs between two chunks as they ship. Where an instruction was does not count, since that moves.
pub fn chunks(old: &chunk::View, new: &chunk::View) -> String {
    let unnumbered = |l: &str| l.split_once(' ').filter(|(k, _)| k.parse::<u32>().is_ok()).map_or(l, |(_, rest)| rest).to_string();
    let lines = |v: &chunk::View| v.ships.unmoved().to_string().lines().map(unnumbered).collect::<Vec<_>>();
    let (a, b) = (lines(old), lines(new));
    let (out, [gone, came, _]) = walk(&a, &b, &mut |_, _| None, &|is_new, k| if is_new { b[k].clone() } else { a[k].clone() });
    if gone + came == 0 { return "Nothing differs in what ships.\n".into() }
    format!("{out}\nAs they ship: {} gone, {} new.\n", count(gone, "line"), count(came, "line"))
}
