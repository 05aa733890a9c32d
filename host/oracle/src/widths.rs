//! What must hold of a reply, whoever gave it. Of a kept-register call: the call of the other width tells the same lists, and there are no more
//! sweeps than the host is told before the call. Of `needed`: the rows say the same. Of `kept_raising`: its lists hold those of `kept`, and are
//! those where no try is lent and no mark stands amiss.

use crate::{asked::{Ask, shown}, model::{code, rows}, question::*};
use turniploom::most_sweeps;

/// The question to the call of the other width, with rows as long as that needs if the question's own are.
fn other(q: &Question) -> Question {
    let call = if q.call == Kept { Kept32 } else { Kept };
    let ends = q.u16("code").len() / 6 + 1;
    let needed = |call: Call| ends * rows::words(q.n("regs").min(1_024) as usize, call.row_bits());
    let length = if q.arg("rows").numbers()[0] as usize >= needed(q.call) { needed(call) } else { 0 };
    let rows = if call == Kept32 { Arg::U32(vec![0; length]) } else { Arg::U64(vec![0; length]) };
    let args = q.call.params().iter().zip(&q.args).map(|(p, arg)| if p.name == "rows" { rows.clone() } else { arg.clone() });
    Question { call, args: args.collect() }
}

/// All that does not hang on the width: the refusal, the list's length, the offsets and the list. How long rows must be does.
fn lists(reply: &Reply) -> (u8, u64, u64, &[Arg]) {
    let a = &reply.answer;
    let needed = if a.refusal == 5 && a.first != 1 { a.second } else { 0 };
    (a.refusal, a.first, needed, &reply.lent.buffers[1..])
}

/// The forced wide route's row at the position, if it says otherwise of the register. The list has no room, so the call stops once the rows are found.
fn unlike_row(q: &Question, reply: &Reply, ask: Ask) -> Option<(&'static str, String)> {
    if reply.answer.refusal != 0 { return None }
    let (ends, words) = (q.u16("code").len() / 6 + 1, rows::words(q.n("regs") as usize, 64));
    let mut kept = ask(&Question::of(Kept, [
        ("code", q.arg("code").clone()), ("regs", q.arg("regs").clone()), ("wide", Arg::N(1)),
        ("rows", Arg::U64(vec![0; ends * words])), ("offsets", Arg::U32(vec![0; ends])),
    ]));
    let (k, r) = (q.n("at") as usize, q.n("r") as usize);
    let bit = kept.lent.u64("rows")[k * words..][..words].get(r / 64).map_or(0, |w| w >> (r % 64) & 1);
    (bit != reply.answer.first).then(|| ("the row", format!("{bit} in the row of {k}")))
}

/// The lists of a reply, position by position.
fn by_position(reply: &mut Reply) -> Vec<Vec<u16>> {
    let (offsets, list) = (reply.lent.u32("offsets").clone(), reply.lent.u16("list").clone());
    offsets.windows(2).map(|o| list.get(o[0] as usize..o[1] as usize).unwrap_or_default().to_vec()).collect()
}

/// The lists of `kept`, if some register of theirs is not in the raising ones; or, where nothing can raise and no mark stands amiss, if they differ.
fn unlike_plain(q: &Question, reply: &Reply, ask: Ask) -> Option<(&'static str, String)> {
    if reply.answer.refusal != 0 { return None }
    let lent = ["code", "regs", "tries", "rows", "offsets", "list"].map(|name| (name, q.arg(name).clone()));
    let (mut plain, n) = (ask(&Question::of(Kept, lent)), q.u16("code").len() / 6);
    let (theirs, mine) = (by_position(&mut plain), by_position(&mut reply.clone()));
    let within = |k: usize| theirs[k].iter().all(|r| mine[k].contains(r));
    let alike = q.u32("tries").is_empty() && code::code(q.u16("code")).is_ok_and(|code| !code.iter().any(rows::stranded));
    let held = plain.answer.refusal == 0 && (0..n).all(|k| if alike { theirs[k] == mine[k] } else { within(k) });
    (!held).then(|| ("the plain lists", shown(&plain)))
}

/// Who says otherwise, and what.
pub fn broken(q: &Question, reply: &Reply, ask: Ask) -> Option<(&'static str, String)> {
    if q.call == Needed { return unlike_row(q, reply, ask) }
    if q.call == KeptRaising { return unlike_plain(q, reply, ask) }
    if !q.call.keeps() { return None }
    let other = ask(&other(q));
    if lists(&other) != lists(reply) { return Some(("the other width", shown(&other))) }
    let words = q.u16("code");
    let (most, counted) = (most_sweeps(words).ok(), code::code(words).ok().map(|code| rows::jumps_back(&code) as u64 + 2));
    if most != counted { return Some(("the bound", format!("{most:?}, and the model counts {counted:?}"))) }
    let within = |r: &Reply| r.answer.refusal != 0 || Some(r.answer.second) <= most && r.answer.third <= 1;
    let over = [reply, &other].into_iter().find(|r| !within(r))?;
    Some(("the bound", format!("at most {} full sweeps and 1 abandoned, not {} and {}", most?, over.answer.second, over.answer.third)))
}
