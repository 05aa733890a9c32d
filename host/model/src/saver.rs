//! The frame saver: its words, and what each call makes of them.

use super::{code::{Checked, No, holds}, question::*};

/// The words of the save area.
pub const AREA: u64 = 4_096;

/// Refusal 3 of a saver: more registers than its file has.
fn registers(regs: u64) -> Checked<u64> { holds(regs <= 64, No(3, regs, 0)).map(|()| regs) }

/// What a call leaves of the words that it is lent, and the words then in use.
pub fn answer(q: &Question, lent: &mut Lent) -> Checked<u64> {
    let value = match q.call {
        SaverReturn => Some(q.n("value")),
        _ => None,
    };
    match &mut lent.buffers[..] {
        [Arg::U64(head)] => make(head, q.n("regs")),
        [Arg::U64(head), Arg::U64(area)] if q.call == SaverEnter => enter(head, area, q.u64("file"), q.u16("list"), q.n("result")),
        [Arg::U64(head), Arg::U64(file)] => leave(head, q.u64("area"), file, value),
        _ => unreachable!("it is no call of the saver"),
    }
}

pub fn make(head: &mut [u64], regs: u64) -> Checked<u64> {
    head.copy_from_slice(&[registers(regs)?, 0]);
    Ok(0)
}

/// An entry: number and value of each listed register, the list's length, the result register.
pub fn enter(head: &mut [u64], area: &mut [u64], file: &[u64], list: &[u16], result: u64) -> Checked<u64> {
    let (regs, used) = (registers(head[0])?, head[1]);
    let strange = (0..list.len()).find(|&i| u64::from(list[i]) >= regs || list[..i].contains(&list[i]));
    holds(strange.is_none(), No(14, strange.unwrap_or(0) as u64, 0))?;
    let entry: Vec<u64> = list.iter().flat_map(|&r| [r.into(), file[r as usize]]).chain([list.len() as u64, result]).collect();
    let free = AREA.saturating_sub(used);
    holds(free >= entry.len() as u64, No(8, free, 0))?;
    area[used as usize..][..entry.len()].copy_from_slice(&entry);
    head[1] = used + entry.len() as u64;
    Ok(head[1])
}

/// The newest entry put back, then the value, if there is one and a register for it.
pub fn leave(head: &mut [u64], area: &[u64], file: &mut [u64], value: Option<u64>) -> Checked<u64> {
    let regs = registers(head[0])?;
    let newest = || {
        let [pairs @ .., length, result] = area.get(..usize::try_from(head[1]).ok()?)? else { return None };
        let base = pairs.len().checked_sub(usize::try_from(*length).ok()?.checked_mul(2)?)?;
        Some((base, &pairs[base..], *result))
    };
    let (base, pairs, result) = newest().ok_or(No(9, 0, 0))?;
    let written = pairs.chunks(2).map(|p| (p[0], p[1])).chain(value.map(|v| (result, v)));
    for (r, v) in written.filter(|&(r, _)| r < regs) { file[r as usize] = v }
    head[1] = base as u64;
    Ok(head[1])
}
