//! Whoever is asked, and a question and a reply as a line.

use crate::question::*;

/// Asks one of the three.
pub type Ask = fn(&Question) -> Reply;

/// The first words of a slice.
fn slice(arg: &Arg) -> String {
    let numbers = arg.numbers();
    let (words, more) = (&numbers[1..numbers.len().min(41)], numbers.len() > 41);
    format!("{words:?}{}", if more { format!(" of {}", numbers[0]) } else { String::new() })
}

/// A reply as a line.
pub fn shown(r: &Reply) -> String {
    let buffers: Vec<String> = r.lent.buffers.iter().map(slice).collect();
    format!("{:?} {}", r.values(), buffers.join(" "))
}

/// The call, its numbers and its tables, as a comment of the listing's notation.
pub fn described(q: &Question) -> String {
    let told = q.call.params().iter().zip(&q.args).filter(|(p, _)| p.name != "code").map(|(p, arg)| match arg {
        Arg::N(v) => format!(" {}={v}", p.name),
        _ => format!(" {}={}", p.name, slice(arg)),
    });
    format!("# {}{}\n", q.call.name(), told.collect::<String>())
}
