//! The listing as text.

use crate::{body::{self, Level, put_registers}, chunk, lanes, notation::was, out::Out, put};
use std::fmt::Write;

/// The widest picture.
const WIDEST: usize = 96;

/// Pads to a width in letters.
fn pad(text: &str, width: usize) -> String { text.to_string() + &" ".repeat(width.saturating_sub(text.chars().count())) }

fn widest<'a>(texts: impl Iterator<Item = &'a str>) -> usize { texts.map(|t| t.chars().count()).max().unwrap_or(0) }

/// The numbers of the columns, written downwards.
pub fn numbers(columns: &[u16]) -> Vec<String> {
    let width = columns.iter().max().map_or(1, |r| r.to_string().len());
    let digits: Vec<String> = columns.iter().map(|r| format!("{r:>width$}")).collect();
    (0..width).map(|d| digits.iter().map(|t| t.as_bytes()[d] as char).collect()).collect()
}

/// A set as a line of marks: blank where it was not looked for.
pub fn picture(view: &body::View, k: usize) -> String { let mut out = String::new(); put_picture(view, k, &mut out); out }

/// Writes the same. Rows and columns ascend, so they are gone through side by side.
fn put_picture(view: &body::View, k: usize, out: &mut String) {
    let mut row = view.lines[k].row.iter().copied().peekable();
    for &r in &view.columns {
        while row.next_if(|&x| x < r).is_some() {}
        out.push(if k < view.start { ' ' } else if row.next_if_eq(&r).is_none() { '·' } else if view.unread.contains(&r) { '○' } else { '●' });
    }
}

/// What a level keeps as a line of marks: `▲` for the resume point, `△` for a handler; and `▽` for what is exposed.
pub fn kept_picture(view: &body::View, level: &Level) -> String { let mut out = String::new(); put_kept_picture(view, level, &mut out); out }

/// Writes the same.
fn put_kept_picture(view: &body::View, level: &Level, out: &mut String) {
    // With as many columns as the last one's number says, a register stands in the column of its number.
    let plain = view.columns.last().is_some_and(|&r| usize::from(r) + 1 == view.columns.len());
    let mut marks = vec!['·'; view.columns.len()];
    let mut mark = |of: &[u16], mark: char| for r in of {
        let column = if plain { Some((*r).into()) } else { view.columns.binary_search(r).ok() };
        if let Some(c) = column.and_then(|c: usize| marks.get_mut(c)) { *c = mark }
    };
    for part in &level.kept { mark(&part.registers, if part.handler.is_some() { '△' } else { '▲' }) }
    mark(&level.exposed, '▽');
    out.extend(marks);
}

/// Writes a comment as its writer wrote it, after what is known if anything is.
fn put_comment(known: bool, comment: &str, out: &mut String) {
    if comment.is_empty() { return }
    out.push_str(if known { "  # " } else { "# " });
    out.push_str(comment);
}

/// The columns of the listing of a body.
struct Columns {
    drawn: bool,
    /// The widths of a position, of the lanes, of the three texts and of the picture.
    place: usize,
    lanes: usize,
    texts: [usize; 3],
    picture: usize,
}

impl Columns {
    fn of(view: &body::View, lanes: usize) -> Columns {
        let (drawn, mut texts, mut told) = (view.columns.len() <= WIDEST, HEADS.map(str::len), String::new());
        for l in &view.lines {
            texts[0] = texts[0].max(l.text.chars().count());
            for (width, set) in texts[1..].iter_mut().zip([&l.used, &l.given_up]) {
                told.clear();
                put_registers(&mut told, set);
                *width = told.len().max(*width);
            }
        }
        Columns { drawn, place: view.lines.len().to_string().len(), lanes, texts, picture: if drawn { view.columns.len().max("row".len()) } else { 0 } }
    }

    /// A line, its cells written by others: nothing stands at its end that can't be seen.
    fn line(&self, k: Option<usize>, gutter: &str, cells: [&dyn Fn(&mut String); 3], row: &dyn Fn(&mut String), note: &dyn Fn(&mut String), out: &mut Out) {
        let from = out.len();
        if let Some(k) = k {
            let width = k.checked_ilog10().unwrap_or(0) as usize + 1;
            fill(out, self.place.saturating_sub(width));
            put(out, k as u32);
        } else { fill(out, self.place) }
        out.push(' ');
        padded(out, self.lanes, &|out| out.push_str(gutter));
        if self.lanes > 0 { out.push(' ') }
        for (cell, width) in cells.iter().zip(self.texts) {
            padded(out, width, cell);
            out.push_str("  ");
        }
        padded(out, self.picture, row);
        out.push_str("  ");
        note(out);
        let end = from + out[from..].trim_end().len();
        out.truncate(end);
        out.push('\n');
        out.pass();
    }
}

/// Writes so many blanks.
fn fill(out: &mut String, many: usize) { for _ in 0..many { out.push(' ') } }

/// Writes a cell of a width in letters.
fn padded(out: &mut String, width: usize, cell: &dyn Fn(&mut String)) {
    let from = out.len();
    cell(out);
    let letters = out[from..].chars().count();
    fill(out, width.saturating_sub(letters));
}

const HEADS: [&str; 3] = ["instruction", "uses", "gives up"];

/// The listing of a body.
pub fn body(view: &body::View) -> String { let mut out = Out::default(); put_body(view, &mut out); out.text() }

/// Writes it.
pub fn put_body(view: &body::View, out: &mut Out) {
    let lanes = lanes::of(view.lines.len() - 1, &view.tries);
    let columns = Columns::of(view, lanes.many());
    let none: &dyn Fn(&mut String) = &|_| {};
    let heads: [&dyn Fn(&mut String); 3] = [&|out| out.push_str(HEADS[0]), &|out| out.push_str(HEADS[1]), &|out| out.push_str(HEADS[2])];
    if columns.drawn {
        let numbers = numbers(&view.columns);
        let (last, above) = numbers.split_last().expect("a line of numbers");
        for n in above { columns.line(None, "", [none; 3], &|out| out.push_str(n), none, out) }
        columns.line(None, "", heads, &|out| out.push_str(last), none, out);
    } else {
        columns.line(None, "", heads, none, &|out| out.push_str("row"), out);
    }
    for (k, l) in view.lines.iter().enumerate() {
        put_line(view, k, &columns, &lanes.gutter(k, false), out);
        let Some(v) = &l.level else { continue };
        let row = |out: &mut String| if columns.drawn { put_kept_picture(view, v, out) };
        columns.line(None, &lanes.gutter(k, true), [&|out| out.push_str("  keeps"), none, none], &row, &|out| v.put_lists(out), out);
    }
    out.push('\n');
    if columns.drawn && !view.columns.is_empty() { writeln!(out, "{}", legend(view)).unwrap() }
    view.put_warnings("", "\n", out);
    for remark in &view.remarks { writeln!(out, "{remark}").unwrap() }
}

/// Writes the line of a position.
fn put_line(view: &body::View, k: usize, columns: &Columns, gutter: &str, out: &mut Out) {
    let l = &view.lines[k];
    let row = |out: &mut String| if columns.drawn { put_picture(view, k, out) };
    let note = |out: &mut String| {
        let from = out.len();
        if !columns.drawn && k >= view.start { out.push('['); put_registers(out, &l.row); out.push(']') }
        if let Some(v) = &l.level {
            if out.len() > from { out.push_str("; ") }
            v.put_says(out);
        }
        for note in &l.notes {
            if out.len() > from { out.push_str("; ") }
            out.push_str(note);
        }
        put_comment(out.len() > from, &l.comment, out);
    };
    columns.line(Some(k), gutter, [&|out| out.push_str(&l.text), &|out| put_registers(out, &l.used), &|out| put_registers(out, &l.given_up)], &row, &note, out);
}

/// The levels alone: where each stands, where it resumes, and what it keeps.
pub fn levels(view: &body::View) -> String { let mut out = Out::default(); put_levels(view, &mut out); out.text() }

/// Writes them.
pub fn put_levels(view: &body::View, out: &mut Out) {
    let place = view.lines.len().to_string().len();
    let levels = || view.lines.iter().enumerate().filter_map(|(k, l)| Some((k, l, l.level.as_ref()?)));
    let width = widest(levels().map(|(_, l, _)| l.text.as_str()));
    for (k, l, v) in levels() {
        write!(out, "{k:>place$} ").unwrap();
        padded(out, width, &|out| out.push_str(&l.text));
        out.push_str("  keeps ");
        v.put_lists(out);
        out.push('\n');
        out.pass();
    }
    if levels().next().is_none() { out.push_str("No level: no call has anything to keep.\n") }
    view.put_warnings("", "\n", out);
}

fn legend(view: &body::View) -> String {
    let parts = || view.lines.iter().flat_map(|l| &l.level).flat_map(|v| &v.kept);
    let mut text = String::from("● needed before the instruction");
    if !view.unread.is_empty() && view.lines.iter().any(|l| l.row.iter().any(|r| view.unread.contains(r))) { text += ", ○ needed and never read on that day" }
    if parts().any(|p| p.handler.is_none()) { text += ", ▲ kept for the resume point" }
    if parts().any(|p| p.handler.is_some() && !p.registers.is_empty()) { text += ", △ kept for a handler" }
    if !view.exposed.is_empty() { text += ", ▽ exposed: not kept, though a later exception may need it" }
    text + "."
}

pub fn chunk(view: &chunk::View) -> String {
    let place = view.before.len().to_string().len();
    let before: Vec<String> = view.before.iter().enumerate().map(|(k, l)| format!("{k:>place$} {}", l.text)).collect();
    let after = |l: &chunk::Line| l.after.as_ref().map_or(String::new(), |(k, text)| format!("{k:>place$} {text}{}", was(l.was, *k)));
    let after: Vec<String> = view.before.iter().map(after).collect();
    let (left, right) = (widest(before.iter().map(String::as_str)).max("before".len() + place + 1), widest(after.iter().map(String::as_str))
        .max("after".len() + place + 1));
    let mut out = String::new();
    let mut line = |a: &str, mark: char, b: &str, note: &str| writeln!(out, "{}", format!("{}  {mark}  {}  {note}", pad(a, left), pad(b, right))
        .trim_end()).unwrap();
    let indent = " ".repeat(place + 1);
    line(&format!("{indent}before"), ' ', &format!("{indent}after"), "");
    for (k, l) in view.before.iter().enumerate() {
        let mark = match (&l.after, l.into) {
            (Some(_), _) => '→',
            (_, Some(_)) => '┘',
            _ => '×',
        };
        let mut note = l.notes.join("; ");
        put_comment(!note.is_empty(), &l.comment, &mut note);
        line(&before[k], mark, &after[k], &note);
    }
    out.push('\n');
    for remark in &view.remarks { writeln!(out, "{remark}").unwrap() }
    write!(out, "\nAs it ships, folded and cleared:\n\n{}", view.ships).unwrap();
    out
}
