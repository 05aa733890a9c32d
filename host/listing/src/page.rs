//! The listing as one self-contained page: for a wide screen and a phone, light and dark, on paper and read aloud.

use crate::{body::{self, Level, registers}, chunk, count, lanes, listed::Listed, notation::was, out::Out, text, whose, why};
use std::fmt::Write;

pub fn escaped(text: &str) -> String {
    let mut out = String::with_capacity(text.len());
    let mut plain = 0;
    for (k, c) in text.bytes().enumerate().filter(|(_, c)| matches!(c, b'&' | b'<' | b'>' | b'"')) {
        out.push_str(&text[plain..k]);
        plain = k + 1;
        out.push_str(match c { b'&' => "&amp;", b'<' => "&lt;", b'>' => "&gt;", _ => "&quot;" });
    }
    out.push_str(&text[plain..]);
    out
}

pub const STYLE: &str = include_str!("page.css");

/// The whole page around what it shows.
pub fn whole(title: &str, heading: &str, content: &str) -> String {
    let mut out = Out::default();
    put_whole(title, heading, &mut out, |out| out.push_str(content));
    out.text()
}

/// Writes it.
pub fn put_whole(title: &str, heading: &str, out: &mut Out, content: impl FnOnce(&mut Out)) {
    write!(
        out, "<!doctype html>\n<html lang=\"en\">\n<head>\n<meta charset=\"utf-8\">\n<meta name=\"viewport\" content=\"width=device-width, initial-scale=1\">\n\
        <meta name=\"color-scheme\" content=\"light dark\">\n<title>{0}</title>\n<style>\n{STYLE}</style>\n</head>\n<body>\n<main>\n<h1>{0}</h1>\n\
        <p class=\"heading\">{1}</p>\n", escaped(title), escaped(heading),
    ).unwrap();
    content(out);
    write!(out, "</main>\n<footer>{}</footer>\n</body>\n</html>\n", escaped(&whose::line())).unwrap();
}

fn name(file: &str) -> &str { file.rsplit('/').next().unwrap_or(file) }

/// Writes one page of all files: what they are, and each of them.
pub fn put_files(listed: &[Listed], out: &mut Out) {
    if let [one] = listed { return put_whole(name(&one.file), &heading(one), out, |out| shown(one, out)) }
    put_whole(&count(listed.len(), "file"), "Bodies and chunks, each below with all that is known of it.", out, |out| {
        out.push_str("<nav aria-label=\"files\">\n<ol>\n");
        for (k, l) in listed.iter().enumerate() { writeln!(out, "<li><a href=\"#f{k}\">{}</a>: {}</li>", escaped(&l.file), escaped(&heading(l))).unwrap() }
        out.push_str("</ol>\n</nav>\n");
        for (k, l) in listed.iter().enumerate() {
            write!(out, "<section id=\"f{k}\">\n<h2>{}</h2>\n<p class=\"heading\">{}</p>\n", escaped(&l.file), escaped(&heading(l))).unwrap();
            shown(l, out);
            out.push_str("</section>\n");
        }
    });
}

/// What a file is, and how many warnings it has.
fn heading(listed: &Listed) -> String {
    let Ok(of) = &listed.of else { return "not listed".into() };
    match of.warnings() {
        0 => of.heading().into(),
        many => format!("{}; {}", of.heading(), count(many, "warning")),
    }
}

fn shown(listed: &Listed, out: &mut Out) {
    match &listed.of {
        Ok(of) => of.put_table(out),
        Err(_) => writeln!(out, "<p class=\"warning\">{}</p>", escaped(listed.trouble().unwrap_or_default())).unwrap(),
    }
}

fn paragraphs(of: &[String]) -> String { of.iter().map(|r| format!("<p>{}</p>\n", escaped(r))).collect() }

/// The most registers that are drawn; more are told in words. With many registers or lines a row is one line of marks, else a cell for each.
const WIDEST: usize = 256;
const CELLS: usize = 12_000;
const COLUMNS: usize = 40;

/// How the registers of a body are drawn.
#[derive(Clone, Copy, PartialEq, Eq)]
enum Chart {
    Cells,
    Marks,
    Words,
}

/// The table of a body, with what is said below it.
pub fn body(view: &body::View) -> String { let mut out = Out::default(); put_body(view, &mut out); out.text() }

/// Writes it.
pub fn put_body(view: &body::View, out: &mut Out) {
    let columns = view.columns.len();
    let chart = if columns > WIDEST { Chart::Words } else if columns <= COLUMNS && columns * view.lines.len() <= CELLS { Chart::Cells } else { Chart::Marks };
    let lanes = lanes::of(view.lines.len() - 1, &view.tries);
    out.push_str("<div class=\"chart\" role=\"region\" aria-label=\"the chart\" tabindex=\"0\">\n<table class=\"body\">\n");
    write!(out, "<caption><span>Instructions with their levels, what each uses and gives up, and the registers needed before \
        it.</span></caption>\n<thead>\n{}</thead>\n<tbody>\n", head(view, chart, lanes.many())).unwrap();
    for (k, l) in view.lines.iter().enumerate() {
        let class = if l.level.is_some() { " class=\"level\"" } else { "" };
        write!(out, "<tr{class}><th scope=\"row\">{k}</th><td class=\"ins\">{}</td>{}", escaped(&l.text), bands(&lanes.gutter(k, false))).unwrap();
        write!(out, "<td class=\"note\">{}</td><td class=\"set\">{}</td><td class=\"set\">{}</td>", note(view, k, chart), registers(&l.used),
            registers(&l.given_up)).unwrap();
        match chart {
            Chart::Cells => for &r in &view.columns { out.push_str(&cell(view, k, r)) },
            Chart::Marks => write!(out, "<td class=\"marks\" aria-hidden=\"true\">{}</td>", marks(view, k)).unwrap(),
            Chart::Words => write!(out, "<td class=\"set\">{}</td>", if k < view.start { "not looked for".into() } else { registers(&l.row) }).unwrap(),
        }
        out.push_str("</tr>\n");
        out.pass();
    }
    out.push_str("</tbody>\n</table>\n</div>\n");
    if chart != Chart::Words && columns > 0 { out.push_str(&legend(view, chart)) }
    // A warning has no letter that a page escapes.
    view.put_warnings("<p class=\"warning\">", "</p>\n", out);
    out.push_str(&paragraphs(&view.remarks));
}

/// The head cells, those of the registers too.
fn head(view: &body::View, chart: Chart, lanes: usize) -> String {
    let mut out = String::from("<tr><th scope=\"col\">at</th><th scope=\"col\" class=\"ins\">instruction</th>");
    for _ in 0..lanes { out += "<th aria-hidden=\"true\"></th>" }
    out += "<th scope=\"col\">level, jumps, handlers</th><th scope=\"col\">uses</th><th scope=\"col\">gives up</th>";
    match chart {
        Chart::Cells => for r in &view.columns { write!(out, "<th scope=\"col\" class=\"reg\" aria-hidden=\"true\">{r}</th>").unwrap() },
        Chart::Marks => write!(out, "<th scope=\"col\" class=\"marks\" aria-hidden=\"true\">{}</th>", text::numbers(&view.columns).join("\n")).unwrap(),
        Chart::Words => out += "<th scope=\"col\">needed before it</th>",
    }
    out + "</tr>\n"
}

/// The lines of the tries beside a position.
fn bands(gutter: &str) -> String {
    let class = |c: char| match c {
        '┌' => "from",
        '│' => "in",
        '└' => "to",
        _ => "",
    };
    gutter.chars().map(|c| format!("<td class=\"band {}\" aria-hidden=\"true\"></td>", class(c))).collect()
}

/// What is said of a position: its level and what it keeps, its jumps, the writer's comment; and for who hears the page, its row.
fn note(view: &body::View, k: usize, chart: Chart) -> String {
    let l = &view.lines[k];
    let mut out = String::new();
    if let Some(v) = &l.level { write!(out, "<div>{}</div><div class=\"keeps\">keeps {}</div>", escaped(&v.says()), escaped(&v.keeps())).unwrap() }
    if let Some(exposed) = l.level.as_ref().and_then(Level::exposes) { write!(out, "<div class=\"warning\">{exposed}</div>").unwrap() }
    out += &escaped(&l.notes.join("; "));
    if !l.comment.is_empty() { write!(out, "<div class=\"comment\"># {}</div>", escaped(&l.comment)).unwrap() }
    if chart != Chart::Words && k >= view.start && !l.row.is_empty() {
        let (first, rest) = l.row.split_at(l.row.len().min(12));
        let more = if rest.is_empty() { String::new() } else { format!(" and {} more", rest.len()) };
        write!(out, "<span class=\"aloud\"> needs {}{more}</span>", registers(first)).unwrap();
    }
    out
}

/// How many positions are looked at for what a register is needed for.
const FAR: usize = 1_000;

fn kept_for(level: Option<&Level>, r: u16) -> Option<Option<usize>> { level?.kept.iter().find(|p| p.registers.contains(&r)).map(|p| p.handler) }

/// The row of a position as a line of marks, with what its level keeps in it.
fn marks(view: &body::View, k: usize) -> String {
    let kept = view.lines[k].level.as_ref().map_or(String::new(), |v| text::kept_picture(view, v));
    let mut kept = kept.chars();
    text::picture(view, k).chars().map(|row| match kept.next() { Some('·') | None => row, Some(mark) => mark }).collect()
}

/// The cell of a register at a position: in the row or not, used, given up, kept, exposed, each by a mark of its own.
fn cell(view: &body::View, k: usize, r: u16) -> String {
    let l = &view.lines[k];
    let (row, used, given) = (l.row.binary_search(&r).is_ok(), l.used.contains(&r), l.given_up.contains(&r));
    let (mut class, mut marks, mut says) = (String::from("cell"), String::new(), vec![]);
    if k < view.start { class += " unknown" }
    if row {
        class += " row";
        marks += if view.unread.contains(&r) { "○" } else { "●" };
        says.push(why::because(view, k, r, FAR).map_or("needed before it".into(), |path| format!("needed before it: {path}")));
    }
    if row && view.unread.contains(&r) { class += " unread"; says.push("never read on that day".into()) }
    if used { marks += "u"; says.push("used".into()) }
    if given { marks += "g"; says.push("given up".into()) }
    if let Some(handler) = kept_for(l.level.as_ref(), r) {
        class += if handler.is_some() { " kept handler" } else { " kept" };
        marks += if handler.is_some() { "△" } else { "▲" };
        says.push(handler.map_or("kept".into(), |h| format!("kept for the handler at {h}")));
    }
    if let Some(exposed) = l.level.as_ref().filter(|v| v.exposed.contains(&r)).and_then(|_| view.exposed_at(k, r)) {
        class += " exposed";
        marks += "▽";
        says.push(format!("exposed: {}", escaped(&exposed.way())));
    }
    let title = if says.is_empty() { String::new() } else { format!(" title=\"{} at {k}: {}\"", registers(&[r]), says.join(", ")) };
    format!("<td class=\"{class}\" aria-hidden=\"true\"{title}>{marks}</td>")
}

fn legend(view: &body::View, chart: Chart) -> String {
    let mut told = vec![("●", "row", "needed before the instruction")];
    if chart == Chart::Cells { told.extend([("u", "", "used"), ("g", "", "given up")]) }
    told.extend([("▲", "kept", "kept for the resume point"), ("△", "kept handler", "kept for a handler")]);
    if !view.exposed.is_empty() { told.push(("▽", "exposed", "exposed: not kept, though a later exception may need it")) }
    if !view.unread.is_empty() { told.push(("○", "row unread", "needed and never read on that day")) }
    if view.start > 0 { told.push(("", "unknown", "not looked for, before the first level")) }
    let told: String = told.iter().map(|(mark, class, says)| format!("<li><span class=\"cell {class}\" aria-hidden=\"true\">{mark}</span> \
        {says}</li>\n")).collect();
    format!("<ul class=\"legend\">\n{told}</ul>\n")
}

pub fn chunk(view: &chunk::View) -> String {
    let mut out = String::from("<div class=\"chart\" role=\"region\" aria-label=\"the chunk\" tabindex=\"0\">\n<table class=\"chunk\">\n");
    out += "<caption><span>Instructions before and after folding, and why something was not folded.</span></caption>\n<thead>\n<tr><th scope=\"col\">at</th>";
    out += "<th scope=\"col\" class=\"ins\">before</th><th aria-hidden=\"true\"></th><th scope=\"col\">now at</th><th scope=\"col\">after</th><th \
        scope=\"col\">notes</th></tr>\n</thead>\n<tbody>\n";
    let mut colour = 0;
    for (k, l) in view.before.iter().enumerate() {
        if l.result { colour = colour % 5 + 1 }
        let group = if l.result || l.into.is_some() { format!(" class=\"group{colour}\"") } else { String::new() };
        write!(out, "<tr{group}><th scope=\"row\">{k}</th><td class=\"ins{}\">{}</td>", if l.after.is_none() { " dead" } else { "" }, escaped(&l.text))
            .unwrap();
        match (&l.after, l.into) {
            (Some((to, text)), _) => write!(out, "<td class=\"arrow\">→</td><td class=\"at\">{to}</td><td class=\"code\">{}{}</td>", escaped(text), was(l.was, *to)).unwrap(),
            (None, Some(to)) => write!(out, "<td class=\"arrow\">↗</td><td></td><td class=\"code\">into {to}</td>").unwrap(),
            (None, None) => out += "<td class=\"arrow\">×</td><td></td><td></td>",
        }
        let comment = if l.comment.is_empty() { String::new() } else { format!("<div class=\"comment\"># {}</div>", escaped(&l.comment)) };
        writeln!(out, "<td class=\"note\">{}{comment}</td></tr>", escaped(&l.notes.join("; "))).unwrap();
    }
    let ships = format!("<h2>As it ships, folded and cleared</h2>\n<pre>{}</pre>\n", escaped(&view.ships.to_string()));
    out + "</tbody>\n</table>\n</div>\n" + &paragraphs(&view.remarks) + &ships
}
