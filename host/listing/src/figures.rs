//! A month of scripts in figures: a line for each body, how long the lists are, and the save area that a recursion needs.

use crate::{count, found, notation::Body, page::escaped};
use std::fmt::Write;
use turniploom::{Figures, Refusal};

/// The words of a saver's area.
const AREA: u64 = 4_096;

/// Bodies with their figures.
#[derive(Default)]
pub struct View {
    lines: Vec<Line>,
    all: Figures,
    /// How many levels have a list of each length.
    lengths: Vec<u64>,
}

struct Line {
    file: String,
    instructions: usize,
    figures: Figures,
}

impl View {
    /// Adds the body of a file.
    ///
    /// # Errors
    ///
    /// The refusal of its kept-register call, or of the figures.
    pub fn add(&mut self, file: &str, body: &Body) -> Result<(), Refusal> {
        let words = body.words();
        let kept = turniploom::kept(&words, body.registers, &found::tries(body)?, body.wide)?;
        let figures = Figures::of(&words, &kept)?;
        self.all.join(&figures)?;
        for level in kept.levels() {
            let length = level.kept().len();
            if self.lengths.len() <= length { self.lengths.resize(length + 1, 0) }
            self.lengths[length] += 1;
        }
        self.lines.push(Line { file: file.into(), instructions: body.code.len(), figures });
        Ok(())
    }

    /// What is said above the tables.
    pub fn heading(&self) -> String {
        let n = |v: u64, word: &str| count(v as usize, word);
        format!("{}, {}, {}", n(self.all.bodies(), "body"), n(self.all.levels(), "level"), n(self.all.kept(), "kept register"))
    }

    /// A row for each body, and one for all of them.
    fn bodies(&self) -> Vec<[String; 5]> {
        let row = |file: &str, instructions: usize, f: &Figures, place: Option<String>| {
            [file.into(), instructions.to_string(), f.levels().to_string(), f.kept().to_string(), place.unwrap_or("no level".into())]
        };
        let own = |l: &Line| row(&l.file, l.instructions, &l.figures, l.figures.longest().map(|l| format!("{} at {}", l.length, l.position)));
        let place = self.all.longest().map(|l| format!("{} in {} at {}", l.length, self.lines[l.body as usize].file, l.position));
        let instructions = self.lines.iter().map(|l| l.instructions).sum();
        self.lines.iter().map(own).chain([row("all", instructions, &self.all, place)]).collect()
    }

    /// For each length of list, how many levels have it, what an entry takes, and how many calls deep the save area goes.
    fn lists(&self) -> Vec<[String; 4]> {
        let entry = |length: usize| 2 * length as u64 + 2;
        self.lengths.iter().enumerate().map(|(k, &levels)| [k as u64, levels, entry(k), AREA / entry(k)].map(|v| v.to_string())).collect()
    }

    /// What the figures come to.
    fn remarks(&self) -> Vec<String> {
        let Some(longest) = self.all.longest() else { return vec!["No level: no call has anything to keep.".into()] };
        let (sum, levels) = self.all.mean();
        let entry = 2 * longest.length + 2;
        let depths: Vec<String> = [10, 100, 1_000].map(|d| format!("{} for {}", grouped(self.all.area(d).unwrap_or(u64::MAX)), grouped(d))).into();
        vec![
            format!("Mean list length: {sum} / {levels}, {:.2}.", sum as f64 / levels as f64),
            format!("A recursion of depth d needs at most {entry} x d words of save area, twice the longest list plus two each: {} calls.", depths.join(", ")),
            format!("The {} words of a saver hold {} calls of the longest list.", grouped(AREA), grouped(AREA / entry)),
        ]
    }
}

/// A number in groups of three.
fn grouped(v: u64) -> String {
    let digits = v.to_string();
    let lead = digits.len() % 3;
    let groups = digits.as_bytes()[lead..].chunks(3).map(|g| String::from_utf8_lossy(g).into_owned());
    std::iter::once(digits[..lead].to_string()).filter(|g| !g.is_empty()).chain(groups).collect::<Vec<_>>().join(",")
}

const BODIES: [&str; 5] = ["file", "instructions", "levels", "kept", "longest list"];
const LISTS: [&str; 4] = ["list", "levels", "words of an entry", "calls deep"];

/// Columns of text, some of them to the left.
fn columns<const N: usize>(heads: [&str; N], rows: &[[String; N]], left: &[usize]) -> String {
    let width = |c: usize| rows.iter().map(|r| r[c].chars().count()).chain([heads[c].len()]).max().unwrap_or(0);
    let line = |cells: [&str; N]| {
        let cell = |c: usize| if left.contains(&c) { format!("{:<1$}", cells[c], width(c)) } else { format!("{:>1$}", cells[c], width(c)) };
        (0..N).map(cell).collect::<Vec<_>>().join("  ").trim_end().to_string() + "\n"
    };
    line(heads) + &rows.iter().map(|r| line(std::array::from_fn(|c| r[c].as_str()))).collect::<String>()
}

pub fn text(view: &View) -> String {
    let mut out = columns(BODIES, &view.bodies(), &[0, 4]);
    if !view.lengths.is_empty() { write!(out, "\n{}", columns(LISTS, &view.lists(), &[])).unwrap() }
    out.push('\n');
    for remark in view.remarks() { writeln!(out, "{remark}").unwrap() }
    out
}

pub fn page(view: &View) -> String {
    let heads = |heads: &[&str]| heads.iter().map(|h| format!("<th scope=\"col\">{h}</th>")).collect::<String>();
    let mut out = format!("<div class=\"chart\" role=\"region\" aria-label=\"the bodies\" \
        tabindex=\"0\">\n<table>\n<caption><span>Bodies.</span></caption>\n<thead>\n<tr>{}</tr>\n</thead>\n<tbody>\n", heads(&BODIES));
    for [file, rest @ ..] in view.bodies() {
        let cells: String = rest.iter().map(|c| format!("<td class=\"note\">{}</td>", escaped(c))).collect();
        writeln!(out, "<tr><td class=\"ins\">{}</td>{cells}</tr>", escaped(&file)).unwrap();
    }
    out += "</tbody>\n</table>\n</div>\n";
    if !view.lengths.is_empty() { out += &bars(view) }
    out + &view.remarks().iter().map(|r| format!("<p>{}</p>\n", escaped(r))).collect::<String>()
}

/// A bar for each length of list, as long as its levels are many.
fn bars(view: &View) -> String {
    let most = view.lengths.iter().max().copied().unwrap_or(0).max(1);
    let [list, levels, entry, deep] = LISTS;
    let mut out = String::from("<div class=\"chart\" role=\"region\" aria-label=\"the lists\" tabindex=\"0\">\n<table \
        class=\"bars\">\n<caption><span>How many levels have a list of each length.</span></caption>\n");
    for head in [list, levels, entry, deep] { write!(out, "{}<th scope=\"col\">{head}</th>", if head == list { "<thead>\n<tr>" } else { "" }).unwrap() }
    out += "</tr>\n</thead>\n<tbody>\n";
    for ([length, levels, entry, deep], &of) in view.lists().iter().zip(&view.lengths) {
        let width = 26.0 * of as f64 / most as f64;
        let title = format!("{} with a list of {length}", count(of as usize, "level"));
        writeln!(
            out, "<tr><th scope=\"row\">{length}</th>\
            <td class=\"bar\" title=\"{title}\"><i style=\"width: {width:.2}rem\"></i>{levels}</td><td class=\"at\">{entry}</td>\
            <td class=\"at\">{deep}</td></tr>"
        ).unwrap();
    }
    out + "</tbody>\n</table>\n</div>\n"
}
