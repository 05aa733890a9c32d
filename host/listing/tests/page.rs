//! The page without a browser: its colours can be told apart, its marks do not hang on them, and it is laid out for a phone, for paper and to be
//! heard. tests/browser.rs looks at the same in chromium, where there is one.

use listing::{body, notation::{Text, read}, page::{self, STYLE}};
use std::collections::BTreeMap;

/// The colours of a block of the style, by name.
fn colours(block: &str) -> BTreeMap<String, [f64; 3]> {
    let named = block.split("--").skip(1).filter_map(|d| d.split_once(": #"));
    let part = |hex: &str, k: usize| f64::from(u8::from_str_radix(&hex[k..k + 2], 16).unwrap()) / 255.0;
    named.map(|(name, hex)| (name.to_string(), [part(hex, 0), part(hex, 2), part(hex, 4)])).collect()
}

/// How far two colours are apart (WCAG 2).
fn contrast(a: [f64; 3], b: [f64; 3]) -> f64 {
    let line = |v: f64| if v <= 0.03928 { v / 12.92 } else { ((v + 0.055) / 1.055).powf(2.4) };
    let light = |c: [f64; 3]| 0.2126 * line(c[0]) + 0.7152 * line(c[1]) + 0.0722 * line(c[2]);
    let (a, b) = (light(a), light(b));
    (a.max(b) + 0.05) / (a.min(b) + 0.05)
}

/// The letters and what is behind them.
const PAIRS: [(&str, &[&str]); 7] = [
    ("ink", &["paper", "cell", "level", "g1", "g2", "g3", "g4", "g5"]), ("faint", &["paper", "level", "g1", "g2", "g3", "g4", "g5"]), ("on-row",
        &["row", "paper"]), ("keeps", &["level", "paper"]),
    ("handler", &["paper", "level", "cell"]), ("warn", &["paper", "level", "cell", "row"]), ("ink", &["level"]),
];

#[test]
fn colours_can_be_told_apart() {
    let light = STYLE.split(":root {").nth(1).unwrap().split('}').next().unwrap();
    let dark = STYLE.split("@media (prefers-color-scheme: dark)").nth(1).unwrap().split('}').next().unwrap();
    // On paper it is the light one, but for what is black there.
    let paper = STYLE.split("@media print").nth(1).unwrap().split('}').next().unwrap();
    let schemes = [colours(light), colours(dark), colours(light).into_iter().chain(colours(paper)).collect()];
    assert!(schemes.iter().all(|c| c.len() >= 16) && contrast(schemes[0]["paper"], schemes[1]["paper"]) > 10.0 && schemes[2]["ink"] == [0.0; 3]);
    for scheme in &schemes {
        for (front, backs) in PAIRS { for back in backs { let far = contrast(scheme[front], scheme[*back]); assert!(far >= 4.5,
            "{front} on {back}: {far:.2}") } }
    }
    // No colour stands outside these two lists, and the one for paper.
    let rest: String = STYLE.split(":root {").map(|b| b.split_once('}').map_or("", |b| b.1)).collect();
    assert!(!rest.contains('#'), "{rest}");
}

#[test]
fn laid_out_for_a_phone_for_paper_and_for_both_schemes() {
    for due in ["color-scheme: light dark", "@media (max-width: 600px)", "@media print", "thead { display: table-header-group; }",
        ".chart { overflow: visible; max-height: none; }", "thead th, tbody th, td.ins { position: static !important; }",
        "thead th { position: sticky; top: 0;", "tbody th, thead th:first-child { position: sticky; left: 0;",
        "td.ins, thead th.ins { position: sticky; left: 3.2rem;"] {
        assert!(STYLE.contains(due), "{due}");
    }
    let page = page::whole("a", "b", "");
    assert!(page.contains("<html lang=\"en\">") && page.contains("content=\"width=device-width, initial-scale=1\"") && page
        .contains("<meta name=\"color-scheme\" content=\"light dark\">"));
    // Nothing is fetched.
    for word in ["http", "url(", "@import", "<script", "src="] { assert!(!page.contains(word), "{word}") }
}

fn shown(text: &str) -> String {
    let Ok(Text::Body(b)) = read(text) else { panic!("{text}") };
    page::body(&body::View::of(&b).unwrap())
}

/// What a cell shows of its register, each by a mark of its own, and the level's list in words beside them.
#[test]
fn the_marks_of_a_cell() {
    let page = shown(include_str!("../../../samples/jacket.txt"));
    let row = |k: usize| page.split("<th scope=\"row\">").find(|r| r.starts_with(&format!("{k}<"))).unwrap();
    let marks = |k: usize| row(k).split("<td class=\"cell").skip(1).map(|c| c.split_once('>').unwrap().1.split('<').next().unwrap()).collect::<Vec<_>>();
    assert_eq!(marks(8), ["", "●▲", "", "●u▲", "●u", "△", "", ""]);
    assert_eq!(marks(10), ["", "●ug", "", "●", "", "", "●u", ""]);
    assert!(row(8).contains("<div class=\"keeps\">keeps r1 r3; r5 for the handler at 13</div>"), "{}", row(8));
    // With many registers a row is one line of marks.
    let more: String = (1..16).map(|k| format!("; AddR a{} b{} c{}", 3 * k, 3 * k + 1, 3 * k + 2)).collect();
    let page = shown(&format!("registers 64; LoadGlobalR a63 b1; PushRegs a0 b1 c2 x3; CallR a0 x0; StoreTopR a1; AddR a2 b63 c1; ReturnR b2{more}"));
    let lines: Vec<&str> = page.split("<td class=\"marks\" aria-hidden=\"true\">").skip(1).map(|l| l.split('<').next().unwrap()).collect();
    assert_eq!((lines.len(), lines[2].chars().next(), lines[2].chars().last(), lines[4].chars().last()), (22, Some('●'), Some('▲'), Some('●')), "{lines:?}");
}

/// Position, instruction and what is said of it come first, so that a phone shows them; the registers follow.
#[test]
fn the_order_of_columns() {
    let page = shown("registers 3; CallR a0 x0; StoreTopR a1; ReturnR b2");
    let heads: Vec<&str> = page.split("<th scope=\"col\"").skip(1).map(|h| h.split_once('>').unwrap().1.split('<').next().unwrap()).collect();
    assert_eq!(heads, ["at", "instruction", "level, jumps, handlers", "uses", "gives up", "0", "1", "2"]);
    let row = page.split("<tr class=\"level\">").nth(1).unwrap();
    assert!(row.starts_with("<th scope=\"row\">0</th><td class=\"ins\">CallR a0 x0</td><td class=\"note\">"), "{row}");
}

/// Each cell that is coloured has a mark too, and who hears the page hears the row and the list in words.
#[test]
fn not_by_colour_alone() {
    let page = shown("registers 3; try 0 2; GetAttrR a1 b0; CallR a0 x0; StoreTopR a1; ReturnR b2");
    let cells: Vec<(&str, &str)> = page.split("<td class=\"cell").skip(1).map(|c| (c.split('"').next().unwrap(), c.split_once('>').unwrap().1
        .split('<').next().unwrap())).collect();
    assert!(cells.len() == 15 && cells.iter().any(|c| c.0.contains("row")) && cells.iter().any(|c| c.0.contains("kept")));
    for (class, mark) in cells {
        assert_eq!((class.contains("row"), class.contains("kept") && !class.contains("handler"), class.contains("handler")), (mark.contains('●'), mark
            .contains('▲'), mark.contains('△')), "{class}: {mark}");
    }
    assert!(page.contains("<caption><span>") && page.contains("<span class=\"aloud\"> needs r0 r2</span>") && page.contains("<div class=\"keeps\">keeps "));
    assert!(page.contains("role=\"region\" aria-label=\"the chart\" tabindex=\"0\""));
}
