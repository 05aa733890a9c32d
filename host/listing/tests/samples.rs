//! The samples: each is listed, and K's listing is README's.

use listing::{body, chunk, figures, notation::{Text, read}, page, text, why};
use std::{fs, path::Path};

fn source(name: &str) -> String { fs::read_to_string(Path::new(env!("CARGO_MANIFEST_DIR")).join("../../samples").join(name)).unwrap() }

fn listed(name: &str) -> (String, String) { shown(&source(name)) }

fn shown(source: &str) -> (String, String) {
    match read(source).unwrap() {
        Text::Body(b) => { let v = body::View::of(&b).unwrap(); (text::body(&v), page::body(&v)) }
        Text::Chunk(c) => { let v = chunk::View::of(&c).unwrap(); (text::chunk(&v), page::chunk(&v)) }
    }
}

#[test]
fn every_sample_is_listed() {
    for name in ["K.txt", "P5.txt", "jacket.txt", "exposed.txt", "P13.txt", "ships.txt", "handler.txt"] {
        let (text, page) = listed(name);
        assert!(!text.contains("BREAK") && page.matches("<tr").count() == page.matches("</tr>").count(), "{name}");
        let opened = |tag: &str| page.matches(&format!("<{tag}>")).count() + page.matches(&format!("<{tag} ")).count();
        for tag in ["table", "thead", "tbody", "th", "td", "span", "div", "p", "ul", "li"] { assert_eq!(opened(tag), page.matches(&format!("</{tag}>"))
            .count(), "{name}: {tag}") }
    }
}

#[test]
fn code_k() {
    let (text, _) = listed("K.txt");
    assert!(text.starts_with(
        "  instruction        uses   gives up  0123
0 LoadGlobalR a0 b7         r0
1 LoadGlobalR a1 b9         r1
2 CallR a1 x0        r1               ●●··  calls binding 9, resumes at 3, result in r2
    keeps                             ▲···  r0
3 StoreTopR a2              r2        ●···
4 AddR a3 b0 c2      r0 r2  r3        ●·●·
5 ReturnR b3         r3               ···●
6 end                                 ····

● needed before the instruction, ▲ kept for the resume point.
1 full sweep of at most 2, 0 abandoned. Rows are looked for from 2 on, the first level; before it they are left blank.
"), "{text}");
}

#[test]
fn a_try_around_the_recursive_call() {
    assert!(listed("jacket.txt").0.contains("r1 r3; r5 for the handler at 13"));
    assert!(listed("jacket.txt").0.contains("\n3 full sweeps of at most 4, 0 abandoned.\n"));
    assert!(listed("P5.txt").0.contains("\n3 full sweeps of at most 3, 1 abandoned.\n"));
}

/// The rows of 32 bits show the same, but where the sweeps begin and how many there are.
#[test]
fn both_widths() {
    for name in ["K.txt", "P5.txt", "jacket.txt"] { assert_eq!(shown(&(source(name) + "\nrows 32")), listed(name)) }
    let (wide, narrow) = (listed("apart.txt").0, shown(&(source("apart.txt") + "\nrows 32")).0);
    assert!(wide.contains("\n1 full sweep of at most 3, 0 abandoned. Rows are looked for from 1 on, the first level"), "{wide}");
    assert!(narrow.contains("\n2 full sweeps of at most 3, 0 abandoned.\n"), "{narrow}");
    assert!(!wide.contains("BREAK") && !narrow.contains("BREAK"), "{wide}{narrow}");
    let Text::Body(b) = read("registers 33; rows 32").unwrap() else { panic!("a chunk") };
    assert_eq!(body::View::of(&b).unwrap().heading, "no instruction, 33 registers, no try, rows of 32 bits");
}

#[test]
fn p13() {
    let (text, _) = listed("P13.txt");
    assert!(text.contains("0 LoadConst 0 (2)  →  0 LoadConst 2 (5)  2 + 3 = 5, new constant 2") && text.contains("3 Jump 2           →  1 Jump 1 was 3"), "{text}");
}

#[test]
fn a_handler_in_the_middle_of_a_group() {
    let (text, _) = listed("handler.txt");
    assert!(text.starts_with(
        "  before                after
0 LoadConst 0 (4)  →  0 LoadConst 4 (20)       4 * 5 = 20, new constant 4
1 LoadConst 1 (5)  ┘
2 Mul              ┘
3 PopTop           →  1 PopTop was 3
4 LoadConst 2 (2)  →  2 LoadConst 2 (2) was 4
5 LoadConst 3 (3)  →  3 LoadConst 3 (3) was 5  handler of the try at 0
6 Add              →  4 Add was 6              not folded: the handler of the try at 0 is at 5
7 Jump 4           →  5 Jump 2 was 7           to 4, now 2
"), "{text}");
    assert!(text.contains("tries moved: 0 5 to 0 3.\nJumps and handlers that land in what is left: 1 on 2, 1 on 3.\n"), "{text}");
}

fn chunk_of(text: &str) -> chunk::View {
    let Ok(Text::Chunk(c)) = read(text) else { panic!("{text}") };
    chunk::View::of(&c).unwrap()
}

/// In strict mode the landings say why a group stays: a jump, a handler, both, or neither; and that it has no result is said too.
#[test]
fn why_a_group_stays() {
    let why = |operator: &str, more: &str| {
        let view = chunk_of(&format!("chunk; strict; constants 7 2; LoadConst 0; LoadConst 1; {operator}; {more}"));
        view.before[2].notes.last().unwrap().clone()
    };
    assert_eq!(why("Div", "PopTop"), "not folded: int / int stays");
    assert_eq!(why("Div", "Jump 0; try 0 0; try 1 3"), "not folded: int / int stays");
    assert_eq!(why("Add", "Jump 1"), "not folded: the jump at 3 lands on 1");
    assert_eq!(why("Div", "Jump 1"), "not folded: int / int stays; the jump at 3 lands on 1");
    assert_eq!(why("Add", "try 1 2"), "not folded: the handler of the try at 1 is at 2");
    assert_eq!(why("Add", "Jump 1; Jump 2; try 0 1"), "not folded: the jump at 3 lands on 1, the jump at 4 lands on 2 and the handler of the try at 0 is at 1");
}

/// The true reason of each fold that did not happen.
#[test]
fn each_reason_in_its_own_words() {
    let why = |constants: &str, code: &str| {
        let view = chunk_of(&format!("chunk; constants {constants}; {code}"));
        view.before.last().unwrap().notes.last().cloned().unwrap_or_default()
    };
    let two = |constants: &str, operator: &str| why(constants, &format!("LoadConst 0; LoadConst 1; {operator}"));
    for (constants, operator, reason) in [
        ("7 2", "Div", "int / int stays"), ("7 0", "FloorDiv", "it divides by 0"), ("7 0", "Mod", "it divides by 0"), ("7.5 0", "Div",
            "it divides by 0"), ("1 -0.0", "Div", "it divides by 0"),
        ("140737488355327 1", "Add", "140737488355328 is past 48 bits"), ("140737488355328 1", "Add", "constant 0, 140737488355328, is past 48 bits"),
        ("-140737488355328 -1", "FloorDiv", "140737488355328 is past 48 bits"), ("1 63", "Shl", "it shifts by 63, which is not 0 to 62"), ("1 47",
            "Shl", "140737488355328 is past 48 bits"),
        ("1 -1", "Shr", "it shifts by -1, which is not 0 to 62"), ("7.0 2", "FloorDiv", "// and % stay where one is a float"), ("7 2.0", "BitAnd",
            "bits and shifts are for ints alone"),
        ("true 2", "Add", "constant 0, true, is no number"), ("2 other", "Add", "constant 1 is neither a number nor a bool"), ("2", "Add",
            "constant 1 is not there"),
    ] { assert_eq!(two(constants, operator), format!("not folded: {reason}"), "{constants} {operator}") }
    assert_eq!(why("2 3", "LoadConst 9; Minus"), "not folded: constant 9 is not there");
    assert_eq!(why("-140737488355328", "LoadConst 0; Minus"), "not folded: 140737488355328 is past 48 bits");
    assert_eq!(why("1 2", "LoadConst 0; LoadConst 1; Lt; LoadConst 0; Add"), "not folded: its operand at 0 is no longer a LoadConst");
    assert_eq!(why("1 2", "LoadConst 0; Add"), "not folded: it takes 2 operands, and one stands before it");
    assert_eq!(why("1 2", "Jump 2; LoadConst 0; LoadConst 1; Add"), "not folded: the jump at 0 lands on 2");
    assert_eq!(why("1 2", "LoadName 0; LoadConst 1; Add"), "");
}

/// Every operator over telling pairs: an operator that stays has a reason that the listing knows, and one that folds is told with its value.
#[test]
fn no_reason_is_missing() {
    let constants = ["0", "1", "-1", "7", "62", "63", "-140737488355328", "140737488355327", "140737488355328", "0.0", "-0.0", "1.5", "inf", "-inf",
        "nan", "true", "false", "other"];
    let operators = ["Add", "Sub", "Mul", "Div", "Mod", "FloorDiv", "Eq", "NotEq", "Lt", "Gt", "LtEq", "GtEq", "BitAnd", "BitOr", "BitXor", "Shl", "Shr"];
    let head = format!("chunk; constants {}", constants.join(" "));
    for a in 0..constants.len() {
        for operator in ["Minus", "Not"] { told(&format!("{head}; LoadConst {a}; {operator}")) }
        for b in 0..=constants.len() { for operator in operators { told(&format!("{head}; LoadConst {a}; LoadConst {b}; {operator}")) } }
    }
}

fn told(text: &str) {
    let view = chunk_of(text);
    let last = view.before.last().unwrap();
    if last.after.is_none() { assert!(view.before[0].notes.iter().any(|n| n.contains(" = ")), "{text}") }
    else { assert!(last.notes.iter().any(|n| n.starts_with("not folded: ") && !n.contains("no reason")), "{text}: {:?}", last.notes) }
}

#[test]
fn expressions_are_bracketed() {
    let note = |text: &str| chunk_of(text).before[0].notes.concat();
    assert_eq!(note("chunk; constants 2 -3; LoadConst 0; LoadConst 1; Sub"), "2 - (-3) = 5, new constant 2");
    assert_eq!(note("chunk; constants 2 3; LoadConst 0; LoadConst 1; Add; Minus"), "-(2 + 3) = -5, new constant 3");
    assert_eq!(note("chunk; constants -0.0 nan; LoadConst 0; Minus; LoadConst 1; Add"), "(-(-0.0)) + nan = nan, constant 1");
}

/// What ships is shown in the notation, and read again it folds no more.
#[test]
fn the_code_as_it_ships() {
    let text = listed("handler.txt").0;
    let (_, ships) = text.split_once("\nAs it ships, folded and cleared:\n\n").unwrap();
    assert_eq!(ships, "chunk\nstrict\nconstants 2 3 20\ntry 0 3\n0 LoadConst 2\n1 PopTop was 3\n2 LoadConst 0 was 4\n3 LoadConst 1 was 5\n4 Add was 6\n5 Jump 2 was 7\n");
    assert!(shown(ships).0.contains("Nothing folded."));
}

#[test]
fn operands_that_all_folded_away_ship_one_constant() {
    let (text, _) = listed("ships.txt");
    assert!(text.contains("9 instructions became 2.") && text.contains("Cleared, it ships 1 constant: -10."), "{text}");
    assert!(listed("P13.txt").0.contains("Cleared, it ships 1 constant: 5."));
}

/// A body of every length of list, a body without a level, and a body that keeps nothing.
#[test]
fn figures_of_many_bodies() {
    let mut view = figures::View::default();
    let empty = figures::text(&view);
    assert_eq!(view.heading(), "no body, no level, no kept register");
    assert!(empty.ends_with("No level: no call has anything to keep.\n"), "{empty}");
    for name in ["K.txt", "jacket.txt", "P5.txt"] {
        let source = fs::read_to_string(Path::new(env!("CARGO_MANIFEST_DIR")).join("../../samples").join(name)).unwrap();
        let Text::Body(b) = read(&source).unwrap() else { panic!("{name} is no body") };
        view.add(name, &b).unwrap();
    }
    let Text::Body(bad) = read("registers 4\ntry 3 2").unwrap() else { panic!("no body") };
    assert_eq!(view.add("bad", &bad), Err(turniploom::Refusal::Try { index: 0 }));
    assert_eq!(view.heading(), "3 bodies, 6 levels, 15 kept registers");
    let text = figures::text(&view);
    assert!(text.contains("\njacket.txt            17       4    11  3 at 1\n"), "{text}");
    assert!(text.contains("\nall                   28       6    15  3 in jacket.txt at 1\n"), "{text}");
    assert!(text.contains("   3       4                  8         512\n") && text.contains("Mean list length: 15 / 6, 2.50.\n"), "{text}");
    assert!(text.contains("at most 8 x d words of save area,") && text.contains(": 80 for 10, 800 for 100, 8,000 for 1,000 calls.\n"), "{text}");
    let page = figures::page(&view);
    let tags = |tag: String| page.matches(&tag).count();
    for tag in ["table", "tr", "td", "i", "p"] { assert_eq!(tags(format!("<{tag}")), tags(format!("</{tag}>")), "{tag}: {page}") }
    assert!(page.contains("title=\"4 levels with a list of 3\"><i style=\"width: 26.00rem\"></i>4</td>"), "{page}");
}

#[test]
fn why_a_register_is_needed() {
    let Text::Body(b) = read(&source("K.txt")).unwrap() else { panic!("a body") };
    let view = body::View::of(&b).unwrap();
    let why = |k, r| why::why(&b, &view, k, r).map_err(|r| r.number());
    assert_eq!(why(1, 0), Ok("r0 is needed at 1: 4 uses it, by way of 2 and 3.".into()));
    assert_eq!(why(3, 0), Ok("r0 is needed at 3: 4 uses it.".into()));
    assert_eq!(why(4, 2), Ok("r2 is needed at 4: it uses it.".into()));
    assert_eq!(why(3, 2), Ok("r2 is not needed at 3.".into()));
    assert_eq!(why(6, 0), Ok("r0 is not needed at 6.".into()));
    assert_eq!(why(7, 0), Err(6));
    assert!(page::body(&view).contains("title=\"r0 at 2: needed before it: 4 uses it, by way of 3, kept\""));
}

#[test]
fn what_is_written_stands_where_it_differs() {
    let (text, _) = shown("registers 4; StoreTopR a1 x1; ForIterR a0 b2; Move a0 b1; ReturnR b0");
    let line = |start: &str| text.lines().find(|l| l.starts_with(start)).unwrap();
    assert!(line("0 StoreTopR").contains("writes nothing"), "{text}");
    assert!(line("1 ForIterR").contains("writes r2"), "{text}");
    assert!(!line("2 Move").contains("writes"), "{text}");
}

#[test]
fn a_store_that_is_missing_is_named() {
    let (text, page) = shown("registers 4; CallR a0 x0; AddR a3 b1 c2; CallR a0 x0");
    assert!(text.contains("resumes at 1, result in r3; its store is missing, a StoreTopR at 1\n"), "{text}");
    assert!(text.contains("resumes at 3, no result register; its store is missing, a StoreTopR at 3\n"), "{text}");
    assert!(page.contains("its store is missing, a StoreTopR at 1"));
    assert!(!listed("K.txt").0.contains("missing"));
}

#[test]
fn levels_that_a_dunder_would_make() {
    let remark = |text: &str| shown(text).0.lines().find(|l| l.starts_with("No mark `dunder`")).map(str::to_string);
    assert!(remark("registers 4; AddR a0 b1 c2; Move a0 b1; GetItemR a0 b1 c2; ReturnR b0").unwrap().ends_with("keep registers: 0 AddR and 2 GetItemR."));
    assert_eq!(remark("registers 4; AddR a0 b1 c2 dunder; GetItemR a0 b1 c2; ReturnR b0"), None);
    assert_eq!(remark("registers 4; Move a0 b1; CallR a0 x0; StoreTopR a1"), None);
}

/// Rows before the first level are blank, and so they are on the page.
#[test]
fn rows_that_were_not_looked_for() {
    let (text, page) = listed("K.txt");
    assert!(text.contains("\n1 LoadGlobalR a1 b9         r1\n2 CallR"), "{text}");
    assert_eq!(page.matches("class=\"cell unknown\"").count(), 8 + 1, "{page}");
    let wide = shown(&(source("K.txt") + "\nroute wide")).0;
    assert!(wide.contains("\n1 LoadGlobalR a1 b9         r1        ●···\n"), "{wide}");
}

/// The writer's comment stands beside its instruction, on the page of a body and in both forms of a chunk.
#[test]
fn comments_stand_beside_their_instructions() {
    let jacket = listed("jacket.txt").1;
    let row = jacket.split("<tr").find(|r| r.contains("<th scope=\"row\">8</th>")).unwrap();
    assert!(row.contains("<div class=\"comment\"># the rule calls itself</div>"), "{row}");
    let (text, page) = shown("chunk; constants 7 2; LoadConst 0; LoadConst 1\nDiv # it stays");
    assert!(text.contains("  not folded: int / int stays  # it stays\n"), "{text}");
    assert!(page.contains("<td class=\"note\">not folded: int / int stays<div class=\"comment\"># it stays</div></td></tr>"), "{page}");
}

/// The page of a chunk has what the text has: where each instruction is now, why it stays, and what ships.
#[test]
fn the_page_of_a_chunk() {
    let (text, page) = listed("handler.txt");
    let row = |cells: &str| assert!(page.contains(&format!("<th scope=\"row\">{cells}</td></tr>\n")), "{cells}\n{page}");
    row("1</th><td class=\"ins dead\">LoadConst 1 (5)</td><td class=\"arrow\">↗</td><td></td><td class=\"code\">into 0</td><td class=\"note\">");
    row("6</th><td class=\"ins\">Add</td><td class=\"arrow\">→</td><td class=\"at\">4</td><td class=\"code\">Add was 6</td><td class=\"note\">not folded: the \
        handler of the try at 0 is at 5");
    row("7</th><td class=\"ins\">Jump 4</td><td class=\"arrow\">→</td><td class=\"at\">5</td><td class=\"code\">Jump 2 was 7</td><td class=\"note\">to 4, \
        now 2");
    assert!(page.contains("<table class=\"chunk\">\n<caption><span>Instructions before and after folding"), "{page}");
    let ships = text.split_once("\nAs it ships, folded and cleared:\n\n").unwrap().1;
    assert!(page.ends_with(&format!("<h2>As it ships, folded and cleared</h2>\n<pre>{ships}</pre>\n")), "{page}");
}

/// Who says what is told.
#[test]
fn the_archives_word_and_the_listings() {
    assert!(listed("K.txt").0.contains("\nBy the archive: rows, lists, levels, callees, jumps, uses and gives up.\nBy the listing's own reckoning: "));
    assert!(listed("P13.txt").0.contains("By the listing's own reckoning: why something was not folded."));
}

/// Callees that are asked for in a part of the code are those of the whole code.
#[test]
fn callees_near_and_far() {
    let mut state = 7u64;
    let mut below = |n: u64| { state = state.wrapping_mul(6_364_136_223_846_793_005).wrapping_add(1_442_695_040_888_963_407); (state >> 33) % n };
    for _ in 0..60 {
        let mut text = String::from("registers 4\n");
        let sparse = below(400) + 2;
        for _ in 0..3_000 {
            text += &match below(sparse) {
                0 => format!("LoadGlobalR a{} b{}\n", below(4), below(9)),
                1 => format!("PushRegs a{} x1\nCallR a{} x0\nStoreTopR a3\nStoreTopR a{}\n", below(4), below(4), below(4)),
                2 => "GetIter\n".into(),
                3 => format!("Call {}\n", below(3)),
                4 => format!("PushRegs a1 b2 c3 x{}\n", below(4)),
                5 => format!("CallR a{} x0\n", below(4)),
                _ => "Move a3 b2\n".into(),
            };
        }
        callees_of_the_whole(&text);
    }
    // A register that comes back from a push, with the place where the near part begins before, in and after it.
    for far in (56..68).chain(2_040..2_052) {
        let more = "Move a3 b2\n".repeat(far);
        callees_of_the_whole(&format!("registers 4\nLoadGlobalR a0 b7\nPushRegs a0 x1\nCallR a1 x0\nStoreTopR a3\nStoreTopR a0\n{more}CallR a0 x0"));
    }
}

/// Holds every callee that is told to the archive's word on the whole code.
fn callees_of_the_whole(text: &str) {
    let Text::Body(b) = read(text).unwrap() else { panic!("a chunk") };
    let view = body::View::of(&b).unwrap();
    for (k, line) in view.lines.iter().enumerate() {
        let Some(told) = line.level.as_ref().and_then(|v| v.callee.as_ref()) else { continue };
        let due = if b.code[k].op.is_call() { turniploom::global_of(&b.code, k).unwrap().map(|g| format!("calls binding {g}")) }
            else { turniploom::stack_callee(&b.code, k, b.code[k].a).unwrap().map(|(p, r)| format!("calls r{r}, pushed at {p}")) };
        assert_eq!(*told, due.unwrap_or("calls a function not known here".into()), "{k}");
    }
}
