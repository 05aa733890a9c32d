//! Registers that are exposed: a level does not keep them, and a later exception may need them. Which they are is the archive's word; the listing marks
//! them, and warns with the way by which each goes wrong.

use listing::{body::View, diff, exposed::Exposed, json, listed::{Listed, Of}, notation::{Body, Text, read}, page, paint, text, ways::Leave};
use std::{collections::BTreeSet, fs, path::{Path, PathBuf}, process::Command};

fn root() -> PathBuf { Path::new(env!("CARGO_MANIFEST_DIR")).join("../..").canonicalize().unwrap() }

fn source(name: &str) -> String { fs::read_to_string(root().join("samples").join(name)).unwrap() }

fn body(source: &str) -> Body {
    let Ok(Text::Body(b)) = read(source) else { panic!("{source}") };
    b
}

fn view(source: &str) -> View { View::of(&body(source)).unwrap() }

/// What the command prints, this archive and this kit left out.
fn printed(words: &[&str]) -> String {
    let out = Command::new(env!("CARGO_BIN_EXE_listing")).args(words).current_dir(root()).output().unwrap();
    assert!(out.status.success() && out.stderr.is_empty(), "{}", String::from_utf8_lossy(&out.stderr));
    String::from_utf8(out.stdout).unwrap().replace(turniploom::ARCHIVE_SHA256, "...").replace(turniploom::KIT, "...").replace(env!("CARGO_PKG_VERSION"), "...")
}

/// The smallest body, whole.
#[test]
fn the_sample() {
    assert_eq!(printed(&["samples/exposed.txt"]), "samples/exposed.txt: 10 instructions, 6 registers, 1 try

     instruction        uses   gives up  012345
 0   LoadGlobalR a5 b1         r5                # r5: what the handler returns
 1   LoadGlobalR a4 b9         r4
 2   CallR a4 b0 x1     r0 r4            ●···●·  calls binding 9, resumes at 3, result in r1  # comes back into the rule, and r5 may be overwritten
       keeps                             ·····▽  nothing; r5 is exposed
 3   StoreTopR a1              r1        ······
 4   LoadGlobalR a4 b9         r4        ·●····
 5 ┌ SetupExcept a9                      ·●··●·
 6 │ CallR a4 b1 x1     r1 r4            ·●··●·  calls a function not known here, resumes at 7, result in r2
   │   keeps                             ·····△  r5 for the handler at 9
 7 │ StoreTopR a2              r2        ······
 8 │ ReturnR b2         r2               ··●···
 9 └ ReturnR b5         r5               ·····●  handler of the try at 5
10   end                                 ······

● needed before the instruction, ▲ kept for the resume point, △ kept for a handler, ▽ exposed: not kept, though a later exception may need it.
WARNING: level 2 does not keep r5: its callee may overwrite it; if 6 raises, the handler at 9 reads it at 9.
A host whose calls may raise asks `kept_raising` in place of `kept`: it keeps what is exposed too.
1 full sweep of at most 2, 0 abandoned. Rows are looked for from 2 on, the first level; before it they are left blank.
As a section: it may be laid, it works on the stack, it has a try or a with.
By the archive: rows, lists, what is exposed, levels, callees, jumps, uses and gives up.
By the listing's own reckoning: what is pending under a call, and so touches no register; paths.
turniploom ...; archive sha256 ...; proved with ....
");
    assert_eq!(printed(&["--kept", "samples/exposed.txt"]), "samples/exposed.txt: 10 instructions, 6 registers, 1 try

 2 CallR a4 b0 x1  keeps nothing; r5 is exposed
 6 CallR a4 b1 x1  keeps r5 for the handler at 9
WARNING: level 2 does not keep r5: its callee may overwrite it; if 6 raises, the handler at 9 reads it at 9.
turniploom ...; archive sha256 ...; proved with ....
");
    let told = printed(&["--json", "samples/exposed.txt"]);
    for due in [
        "\"level\":{\"resumes\":3,\"result\":1,\"calls\":\"calls binding 9\",\"store_missing\":false,\"keeps\":[],\"for_handlers\":[],\"exposed\":[5]}",
        "\"keeps\":[5],\"for_handlers\":[{\"handler\":9,\"keeps\":[5]}],\"exposed\":[]}",
        "\"warnings\":[{\"register\":5,\"not_kept_at\":[2],\"raises\":[{\"at\":6,\"handler\":9}],\"read_at\":9,\"says\":\"level 2 does not keep r5: its \
            callee may overwrite it; if 6 raises, the handler at 9 reads it at 9\"}],",
    ] { assert!(told.contains(due), "{due}\n{told}") }
}

/// The same on the page: a mark and a border of its own, told in the legend, in words for who hears it, and with its way.
#[test]
fn the_page_of_the_sample() {
    let page = page::body(&view(&source("exposed.txt")));
    let cells: Vec<(&str, &str)> = page.split("<td class=\"cell").skip(1).map(|c| (c.split('"').next().unwrap(), c.split_once('>').unwrap().1
        .split('<').next().unwrap())).collect();
    let exposed: Vec<&(&str, &str)> = cells.iter().filter(|c| c.0.contains("exposed") || c.1.contains('▽')).collect();
    assert_eq!((cells.len(), exposed), (66, vec![&(" exposed", "▽")]), "{page}");
    for due in [
        "<td class=\"cell exposed\" aria-hidden=\"true\" title=\"r5 at 2: exposed: if 6 raises, the handler at 9 reads it at 9\">▽</td>",
        "<li><span class=\"cell exposed\" aria-hidden=\"true\">▽</span> exposed: not kept, though a later exception may need it</li>",
        "<div class=\"keeps\">keeps nothing</div><div class=\"warning\">r5 is exposed</div>",
        "<p class=\"warning\">WARNING: level 2 does not keep r5: its callee may overwrite it; if 6 raises, the handler at 9 reads it at 9.</p>",
    ] { assert!(page.contains(due), "{due}\n{page}") }
    assert!(page::STYLE.contains(".cell.exposed, tr.level td.cell.exposed { outline: 2px dashed var(--warn);"));
}

/// Where nothing is exposed nothing is said, and code with no try is not asked about.
#[test]
fn nothing_exposed_nothing_said() {
    for name in ["K.txt", "P5.txt", "jacket.txt", "apart.txt"] {
        let view = view(&source(name));
        let told = text::body(&view) + &text::levels(&view) + &page::body(&view) + &diff::bodies(&view, &view);
        for word in ["exposed", "▽", "WARNING", "kept_raising"] { assert!(!told.contains(word), "{name}: {word}\n{told}") }
    }
    let found = listing::found::Found::of(&body(&source("K.txt"))).unwrap();
    assert_eq!((found.exposed.as_deref(), found.exposes()), (Some(&[][..]), false));
}

fn warnings(source: &str) -> Vec<String> { view(source).exposed.iter().map(|e| e.says()).collect() }

/// `Raise` is no level, and goes to the handler all the same.
#[test]
fn raise_itself() {
    let raises = "registers 6; try 3 6; LoadGlobalR a5 b1; CallGlobalR a4; StoreTopR a1; SetupExcept a6; Raise; ReturnR b1; ReturnR b5";
    assert_eq!(warnings(raises), ["level 1 does not keep r5: its callee may overwrite it; if 4 raises, the handler at 6 reads it at 6"]);
    let text = text::body(&view(raises));
    assert!(text.contains("·····▽  nothing; r5 is exposed\n"), "{text}");
}

/// Kept by a use after the try, or written anew before it: nothing is exposed. A level is told before another position that may raise.
#[test]
fn what_makes_it_so() {
    let of = |four: &str, six: &str, eight: &str| warnings(&format!("registers 6; try 5 10; LoadGlobalR a5 b1; LoadGlobalR a4 b9; CallR a4 b0 x1; \
        StoreTopR a1; {four}; SetupExcept a10; {six}; CallR a4 b1 x1; StoreTopR a2; {eight}; ReturnR b5"));
    let read = |at: usize| vec![format!("level 2 does not keep r5: its callee may overwrite it; if {at} raises, the handler at 10 reads it at 10")];
    assert_eq!(of("Move a4 b0", "Move a3 b0", "ReturnR b2"), read(7));
    assert_eq!(of("Move a4 b0", "Move a5 b0", "ReturnR b2"), read(6));
    assert!(of("Move a4 b0", "Move a3 b0", "ReturnR b5").is_empty());
    assert!(of("Move a5 b0", "Move a3 b0", "ReturnR b2").is_empty());
}

/// By way of a first handler into a second try: the level itself raises first.
#[test]
fn from_handler_to_handler() {
    let nested = "registers 5; try 0 4; try 5 9; LoadGlobalR a3 b1; CallR a0 x0; StoreTopR a1; ReturnR b1; SetupExcept a9; Move a1 b0; CallR a0 x0; \
        StoreTopR a1; ReturnR b1; ReturnR b3";
    assert_eq!(warnings(nested), ["level 1 does not keep r3: its callee may overwrite it; if 1 raises, the handler at 4 runs; if 6 raises, the \
        handler at 9 reads it at 9"]);
    // Of two handlers around what raises the inner one.
    let inner = "registers 6; try 3 9; try 4 7; LoadGlobalR a5 b1; CallR a0 x0; StoreTopR a1; SetupExcept a9; SetupExcept a7; CallR a0 x0; ReturnR b1; \
        Move a1 b0; ReturnR b5; ReturnR b5";
    assert_eq!(warnings(inner), ["level 1 does not keep r5: its callee may overwrite it; if 5 raises, the handler at 7 reads it at 8"]);
    // Eight handlers, each inside the next try.
    let mut long = String::from("registers 4; LoadGlobalR a3 b1; CallR a0 x0; StoreTopR a1");
    for k in 0..8 { long += &format!("; try {} {}; Move a1 b0; Move a1 b0; ReturnR b1", 3 * k + 2, 3 * k + 6) }
    let [told] = &warnings(&(long + "; ReturnR b3"))[..] else { panic!("one") };
    assert_eq!(told, "level 1 does not keep r3: its callee may overwrite it; if 3 raises, the handler at 6 runs; and so on, 6 exceptions later; if \
        24 raises, the handler at 27 reads it at 27");
}

/// Levels with the same way are told together, many by the first of them; JSON and marks have them all.
#[test]
fn many_levels_and_registers() {
    let mut text = String::from("registers 20; try 30 34; LoadGlobalR a5 b1; LoadGlobalR a6 b1");
    for _ in 0..14 { text += "; CallR a0 x0; StoreTopR a1" }
    text += "; SetupExcept a34; CallR a0 x0; StoreTopR a1; ReturnR b1; PushRegs a5 b6 x2; ReturnR b1";
    let view = view(&text);
    let told: Vec<String> = view.exposed.iter().map(|e| e.says()).collect();
    let due = |r: u16| format!("levels 2, 4, 6, 8, 10, 12, 14, 16 and 6 more do not keep r{r}: their callees may overwrite it; if 31 raises, the handler at \
        34 reads it at 34");
    assert_eq!(told, [due(5), due(6)]);
    assert_eq!(view.exposed.iter().next().unwrap().levels, (1..15).map(|k| 2 * k).collect::<Vec<u32>>());
    let shown = text::body(&view);
    assert_eq!((shown.matches("▽▽").count(), shown.matches("  r0; r5 r6 are exposed\n").count()), (14, 14), "{shown}");
    let page = page::body(&view);
    assert_eq!(page.matches("<div class=\"warning\">r5 r6 are exposed</div>").count(), 14);
    assert_eq!(page.matches("class=\"cell exposed\" aria-hidden=\"true\" title=").count(), 28);
}

/// With many registers the page has a line of marks for each row, and with more there are words alone.
#[test]
fn wide_charts() {
    let marks = source("exposed.txt").replace("registers 6", "registers 60") + &(6..50).map(|r| format!("\nMove a{r} b{r}")).collect::<String>();
    let page = page::body(&view(&marks));
    let due = ["<td class=\"marks\" aria-hidden=\"true\">●··●▽····", "<span class=\"cell exposed\" aria-hidden=\"true\">▽</span>"];
    assert!(due.iter().all(|due| page.contains(due)), "{page}");
    let words = source("exposed.txt").replace("registers 6", "registers 400") + &(6..400).map(|r| format!("\nMove a{r} b{r}")).collect::<String>();
    let (text, page) = (text::body(&view(&words)), page::body(&view(&words)));
    assert!(text.contains("  nothing; r5 is exposed\n") && text.contains("\nWARNING: level 2 ") && !text.contains('▽'), "{text}");
    assert!(page.contains("<div class=\"warning\">r5 is exposed</div>") && page.contains("<p class=\"warning\">WARNING: level 2 ") && !page.contains('▽'));
}

/// Both widths of rows and both routes have the same exposed.
#[test]
fn every_width_and_route() {
    let plain = view(&source("exposed.txt")).exposed;
    for more in ["rows 32", "route wide", "rows 32; route wide", "registers 33; rows 32", "registers 65"] {
        let text = source("exposed.txt").replace(if more.contains("registers") { "registers 6" } else { "none" }, "") + "\n" + more;
        assert_eq!(view(&text).exposed, plain, "{more}");
    }
}

/// With no try: a dunder mark on an instruction that does not lead to the next position.
#[test]
fn past_a_marked_instruction() {
    let marked = "registers 4; CallR a0 x0; StoreTopR a1; ReturnR a3 b1 dunder; ReturnR b2";
    assert_eq!(warnings(marked), ["level 0 does not keep r2: its callee may overwrite it; by its mark `dunder` 2 goes on at 3, and 3 reads it"]);
    let both = "registers 4; try 3 6; CallR a0 x0; StoreTopR a1; ReturnR a3 b1 dunder; SetupExcept a6; CallR a0 x0; ReturnR b1; ReturnR b2";
    assert_eq!(warnings(both)[1], "level 0 does not keep r2: its callee may overwrite it; by its mark `dunder` 2 goes on at 3; if 4 raises, the \
        handler at 6 reads it at 6");
    assert_eq!(view(marked).exposed.iter().next().unwrap().leaves().collect::<Vec<_>>(), [Leave { at: 2, to: 3, raises: false }]);
}

/// What came to be exposed and what is no longer, with the warnings of what came.
#[test]
fn what_differs() {
    let sheltered = source("exposed.txt").replace("8 ReturnR b2", "8 ReturnR b5");
    let (old, new) = (view(&sheltered), view(&source("exposed.txt")));
    let came = diff::bodies(&old, &new);
    assert!(came.contains("  2 CallR a4 b0 x1\n      row    - r5\n      keeps  - r5\n      exposed  + r5\n"), "{came}");
    assert!(came.ends_with(".\nWARNING: level 2 does not keep r5: its callee may overwrite it; if 6 raises, the handler at 9 reads it at 9.\n"), "{came}");
    let left = diff::bodies(&new, &old);
    assert!(left.contains("      exposed  - r5\n") && !left.contains("WARNING"), "{left}");
    // Exposed before and now: no difference. A new level that has it: told.
    assert_eq!(diff::bodies(&new, &new), "Nothing differs: the same instructions, rows and lists.\n");
    let more = source("exposed.txt").replace("1 LoadGlobalR a4 b9\n", "CallR a4 x0\nStoreTopR a3\nLoadGlobalR a4 b9\n").replace("try 5 9", "try 7 11")
        .replace("a9", "a11").lines().map(|l| l.trim_start_matches(|c: char| c.is_ascii_digit() || c == ' ').to_string() + "\n").collect::<String>();
    let told = diff::bodies(&new, &view(&more));
    assert!(told.ends_with("WARNING: level 1 does not keep r5: its callee may overwrite it; if 8 raises, the handler at 11 reads it at 11.\n"), "{told}");
    // Neither its row nor its list changes.
    let told = diff::bodies(&view(&source("exposed.txt").replace("9 ReturnR b5", "9 ReturnR b0")), &new);
    assert!(told.contains("  2 CallR a4 b0 x1\n      exposed  + r5  - r0\n"), "{told}");
}

#[test]
fn in_colour() {
    assert!(paint::painted("▲△▽·").contains("\x1b[31;1m▽\x1b[0m"));
    assert!(paint::painted(&text::body(&view(&source("exposed.txt")))).contains("\x1b[31;1mWARNING: level 2 does not keep r5"));
}

/// Where too many tries would be looked at it is not asked, and that is a warning.
#[test]
fn too_much_to_ask() {
    let mut text = String::from("registers 2; CallR a0 x0; StoreTopR a1\n");
    for _ in 0..20_000 { text += "Move a0 b1\n" }
    let few = text.clone() + &"try 4 9\n".repeat(100);
    for _ in 0..25_000 { text += "try 4 9\n" }
    let view = view(&text);
    let due = "WARNING: too much is inside tries to ask here what is exposed.";
    assert!(view.unasked && view.warnings() == [due] && !self::view(&few).unasked);
    for told in [text::body(&view), text::levels(&view), page::body(&view), diff::bodies(&self::view(&few), &view)] { assert!(told.contains(due), "{told}") }
    let json = json::files(&[Listed { file: "many".into(), of: Ok(Of::Body(Box::new((body(&text), view)))) }]);
    for due in ["\"exposed\":null}", "\"warnings\":[{\"says\":\"too much is inside tries to ask here what is exposed\"}],"] { assert!(json.contains(due)) }
}

/// A body in blocks, each with a try at its end: its handler alone reads every second register, so that each level of the block exposes them all.
fn large(instructions: usize, registers: usize, block: usize) -> String {
    let mut text = format!("registers {registers}\n");
    let end = block - registers / 6 - 2;
    for k in 0..instructions {
        let (at, start) = (k % block, k - k % block);
        if at == end - 4 && start + block < instructions { text += &format!("try {k} {}\n", start + end) }
        text += &match at {
            _ if at < registers => format!("LoadGlobalR a{at} b1\n"),
            _ if at == end - 4 => format!("SetupExcept a{}\n", start + end),
            _ if at == end - 1 => format!("Jump {}\n", (start + block).min(instructions)),
            _ if at >= end => { let [a, b, c] = [1, 3, 5].map(|r| (6 * (at - end) + r) % registers); format!("PushRegs a{a} b{b} c{c} x3\n") }
            _ if at % 4 == 1 => "CallR a0 x0\n".into(),
            _ => "StoreTopR a2\n".into(),
        }
    }
    text
}

/// Much that is exposed is listed as fast as the rest, and its page is small: seconds of one core, as the shell counts them.
#[test]
fn much_that_is_exposed() {
    let file = Path::new(env!("CARGO_TARGET_TMPDIR")).join("much.txt");
    fs::write(&file, large(65_535, 64, 4_000)).unwrap();
    let shell = Command::new("sh").args(["-c", "\"$0\" \"$1\" > \"$1.out\" && times", env!("CARGO_BIN_EXE_listing")]).arg(&file).output().unwrap();
    let text = fs::read_to_string(file.with_extension("txt.out")).unwrap();
    assert_eq!((text.matches("r61 r63 are exposed\n").count(), text.matches("\nWARNING: ").count()), (16 * 980, 16 * 32));
    let part = |word: &str| word.parse::<f64>().unwrap();
    let seconds = |word: &str| { let (m, s) = word.trim_end_matches('s').split_once('m').unwrap(); 60.0 * part(m) + part(s) };
    let counted = String::from_utf8(shell.stdout).unwrap();
    let took: f64 = counted.lines().nth(1).unwrap().split(' ').map(seconds).sum();
    assert!(took > 0.0 && took < 2.0, "{took} seconds");
    let page = page::body(&view(&large(2_000, 200, 500)));
    assert!(page.contains("r197 r199 are exposed</div>") && page.len() <= 3_000_000, "{}", page.len());
}

/// A number below another.
struct Random(u64);

impl Random {
    fn below(&mut self, n: u64) -> u64 {
        self.0 = self.0.wrapping_mul(6_364_136_223_846_793_005).wrapping_add(1_442_695_040_888_963_407);
        (self.0 >> 33) % n
    }

    /// A body with calls, jumps, marks and tries.
    fn body(&mut self) -> String {
        let (n, regs) = (5 + self.below(40), 1 + self.below(80));
        let mut text = format!("registers {regs}\n");
        for _ in 0..self.below(4) { let s = self.below(n); text += &format!("try {s} {}\n", s + self.below(n + 3 - s)) }
        let wild = self.below(2) == 0;
        for k in 0..n {
            let [a, b, c] = [self.below(regs + 1), self.below(regs + 1), self.below(regs + 1)];
            let mark = if wild && self.below(4) == 0 { " dunder" } else { "" };
            text += &match self.below(14) {
                0 => format!("CallR a{a} b{b} x1\nStoreTopR a{c}\n"),
                1 => format!("GetAttrR a{a} b{b} c3\n"),
                2 => format!("ReturnR a{a} b{b}{mark}\n"),
                3 => format!("Jump {}{mark}\n", self.below(n + 1)),
                4 => format!("JumpIfFalseR a{} b{b}\n", self.below(n + 1)),
                5 => format!("UnpackR a{a} b{b} x2{mark}\n"),
                6 => format!("WithEnter b{b} c{c} x2{mark}\n"),
                7 => format!("PushRegs a{a} x1\nCallR a{b} x0\nStoreTopR a{c}\nStoreTopR a{a}\n"),
                8 if k % 5 == 0 => "Raise\n".into(),
                _ => format!("AddR a{a} b{b} c{c}{mark}\n"),
            };
        }
        text
    }
}

/// The positions to which the code by itself comes with the register as it was.
fn reached(view: &View, from: usize, r: u16) -> BTreeSet<usize> {
    let (mut seen, mut next) = (BTreeSet::new(), vec![from]);
    while let Some(k) = next.pop() { if seen.insert(k) && !view.lines[k].given_up.contains(&r) { next.extend(&view.lines[k].after) } }
    seen
}

/// Every leave of a way is there, and the code by itself comes from one to the next and to the read; the archive too says that the last handler needs it.
fn good(body: &Body, view: &View, e: &Exposed, level: usize) {
    let (n, r, l) = (body.code.len(), e.register, view.lines[level].level.as_ref().unwrap());
    let mut here = if l.result == Some(r) { BTreeSet::new() } else { reached(view, l.resume.min(n), r) };
    let leaves: Vec<Leave> = e.leaves().collect();
    if leaves[0].raises { here.insert(level); }
    for leave in &leaves {
        let (at, to) = (leave.at as usize, leave.to as usize);
        let inside = view.tries.iter().any(|&(s, h)| s < at && at < h && h == to);
        let past = model::rows::stranded(&body.code[at]) && to == at + 1;
        assert!(here.contains(&at) && if leave.raises { inside } else { past }, "{e:?}");
        here = reached(view, to, r);
    }
    let read = e.read().unwrap() as usize;
    assert!(here.contains(&read) && view.lines[read].used.contains(&r), "{e:?}");
    assert_eq!(turniploom::needed(&body.words(), body.registers, leaves.last().unwrap().to as usize, r), Ok(true));
}

/// What is told is what the archive says, no more and no less, each with a way that is there.
#[test]
fn the_archives_word_and_true_ways() {
    let (mut random, mut listed, mut told, mut chains, mut marked) = (Random(24), 0, 0, 0, 0);
    for _ in 0..3_000 {
        let text = random.body();
        let Ok(Text::Body(body)) = read(&text) else { panic!("{text}") };
        let Ok(view) = View::of(&body) else { continue };
        listed += 1;
        let (words, tries) = (body.words(), &view.tries);
        let plain = turniploom::kept(&words, body.registers, tries, false).unwrap();
        let due = turniploom::exposed(&plain, &turniploom::kept_raising(&words, body.registers, tries, true).unwrap());
        let levels = view.lines.iter().enumerate().filter_map(|(k, l)| Some((k, l.level.as_ref()?.exposed.clone())));
        assert_eq!(levels.filter(|l| !l.1.is_empty()).collect::<Vec<_>>(), due, "{text}");
        let mut pairs: Vec<(usize, u16)> = view.exposed.iter().flat_map(|e| e.levels.iter().map(move |&k| (k as usize, e.register))).collect();
        pairs.sort();
        let mut due: Vec<(usize, u16)> = due.into_iter().flat_map(|(k, list)| list.into_iter().map(move |r| (k, r))).collect();
        due.sort();
        assert_eq!(pairs, due, "{text}");
        for e in view.exposed.iter() { for &k in e.levels { good(&body, &view, &e, k as usize) } }
        told += view.exposed.len();
        chains += view.exposed.iter().filter(|e| e.leaves().count() > 1).count();
        marked += view.exposed.iter().filter(|e| e.leaves().any(|l| !l.raises)).count();
    }
    assert!(listed > 1_500 && told > 1_000 && chains > 50 && marked > 100, "{listed} {told} {chains} {marked}");
}
