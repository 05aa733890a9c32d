//! The pages as a browser shows them: chromium lays them out at the width of a desk and of a phone, light and dark, and a script in the page tells
//! what is seen. Where there is no chromium this is left out, and said; .ci/pages installs it, runs this and makes the pictures of docs/pages.

use std::{env, fs, path::{Path, PathBuf}, process::Command};

const LISTING: &str = env!("CARGO_BIN_EXE_listing");

/// Told of the page, a line each: what must be so, and whether it is.
const SCRIPT: &str = r##"<script>
addEventListener('load', () => {
  const told = [], say = (name, holds) => told.push(name + ': ' + holds);
  const all = (s) => [...document.querySelectorAll(s)], one = (s) => document.querySelector(s), box = (e) => e.getBoundingClientRect();
  const numbers = (c) => (c.match(/[\d.]+/g) || []).map(Number);
  const light = (c) => { const [r, g, b] = numbers(c).map((v) => { v /= 255; return v <= .03928 ? v / 12.92 : ((v + .055) / 1.055) ** 2.4 });
      return .2126 * r + .7152 * g + .0722 * b };
  const behind = (e) => { for (; e; e = e.parentElement) { const c = getComputedStyle(e).backgroundColor;
      if (numbers(c)[3] !== 0) return c } return 'rgb(255, 255, 255)' };
  const ratio = (e) => { const [a, b] = [light(getComputedStyle(e).color), light(behind(e))]; return (Math.max(a, b) + .05) / (Math.min(a, b) + .05) };
  const written = all('body *').filter((e) => [...e.childNodes].some((n) => n.nodeType === 3 && n.data.trim()) && box(e).width > 1
      && e.tagName !== 'SCRIPT' && e.tagName !== 'STYLE');
  const faint = written.map((e) => [ratio(e), e.className + ' ' + e.tagName]).sort((a, b) => a[0] - b[0])[0];
  say('contrast at least 4.5', written.length > 20 && faint[0] >= 4.5 || faint.join(' '));
  say('dark', light(getComputedStyle(document.body).backgroundColor) < .2);
  say('width', innerWidth);
  say('the page is no wider than the window', document.documentElement.scrollWidth <= innerWidth);
  const seen = (e) => { const b = box(e), at = document.elementFromPoint((b.left + b.right) / 2, (b.top + b.bottom) / 2); return b.left >= 0
      && b.right <= innerWidth && b.width > 5 && !!at && (e.contains(at) || at.contains(e)) };
  const level = one('tr.level');
  if (level) say('position, instruction and list in sight', ['th', 'td.ins', '.keeps'].every((s) => seen(level.querySelector(s))));
  say('cells say it by a mark too', all('td.cell.row, td.cell.kept, td.cell.exposed').every((c) => c.textContent.trim()));
  const borders = (s) => all(s).map((e) => getComputedStyle(e)).map((c) => c.outlineStyle + ' ' + c.outlineColor + ' ' + (c.boxShadow !== 'none'));
  const own = borders('td.cell.exposed'), others = borders('td.cell:not(.exposed)');
  say('what is exposed is seen, with a border of its own', own.length > 0 && own.every((b) => b.startsWith('dashed ') && !others.includes(b))
      && all('.legend .cell.exposed').length === 1 && all('.warning').length >= 2 && all('.warning').every((e) => box(e).width > 50));
  say('head cells and captions', all('table').every((t) => t.caption && [...t.tHead.rows[0].cells].every((c) => c.scope === 'col'
      || c.getAttribute('aria-hidden')) && [...t.tBodies[0].rows].every((r) => r.querySelector('th[scope=row]'))));
  say('nothing is cut', all('.chart').every((c) => c.scrollHeight <= c.clientHeight + 1));
  say('nothing is sticky', all('th, td').every((c) => getComputedStyle(c).position === 'static'));
  const chart = one('.chart'), before = box(chart), left = box(chart.querySelector('tbody th') || chart).left;
  chart.scrollLeft = 150; chart.scrollTop = 300;
  const row = all('.chart tbody tr').find((r) => box(r).top > before.top + 80), first = row && row.querySelector('th');
  if (first) say('first columns stay', chart.scrollLeft < 20 || Math.abs(box(first).left - left) < 1 && Math
      .abs(box(row.querySelector('td.ins')).left - box(first).right) < 1);
  say('the head stays', chart.scrollTop < 100 || [...chart.querySelectorAll('thead th')].every((h) => Math.abs(box(h).top - before.top) < 2));
  say('scrolled', chart.scrollLeft + ' ' + chart.scrollTop);
  parent.postMessage(told.join('\n'), '*');
});
</script>
"##;

/// A page that shows another in a frame of a width, since no window is as narrow as a phone, and holds what that one tells.
const FRAME: &str = r##"<!doctype html><meta charset="utf-8"><meta name="color-scheme" content="light dark">
<style>body { margin: 0 } iframe { border: 0; width: WIDTHpx; height: 1000px }</style>
<pre id="told"></pre><iframe src="PAGE"></iframe><script>addEventListener('message', (e) => document.getElementById('told').textContent = e.data)</script>
"##;

fn chromium() -> Option<&'static str> { ["chromium", "chromium-browser", "google-chrome"].into_iter().find(|c| Command::new(c).arg("--version")
    .output().is_ok_and(|o| o.status.success())) }

/// Runs chromium over a page at a width.
fn browse(chromium: &str, page: &Path, width: u32, dark: bool, more: &[String]) -> String {
    let profile = page.with_extension(format!("{width}-{dark}"));
    let out = Command::new(chromium).args(["--headless", "--no-sandbox", "--disable-gpu", "--hide-scrollbars", "--virtual-time-budget=2000"])
        .arg(format!("--window-size={width},{}", if width < 600 { 1_100 } else { 960 })).arg(format!("--user-data-dir={}", profile.display()))
        .arg(format!("--blink-settings=preferredColorScheme={}", u8::from(!dark))).args(more).arg(format!("file://{}", page.display())).output().unwrap();
    let _ = fs::remove_dir_all(profile);
    assert!(out.status.success(), "{}", String::from_utf8_lossy(&out.stderr));
    String::from_utf8(out.stdout).unwrap()
}

/// What the script tells of a page.
fn told(chromium: &str, page: &Path, width: u32, dark: bool) -> String {
    let frame = page.with_extension(format!("{width}-{dark}.html"));
    fs::write(&frame, FRAME.replace("WIDTH", &width.to_string()).replace("PAGE", &page.file_name().unwrap().to_string_lossy())).unwrap();
    let dom = browse(chromium, &frame, 1_400, dark, &["--dump-dom".into()]);
    let (_, told) = dom.rsplit_once("<pre id=\"told\">").unwrap_or_else(|| panic!("{dom}"));
    told.split_once("</pre>").unwrap().0.replace("&gt;", ">") + "\n"
}

fn folder() -> PathBuf {
    let path = Path::new(env!("CARGO_TARGET_TMPDIR")).join("browser");
    fs::create_dir_all(&path).unwrap();
    path
}

fn sample(name: &str) -> PathBuf { Path::new(env!("CARGO_MANIFEST_DIR")).join("../../samples").join(name) }

/// The page of a text, without the script and with it, and with the script as it is laid out for paper.
fn pages(source: &Path) -> [PathBuf; 3] {
    let out = Command::new(LISTING).args(["--html=-"]).arg(source).output().unwrap();
    let page = String::from_utf8(out.stdout).unwrap();
    let name = source.file_stem().unwrap().to_string_lossy().into_owned();
    let asked = page.replace("</head>", &format!("{SCRIPT}</head>"));
    let texts = [("", &page), ("-asked", &asked), ("-paper", &asked.replace("@media print", "@media screen"))];
    texts.map(|(what, text)| { let to = folder().join(format!("{name}{what}.html")); fs::write(&to, text).unwrap(); to })
}

const MUST: [&str; 4] = ["contrast at least 4.5", "the page is no wider than the window", "cells say it by a mark too", "head cells and captions"];

fn holds(told: &str, names: &[&str]) { for name in names { assert!(told.contains(&format!("{name}: true\n")), "{name}\n{told}") } }

#[test]
fn as_a_browser_shows_them() {
    let Some(chromium) = chromium() else { return println!("LEFT OUT: there is no chromium; .ci/pages installs it and looks at the pages") };
    let [jacket, asked, jacket_on_paper] = pages(&sample("jacket.txt"));
    for (width, dark) in [(1280, false), (390, false), (1280, true), (390, true)] {
        let told = told(chromium, &asked, width, dark);
        holds(&told, &MUST);
        holds(&told, &["position, instruction and list in sight"]);
        assert!(told.contains(&format!("dark: {dark}\n")) && told.contains(&format!("width: {width}\n")), "{told}");
        if width == 390 { holds(&told, &["first columns stay"]) }
    }
    // A long and wide body is scrolled both ways: its head and its first columns stay.
    let mut body = String::from("registers 200\n");
    for k in 0..300 { body += &format!("AddR a{} b{} c{}\n", k * 7 % 200, k * 13 % 200, k * 29 % 200) }
    let large = folder().join("large.txt");
    fs::write(&large, body).unwrap();
    let [_, large, paper] = pages(&large);
    for width in [1280, 390] {
        let told = told(chromium, &large, width, false);
        holds(&told, &["first columns stay", "the head stays"]);
        holds(&told, &MUST[..3]);
        assert!(told.contains("scrolled: 150 300\n"), "{told}");
    }
    holds(&told(chromium, &paper, 1280, false), &["nothing is cut", "nothing is sticky"]);
    holds(&told(chromium, &jacket_on_paper, 1280, false), &MUST[..1]);
    holds(&told(chromium, &pages(&sample("ships.txt"))[1], 390, true), &MUST);
    let [exposed, asked, exposed_on_paper] = pages(&sample("exposed.txt"));
    for (width, dark) in [(1280, false), (390, false), (1280, true), (390, true)] {
        let told = told(chromium, &asked, width, dark);
        holds(&told, &MUST);
        holds(&told, &["position, instruction and list in sight", "what is exposed is seen, with a border of its own"]);
    }
    holds(&told(chromium, &exposed_on_paper, 1280, false), &[MUST[0], "what is exposed is seen, with a border of its own"]);
    assert!((1..=3).contains(&papers(chromium, &exposed)));
    printed(chromium, &jacket);
    if let Some(pictures) = env::var_os("TURNIPLOOM_PICTURES") { pictured(chromium, Path::new(&pictures)) }
}

/// How many papers a page takes.
fn papers(chromium: &str, page: &Path) -> usize {
    let paper = page.with_extension("pdf");
    browse(chromium, page, 1280, false, &[format!("--print-to-pdf={}", paper.display()), "--no-pdf-header-footer".into()]);
    let bytes = fs::read(paper).unwrap();
    bytes.windows(11).filter(|w| w == b"/Type /Page").count() - bytes.windows(12).filter(|w| w == b"/Type /Pages").count()
}

/// On paper it is more than nothing, and all of a long body is there.
fn printed(chromium: &str, page: &Path) {
    let (short, long) = (papers(chromium, page), papers(chromium, &folder().join("large.html")));
    assert!((1..=3).contains(&short) && long >= 5, "{short} {long}");
}

/// The pictures of docs/pages.
fn pictured(chromium: &str, to: &Path) {
    let [page, ..] = pages(&sample("jacket.txt"));
    for (width, dark) in [(1280, false), (390, false), (1280, true), (390, true)] {
        let picture = to.join(format!("jacket-{width}-{}.png", if dark { "dark" } else { "light" }));
        browse(chromium, &page, width, dark, &[format!("--screenshot={}", picture.display())]);
    }
}
