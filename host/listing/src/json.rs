//! The listing as JSON: one object with the version and a list of files. It is written piece by piece: a large body has millions of numbers.

use crate::{around::Around, body, chunk, listed::{Listed, Of}, notation::constant_text, out::Out, put};
use std::fmt::Write;
use turniploom::{ARCHIVE_SHA256, KIT, VERSION};

/// Writes a text as JSON has it.
fn quoted(text: &str, out: &mut String) {
    out.push('"');
    let mut plain = 0;
    for (k, c) in text.bytes().enumerate().filter(|&(_, c)| c == b'"' || c == b'\\' || c < b' ') {
        out.push_str(&text[plain..k]);
        plain = k + 1;
        match c {
            b'"' => out.push_str("\\\""),
            b'\\' => out.push_str("\\\\"),
            b'\n' => out.push_str("\\n"),
            c => write!(out, "\\u{c:04x}").unwrap(),
        }
    }
    out.push_str(&text[plain..]);
    out.push('"');
}

/// Writes a list of what is written by others.
fn list<T>(of: impl IntoIterator<Item = T>, out: &mut Out, mut put: impl FnMut(T, &mut Out)) {
    out.push('[');
    for (k, item) in of.into_iter().enumerate() {
        if k > 0 { out.push(',') }
        put(item, out);
    }
    out.push(']');
}

fn texts(of: &[String], out: &mut Out) { list(of, out, |t, out| quoted(t, out)) }

fn numbers<T: Copy + Into<u32>>(of: &[T], out: &mut Out) { list(of, out, |&n, out| put(out, n.into())) }

/// Writes a name and what follows it.
fn named(name: &str, out: &mut Out) {
    out.push('"');
    out.push_str(name);
    out.push_str("\":");
}

/// Writes a value, or that there is none.
fn or_null<T>(value: Option<T>, out: &mut Out, put: impl FnOnce(T, &mut Out)) { match value { Some(value) => put(value, out), None => out.push_str("null") } }

/// The whole of it.
pub fn files(listed: &[Listed]) -> String { let mut out = Out::default(); put_files(listed, &mut out); out.text() }

/// Writes it.
pub fn put_files(listed: &[Listed], out: &mut Out) {
    for (name, is) in [("{\"version\":", VERSION), (",\"archive_sha256\":", ARCHIVE_SHA256), (",\"kit\":", KIT)] {
        out.push_str(name);
        quoted(is, out);
    }
    out.push_str(",\"files\":");
    list(listed, out, |l, out| {
        out.push_str("\n{\"file\":");
        quoted(&l.file, out);
        out.push(',');
        match &l.of {
            Ok(Of::Body(of)) => body(&of.1, out),
            Ok(Of::Chunk(of)) => chunk(&of.1, out),
            Err(_) => { named("error", out); quoted(l.trouble().unwrap_or_default(), out) }
        }
        out.push('}');
    });
    out.push_str("}\n");
}

/// Writes a level: what each handler around it adds, those too that add nothing.
fn level(v: &body::Level, around: &Around, asked: bool, out: &mut Out) {
    out.push_str("{\"resumes\":");
    put(out, v.resume as u32);
    out.push_str(",\"result\":");
    or_null(v.result, out, |r, out| put(out, r.into()));
    out.push_str(",\"calls\":");
    or_null(v.callee.as_ref(), out, |c, out| quoted(c, out));
    write!(out, ",\"store_missing\":{},\"keeps\":", v.unstored).unwrap();
    list(v.kept.iter().flat_map(|p| &p.registers), out, |&r, out| put(out, r.into()));
    out.push_str(",\"for_handlers\":");
    let mut parts = v.kept[1..].iter().peekable();
    list(around.handlers(), out, |h, out| {
        out.push_str("{\"handler\":");
        put(out, h as u32);
        out.push_str(",\"keeps\":");
        numbers(parts.next_if(|p| p.handler == Some(h)).map_or(&[], |p| &p.registers[..]), out);
        out.push('}');
        out.pass();
    });
    out.push_str(",\"exposed\":");
    or_null(asked.then_some(&v.exposed), out, |e, out| numbers(e, out));
    out.push('}');
}

/// Writes the line of a position.
fn line(view: &body::View, k: usize, around: &mut Around, out: &mut Out) {
    let l = &view.lines[k];
    around.go(k);
    out.push_str("\n{\"at\":");
    put(out, k as u32);
    out.push_str(",\"instruction\":");
    quoted(&l.text, out);
    out.push_str(",\"uses\":");
    numbers(&l.used, out);
    out.push_str(",\"gives_up\":");
    numbers(&l.given_up, out);
    out.push_str(",\"row\":");
    or_null((k >= view.start).then_some(&l.row), out, |row, out| numbers(row, out));
    out.push_str(",\"level\":");
    or_null(l.level.as_ref(), out, |v, out| level(v, around, !view.unasked, out));
    out.push_str(",\"notes\":");
    texts(&l.notes, out);
    out.push_str(",\"comment\":");
    quoted(&l.comment, out);
    out.push('}');
    out.pass();
}

/// Writes the warnings: what is exposed with its way, or that it was not asked.
fn warnings(view: &body::View, out: &mut Out) {
    let mut says = String::new();
    list(view.exposed.iter().map(Some).chain(view.unasked.then_some(None)), out, |e, out| {
        says.clear();
        out.push('{');
        match e {
            None => says.push_str(body::UNASKED),
            Some(e) => {
                named("register", out);
                put(out, e.register.into());
                out.push_str(",\"not_kept_at\":");
                numbers(e.levels, out);
                out.push_str(",\"raises\":");
                list(e.leaves(), out, |l, out| {
                    let to = if l.raises { "handler" } else { "goes_on_at" };
                    write!(out, "{{\"at\":{},\"{to}\":{}}}", l.at, l.to).unwrap();
                    out.pass();
                });
                out.push_str(",\"read_at\":");
                or_null(e.read(), out, |k, out| put(out, k));
                out.push(',');
                e.put(&mut says);
            }
        }
        named("says", out);
        quoted(&says, out);
        out.push('}');
        out.pass();
    });
}

fn body(view: &body::View, out: &mut Out) {
    out.push_str("\"kind\":\"body\",\"heading\":");
    quoted(&view.heading, out);
    out.push_str(",\"tries\":");
    list(&view.tries, out, |(s, h), out| write!(out, "[{s},{h}]").unwrap());
    out.push_str(",\"lines\":");
    let mut around = Around::of(&view.tries);
    list(0..view.lines.len(), out, |k, out| line(view, k, &mut around, out));
    out.push_str(",\"warnings\":");
    warnings(view, out);
    out.push_str(",\"remarks\":");
    texts(&view.remarks, out);
}

fn chunk(view: &chunk::View, out: &mut Out) {
    out.push_str("\"kind\":\"chunk\",\"heading\":");
    quoted(&view.heading, out);
    out.push_str(",\"lines\":");
    list(view.before.iter().enumerate(), out, |(k, l), out| {
        write!(out, "\n{{\"at\":{k},\"instruction\":").unwrap();
        quoted(&l.text, out);
        out.push_str(",\"after\":");
        or_null(l.after.as_ref(), out, |(to, text), out| {
            write!(out, "{{\"at\":{to},\"instruction\":").unwrap();
            quoted(text, out);
            write!(out, ",\"was\":{}}}", l.was).unwrap();
        });
        out.push_str(",\"into\":");
        or_null(l.into, out, |to, out| write!(out, "{to}").unwrap());
        out.push_str(",\"notes\":");
        texts(&l.notes, out);
        out.push_str(",\"comment\":");
        quoted(&l.comment, out);
        out.push('}');
        out.pass();
    });
    out.push_str(",\"ships\":");
    quoted(&view.ships.to_string(), out);
    out.push_str(",\"constants\":");
    list(&view.ships.constants, out, |&(kind, word), out| quoted(&constant_text(kind, word), out));
    out.push_str(",\"remarks\":");
    texts(&view.remarks, out);
}
