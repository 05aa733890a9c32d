//! What the command does with its options: files and folders are read, listed and written; and how it ends.

use crate::{body, chunk, diff, figures, json, listed::{Done, Listed, Of}, notation::{self, Text}, options::{Form, Options, USE}, out::Out,
    page, paint, refused, run as runs, text, whose, why};
pub use crate::listed::Trouble;
use std::{env, fs, io::{self, IsTerminal, Write}, path::Path, process::ExitCode, thread};

/// Ends the command: a line for each line of trouble, and the status.
pub fn finished(done: Done<Vec<Trouble>>) -> ExitCode {
    let troubles = done.unwrap_or_else(|trouble| vec![trouble]);
    for trouble in troubles.iter().filter(|t| **t != Trouble::Closed) {
        // Where not even this can be written nothing is left to be done.
        let mut errors = io::stderr().lock();
        for line in trouble.says().lines() { let _ = if matches!(trouble, Trouble::Use(_)) { writeln!(errors, "listing: {line}") } else {
            writeln!(errors, "{line}") }; }
    }
    ExitCode::from(troubles.iter().map(Trouble::status).max().unwrap_or(0))
}

/// Does what the options ask for, and tells what could not be listed.
///
/// # Errors
///
/// What kept it from being done at all.
pub fn run(options: &Options) -> Done<Vec<Trouble>> {
    match options.form {
        Form::Help => said(|out| out.push_str(&format!("{USE}\n")), options).map(|()| vec![]),
        Form::Version => said(|out| out.push_str(&format!("{}\n", whose::lines())), options).map(|()| vec![]),
        Form::Figures => in_figures(options),
        Form::Diff => differing(options),
        Form::Listing | Form::Kept | Form::Json => listings(options),
    }
}

/// Writes to the standard output, in colour where that is wanted.
fn said(put: impl FnOnce(&mut Out), options: &Options) -> Done<()> {
    let no_color = env::var("NO_COLOR").ok();
    let colour = options.form != Form::Json && options.colour.wanted(no_color.as_deref(), io::stdout().is_terminal());
    let (mut stdout, mut done) = (io::stdout().lock(), Ok(()));
    let mut write = |text: &str| if done.is_ok() {
        done = if colour { stdout.write_all(paint::painted(text).as_bytes()) } else { stdout.write_all(text.as_bytes()) };
    };
    let mut out = Out::to(&mut write);
    put(&mut out);
    out.flush();
    done.and_then(|()| stdout.flush()).map_err(|e| match e.kind() {
        io::ErrorKind::BrokenPipe => Trouble::Closed,
        _ => Trouble::Unwritten(format!("listing: the standard output can't be written: {}", told(&e))),
    })
}

/// An error of the system without its number.
fn told(error: &io::Error) -> String {
    let text = error.to_string();
    text.split(" (os error").next().unwrap_or(&text).to_string()
}

/// Writes the text and the page, the page in place of the text if it is for the standard output.
fn written(text: impl FnOnce(&mut Out), page: impl FnOnce(&mut Out), options: &Options) -> Done<()> {
    let Some(to) = options.html.as_deref() else { return said(text, options) };
    if to == "-" { return said(page, &Options::default()) }
    said(text, options)?;
    let unwritten = |e| Trouble::Unwritten(format!("listing: {to} can't be written: {}", told(&e)));
    let (mut file, mut done) = (fs::File::create(to).map_err(unwritten)?, Ok(()));
    let mut write = |text: &str| if done.is_ok() { done = file.write_all(text.as_bytes()) };
    let mut out = Out::to(&mut write);
    page(&mut out);
    out.flush();
    done.map_err(unwritten)
}

/// The files that are named, a folder's in order of their names.
fn files(options: &Options) -> Done<Vec<String>> {
    let mut files = vec![];
    for file in &options.files {
        if file == "-" || !Path::new(file).is_dir() {
            files.push(file.clone());
            continue;
        }
        let inside = fs::read_dir(file).map_err(|e| Trouble::Text(format!("{file}: {}", told(&e))))?;
        let mut texts: Vec<String> = inside.flatten().map(|f| f.path()).filter(|p| p.is_file() && p.extension().is_some_and(|e| e == "txt"))
            .map(|p| p.display().to_string()).collect();
        if texts.is_empty() { return Err(Trouble::Text(format!("{file}: there is no .txt file in this folder"))) }
        texts.sort();
        files.extend(texts);
    }
    Ok(files)
}

/// The text of a file.
fn read(file: &str) -> Done<Text> {
    let source = if file == "-" { io::read_to_string(io::stdin()) } else { fs::read_to_string(file) };
    let source = source.map_err(|e| Trouble::Text(format!("{file}: {}", told(&e))))?;
    notation::read(&source).map_err(|wrongs| Trouble::Text(wrongs.0.iter().map(|w| format!("{file}: {w}")).collect::<Vec<_>>().join("\n")))
}

/// What is known of a file.
fn of(file: &str, options: &Options) -> Done<Of> {
    match read(file)? {
        Text::Body(_) if options.run => Err(Trouble::Text(format!("{file}: --run is for a chunk, and this is a body"))),
        Text::Body(mut b) => {
            b.wide |= options.wide;
            b.rows32 = options.rows32.unwrap_or(b.rows32);
            let mut view = body::View::of(&b).map_err(|r| Trouble::Refused(format!("{file}: {}", refused::body(r, &b))))?;
            if let Some(trace) = &options.replay {
                let bytes = fs::read(trace).map_err(|e| Trouble::Text(format!("{trace}: {}", told(&e))))?;
                view.replay(&b, &bytes).map_err(|r| Trouble::Refused(format!("{trace}: {}", refused::body(r, &b))))?;
            }
            if let Some((k, r)) = options.why {
                let answer = why::why(&b, &view, k, r).map_err(|r| Trouble::Refused(format!("{file}: {}", refused::body(r, &b))))?;
                view.remarks.push(answer);
            }
            Ok(Of::Body(Box::new((b, view))))
        }
        Text::Chunk(_) if options.replay.is_some() => Err(Trouble::Text(format!("{file}: --replay is for a body, and this is a chunk"))),
        Text::Chunk(mut c) => {
            c.strict |= options.strict;
            let refuse = |r| Trouble::Refused(format!("{file}: {}", refused::chunk(r, &c)));
            let mut view = chunk::View::of(&c).map_err(refuse)?;
            if options.run { view.remarks.extend(runs::lines(&c).map_err(refuse)?) }
            Ok(Of::Chunk(Box::new((c, view))))
        }
    }
}

impl Of {
    pub fn heading(&self) -> &str {
        match self {
            Of::Body(of) => &of.1.heading,
            Of::Chunk(of) => &of.1.heading,
        }
    }

    /// How many warnings it has.
    pub fn warnings(&self) -> usize {
        match self {
            Of::Body(of) => of.1.warned(),
            Of::Chunk(_) => 0,
        }
    }

    fn put(&self, form: Form, out: &mut Out) {
        match self {
            Of::Body(of) if form == Form::Kept => text::put_levels(&of.1, out),
            Of::Body(of) => text::put_body(&of.1, out),
            Of::Chunk(_) if form == Form::Kept => out.push_str("A chunk has no levels.\n"),
            Of::Chunk(of) => out.push_str(&text::chunk(&of.1)),
        }
    }

    pub fn put_table(&self, out: &mut Out) {
        match self {
            Of::Body(of) => page::put_body(&of.1, out),
            Of::Chunk(of) => out.push_str(&page::chunk(&of.1)),
        }
    }
}

/// Lists every file, and tells which could not be.
fn listings(options: &Options) -> Done<Vec<Trouble>> {
    let listed: Vec<Listed> = files(options)?.into_iter().map(|file| Listed { of: of(&file, options), file }).collect();
    // What could be listed is written first, and then what could not.
    let text = |out: &mut Out| if options.form == Form::Json { json::put_files(&listed, out) } else { texts(&listed, options.form, out) };
    written(text, |out| page::put_files(&listed, out), options)?;
    // The command ends now: what is known of large bodies is left to the system, which takes it back faster than piece by piece.
    Ok(listed.into_iter().filter_map(|l| l.of.map(std::mem::forget).err()).collect())
}

/// Writes each file that was listed, and whose proof it is.
fn texts(listed: &[Listed], form: Form, out: &mut Out) {
    let mut any = false;
    for (file, of) in listed.iter().filter_map(|l| Some((&l.file, l.of.as_ref().ok()?))) {
        out.push_str(&format!("{}{file}: {}\n\n", if any { "\n" } else { "" }, of.heading()));
        of.put(form, out);
        any = true;
    }
    if any { out.push_str(&format!("{}\n", whose::line())) }
}

/// The text of why a file was not listed.
impl Listed {
    pub fn trouble(&self) -> Option<&str> { self.of.as_ref().err().map(Trouble::says) }
}

/// Many bodies in figures.
fn in_figures(options: &Options) -> Done<Vec<Trouble>> {
    let mut view = figures::View::default();
    for file in files(options)? {
        let Text::Body(mut b) = read(&file)? else { return Err(Trouble::Text(format!("{file}: a chunk has no levels, and no figures"))) };
        b.wide |= options.wide;
        view.add(&file, &b).map_err(|r| Trouble::Refused(format!("{file}: {}", refused::body(r, &b))))?;
    }
    let text = format!("{}\n\n{}{}\n", view.heading(), figures::text(&view), whose::line());
    written(|out| out.push_str(&text), |out| out.push_str(&page::whole("Figures", &view.heading(), &figures::page(&view))), options)?;
    Ok(vec![])
}

/// What differs between two files.
fn differing(options: &Options) -> Done<Vec<Trouble>> {
    let [old, new] = &options.files[..] else { return Err(Trouble::Use("--diff wants two files".into())) };
    // Two large bodies take twice the time of one: each has a core.
    let (of_old, of_new) = thread::scope(|scope| {
        let of_new = scope.spawn(|| of(new, options));
        (of(old, options), of_new.join().expect("no panic"))
    });
    let text = match (of_old?, of_new?) {
        (Of::Body(a), Of::Body(b)) => diff::bodies(&a.1, &b.1),
        (Of::Chunk(a), Of::Chunk(b)) => diff::chunks(&a.1, &b.1),
        _ => return Err(Trouble::Text(format!("{old} and {new}: one is a body, and the other a chunk"))),
    };
    let text = format!("{old} and {new}\n\n{text}{}\n", whose::line());
    let page = || page::whole("Differences", &format!("{old} and {new}"), &format!("<pre>{}</pre>\n", page::escaped(&text)));
    written(|out| out.push_str(&text), |out| out.push_str(&page()), options)?;
    Ok(vec![])
}
