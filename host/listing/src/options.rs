//! The words of the command line.

use crate::paint::Colour;

pub const USE: &str = "listing [OPTIONS] FILE..        lists bodies and chunks, for the people who write rules
listing --diff A B              tells which rows and lists differ
listing --figures FILE..        tells of many bodies how long their lists are, and which save area a recursion needs

FILE has a body or a chunk in the notation of docs/NOTATION.md; - is the standard input, and a folder stands for the .txt files in it.

  --html=PAGE     writes one self-contained page too; - writes it in place of the text
  --json          writes what is known as JSON
  --kept          lists the levels alone, with what each keeps and what is exposed
  --rows=32       has rows of 32 bits, where more than 32 registers take the wide route
  --wide          takes the wide route, which looks for rows from 0 on
  --strict        folds a chunk in strict mode
  --replay=TRACE  lays a recorded day beside the rows: visited positions, and how often each register was read
  --why K R       says whether register R is needed at position K, and by which path
  --run           runs a chunk as it is, and folded and cleared in either mode, and says how each run ends
  --colour=WHEN   always, never, or auto: on a terminal, unless NO_COLOR is set
  --help, --version

Exit status: 0 listed, 1 refused by the proved calls, 2 a text or a use that is wrong, or a page that can't be written.";

/// What is to be done.
#[derive(Clone, Copy, Debug, Default, PartialEq, Eq)]
pub enum Form {
    #[default]
    Listing,
    Kept,
    Json,
    Figures,
    Diff,
    Help,
    Version,
}

/// The command line, read.
#[derive(Debug, Default)]
pub struct Options {
    pub form: Form,
    pub files: Vec<String>,
    pub html: Option<String>,
    pub strict: bool,
    pub wide: bool,
    pub rows32: Option<bool>,
    pub replay: Option<String>,
    pub why: Option<(usize, u16)>,
    pub run: bool,
    pub colour: Colour,
}

/// A number, or a register as the listing writes it.
fn number<T: std::str::FromStr>(word: &str) -> Option<T> { word.trim_start_matches('r').parse().ok() }

impl Options {
    /// Reads the words after the command's name.
    ///
    /// # Errors
    ///
    /// What is wrong with them, in a line.
    pub fn read(words: impl IntoIterator<Item = String>) -> Result<Options, String> {
        let (mut options, mut words, mut only_files) = (Options::default(), words.into_iter(), false);
        while let Some(word) = words.next() {
            if only_files || word == "-" || !word.starts_with('-') {
                options.files.push(word);
                continue;
            }
            let (name, mut given) = match word.split_once('=') {
                Some((name, value)) => (name.to_string(), Some(value.to_string())),
                None => (word, None),
            };
            let mut value = |what: &str| given.take().or_else(|| words.next()).ok_or(format!("{name} wants {what}"));
            match name.as_str() {
                "--" => only_files = true,
                "--html" => options.html = Some(value("the name of the page")?),
                "--replay" => options.replay = Some(value("the name of the trace")?),
                "--rows" => options.rows32 = Some(width(&value("32 or 64")?)?),
                "--colour" | "--color" => options.colour = Colour::named(&value("always, never or auto")?)?,
                "--why" => options.why = number(&value("a position and a register")?).zip(number(&value("a position and a register")?)),
                "--strict" => options.strict = true,
                "--wide" => options.wide = true,
                "--run" => options.run = true,
                "--kept" => options.form = Form::Kept,
                "--json" => options.form = Form::Json,
                "--figures" => options.form = Form::Figures,
                "--diff" => options.form = Form::Diff,
                "--help" | "-h" => options.form = Form::Help,
                "--version" | "-V" => options.form = Form::Version,
                _ => return Err(format!("there is no option {name}; --help lists them")),
            }
            if name == "--why" && options.why.is_none() { return Err("--why wants a position and a register".into()) }
            if let Some(value) = given { return Err(format!("{name} takes no value, and `{value}` is given")) }
        }
        options.fit()
    }

    /// Holds the number of files to what is to be done.
    fn fit(self) -> Result<Options, String> {
        let files = self.files.len();
        match self.form {
            Form::Help | Form::Version => Ok(self),
            Form::Diff if files != 2 => Err(format!("--diff wants two files, not {files}")),
            _ if files == 0 => Err("no file is named; --help tells the use".into()),
            _ if self.files.iter().filter(|f| *f == "-").count() > 1 => Err("the standard input can be read once only".into()),
            _ => Ok(self),
        }
    }
}

fn width(word: &str) -> Result<bool, String> {
    match word {
        "32" => Ok(true),
        "64" => Ok(false),
        _ => Err("--rows wants 32 or 64".into()),
    }
}
