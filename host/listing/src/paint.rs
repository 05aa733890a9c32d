//! Colours of a terminal, laid over the text: what they say is said by the marks already.

/// When to paint.
#[derive(Clone, Copy, Debug, Default, PartialEq, Eq)]
pub enum Colour {
    #[default]
    Auto,
    Always,
    Never,
}

impl Colour {
    /// # Errors
    ///
    /// If the word names none.
    pub fn named(word: &str) -> Result<Colour, String> {
        match word {
            "auto" => Ok(Colour::Auto),
            "always" => Ok(Colour::Always),
            "never" => Ok(Colour::Never),
            _ => Err("--colour wants always, never or auto".into()),
        }
    }

    /// Whether to paint for this NO_COLOR, which counts if it is set and not empty, on a terminal or not.
    pub fn wanted(self, no_color: Option<&str>, terminal: bool) -> bool {
        match self {
            Colour::Always => true,
            Colour::Never => false,
            Colour::Auto => terminal && no_color.is_none_or(str::is_empty),
        }
    }
}

/// The colour of a mark.
fn of(mark: char) -> Option<&'static str> {
    Some(match mark {
        '●' | '○' => "36",
        '▲' => "33;1",
        '△' => "35;1",
        '·' | '┌' | '│' | '└' => "90",
        '▽' => "31;1",
        '×' | '┘' => "31",
        '→' => "32",
        _ => return None,
    })
}

/// The text with its marks and warnings in colour.
pub fn painted(text: &str) -> String {
    let mut out = String::with_capacity(2 * text.len());
    for line in text.split_inclusive('\n') {
        if line.starts_with("WARNING") || line.contains("BREAK THEIR EQUATION") {
            out += "\x1b[31;1m";
            out += line.trim_end_matches('\n');
            out += "\x1b[0m\n";
            continue;
        }
        let mut now = None;
        for c in line.chars() {
            let next = of(c);
            if next != now {
                if now.is_some() { out += "\x1b[0m" }
                if let Some(code) = next { out += "\x1b["; out += code; out.push('m') }
                now = next;
            }
            out.push(c);
        }
    }
    out
}
