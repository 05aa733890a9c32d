//! The notation of document 01's examples: read with errors by line, and written.

use model::{code::is_call, question::{Kept32, Question}, roles};
use std::fmt;
use turniploom::{DUNDER, Ins, Instruction, JUMP, NAMES, Op, REGISTER, WIDE, abi, op};

/// A body as it is lent to the kept-register call.
#[derive(Clone, Debug, Default, PartialEq, Eq)]
pub struct Body {
    pub code: Vec<Ins>,
    /// Words past the last whole instruction, which no good code has.
    pub tail: Vec<u16>,
    pub registers: usize,
    pub tries: Vec<u32>,
    /// Whether the wide route is forced, and whether the rows have words of 32 bits.
    pub wide: bool,
    pub rows32: bool,
    /// The line of each instruction, and the writer's comment on it, if it was read.
    pub lines: Vec<usize>,
    pub comments: Vec<String>,
}

/// A chunk as it is lent to the folding call.
#[derive(Clone, Debug, Default, PartialEq, Eq)]
pub struct Chunk {
    pub code: Vec<[u16; 3]>,
    /// Where each instruction stood in the script as first compiled.
    pub origins: Vec<u16>,
    pub tail: Vec<u16>,
    /// A kind and a word each.
    pub constants: Vec<(u8, u64)>,
    pub phi_map: Vec<u32>,
    pub phi_sources: Vec<u16>,
    pub stmt_pos: Vec<u32>,
    pub call_byte_pos: Vec<u32>,
    pub tries: Vec<u32>,
    pub strict: bool,
    pub lines: Vec<usize>,
    pub comments: Vec<String>,
}

/// What a text holds.
#[derive(Clone, Debug, PartialEq, Eq)]
pub enum Text {
    Body(Body),
    Chunk(Chunk),
}

/// What is wrong with a text, and on which line.
#[derive(Clone, Debug, PartialEq, Eq)]
pub struct Wrong {
    pub line: usize,
    pub says: String,
}

impl fmt::Display for Wrong {
    fn fmt(&self, f: &mut fmt::Formatter<'_>) -> fmt::Result { write!(f, "line {}: {}", self.line, self.says) }
}

impl std::error::Error for Wrong {}

/// All that is wrong with a text, in order.
#[derive(Clone, Debug, PartialEq, Eq)]
pub struct Wrongs(pub Vec<Wrong>);

impl fmt::Display for Wrongs {
    fn fmt(&self, f: &mut fmt::Formatter<'_>) -> fmt::Result {
        let lines: Vec<String> = self.0.iter().map(Wrong::to_string).collect();
        f.write_str(&lines.join("\n"))
    }
}

impl std::error::Error for Wrongs {}

impl Body {
    pub fn words(&self) -> Vec<u16> { [abi::words(&self.code), &self.tail].concat() }
}

impl Chunk {
    pub fn words(&self) -> Vec<u16> { [words(&self.code, &self.origins), self.tail.clone()].concat() }

    /// The same with every instruction's position as its origin.
    pub fn unmoved(&self) -> Chunk { Chunk { origins: (0..self.code.len()).map(|k| k as u16).collect(), ..self.clone() } }
}

/// The lent words of this code with these origins.
pub fn words(code: &[[u16; 3]], origins: &[u16]) -> Vec<u16> {
    code.iter().zip(origins).flat_map(|(&[o, marks, operand], &origin)| [o, marks, operand, origin]).collect()
}

/// The code and the origins of lent words.
pub fn parted(words: &[u16]) -> (Vec<[u16; 3]>, Vec<u16>) {
    words.as_chunks::<{ abi::CHUNK_WORDS }>().0.iter().map(|&[o, marks, operand, origin]| ([o, marks, operand], origin)).unzip()
}

/// Reads a text, past a mark of its byte order.
///
/// # Errors
///
/// All that is wrong with it, each with its line.
pub fn read(text: &str) -> Result<Text, Wrongs> {
    let text = text.strip_prefix('\u{feff}').unwrap_or(text);
    let (mut reader, mut wrongs) = (Reader::default(), vec![]);
    for (k, line) in text.lines().enumerate() {
        let (bare, comment) = line.split_once('#').unwrap_or((line, ""));
        let before = reader.entries.len();
        for statement in bare.split(';') {
            if let Err(says) = reader.statement(statement, k + 1) { wrongs.push(Wrong { line: k + 1, says }) }
        }
        // A comment is about the last instruction on its line.
        if reader.entries.len() > before { reader.entries.last_mut().expect("an instruction").comment = comment.trim().into() }
    }
    let last = text.lines().count().max(1);
    match reader.end() {
        Ok(read) if wrongs.is_empty() => return Ok(read),
        Ok(_) => {}
        Err(says) => wrongs.push(Wrong { line: last, says }),
    }
    Err(Wrongs(wrongs))
}

type Read<T> = Result<T, String>;

/// An instruction of either kind as it was read.
struct Entry {
    op: Op,
    /// a, b, c, x; a chunk's operand stands in a.
    fields: [Option<u16>; 4],
    /// Marks by word, and marks by number, which leave no default.
    marks: u16,
    exact: Option<u16>,
    /// Where it stood, if it is said.
    origin: Option<u16>,
    line: usize,
    comment: String,
}

impl Entry {
    /// Nothing as yet, on that line.
    fn at(line: usize) -> Entry { Entry { op: Op::OTHER, fields: [None; 4], marks: 0, exact: None, origin: None, line, comment: String::new() } }
}

#[derive(Default)]
struct Reader {
    chunk: bool,
    entries: Vec<Entry>,
    /// How many positions more than instructions there are, after one that was not due.
    ahead: usize,
    registers: Option<usize>,
    /// Whether registers or a chunk are spoken of, be it wrongly.
    counted: bool,
    wide: bool,
    rows32: bool,
    strict: bool,
    tail: Vec<u16>,
    tries: Vec<u32>,
    constants: Vec<(u8, u64)>,
    phi_map: Vec<u32>,
    phi_sources: Vec<u16>,
    stmt_pos: Vec<u32>,
    call_byte_pos: Vec<u32>,
}

fn number<T: TryFrom<u64>>(word: &str, what: &str) -> Read<T> {
    let digits = word.replace('_', "");
    let value = digits.parse::<u64>().map_err(|_| format!("{what} wants a number, not `{word}`"))?;
    T::try_from(value).map_err(|_| format!("{what}: {word} is too large"))
}

fn numbers<T: TryFrom<u64>>(words: &[&str], what: &str) -> Read<Vec<T>> { words.iter().map(|w| number(w, what)).collect() }

impl Reader {
    fn statement(&mut self, text: &str, line: usize) -> Read<()> {
        let words: Vec<&str> = text.split(|c: char| c.is_whitespace() || "(),".contains(c)).filter(|w| !w.is_empty()).collect();
        match words[..] {
            [] => Ok(()),
            [n, "registers" | "register"] if is_number(n) => self.setting("registers", &[n]),
            [position, ref rest @ ..] if is_number(position) => {
                let (due, position) = (self.entries.len() + self.ahead, number::<usize>(position, "a position")?);
                // What follows is held to the position that stands here, so that each slip is told once.
                self.ahead = position.wrapping_sub(self.entries.len());
                let read = match rest[..] {
                    [name, ref fields @ ..] => self.instruction(name, fields, line),
                    [] => { self.unread(line); Err(format!("no instruction after position {position}")) }
                };
                if position == due { read } else { Err(format!("position {position} stands where {due} is due")) }
            }
            [word, ref rest @ ..] if word.starts_with(|c: char| c.is_lowercase()) && word != "jump" => self.setting(word, rest),
            [name, ref fields @ ..] => self.instruction(name, fields, line),
        }
    }

    /// A line that is no instruction.
    fn setting(&mut self, word: &str, rest: &[&str]) -> Read<()> {
        let of_a_chunk = ["strict", "plain", "constants", "pool", "phi_map", "phi_sources", "stmt_pos", "call_byte_pos"];
        // Who says one of these has said which it is.
        self.counted |= word == "registers" || of_a_chunk.contains(&word);
        if of_a_chunk.contains(&word) && !self.chunk { return Err(format!("`{word}` belongs to a chunk: say `chunk` on a line before it")) }
        if ["registers", "route"].contains(&word) && self.chunk { return Err(format!("a chunk has no `{word}`")) }
        match (word, rest) {
            ("chunk", []) if self.entries.is_empty() => self.chunk = true,
            ("chunk", []) => return Err("`chunk` must come before the first instruction".into()),
            ("registers", [n]) if self.registers.is_none() => self.registers = Some(number(n, "registers")?),
            ("registers", [_]) => return Err("the registers are given twice".into()),
            ("route", ["wide"]) => self.wide = true,
            ("route", ["word"]) => self.wide = false,
            ("rows", _) if self.chunk => return Err("a chunk has no `rows`".into()),
            ("rows", ["32"]) => self.rows32 = true,
            ("rows", ["64"]) => self.rows32 = false,
            ("strict", []) => self.strict = true,
            ("plain", []) => self.strict = false,
            ("try" | "tries", _) => self.tries.extend(numbers::<u32>(rest, "a try")?),
            ("words", _) => self.tail.extend(numbers::<u16>(rest, "a word")?),
            ("constants" | "pool", _) => for w in rest.iter().filter(|&&w| w != "and") { self.constants.push(constant(w)?) },
            ("phi_map", _) => self.phi_map.extend(numbers::<u32>(rest, "phi_map")?),
            ("phi_sources", _) => self.phi_sources.extend(numbers::<u16>(rest, "phi_sources")?),
            ("stmt_pos", _) => self.stmt_pos.extend(numbers::<u32>(rest, "stmt_pos")?),
            ("call_byte_pos", _) => self.call_byte_pos.extend(numbers::<u32>(rest, "call_byte_pos")?),
            ("chunk" | "registers" | "route" | "rows" | "strict" | "plain", _) => return Err(format!("`{word}` is followed by `{}`", rest.join(" "))),
            _ => return Err(unknown(word)),
        }
        Ok(())
    }

    fn instruction(&mut self, name: &str, fields: &[&str], line: usize) -> Read<()> {
        let mut entry = Entry::at(line);
        let read = opcode(name).and_then(|op| {
            entry.op = op;
            let fields = self.origin(&mut entry, name, fields)?;
            fields.iter().try_for_each(|word| self.field(&mut entry, name, word))
        });
        // It takes its position even if it is wrong.
        self.entries.push(entry);
        read
    }

    /// An instruction that is not there takes its position all the same.
    fn unread(&mut self, line: usize) { self.entries.push(Entry::at(line)) }

    /// Takes `was 12` from the end of an instruction of a chunk.
    fn origin<'a>(&self, entry: &mut Entry, name: &str, fields: &'a [&'a str]) -> Read<&'a [&'a str]> {
        match fields {
            [front @ .., "was", origin] if self.chunk => {
                entry.origin = Some(number(origin, &format!("{name}: `was`"))?);
                Ok(front)
            }
            _ => Ok(fields),
        }
    }

    fn field(&self, entry: &mut Entry, name: &str, word: &str) -> Read<()> {
        let mark = match word {
            "wide" if !self.chunk => WIDE,
            "dunder" if !self.chunk => DUNDER,
            "register" if !self.chunk => REGISTER,
            "jump" if self.chunk => JUMP,
            "names" if self.chunk => NAMES,
            _ => 0,
        };
        if mark != 0 {
            entry.marks |= mark;
            return Ok(());
        }
        let (letter, digits) = if is_number(word) { ("a", word) } else { word.split_at(word.chars().next().map_or(0, char::len_utf8)) };
        if !is_number(digits) { return Err(format!("{name}: `{word}` is no field (a, b, c, x, m with a number) and no mark")) }
        let value = number::<u16>(digits, name)?;
        let place = match letter {
            "m" => &mut entry.exact,
            "a" => &mut entry.fields[0],
            "b" | "c" | "x" if self.chunk => return Err(format!("{name}: an instruction of a chunk has one operand, not `{word}`")),
            "b" => &mut entry.fields[1],
            "c" => &mut entry.fields[2],
            "x" => &mut entry.fields[3],
            _ => return Err(format!("{name}: `{word}` is no field (a, b, c, x, m with a number) and no mark")),
        };
        if place.replace(value).is_some() { return Err(format!("{name}: `{letter}` is given twice")) }
        Ok(())
    }

    fn end(self) -> Read<Text> {
        let (lines, comments) = self.entries.iter().map(|e| (e.line, e.comment.clone())).unzip();
        if self.chunk {
            let of = |e: &Entry| [e.op.0, e.exact.unwrap_or(usual_marks(e.op)) | e.marks, e.fields[0].unwrap_or(0)];
            return Ok(Text::Chunk(Chunk {
                origins: self.entries.iter().enumerate().map(|(k, e)| e.origin.unwrap_or(k as u16)).collect(),
                code: self.entries.iter().map(of).collect(), tail: self.tail, constants: self.constants, phi_map: self.phi_map,
                phi_sources: self.phi_sources, stmt_pos: self.stmt_pos, call_byte_pos: self.call_byte_pos, tries: self.tries,
                strict: self.strict, lines, comments,
            }));
        }
        if self.registers.is_none() && !self.counted { return Err("how many registers? Say `registers 4`, or `chunk` if this is a chunk".into()) }
        let registers = self.registers.unwrap_or(0);
        let mut code: Vec<Ins> = self.entries.iter().map(|e| {
            let [a, b, c, x] = e.fields.map(Option::unwrap_or_default);
            Ins { op: e.op, marks: 0, a, b, c, x }
        }).collect();
        for (k, e) in self.entries.iter().enumerate() { code[k].marks = e.exact.unwrap_or(usual(&code, k)) | e.marks }
        Ok(Text::Body(Body { code, tail: self.tail, registers, tries: self.tries, wide: self.wide, rows32: self.rows32, lines, comments }))
    }
}

fn is_number(word: &str) -> bool { word.starts_with(|c: char| c.is_ascii_digit()) && word.chars().all(|c| c.is_ascii_digit() || c == '_') }

/// The marks of an instruction that names none: register as the Rust's own test has it, wide before an ArgsR, no dunder.
pub fn usual(code: &[Ins], k: usize) -> u16 {
    let wide = code[k].op.is_call() && code.get(k + 1).is_some_and(|n| n.op == op::ArgsR);
    u16::from(code[k].op.is_register()) * REGISTER + u16::from(wide) * WIDE
}

/// The mark of a chunk's instruction that is given none: jump as the Rust's own test has it, and a LoadConst names a constant.
pub fn usual_marks(o: Op) -> u16 { Instruction::new(o, 0).marks }

/// An opcode by name: `Other` is 0, `Op191` a number, `jump` the Jump of P13.
fn opcode(name: &str) -> Read<Op> {
    match name {
        "Other" => return Ok(Op::OTHER),
        "jump" => return Ok(op::Jump),
        _ => {}
    }
    if let Some(digits) = name.strip_prefix("Op").filter(|d| is_number(d)) { return number(digits, "an opcode").map(Op) }
    Op::named(name).ok_or_else(|| unknown(name))
}

fn unknown(word: &str) -> String {
    if word.len() > 40 { return format!("no opcode and no setting is called `{word}`") }
    let settings = ["registers", "try", "route", "rows", "chunk", "strict", "constants", "phi_map", "phi_sources", "stmt_pos", "call_byte_pos", "words"];
    let names = op::ALL.iter().filter_map(|o| o.name()).chain(settings);
    // Only a word that is mostly right is near one.
    let near = names.map(|n| (distance(&word.to_lowercase(), &n.to_lowercase()), n)).min().filter(|&(d, n)| d <= 2 && 2 * d <= n.len().max(word.len()));
    format!("no opcode and no setting is called `{word}`{}", near.map_or(String::new(), |(_, n)| format!("; is `{n}` meant?")))
}

/// How many letters must change, or change places with the next, to turn one word into the other.
fn distance(a: &str, b: &str) -> usize {
    let (a, b) = (a.as_bytes(), b.as_bytes());
    let mut best = vec![vec![0; b.len() + 1]; a.len() + 1];
    for i in 0..=a.len() {
        for j in 0..=b.len() {
            best[i][j] = if i == 0 || j == 0 { i + j } else {
                let swapped = i > 1 && j > 1 && a[i - 1] == b[j - 2] && a[i - 2] == b[j - 1];
                let changed = best[i - 1][j - 1] + usize::from(a[i - 1] != b[j - 1]);
                let changed = changed.min(best[i - 1][j] + 1).min(best[i][j - 1] + 1);
                if swapped { changed.min(best[i - 2][j - 2] + 1) } else { changed }
            }
        }
    }
    best[a.len()][b.len()]
}

/// The single NaN that every NaN result becomes.
const NAN: u64 = 0x7FF8_0000_0000_0000;

/// A constant: `7` an int, `2.0` a float, `nan`, `true`, `other`, or a kind and a word, as in `2:0x7ff8000000000000`.
fn constant(word: &str) -> Read<(u8, u64)> {
    let bad = || format!("`{word}` is no constant: 7, 2.0, inf, nan, true, other, or a kind and a word as 2:0x7ff8000000000000");
    match word {
        "true" => return Ok((3, 1)),
        "false" => return Ok((3, 0)),
        "other" | "none" => return Ok((0, 0)),
        "nan" => return Ok((2, NAN)),
        _ => {}
    }
    if let Some((kind, w)) = word.split_once(':') {
        let w = w.strip_prefix("0x").map_or_else(|| w.parse::<u64>(), |h| u64::from_str_radix(h, 16));
        return Ok((kind.parse().map_err(|_| bad())?, w.map_err(|_| bad())?));
    }
    if let Ok(i) = word.replace('_', "").parse::<i64>() { return Ok((1, i as u64)) }
    // The one NaN that folds write is `nan`; any other is written by its bits.
    let float = word.parse::<f64>().map_err(|_| bad())?;
    if float.is_nan() { Err(bad()) } else { Ok((2, float.to_bits())) }
}

/// A constant as it is read.
pub fn constant_text(kind: u8, word: u64) -> String {
    match kind {
        1 => (word as i64).to_string(),
        2 if word == NAN => "nan".into(),
        2 if f64::from_bits(word).is_nan() => format!("2:{word:#x}"),
        2 => format!("{:?}", f64::from_bits(word)),
        3 if word <= 1 => (word == 1).to_string(),
        0 if word == 0 => "other".into(),
        _ => format!("{kind}:{word}"),
    }
}

/// An instruction as document 01 writes it: the fields that its role names, those that are not 0, and unusual marks.
pub fn ins_text(code: &[Ins], k: usize) -> String {
    let i = code[k];
    let kinds = if i.op.0 <= 190 { roles::kinds(&i) } else { roles::NONE };
    let counted = is_call(&i) && i.op != op::CallSpreadR || matches!(i.op, op::PushRegs | op::UnpackR);
    let mut text = i.op.to_string();
    if i.op == op::Jump { text += &format!(" {}", i.a) } else if i.a != 0 || kinds & (1 | 2 | 16) != 0 && kinds != roles::NONE { text += &format!(" a{}", i.a) }
    for (letter, value, named) in [('b', i.b, kinds & 4 != 0), ('c', i.c, kinds & 8 != 0), ('x', i.x, counted)] {
        if value != 0 || named { text += &format!(" {letter}{value}") }
    }
    let usual = usual(code, k);
    if i.marks & !(WIDE | DUNDER | REGISTER) != 0 || i.marks & usual != usual { return format!("{text} m{}", i.marks) }
    for (bit, word) in [(WIDE, "wide"), (DUNDER, "dunder"), (REGISTER, "register")] {
        if i.marks & !usual & bit != 0 { text += &format!(" {word}") }
    }
    text
}

/// An instruction of a chunk as document 01 writes it.
pub fn instruction_text([o, marks, operand]: [u16; 3]) -> String {
    let o = Op(o);
    let bare = operand == 0 && o != op::LoadConst && o != op::Phi && marks & (JUMP | NAMES) == 0;
    let operand = if bare { String::new() } else { format!(" {operand}") };
    let mark = match marks {
        m if m == usual_marks(o) => "".into(),
        m if m == usual_marks(o) | JUMP => " jump".into(),
        m if m == usual_marks(o) | NAMES => " names".into(),
        m => format!(" m{m}"),
    };
    format!("{o}{operand}{mark}")
}

/// Where the instruction at `k` stood, if not there.
pub fn was(origin: u16, k: usize) -> String { if usize::from(origin) == k { String::new() } else { format!(" was {origin}") } }

fn listed<T: ToString>(word: &str, table: &[T]) -> String {
    if table.is_empty() { return String::new() }
    format!("{word} {}\n", table.iter().map(T::to_string).collect::<Vec<_>>().join(" "))
}

impl fmt::Display for Body {
    fn fmt(&self, f: &mut fmt::Formatter<'_>) -> fmt::Result {
        writeln!(f, "registers {}", self.registers)?;
        for pair in self.tries.chunks(2) { write!(f, "{}", listed("try", pair))? }
        if self.wide { writeln!(f, "route wide")? }
        if self.rows32 { writeln!(f, "rows 32")? }
        for k in 0..self.code.len() { writeln!(f, "{k} {}", ins_text(&self.code, k))? }
        write!(f, "{}", listed("words", &self.tail))
    }
}

impl fmt::Display for Chunk {
    fn fmt(&self, f: &mut fmt::Formatter<'_>) -> fmt::Result {
        writeln!(f, "chunk")?;
        if self.strict { writeln!(f, "strict")? }
        let constants: Vec<String> = self.constants.iter().map(|&(k, w)| constant_text(k, w)).collect();
        write!(f, "{}{}{}", listed("constants", &constants), listed("phi_map", &self.phi_map), listed("phi_sources", &self.phi_sources))?;
        write!(f, "{}{}", listed("stmt_pos", &self.stmt_pos), listed("call_byte_pos", &self.call_byte_pos))?;
        for pair in self.tries.chunks(2) { write!(f, "{}", listed("try", pair))? }
        for (k, (&i, &origin)) in self.code.iter().zip(&self.origins).enumerate() { writeln!(f, "{k} {}{}", instruction_text(i), was(origin, k))? }
        write!(f, "{}", listed("words", &self.tail))
    }
}

/// The code and tables of a question, in the notation.
pub fn asked(q: &Question) -> String {
    if !q.call.takes("code") { return String::new() }
    let words = q.u16("code");
    if !q.call.of_a_chunk() {
        let whole = words.len() / 6 * 6;
        let code = words[..whole].chunks(6).map(|w| Ins { op: Op(w[0]), marks: w[1], a: w[2], b: w[3], c: w[4], x: w[5] }).collect();
        let takes = |name: &str| q.call.takes(name);
        let body = Body {
            code,
            tail: words[whole..].to_vec(),
            registers: if takes("regs") { q.n("regs") as usize } else { 1_024 },
            tries: if takes("tries") { q.u32("tries").to_vec() } else { vec![] },
            wide: takes("wide") && q.n("wide") != 0,
            rows32: q.call == Kept32,
            ..Body::default()
        };
        return body.to_string();
    }
    let whole = words.len() / abi::CHUNK_WORDS * abi::CHUNK_WORDS;
    let (code, origins) = parted(words);
    // The clearing call has no table but the constants.
    let takes = |name: &str| q.call.takes(name);
    let counted = |count: &str, have: usize| (q.n(count) as usize).min(have);
    let (kinds, values) = (q.arg("kinds").numbers(), q.arg("words").numbers());
    let constants = counted("constants", kinds.len().min(values.len()) - 1);
    let table = |name: &str, count: &str| {
        if !takes(count) { return vec![] }
        let all = q.arg(name).numbers();
        all[1..][..counted(count, all.len() - 1)].to_vec()
    };
    let narrow = |t: Vec<u64>| t.into_iter().map(|w| w as u32).collect();
    Chunk {
        code,
        origins,
        tail: words[whole..].to_vec(),
        constants: (1..=constants).map(|k| (kinds[k] as u8, values[k])).collect(),
        phi_map: narrow(table("phi_map", "phi_map_count")),
        phi_sources: table("phi_sources", "phi_sources_count").into_iter().map(|w| w as u16).collect(),
        stmt_pos: narrow(table("stmt_pos", "stmt_pos_count")),
        call_byte_pos: narrow(table("call_byte_pos", "call_byte_pos_count")),
        tries: if takes("tries") { q.u32("tries").to_vec() } else { vec![] },
        strict: takes("strict") && q.n("strict") != 0,
        ..Chunk::default()
    }.to_string()
}
