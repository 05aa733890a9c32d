//! Recorded answers, asked anew of the archive: each record must agree, in its answer and in every lent buffer.
//!
//! host/README.md has the form of a record; `oracle record` writes the file.

use std::{collections::BTreeMap, io::Write, str::SplitWhitespace};
use turniploom::abi::{Answer, Arg, CALLS, Kind, Width};

const RECORDED: &str = include_str!("recorded.txt");

/// How many records of each call the file holds.
const EACH: usize = 64;

/// The numbers of a record that are not read yet.
struct Numbers<'a>(SplitWhitespace<'a>);

type Read<T> = Result<T, String>;

impl Numbers<'_> {
    fn one<T: TryFrom<u64>>(&mut self) -> Read<T> {
        let word = self.0.next().ok_or("it ends too early")?;
        word.parse::<u64>().ok().and_then(|v| v.try_into().ok()).ok_or_else(|| format!("`{word}` is no number that fits here"))
    }

    /// A slice: its length, then its elements.
    fn slice<T: TryFrom<u64>>(&mut self) -> Read<Vec<T>> {
        let length: u16 = self.one()?;
        (0..length).map(|_| self.one()).collect()
    }

    fn lent(&mut self, kind: Kind) -> Read<Lent> {
        if let Some(words) = kind.fixed() {
            let mut slice = self.slice()?;
            if slice.len() > words || slice.last() == Some(&0) { return Err(format!("an array of {} words, not {words}, the last not 0", slice.len())) }
            slice.resize(words, 0);
            return Ok(Lent::Array(slice));
        }
        Ok(match (kind, kind.width()) {
            (Kind::Bool | Kind::U8, _) => Lent::Number(self.one::<u8>()?.into()),
            (Kind::U16, _) => Lent::Number(self.one::<u16>()?.into()),
            (_, None) => Lent::Number(self.one()?),
            (_, Some(Width::U8)) => Lent::U8(self.slice()?),
            (_, Some(Width::U16)) => Lent::U16(self.slice()?),
            (_, Some(Width::U32)) => Lent::U32(self.slice()?),
            (_, Some(Width::U64)) => Lent::U64(self.slice()?),
        })
    }
}

/// An argument that the test owns.
enum Lent {
    Number(u64),
    U8(Vec<u8>),
    U16(Vec<u16>),
    U32(Vec<u32>),
    U64(Vec<u64>),
    /// Words whose number is fixed.
    Array(Vec<u64>),
}

impl Lent {
    fn arg(&mut self) -> Arg<'_> {
        match self {
            Lent::Number(v) => Arg::Number(*v),
            Lent::U8(v) => Arg::U8(v),
            Lent::U16(v) => Arg::U16(v),
            Lent::U32(v) => Arg::U32(v),
            Lent::U64(v) | Lent::Array(v) => Arg::U64(v),
        }
    }

    /// A slice as a record has it: its length, then its elements; an array up to its last word that is not 0.
    fn numbers(&self) -> Vec<u64> {
        fn all<T: Copy + Into<u64>>(v: &[T]) -> Vec<u64> { std::iter::once(v.len() as u64).chain(v.iter().map(|&w| w.into())).collect() }
        match self {
            Lent::Number(v) => vec![*v],
            Lent::U8(v) => all(v),
            Lent::U16(v) => all(v),
            Lent::U32(v) => all(v),
            Lent::U64(v) => all(v),
            Lent::Array(v) => all(&v[..v.iter().rposition(|&w| w != 0).map_or(0, |k| k + 1)]),
        }
    }
}

/// Asks the call of that number with the arguments that follow in the record: the answer, and the buffers lent to be written.
fn asked(call: usize, r: &mut Numbers) -> Read<(Answer, Vec<u64>)> {
    let Some(entry) = CALLS.get(call.wrapping_sub(1)) else { return Err(format!("no call has the number {call}")) };
    let mut lent: Vec<Lent> = entry.params.iter().map(|p| r.lent(p.kind)).collect::<Read<_>>()?;
    let answer = (entry.ask)(&mut lent.iter_mut().map(Lent::arg).collect::<Vec<_>>());
    let written = entry.params.iter().zip(&lent).filter(|(p, _)| p.kind.is_lent());
    Ok((answer, written.flat_map(|(_, l)| l.numbers()).collect()))
}

/// Asks a record anew, and says which call it is of.
fn agrees(record: &str) -> Read<&'static str> {
    let mut numbers = Numbers(record.split_whitespace());
    let call = numbers.one()?;
    let (Answer { refusal, first, second, third, fourth }, lent) = asked(call, &mut numbers)?;
    let told: Vec<u64> = [refusal.into(), first, second, third, fourth].into_iter().chain(lent).collect();
    let recorded: Vec<u64> = (0..told.len()).map(|_| numbers.one()).collect::<Read<_>>()?;
    if recorded != told { return Err(format!("the record says {recorded:?}, the archive {told:?}")) }
    if numbers.0.next().is_some() { return Err("it has more numbers than the call".into()) }
    Ok(CALLS[call - 1].name)
}

/// How many records of each call agree, or the line of the first that does not.
fn replayed(text: &str) -> Read<BTreeMap<&'static str, usize>> {
    let mut agree = BTreeMap::new();
    for (k, record) in text.lines().enumerate() {
        let call = agrees(record).map_err(|says| format!("line {}: {says}", k + 1))?;
        *agree.entry(call).or_default() += 1;
    }
    Ok(agree)
}

/// As many records of each call.
fn whole() -> BTreeMap<&'static str, usize> { CALLS.iter().map(|call| (call.name, EACH)).collect() }

#[test]
fn every_record_agrees() {
    let agree = replayed(RECORDED).unwrap_or_else(|says| panic!("tests/recorded.txt, {says}"));
    // Past the test's own capture, so that it is read also where all is well.
    let told: Vec<String> = CALLS.iter().map(|call| format!("{} {}", call.name, agree.get(call.name).unwrap_or(&0))).collect();
    writeln!(std::io::stderr(), "recorded answers that agree: {}", told.join(", ")).unwrap();
    assert_eq!(agree, whole());
}

/// A record whose number at `place` is one more, or 0 where there is no more.
fn damaged(record: &str, place: usize) -> String {
    let more = |v: u64| v.checked_add(1).unwrap_or(0).to_string();
    let words = record.split(' ').enumerate().map(|(k, w)| if k == place { more(w.parse().unwrap()) } else { w.into() });
    words.collect::<Vec<_>>().join(" ")
}

/// Every number of a record's answer and of its buffers counts.
#[test]
fn a_damaged_answer_does_not_agree() {
    for record in RECORDED.lines() {
        let mut numbers = Numbers(record.split_whitespace());
        let call = numbers.one().unwrap();
        asked(call, &mut numbers).unwrap();
        let (all, left) = (record.split_whitespace().count(), numbers.0.count());
        for place in all - left..all { assert!(agrees(&damaged(record, place)).is_err(), "number {place} of {record}") }
    }
}

#[test]
fn the_first_bad_record_is_named_by_its_line() {
    let lines: Vec<&str> = RECORDED.lines().collect();
    let unknown = format!("{} 0", CALLS.len() + 1);
    let with = |bad: &str| replayed(&[lines[0], lines[1], bad, lines[2], &unknown].join("\n")).unwrap_err();
    assert!(with(&damaged(lines[5], lines[5].split(' ').count() - 1)).starts_with("line 3: the record says ["));
    assert_eq!(with(&unknown), format!("line 3: no call has the number {}", CALLS.len() + 1));
    assert_eq!(with("1 6 57 4"), "line 3: it ends too early");
    assert_eq!(with("1 6 57 4 2 1 1 5 0 0 5 0 0"), "line 3: it ends too early");
    assert_eq!(with("1 6 57 4 2 1 1 5 0 0 5 0 0 0 0"), "line 3: it has more numbers than the call");
    assert_eq!(with("1 6 57 4 2 1 1 65536 0 0 5 0 0 0"), "line 3: `65536` is no number that fits here");
    assert_eq!(with("one 6"), "line 3: `one` is no number that fits here");
    assert_eq!(with(""), "line 3: it ends too early");
}

#[test]
fn a_record_that_is_lost_is_seen() {
    for lost in [0, RECORDED.lines().count() - 1] {
        let text: Vec<&str> = RECORDED.lines().enumerate().filter(|l| l.0 != lost).map(|l| l.1).collect();
        assert_ne!(replayed(&text.join("\n")).unwrap(), whole());
    }
}
