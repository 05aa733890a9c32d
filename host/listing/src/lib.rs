//! A listing of a body or a chunk for the people who write rules, and the notation it reads.

pub mod around;
pub mod body;
pub mod callee;
pub mod chunk;
pub mod command;
pub mod diff;
pub mod exposed;
pub mod figures;
pub mod found;
pub mod json;
pub mod lanes;
pub mod line;
pub mod listed;
pub mod notation;
pub mod options;
pub mod out;
pub mod own;
pub mod page;
pub mod paint;
pub mod refused;
pub mod run;
pub mod text;
pub mod unfolded;
pub mod ways;
pub mod whose;
pub mod why;

/// README's Rust is tested as documentation is.
#[cfg(doctest)]
#[doc = include_str!("../../../README.md")]
pub struct Readme;

/// Words joined as in a sentence.
pub fn and<T: ToString>(words: &[T]) -> String {
    let words: Vec<String> = words.iter().map(T::to_string).collect();
    match words.split_last() {
        Some((last, rest)) if !rest.is_empty() => format!("{} and {last}", rest.join(", ")),
        _ => words.concat(),
    }
}

/// A count with its word, in the singular for 1.
pub fn count(n: usize, word: &str) -> String {
    match n {
        0 => format!("no {word}"),
        1 => format!("1 {word}"),
        _ => format!("{n} {}", word.strip_suffix('y').map_or(format!("{word}s"), |w| format!("{w}ies"))),
    }
}

/// Writes a number, with no allocation: large listings have millions.
pub fn put(out: &mut String, mut n: u32) {
    let (mut digits, mut from) = ([0; 10], 10);
    loop {
        from -= 1;
        digits[from] = b'0' + (n % 10) as u8;
        n /= 10;
        if n == 0 { break }
    }
    out.push_str(std::str::from_utf8(&digits[from..]).expect("digits"));
}
