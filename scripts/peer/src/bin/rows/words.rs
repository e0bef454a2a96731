//! The words of a line, and what they stand for. A dash stands for nothing.
use encoding_rs::Encoding;
use std::fmt::{Debug, Display};

/// The words of a line that are still to be read.
pub struct Words<'a>(std::str::Split<'a, char>);

impl<'a> Words<'a> {
    pub fn new(line: &'a str) -> Words<'a> {
        Words(line.split(' '))
    }

    /// The next word, or a dash.
    pub fn next(&mut self) -> &'a str {
        self.0.next().unwrap_or("-")
    }
}

/// The encoding of a name.
pub fn named(name: &str) -> &'static Encoding {
    Encoding::for_label(name.as_bytes()).expect("an encoding")
}

/// The parts of a word between commas.
pub fn parts(word: &str) -> Vec<&str> {
    if word == "-" {
        Vec::new()
    } else {
        word.split(',').collect()
    }
}

pub fn number_of(word: &str) -> usize {
    word.parse().expect("a number")
}

/// A number, or none.
pub fn length_of(word: &str) -> Option<usize> {
    (word != "none").then(|| number_of(word))
}

pub fn shown(length: Option<usize>) -> String {
    length.map_or(String::from("none"), |it| it.to_string())
}

/// Offsets and lengths, as `0+1,2+2`.
pub fn places_of(word: &str) -> Vec<(usize, usize)> {
    let pair = |part: &str| part.split_once('+').map(|(at, length)| (number_of(at), number_of(length)));
    parts(word).into_iter().filter_map(pair).collect()
}

pub fn shown_places(places: &[(usize, usize)]) -> String {
    let all: Vec<String> = places.iter().map(|(at, length)| format!("{at}+{length}")).collect();
    if all.is_empty() {
        String::from("-")
    } else {
        all.join(",")
    }
}

/// The bytes of hexadecimal digits, and none of a dash.
pub fn bytes_of(digits: &str) -> Vec<u8> {
    let pairs = digits.as_bytes().chunks_exact(2);
    pairs.map(|pair| u8::from_str_radix(std::str::from_utf8(pair).expect("ASCII"), 16).expect("digits")).collect()
}

pub fn text_of(digits: &str) -> String {
    String::from_utf8(bytes_of(digits)).expect("UTF-8")
}

pub fn hex(bytes: &[u8]) -> String {
    let all: String = bytes.iter().map(|byte| format!("{byte:02X}")).collect();
    if all.is_empty() {
        String::from("-")
    } else {
        all
    }
}

/// The answer of a row that does not hold: what is given, by names.
pub fn fails(given: &[(&str, &dyn Display)]) -> String {
    let all: Vec<String> = given.iter().map(|(name, it)| format!("{name}={it}")).collect();
    format!("fails {}", all.join(" "))
}

/// The answer of a row.
pub fn answer_of(made: Result<(), String>) -> String {
    made.err().unwrap_or(String::from("holds"))
}

/// The name of a variant in small letters.
pub fn lower(it: impl Debug) -> String {
    format!("{it:?}").to_lowercase()
}

/// Calls a function, or returns nothing where it panics.
pub fn caught<T>(made: impl FnOnce() -> T) -> Option<T> {
    std::panic::catch_unwind(std::panic::AssertUnwindSafe(made)).ok()
}
