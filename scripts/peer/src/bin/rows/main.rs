//! rows: answers rows of conformance by the Rust crate encoding_rs, for scripts/conformance.
//!
//! A line of standard input is a row or a head, as scripts/over.py writes them. The answer is a line: `holds`, `skip`
//! for a row that the crate has no call for, or `fails` with what it gives, as words `NAME=VALUE`.
mod decoding;
mod encoding;
mod words;

use decoding::Decoders;
use encoding::Encoders;
use encoding_rs::Encoding;
use std::fmt::Display;
use std::io::{self, BufRead, BufWriter, Write};
use std::panic::{catch_unwind, set_hook, AssertUnwindSafe};
use words::{bytes_of, fails, named, number_of, Words};

/// What the rows after a head are of.
enum Section {
    None,
    Decoder(Decoders),
    Encoder(Encoders),
}

/// The answer to a row that needs no head, or to one of a head.
fn answer(words: &mut Words, section: &mut Section) -> String {
    match words.next() {
        "decoder" => {
            *section = Section::Decoder(Decoders::new(words));
            String::from("holds")
        }
        "encoder" => {
            *section = Section::Encoder(Encoders::new(words));
            String::from("holds")
        }
        "encoding" => encoding_row(words),
        "label" => label_row(words),
        "mark" => mark_row(words),
        "valid" => valid_row(words),
        name => match section {
            Section::None => String::from("skip"),
            Section::Decoder(decoders) => decoders.answer(name, words),
            Section::Encoder(encoders) => encoders.answer(name, words),
        },
    }
}

/// Compares an encoding's output encoding, and its properties. The crate has no `line-feeds-divide`.
fn encoding_row(words: &mut Words) -> String {
    let (encoding, output, flags) = (named(words.next()), named(words.next()), words.next());
    let has = |flag| flags.split(',').any(|it| it == flag);
    let given = (encoding.output_encoding().name(), encoding.is_ascii_compatible(), encoding.is_single_byte());
    let exact = encoding.can_encode_everything() == (output.name() == "UTF-8");
    if exact && given == (output.name(), has("ascii-compatible"), has("single-byte")) {
        return String::from("holds");
    }
    fails(&[("part", &"properties"), ("output", &given.0), ("ascii-compatible", &given.1), ("single-byte", &given.2)])
}

/// `holds`, or what is given by its names.
fn compared<T: PartialEq + Display>(part: &str, (name, given): (&str, T), want: T) -> String {
    if given == want {
        String::from("holds")
    } else {
        fails(&[("part", &part), (name, &given)])
    }
}

/// Compares the encoding of a label: as it is, in capitals, with whitespace around it, and with a letter more, by which
/// it is none. That of calls that leave replacement out is none for it.
fn label_row(words: &mut Words) -> String {
    let (label, want) = (bytes_of(words.next()), words.next());
    let blanks = b"\t\n\x0C\r \t";
    let forms = [label.clone(), label.to_ascii_uppercase(), [blanks, &label[..], blanks].concat()];
    let longer = [&label[..], b"x"].concat();
    let name = |encoding: Option<&'static Encoding>| encoding.map_or("none", Encoding::name);
    let mut pairs: Vec<(&str, &str)> = Vec::new();
    for form in &forms {
        pairs.push((name(Encoding::for_label(form)), want));
        let left = if want == "replacement" { "none" } else { want };
        pairs.push((name(Encoding::for_label_no_replacement(form)), left));
    }
    if want != "none" {
        pairs.push((name(Encoding::for_label(&longer)), "none"));
    }
    let other = pairs.into_iter().find(|(given, want)| given != want);
    other.map_or(String::from("holds"), |(given, want)| compared("label", ("encoding", given), want))
}

fn mark_row(words: &mut Words) -> String {
    let given = Encoding::for_bom(&bytes_of(words.next()));
    let given = given.map_or(String::from("none 0"), |(encoding, length)| format!("{} {length}", encoding.name()));
    let want = format!("{} {}", words.next(), words.next());
    compared("mark", ("mark", given.replace(' ', "+")), want.replace(' ', "+"))
}

fn valid_row(words: &mut Words) -> String {
    let (of, bytes) = (words.next(), bytes_of(words.next()));
    let given = match of {
        "utf8" => Encoding::utf8_valid_up_to(&bytes),
        "ascii" => Encoding::ascii_valid_up_to(&bytes),
        _ => Encoding::iso_2022_jp_ascii_valid_up_to(&bytes),
    };
    compared("valid", ("length", given), number_of(words.next()))
}

fn main() -> io::Result<()> {
    set_hook(Box::new(|_| {}));
    let (mut section, mut out) = (Section::None, BufWriter::new(io::stdout().lock()));
    for line in io::stdin().lock().lines() {
        let line = line?;
        let made = catch_unwind(AssertUnwindSafe(|| answer(&mut Words::new(&line), &mut section)));
        writeln!(out, "{}", made.unwrap_or_else(|_| String::from("fails part=panic")))?;
    }
    out.flush()
}
