//! Inputs to be written in other encodings than UTF-8, with characters that these have and others.
use crate::comparison::Comparison;
use crate::hostile::{BUFFER, LENGTHS, LONG_PIECES, SHORT_PIECES};
use crate::recode::Delivery;
use peer::inputs::{in_encoding, kinds, mixed};
use peer::random::Random;
use std::io;

/// Those that are tried at each place before the end of a buffer.
const AT_ENDS: [&str; 8] = ["💩", "\u{10FFFF}", "é", "あ", "¥", "あ\u{10FFFF}¥", "¥💩あ", "\u{80}\u{100}\u{E5E5}"];

/// Every character, with a line feed after it.
pub fn every_character(comparison: &mut Comparison) -> io::Result<()> {
    let all: String = ('\0'..=char::MAX).flat_map(|character| [character, '\n']).collect();
    comparison.sequences += all.chars().count() as u64 / 2;
    comparison.compare(all.as_bytes(), Delivery::File)
}

/// Long texts from UTF-8, through pipes in odd pieces too, and characters across the end of a buffer.
pub fn long(comparison: &mut Comparison, quick: bool, seed: u64) -> io::Result<()> {
    let mut random = Random::new(seed, comparison.to.name());
    for length in LENGTHS {
        let text = mixed(comparison.to, &mut random, length);
        comparison.compare(text.as_bytes(), Delivery::File)?;
    }
    for sizes in SHORT_PIECES {
        let text = mixed(comparison.to, &mut random, 150);
        comparison.compare(text.as_bytes(), Delivery::Slow(sizes))?;
    }
    for sizes in LONG_PIECES {
        let text = mixed(comparison.to, &mut random, 250_001);
        comparison.compare(text.as_bytes(), Delivery::Pieces(sizes))?;
    }
    let few = if quick { 4 } else { 1 };
    for (number, at_end) in AT_ENDS.iter().enumerate() {
        for before in (number % few..20).step_by(few) {
            let text = ["a".repeat(BUFFER - before), at_end.repeat(3)].concat();
            comparison.compare(text.as_bytes(), Delivery::File)?;
        }
    }
    Ok(())
}

/// Nothing, and in each round random bytes, tokens, text whole and damaged, and characters of the encoding that is
/// written among others.
pub fn short(comparison: &mut Comparison, rounds: usize, seed: u64) -> io::Result<()> {
    let (from, to) = (comparison.encoding, comparison.to);
    let mut random = Random::new(seed, &[from.name(), to.name()].concat());
    comparison.compare(b"", Delivery::Pipe)?;
    for _ in 0..rounds {
        let length = random.below(2000);
        for input in kinds(from, &mut random, length) {
            comparison.compare(&input, Delivery::Pipe)?;
        }
        let text = mixed(to, &mut random, length);
        comparison.compare(&in_encoding(from, &text), Delivery::Pipe)?;
    }
    Ok(())
}
