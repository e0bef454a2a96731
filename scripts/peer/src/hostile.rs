//! Random and hostile whole inputs.
use crate::comparison::Comparison;
use crate::recode::Delivery;
use crate::sequences::of_tokens;
use encoding_rs::{Encoding, UTF_16BE};
use peer::inputs::{damaged, kinds, random_tokens, text_of, TEXT};
use peer::random::Random;
use peer::tokens::{tokens, MARKS};
use std::io;

/// So long are recode's own buffers.
pub const BUFFER: usize = 65536;
/// How long the long inputs are: about one, two and more buffers.
pub const LENGTHS: [usize; 9] = [4097, 65535, 65536, 65537, 131071, 131072, 131073, 200_003, 400_009];
/// The pieces in which the input comes, of short inputs and of long ones.
pub const SHORT_PIECES: [&[usize]; 5] = [&[1], &[2], &[3], &[1, 2], &[5, 1, 1]];
pub const LONG_PIECES: [&[usize]; 6] = [&[1000], &[4095, 2], &[65535], &[65537], &[1, 65535], &[32769, 7, 3, 1]];

/// Each byte, the strings of up to two tokens, and random sequences of two to four bytes, each an input of its own: so
/// each status is seen by itself, and each end of the input too.
pub fn alone(comparison: &mut Comparison, sampled: usize, seed: u64) -> io::Result<()> {
    comparison.compare(b"", Delivery::Pipe)?;
    comparison.compare(b"", Delivery::File)?;
    for byte in 0..=0xFF {
        comparison.compare(&[byte], Delivery::Pipe)?;
    }
    let tokens = tokens(comparison.encoding);
    for number in 0..tokens.len() * tokens.len() {
        comparison.compare(&of_tokens(tokens, number, 2), Delivery::Pipe)?;
    }
    let mut random = Random::new(seed, comparison.encoding.name());
    for number in 0..sampled {
        let sequence = random.bytes(2 + number % 3);
        comparison.compare(&sequence, Delivery::Pipe)?;
        comparison.compare(&random_tokens(comparison.encoding, &mut random, 20), Delivery::Pipe)?;
    }
    Ok(())
}

/// Byte order marks, whole, broken off and damaged, and after them nothing, a token, text or random bytes.
pub fn marks(comparison: &mut Comparison, sampled: usize, seed: u64) -> io::Result<()> {
    let encoding = comparison.encoding;
    let mut random = Random::new(seed, encoding.name());
    for mark in MARKS {
        comparison.compare(mark, Delivery::Pipe)?;
        comparison.compare(mark, Delivery::Slow(&[1]))?;
        for token in tokens(encoding) {
            comparison.compare(&[*mark, *token].concat(), Delivery::Pipe)?;
        }
        for number in 0..sampled {
            let length = random.below(300);
            let rest = after_mark(encoding, &mut random, number, length);
            comparison.compare(&[mark, &rest[..]].concat(), Delivery::Pipe)?;
        }
        for sizes in SHORT_PIECES {
            let rest = random_tokens(encoding, &mut random, 8);
            comparison.compare(&[mark, &rest[..]].concat(), Delivery::Slow(sizes))?;
        }
        let long = after_mark(encoding, &mut random, 1, 2 * BUFFER);
        comparison.compare(&[mark, &long[..]].concat(), Delivery::File)?;
    }
    Ok(())
}

fn after_mark(encoding: &'static Encoding, random: &mut Random, kind: usize, length: usize) -> Vec<u8> {
    match kind % 5 {
        0 => random.bytes(length),
        1 => random_tokens(encoding, random, length),
        2 => damaged(&text_of(encoding, length), random, encoding),
        3 => TEXT.bytes().cycle().take(length).collect(),
        _ => damaged(&text_of(UTF_16BE, length), random, UTF_16BE),
    }
}

/// Random bytes, random tokens, whole text and damaged text, short, long, and ended anywhere.
pub fn random(comparison: &mut Comparison, short: usize, rounds: usize, seed: u64) -> io::Result<()> {
    let mut random = Random::new(seed, comparison.encoding.name());
    for _ in 0..short {
        let length = random.below(3000);
        for input in kinds(comparison.encoding, &mut random, length) {
            comparison.compare(&input, Delivery::Pipe)?;
        }
    }
    for round in 0..rounds {
        for length in LENGTHS {
            let delivery = if round % 2 == 0 { Delivery::File } else { Delivery::Pipe };
            for input in kinds(comparison.encoding, &mut random, length + round / 2) {
                comparison.compare(&input, delivery)?;
            }
        }
    }
    Ok(())
}

/// Tokens that lie across the ends of recode's buffers, at each place that its longest sequence can have there.
pub fn boundaries(comparison: &mut Comparison, seed: u64) -> io::Result<()> {
    let encoding = comparison.encoding;
    let mut random = Random::new(seed, encoding.name());
    let text = text_of(encoding, BUFFER + 8);
    for filler in [&b"a"[..], &text] {
        for tokens in tokens(encoding).chunks(6) {
            for before in 0..=4 {
                let input = across(filler, tokens, before, &mut random);
                comparison.compare(&input, Delivery::File)?;
            }
        }
    }
    Ok(())
}

/// One of the tokens across the end of each buffer, `before` bytes before it, and then a random token.
fn across(filler: &[u8], tokens: &[&[u8]], before: usize, random: &mut Random) -> Vec<u8> {
    let mut input = Vec::new();
    for (number, token) in tokens.iter().enumerate() {
        let end = (number + 1) * BUFFER - before;
        let missing = end.saturating_sub(input.len());
        input.extend(filler.iter().cycle().take(missing));
        input.extend_from_slice(token);
        input.extend_from_slice(random.pick::<&[u8]>(tokens));
    }
    input
}

/// Inputs through a pipe in odd pieces.
pub fn pieces(comparison: &mut Comparison, seed: u64) -> io::Result<()> {
    let encoding = comparison.encoding;
    let mut random = Random::new(seed, encoding.name());
    for sizes in SHORT_PIECES {
        for input in kinds(encoding, &mut random, 150) {
            comparison.compare(&input, Delivery::Slow(sizes))?;
        }
    }
    for sizes in LONG_PIECES {
        for input in kinds(encoding, &mut random, 250_001) {
            comparison.compare(&input, Delivery::Pieces(sizes))?;
        }
    }
    Ok(())
}
