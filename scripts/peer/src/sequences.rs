//! Every sequence of some length, and samples of longer ones, joined so that each is decoded from the first state on.
use crate::comparison::Comparison;
use crate::recode::Delivery;
use encoding_rs::{Encoding, ISO_2022_JP, UTF_16BE, UTF_16LE};
use peer::random::Random;
use peer::{oracle, tokens};
use std::io;

/// The number of sequences that are joined to one input.
const JOINED: usize = 65536;

/// Sequences joined to inputs: all of them to one, and those in which nothing is malformed to another, whose status has
/// to be 0.
struct Joiner<'a> {
    comparison: &'a mut Comparison,
    all: Vec<u8>,
    well_formed: Vec<u8>,
    count: usize,
}

impl<'a> Joiner<'a> {
    fn new(comparison: &'a mut Comparison) -> Joiner<'a> {
        Joiner { comparison, all: Vec::new(), well_formed: Vec::new(), count: 0 }
    }

    fn push(&mut self, sequence: &[u8]) -> io::Result<()> {
        let encoding = self.comparison.encoding;
        push_apart(&mut self.all, encoding, sequence);
        if oracle::is_well_formed(encoding, sequence) {
            push_apart(&mut self.well_formed, encoding, sequence);
        }
        self.count += 1;
        if self.count == JOINED {
            self.flush()?;
        }
        Ok(())
    }

    fn flush(&mut self) -> io::Result<()> {
        self.comparison.sequences += self.count as u64;
        self.comparison.compare(&self.all, Delivery::File)?;
        self.comparison.compare(&self.well_formed, Delivery::File)?;
        self.all.clear();
        self.well_formed.clear();
        self.count = 0;
        Ok(())
    }
}

/// Appends a sequence, and what brings every decoder back to its first state. A line feed does: it is no part of a
/// longer sequence. UTF-16 needs a whole unit of them, and one more after a sequence of an odd length. ISO-2022-JP has
/// to go back to ASCII, with a character after the escape sequence, since two in a row are malformed.
fn push_apart(joined: &mut Vec<u8>, encoding: &'static Encoding, sequence: &[u8]) {
    joined.extend_from_slice(sequence);
    if encoding == UTF_16BE || encoding == UTF_16LE {
        joined.extend_from_slice(&b"\n\n\n"[..2 + sequence.len() % 2]);
    } else if encoding == ISO_2022_JP {
        joined.extend_from_slice(b"\n\x1b(B\n");
    } else {
        joined.push(b'\n');
    }
}

/// Every sequence of `length` bytes, 1 to 3, after the bytes `front`.
pub fn every(comparison: &mut Comparison, front: &[u8], length: usize) -> io::Result<()> {
    let mut joiner = Joiner::new(comparison);
    for number in 0..1_u32 << (8 * length) {
        joiner.push(&[front, &number.to_be_bytes()[4 - length..]].concat())?;
    }
    joiner.flush()
}

/// Random sequences of `length` bytes.
pub fn sample(comparison: &mut Comparison, length: usize, count: usize, seed: u64) -> io::Result<()> {
    let mut random = Random::new(seed, comparison.encoding.name());
    let mut joiner = Joiner::new(comparison);
    for _ in 0..count {
        joiner.push(&random.bytes(length))?;
    }
    joiner.flush()
}

/// Every string of `length` tokens of the encoding.
pub fn every_of_tokens(comparison: &mut Comparison, length: u32) -> io::Result<()> {
    let tokens = tokens::tokens(comparison.encoding);
    let mut joiner = Joiner::new(comparison);
    for number in 0..tokens.len().pow(length) {
        joiner.push(&of_tokens(tokens, number, length))?;
    }
    joiner.flush()
}

/// The string of `length` tokens with this number.
pub fn of_tokens(tokens: &[tokens::Token], number: usize, length: u32) -> Vec<u8> {
    let mut rest = number;
    let mut sequence = Vec::new();
    for _ in 0..length {
        sequence.extend_from_slice(tokens[rest % tokens.len()]);
        rest /= tokens.len();
    }
    sequence
}

/// Random strings of at most `most` tokens.
pub fn sample_of_tokens(comparison: &mut Comparison, most: usize, count: usize, seed: u64) -> io::Result<()> {
    let tokens = tokens::tokens(comparison.encoding);
    let mut random = Random::new(seed, comparison.encoding.name());
    let mut joiner = Joiner::new(comparison);
    for _ in 0..count {
        let length = 1 + random.below(most);
        let sequence: Vec<&[u8]> = (0..length).map(|_| *random.pick(tokens)).collect();
        joiner.push(&sequence.concat())?;
    }
    joiner.flush()
}

/// Every sequence of four bytes as gb18030 has them: 81 to FE, 30 to 39, and both again.
pub fn every_four_of_gb18030(comparison: &mut Comparison) -> io::Result<()> {
    let mut joiner = Joiner::new(comparison);
    let (leads, digits) = (0xFE - 0x81 + 1, 10);
    for number in 0..leads * digits * leads * digits {
        let (back, front) = (number % (leads * digits), number / (leads * digits));
        let [first, third] = [front, back].map(|half| 0x81 + (half / digits) as u8);
        let [second, fourth] = [front, back].map(|half| 0x30 + (half % digits) as u8);
        joiner.push(&[first, second, third, fourth])?;
    }
    joiner.flush()
}

/// Every pair of surrogates in UTF-16.
pub fn every_pair_of_surrogates(comparison: &mut Comparison) -> io::Result<()> {
    let big_endian = comparison.encoding == UTF_16BE;
    let mut joiner = Joiner::new(comparison);
    for number in 0..1_u32 << 20 {
        let units = [0xD800 + (number >> 10) as u16, 0xDC00 + (number & 0x3FF) as u16];
        let bytes = units.map(|unit| if big_endian { unit.to_be_bytes() } else { unit.to_le_bytes() });
        joiner.push(&bytes.concat())?;
    }
    joiner.flush()
}

/// Every scalar value in UTF-8, and four bytes: the first F0 to F5, the second any, and the others at the ends of
/// ranges.
pub fn every_four_of_utf_8(comparison: &mut Comparison) -> io::Result<()> {
    const EDGES: [u8; 12] = [0x00, 0x7F, 0x80, 0x8F, 0x90, 0x9F, 0xA0, 0xBF, 0xC0, 0xC2, 0xEF, 0xF0];
    let mut joiner = Joiner::new(comparison);
    for character in '\0'..=char::MAX {
        joiner.push(character.encode_utf8(&mut [0; 4]).as_bytes())?;
    }
    for number in 0..6 * 256 * 144 {
        let (front, back) = (number / 144, number % 144);
        let sequence = [0xF0 + (front / 256) as u8, (front % 256) as u8, EDGES[back / 12], EDGES[back % 12]];
        joiner.push(&sequence)?;
    }
    joiner.flush()
}
