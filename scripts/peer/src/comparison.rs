//! Comparing both on inputs from one encoding to another, counting, and finding the smallest input that differs.
use crate::recode::{Delivery, Recode};
use encoding_rs::Encoding;
use peer::oracle::{self, Answer};
use std::fmt::Write;
use std::io;
use std::ops::Range;

/// The most differing inputs that are looked into in each encoding; the others are counted.
const EXPLAINED: u64 = 6;
/// The number of bytes shown. One that is repeated many times counts once.
const BYTES_SHOWN: usize = 64;
/// A byte is written once if it is repeated this many times or more.
const MANY: usize = 8;
/// The number of parts of each size, the last ones, that are left out of a differing input in turn.
const PARTS: usize = 128;

/// The comparison of a pair of encodings, or of several one after another.
pub struct Comparison {
    /// The encoding to decode.
    pub encoding: &'static Encoding,
    /// The encoding to write.
    pub to: &'static Encoding,
    pub recode: Recode,
    /// How many inputs were given to both, each a run of its own.
    pub inputs: u64,
    /// How many sequences stood in joined inputs.
    pub sequences: u64,
    /// How many bytes the inputs had.
    pub bytes: u64,
    /// How many inputs differ.
    pub differ: u64,
    /// The report on the first of them.
    pub report: String,
    /// The smallest inputs that were found so far.
    shown: Vec<Vec<u8>>,
}

impl Comparison {
    pub fn new(encoding: &'static Encoding, to: &'static Encoding, recode: Recode) -> Comparison {
        let (report, shown) = (String::new(), Vec::new());
        Comparison { encoding, to, recode, inputs: 0, sequences: 0, bytes: 0, differ: 0, report, shown }
    }

    fn wanted(&self, input: &[u8]) -> Answer {
        oracle::wanted(self.encoding, self.to, input)
    }

    fn run(&self, input: &[u8], delivery: Delivery) -> io::Result<Answer> {
        self.recode.run([self.encoding.name(), self.to.name()], input, delivery)
    }

    /// Compares output and status.
    pub fn compare(&mut self, input: &[u8], delivery: Delivery) -> io::Result<()> {
        self.inputs += 1;
        self.bytes += input.len() as u64;
        let wanted = self.wanted(input);
        let got = self.run(input, delivery)?;
        if got == wanted {
            return Ok(());
        }
        self.differ += 1;
        if self.differ <= EXPLAINED {
            self.explain(input, &wanted, &got)?;
        }
        Ok(())
    }

    /// Says what differs, by the smallest input that was found.
    fn explain(&mut self, input: &[u8], wanted: &Answer, got: &Answer) -> io::Result<()> {
        if !self.differs(input)? {
            writeln!(self.report, "  through a pipe at once it does not differ:").ok();
            self.show(input, wanted, got);
            return Ok(());
        }
        let small = self.smallest(input)?;
        if self.shown.contains(&small) {
            return Ok(());
        }
        let wanted = self.wanted(&small);
        let got = self.run(&small, Delivery::Pipe)?;
        self.show(&small, &wanted, &got);
        self.shown.push(small);
        Ok(())
    }

    /// The input, and both answers from the first byte on in which they differ.
    fn show(&mut self, input: &[u8], wanted: &Answer, got: &Answer) {
        let same = wanted.text.iter().zip(&got.text).take_while(|(one, other)| one == other).count();
        let (name, to) = (self.encoding.name(), self.to.name());
        writeln!(self.report, "  {name} to {to} differs on {}", hex(input)).ok();
        for (program, answer) in [("the crate", wanted), ("recode", got)] {
            let (text, status) = (hex(&answer.text[same..]), answer.status);
            writeln!(self.report, "    {program}: status {status}, after {same} equal bytes: {text}").ok();
        }
    }

    fn differs(&self, input: &[u8]) -> io::Result<bool> {
        Ok(self.run(input, Delivery::Pipe)? != self.wanted(input))
    }

    /// An input that differs, from which hardly a part can be left out, and in which as much as can be is `a`.
    fn smallest(&self, input: &[u8]) -> io::Result<Vec<u8>> {
        let fewer = self.changed_in_parts(input.to_vec(), |less, part| drop(less.drain(part)))?;
        self.changed_in_parts(fewer, |plain, part| plain[part].fill(b'a'))
    }

    /// Changes part after part, of smaller and smaller size, where the input still differs then.
    fn changed_in_parts(&self, mut small: Vec<u8>, change: impl Fn(&mut Vec<u8>, Range<usize>)) -> io::Result<Vec<u8>> {
        let mut size = small.len() / 2;
        while size > 0 {
            let mut end = small.len();
            for _ in 0..PARTS.min(end / size) {
                let begin = end.saturating_sub(size);
                small = self.changed_in_part(small, begin..end, &change)?;
                end = begin;
            }
            size /= 2;
        }
        Ok(small)
    }

    fn changed_in_part(
        &self,
        small: Vec<u8>,
        part: Range<usize>,
        change: &impl Fn(&mut Vec<u8>, Range<usize>),
    ) -> io::Result<Vec<u8>> {
        let mut other = small.clone();
        change(&mut other, part);
        Ok(if other != small && self.differs(&other)? { other } else { small })
    }
}

/// The bytes in hex, as far as they are shown.
pub fn hex(bytes: &[u8]) -> String {
    let mut shown = Vec::new();
    let mut rest = bytes;
    while let (Some(byte), true) = (rest.first(), shown.len() < BYTES_SHOWN) {
        let run = rest.iter().take_while(|next| *next == byte).count();
        let (word, length) = match run {
            MANY.. => (format!("{byte:02X} ({run} times)"), run),
            _ => (format!("{byte:02X}"), 1),
        };
        shown.push(word);
        rest = &rest[length..];
    }
    if bytes.is_empty() {
        shown.push(String::from("nothing"));
    }
    if !rest.is_empty() {
        shown.push(format!("and {} bytes more", rest.len()));
    }
    shown.join(" ")
}
