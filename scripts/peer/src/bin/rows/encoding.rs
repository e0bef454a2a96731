//! Rows of encoders.
use crate::words::{answer_of, caught, fails, hex, lower, shown};
use crate::words::{bytes_of, named, number_of, parts, text_of, Words};
use encoding_rs::{CoderResult, Encoder, EncoderResult, Encoding};
use peer::sums::sums_of;
use std::borrow::Cow;

/// Room for the whole text of a row, in bytes.
const AMPLE: usize = 4096;
/// Rooms below this one are tried for each row.
const ROOMS: usize = 18;

#[derive(Clone, Copy, Debug, PartialEq)]
enum Input {
    Utf8,
    Utf16,
    Vec,
}
const INPUTS: [Input; 3] = [Input::Utf8, Input::Utf16, Input::Vec];

/// The encoders of a head.
pub struct Encoders {
    subjects: Vec<&'static Encoding>,
    reports: bool,
    is_barring: bool,
    targets: Vec<(Encoder, Input)>,
}

/// A way to encode a whole text.
#[derive(Clone, Copy)]
struct Way {
    encoding: &'static Encoding,
    input: Input,
    reports: bool,
}

impl Way {
    /// The room with which the crate always makes progress.
    fn least(self) -> usize {
        if self.reports {
            4
        } else {
            14
        }
    }
}

#[derive(Clone, Copy, Debug)]
enum Cut {
    No,
    At(usize),
    Each,
}

struct Answer {
    result: EncoderResult,
    read: usize,
    written: usize,
    replaced: bool,
    bytes: Vec<u8>,
}

/// A text and its bytes.
type Row<'a> = (&'a str, &'a [u8]);

#[derive(Default)]
struct Run {
    bytes: Vec<u8>,
    is_finished: bool,
    /// Whether a call has read a lead surrogate without its trail.
    is_split: bool,
}

/// What a call reads and how.
#[derive(Clone, Copy)]
struct Given {
    last: bool,
    room: usize,
    reports: bool,
}

fn replacing((result, read, written, replaced): (CoderResult, usize, usize, bool)) -> Answer {
    let result = match result {
        CoderResult::InputEmpty => EncoderResult::InputEmpty,
        CoderResult::OutputFull => EncoderResult::OutputFull,
    };
    Answer { result, read, written, replaced, bytes: Vec::new() }
}

fn reporting((result, read, written): (EncoderResult, usize, usize)) -> Answer {
    Answer { result, read, written, replaced: false, bytes: Vec::new() }
}

/// Makes a call from code units.
fn call_units(encoder: &mut Encoder, units: &[u16], given: Given) -> Answer {
    let mut dst = vec![0xA5; given.room];
    let answer = if given.reports {
        reporting(encoder.encode_from_utf16_without_replacement(units, &mut dst, given.last))
    } else {
        replacing(encoder.encode_from_utf16(units, &mut dst, given.last))
    };
    dst.truncate(answer.written);
    Answer { bytes: dst, ..answer }
}

/// Makes a call from UTF-8, into a slice.
fn call_utf8(encoder: &mut Encoder, text: &str, given: Given) -> Answer {
    let mut dst = vec![0xA5; given.room];
    let answer = if given.reports {
        reporting(encoder.encode_from_utf8_without_replacement(text, &mut dst, given.last))
    } else {
        replacing(encoder.encode_from_utf8(text, &mut dst, given.last))
    };
    dst.truncate(answer.written);
    Answer { bytes: dst, ..answer }
}

/// Makes a call from UTF-8, into the capacity of a vector.
fn call_vec(encoder: &mut Encoder, text: &str, given: Given) -> Answer {
    let mut dst = Vec::with_capacity(given.room);
    let answer = if given.reports {
        let (result, read) = encoder.encode_from_utf8_to_vec_without_replacement(text, &mut dst, given.last);
        reporting((result, read, dst.len()))
    } else {
        let (result, read, replaced) = encoder.encode_from_utf8_to_vec(text, &mut dst, given.last);
        replacing((result, read, dst.len(), replaced))
    };
    Answer { bytes: dst, ..answer }
}

/// Makes a call. It counts the bytes of UTF-8 that are read.
fn call(encoder: &mut Encoder, input: Input, text: &str, given: Given) -> Answer {
    match input {
        Input::Utf8 => call_utf8(encoder, text, given),
        Input::Vec => call_vec(encoder, text, given),
        Input::Utf16 => {
            let units: Vec<u16> = text.encode_utf16().collect();
            let answer = call_units(encoder, &units, given);
            let read = String::from_utf16_lossy(&units[..answer.read]).len();
            Answer { read, ..answer }
        }
    }
}

fn chunks(text: &str, cut: Cut) -> Vec<String> {
    match cut {
        Cut::No => vec![String::from(text)],
        Cut::At(place) => vec![String::from(&text[..place]), String::from(&text[place..])],
        Cut::Each if text.is_empty() => vec![String::new()],
        Cut::Each => text.chars().map(String::from).collect(),
    }
}

/// Encodes a chunk. Returns whether it is all read.
fn run_chunk(encoder: &mut Encoder, input: Input, mut text: &str, given: Given, run: &mut Run) -> bool {
    let mut idle = 0;
    loop {
        let answer = call(encoder, input, text, given);
        run.is_split = !text.is_char_boundary(answer.read);
        if run.is_split {
            return false;
        }
        text = &text[answer.read..];
        run.bytes.extend_from_slice(&answer.bytes);
        match answer.result {
            EncoderResult::InputEmpty => return true,
            EncoderResult::Unmappable(it) => run.bytes.extend(format!("&#{};", u32::from(it)).bytes()),
            EncoderResult::OutputFull => {
                idle = if answer.read == 0 && answer.written == 0 { idle + 1 } else { 0 };
                if idle > 2 {
                    return false;
                }
            }
        }
    }
}

fn run(way: Way, text: &str, cut: Cut, room: usize) -> Run {
    let (mut encoder, mut run) = (way.encoding.new_encoder(), Run::default());
    let all = chunks(text, cut);
    for (number, text) in all.iter().enumerate() {
        let given = Given { last: number + 1 == all.len(), room, reports: way.reports };
        if !run_chunk(&mut encoder, way.input, text, given, &mut run) {
            return run;
        }
    }
    run.is_finished = true;
    run
}

/// Encodes a text in one way. What it gives where that is wrong.
fn compare(stage: &str, way: Way, (text, bytes): Row, cut: Cut, room: usize) -> Result<(), String> {
    let run = caught(|| run(way, text, cut, room));
    let part = match &run {
        None => "panic",
        Some(run) if run.is_split => "split",
        Some(run) if run.is_finished && run.bytes != bytes => "bytes",
        Some(run) if !bytes.starts_with(&run.bytes) => "bytes",
        Some(run) if !run.is_finished && room >= way.least() => "stuck",
        _ => return Ok(()),
    };
    Err(fails(&[
        ("part", &part),
        ("stage", &stage),
        ("of", &way.encoding.name()),
        ("input", &lower(way.input)),
        ("mode", &if way.reports { "report" } else { "replace" }),
        ("cut", &lower(cut)),
        ("room", &room),
        ("bytes", &hex(&run.unwrap_or_default().bytes)),
    ]))
}

/// The inputs, each without references and with them.
fn ways(encoding: &'static Encoding) -> Vec<Way> {
    let both = |input| [false, true].map(|reports| Way { encoding, input, reports });
    INPUTS.into_iter().flat_map(both).collect()
}

/// Encodes a text with each cut, from each input and in each mode.
fn compare_cuts(
    stage: &str,
    encoding: &'static Encoding,
    row: Row,
    rooms: impl Fn(Way) -> Vec<usize>,
) -> Result<(), String> {
    for way in ways(encoding) {
        for room in rooms(way) {
            compare(stage, way, row, Cut::No, room)?;
            compare(stage, way, row, Cut::Each, room)?;
            for (place, _) in row.0.char_indices() {
                compare(stage, way, row, Cut::At(place), room)?;
            }
            compare(stage, way, row, Cut::At(row.0.len()), room)?;
        }
    }
    Ok(())
}

/// Encodes a text whole, cut, in rooms in which the crate makes progress, and in smaller ones.
fn compare_all(encoding: &'static Encoding, row: Row) -> Result<(), String> {
    compare("whole", Way { encoding, input: Input::Utf8, reports: false }, row, Cut::No, AMPLE)?;
    compare_cuts("cut", encoding, row, |_| vec![AMPLE])?;
    compare_cuts("room", encoding, row, |way| (way.least()..ROOMS).collect())?;
    compare_cuts("small", encoding, row, |way| (0..way.least()).collect())
}

/// Encodes a long text whole and in two parts, in room enough and in little.
fn compare_long(encoding: &'static Encoding, row: Row) -> Result<(), String> {
    for way in ways(encoding) {
        compare("whole", way, row, Cut::No, AMPLE)?;
        for (place, _) in row.0.char_indices() {
            compare("cut", way, row, Cut::At(place), AMPLE)?;
            compare("room", way, row, Cut::At(place), 17)?;
            compare("room", way, row, Cut::At(place), 40)?;
        }
        for room in way.least()..row.1.len() + 14 {
            compare("room", way, row, Cut::No, room)?;
        }
    }
    Ok(())
}

/// What the answer of a call has to be.
struct Wanted<'a> {
    result: &'a str,
    read: usize,
    written: usize,
    replaced: bool,
    bytes: Vec<u8>,
}

impl Wanted<'_> {
    /// Reads `RESULT READ WRITTEN REPLACED BYTES`.
    fn new<'a>(words: &mut Words<'a>) -> Wanted<'a> {
        let (result, read, written) = (words.next(), number_of(words.next()), number_of(words.next()));
        Wanted { result, read, written, replaced: words.next() == "yes", bytes: bytes_of(words.next()) }
    }

    /// Another answer in words.
    fn other(&self, given: &Answer) -> Option<String> {
        let (result, Answer { read, written, replaced, bytes, .. }) = (name_of(&given.result), given);
        let want = (self.result, self.read, self.written, self.replaced, &self.bytes);
        if want == (result.as_str(), *read, *written, *replaced, bytes) {
            return None;
        }
        let bytes = hex(bytes);
        Some(format!("result={result} read={read} written={written} replaced={replaced} bytes={bytes}"))
    }
}

/// The four length queries of an encoder.
fn lengths(encoder: &Encoder, n: usize) -> String {
    [
        encoder.max_buffer_length_from_utf8_without_replacement(n),
        encoder.max_buffer_length_from_utf16_without_replacement(n),
        encoder.max_buffer_length_from_utf8_if_no_unmappables(n),
        encoder.max_buffer_length_from_utf16_if_no_unmappables(n),
    ]
    .map(shown)
    .join(",")
}

/// A result as rows have it.
fn name_of(result: &EncoderResult) -> String {
    match result {
        EncoderResult::Unmappable(it) => format!("Unmappable({:X})", u32::from(*it)),
        other => format!("{other:?}"),
    }
}

/// Code units in hexadecimal, with commas.
fn units_of(word: &str) -> Vec<u16> {
    parts(word).into_iter().map(|it| u16::from_str_radix(it, 16).expect("code units")).collect()
}

impl Encoders {
    /// Reads the words of a head.
    pub fn new(words: &mut Words) -> Encoders {
        let subjects: Vec<_> = parts(words.next()).into_iter().map(named).collect();
        let reports = words.next() == "report";
        let input = |word: &str| match word {
            "utf16" => Input::Utf16,
            "vec" => Input::Vec,
            _ => Input::Utf8,
        };
        let inputs: Vec<_> = parts(words.next()).into_iter().map(input).collect();
        let inputs = if inputs.is_empty() { vec![Input::Utf8] } else { inputs };
        let targets = inputs.iter().flat_map(|input| subjects.iter().map(|it| (it.new_encoder(), *input))).collect();
        Encoders { is_barring: words.next() != "-", subjects, reports, targets }
    }

    /// The answer to the row of a name. The crate's encoders bar no character.
    pub fn answer(&mut self, name: &str, words: &mut Words) -> String {
        if self.is_barring {
            return String::from("skip");
        }
        let made = match name {
            "text" => {
                let (text, bytes) = (text_of(words.next()), bytes_of(words.next()));
                self.subjects.iter().try_for_each(|it| compare_all(it, (&text, &bytes)))
            }
            "long" => {
                let (text, bytes) = (text_of(words.next()), bytes_of(words.next()));
                self.subjects.iter().try_for_each(|it| compare_long(it, (&text, &bytes)))
            }
            "sum" => self.sum(words),
            "call" => {
                let text = text_of(words.next());
                self.call(words, |encoder, input, given| call(encoder, input, &text, given))
            }
            "units" => {
                let units = units_of(words.next());
                self.call(words, |encoder, _, given| call_units(encoder, &units, given))
            }
            "pending" => self.pending(words),
            "lengths" => self.lengths(words),
            "whole" => self.whole(words),
            _ => return String::from("skip"),
        };
        answer_of(made)
    }

    fn call(&mut self, words: &mut Words, made: impl Fn(&mut Encoder, Input, Given) -> Answer) -> Result<(), String> {
        let (last, room) = (words.next() == "yes", number_of(words.next()));
        let (want, given) = (Wanted::new(words), Given { last, room, reports: self.reports });
        for (encoder, input) in &mut self.targets {
            let (of, by) = (encoder.encoding().name(), lower(*input));
            let Some(answer) = caught(|| made(encoder, *input, given)) else {
                return Err(fails(&[("part", &"panic"), ("stage", &"call"), ("of", &of), ("input", &by)]));
            };
            if let Some(other) = want.other(&answer) {
                let place = fails(&[("part", &"call"), ("stage", &"call"), ("of", &of), ("input", &by)]);
                return Err(format!("{place} {other}"));
            }
        }
        Ok(())
    }

    fn sum(&self, words: &mut Words) -> Result<(), String> {
        let want = words.next();
        for encoding in &self.subjects {
            let (reported, replaced) = sums_of(encoding);
            let given = format!("{reported:016X},{replaced:016X}");
            if given != want {
                return Err(fails(&[("part", &"sum"), ("of", &encoding.name()), ("sums", &given)]));
            }
        }
        Ok(())
    }

    fn pending(&self, words: &mut Words) -> Result<(), String> {
        let want = words.next() == "yes";
        let other = self.targets.iter().find(|(encoder, _)| encoder.has_pending_state() != want);
        let Some((encoder, _)) = other else { return Ok(()) };
        Err(fails(&[("part", &"pending"), ("of", &encoder.encoding().name()), ("pending", &!want)]))
    }

    fn lengths(&self, words: &mut Words) -> Result<(), String> {
        let (n, want) = (number_of(words.next()), words.next());
        for (encoder, _) in &self.targets {
            let given = lengths(encoder, n);
            if given != want {
                return Err(fails(&[("part", &"lengths"), ("of", &encoder.encoding().name()), ("lengths", &given)]));
            }
        }
        Ok(())
    }

    fn whole(&self, words: &mut Words) -> Result<(), String> {
        let (text, bytes, used) = (text_of(words.next()), bytes_of(words.next()), words.next());
        let (flag, lends) = (words.next() == "yes", words.next());
        for encoding in &self.subjects {
            let (made, by, is_unmappable) = encoding.encode(&text);
            let lent = if matches!(made, Cow::Borrowed(_)) { "lent" } else { "owned" };
            let is_same = *made == bytes[..] && (by.name(), is_unmappable) == (used, flag);
            if !is_same || (lends != "none" && lends != lent) {
                return Err(fails(&[
                    ("part", &"once"),
                    ("of", &encoding.name()),
                    ("bytes", &hex(&made)),
                    ("encoding", &by.name()),
                    ("flag", &is_unmappable),
                    ("lends", &lent),
                ]));
            }
        }
        Ok(())
    }
}
