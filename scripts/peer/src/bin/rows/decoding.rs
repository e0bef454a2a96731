//! Rows of decoders.
use crate::words::{answer_of, caught, fails, hex, lower, shown, shown_places};
use crate::words::{bytes_of, length_of, named, number_of, parts, places_of, text_of, Words};
use encoding_rs::{CoderResult, Decoder, DecoderResult, Encoding};
use std::borrow::Cow;
use std::fmt::Display;

/// Room for the whole text of a row, in code units.
const AMPLE: usize = 4096;
/// Rooms below this one are tried for each row.
const ROOMS: usize = 10;

#[derive(Clone, Copy, Debug, PartialEq)]
enum Output {
    Utf8,
    Utf16,
    Str,
    String,
}
const OUTPUTS: [Output; 4] = [Output::Utf8, Output::Utf16, Output::Str, Output::String];

impl Output {
    /// The least room, by the crate's documentation.
    fn least(self) -> usize {
        if self == Output::Utf16 {
            2
        } else {
            4
        }
    }

    /// The length query of calls into this output.
    fn query(self, reports: bool) -> &'static str {
        match (self, reports) {
            (Output::Utf16, _) => "utf16",
            (_, true) => "report",
            _ => "utf8",
        }
    }

    /// The room in which the end is reached, if it is in `room` bytes of UTF-8.
    fn enough(self, room: usize) -> usize {
        match (self, room) {
            (Output::Utf16, 4..) => 2,
            (Output::Utf16, _) => room.min(1),
            _ => room,
        }
    }
}

/// What the answer of a call has to be.
struct Wanted<'a> {
    result: &'a str,
    read: usize,
    written: usize,
    replaced: bool,
    text: String,
}

impl Wanted<'_> {
    /// Reads `RESULT READ WRITTEN REPLACED TEXT`.
    fn new<'a>(words: &mut Words<'a>) -> Wanted<'a> {
        let (result, read, written) = (words.next(), number_of(words.next()), number_of(words.next()));
        Wanted { result, read, written, replaced: words.next() == "yes", text: text_of(words.next()) }
    }

    /// Another answer in words, with what the length query has returned before the call.
    fn other(&self, given: &Answer, query: Option<usize>) -> Option<String> {
        let result = format!("{:?}", given.result).replace(' ', "");
        let Answer { read, written, replaced, text, .. } = given;
        let want = (self.result, self.read, self.written, self.replaced, &self.text);
        if want == (result.as_str(), *read, *written, *replaced, text) {
            return None;
        }
        let (text, query) = (hex(text.as_bytes()), shown(query));
        Some(format!("result={result} read={read} written={written} replaced={replaced} text={text} query={query}"))
    }
}

/// The decoders of a head.
pub struct Decoders {
    subjects: Vec<&'static Encoding>,
    marks: String,
    reports: bool,
    targets: Vec<(Decoder, Output)>,
}

/// A way to decode a whole input.
#[derive(Clone, Copy)]
struct Way<'a> {
    encoding: &'static Encoding,
    marks: &'a str,
    output: Output,
    reports: bool,
}

/// The chunks of an input.
#[derive(Clone, Copy, Debug)]
enum Cut {
    No,
    At(usize),
    Each(usize),
}

struct Given<'a> {
    src: &'a [u8],
    last: bool,
    room: usize,
    reports: bool,
}

struct Answer {
    result: DecoderResult,
    read: usize,
    written: usize,
    replaced: bool,
    text: String,
}

/// A whole input with its text, and the room of a row in code units of UTF-8.
struct Input<'a> {
    src: &'a [u8],
    text: &'a str,
    malformed: &'a [(usize, usize)],
    room: usize,
}

#[derive(Default)]
struct Run {
    text: String,
    malformed: Vec<(usize, usize)>,
    had_errors: bool,
    is_finished: bool,
}

fn new_decoder(encoding: &'static Encoding, marks: &str) -> Decoder {
    match marks {
        "sniff" => encoding.new_decoder(),
        "remove" => encoding.new_decoder_with_bom_removal(),
        _ => encoding.new_decoder_without_bom_handling(),
    }
}

fn replacing((result, read, written, replaced): (CoderResult, usize, usize, bool)) -> Answer {
    let result = match result {
        CoderResult::InputEmpty => DecoderResult::InputEmpty,
        CoderResult::OutputFull => DecoderResult::OutputFull,
    };
    Answer { result, read, written, replaced, text: String::new() }
}

fn reporting((result, read, written): (DecoderResult, usize, usize)) -> Answer {
    Answer { result, read, written, replaced: false, text: String::new() }
}

/// Makes a call into one of the outputs.
fn call(decoder: &mut Decoder, output: Output, given: &Given) -> Answer {
    match output {
        Output::Utf8 => to_utf8(decoder, given),
        Output::Utf16 => to_utf16(decoder, given),
        Output::Str => to_str(decoder, given),
        Output::String => to_string(decoder, given),
    }
}

fn to_utf8(decoder: &mut Decoder, given: &Given) -> Answer {
    let mut dst = vec![0xA5; given.room];
    let answer = if given.reports {
        reporting(decoder.decode_to_utf8_without_replacement(given.src, &mut dst, given.last))
    } else {
        replacing(decoder.decode_to_utf8(given.src, &mut dst, given.last))
    };
    Answer { text: String::from_utf8_lossy(&dst[..answer.written]).into_owned(), ..answer }
}

fn to_utf16(decoder: &mut Decoder, given: &Given) -> Answer {
    let mut dst = vec![0xDCA5; given.room];
    let answer = if given.reports {
        reporting(decoder.decode_to_utf16_without_replacement(given.src, &mut dst, given.last))
    } else {
        replacing(decoder.decode_to_utf16(given.src, &mut dst, given.last))
    };
    Answer { text: String::from_utf16_lossy(&dst[..answer.written]), ..answer }
}

fn to_str(decoder: &mut Decoder, given: &Given) -> Answer {
    let mut dst = "\0".repeat(given.room);
    let answer = if given.reports {
        reporting(decoder.decode_to_str_without_replacement(given.src, &mut dst, given.last))
    } else {
        replacing(decoder.decode_to_str(given.src, &mut dst, given.last))
    };
    Answer { text: String::from(&dst[..answer.written]), ..answer }
}

fn to_string(decoder: &mut Decoder, given: &Given) -> Answer {
    let mut text = String::with_capacity(given.room);
    let answer = if given.reports {
        let (result, read) = decoder.decode_to_string_without_replacement(given.src, &mut text, given.last);
        reporting((result, read, text.len()))
    } else {
        let (result, read, replaced) = decoder.decode_to_string(given.src, &mut text, given.last);
        replacing((result, read, text.len(), replaced))
    };
    Answer { text, ..answer }
}

fn chunks(src: &[u8], cut: Cut) -> Vec<&[u8]> {
    match cut {
        Cut::No => vec![src],
        Cut::At(place) => vec![&src[..place], &src[place..]],
        Cut::Each(_) if src.is_empty() => vec![src],
        Cut::Each(length) => src.chunks(length).collect(),
    }
}

/// Decodes a chunk. Returns whether it is all read.
fn run_chunk(decoder: &mut Decoder, output: Output, mut given: Given, run: &mut Run, total: &mut usize) -> bool {
    let mut idle = 0;
    loop {
        let answer = call(decoder, output, &given);
        *total += answer.read;
        given.src = &given.src[answer.read..];
        run.text.push_str(&answer.text);
        run.had_errors |= answer.replaced;
        match answer.result {
            DecoderResult::InputEmpty => return true,
            DecoderResult::Malformed(length, after) => {
                let length = usize::from(length);
                run.malformed.push((total.wrapping_sub(usize::from(after) + length), length));
                run.text.push('\u{FFFD}');
            }
            DecoderResult::OutputFull => {
                idle = if answer.read == 0 && answer.written == 0 { idle + 1 } else { 0 };
                if idle > 2 {
                    return false;
                }
            }
        }
    }
}

fn run(way: Way, src: &[u8], cut: Cut, room: usize) -> Run {
    let (mut decoder, mut run, mut total) = (new_decoder(way.encoding, way.marks), Run::default(), 0);
    let all = chunks(src, cut);
    for (number, src) in all.iter().enumerate() {
        let given = Given { src, last: number + 1 == all.len(), room, reports: way.reports };
        if !run_chunk(&mut decoder, way.output, given, &mut run, &mut total) {
            return run;
        }
    }
    run.is_finished = true;
    run
}

/// What is wrong with a run, if anything.
fn fault_of(run: Option<&Run>, way: Way, input: &Input, room: usize) -> Option<&'static str> {
    let Some(run) = run else { return Some("panic") };
    let whole = if run.is_finished { run.text == input.text } else { input.text.starts_with(&run.text) };
    if !whole {
        return Some("text");
    }
    if way.reports && !input.malformed.starts_with(&run.malformed) {
        return Some("places");
    }
    if !run.is_finished {
        return (room >= way.output.enough(input.room)).then_some("stuck");
    }
    let is_malformed = !input.malformed.is_empty();
    let is_placed = if way.reports { run.malformed == input.malformed } else { run.had_errors == is_malformed };
    (!is_placed).then_some("places")
}

/// Decodes an input in one way. What it gives where that is wrong.
fn compare(stage: &str, way: Way, input: &Input, cut: Cut, room: usize) -> Result<(), String> {
    let run = caught(|| run(way, input.src, cut, room));
    let Some(part) = fault_of(run.as_ref(), way, input, room) else { return Ok(()) };
    let run = run.unwrap_or_default();
    Err(fails(&[
        ("part", &part),
        ("stage", &stage),
        ("of", &way.encoding.name()),
        ("output", &lower(way.output)),
        ("mode", &if way.reports { "report" } else { "replace" }),
        ("cut", &lower(cut)),
        ("room", &room),
        ("text", &hex(run.text.as_bytes())),
        ("malformed", &shown_places(&run.malformed)),
    ]))
}

/// Decodes an input with each cut, in each output and mode, in one room.
fn compare_cuts(stage: &str, way: Way, input: &Input, rooms: impl Fn(Output) -> Vec<usize>) -> Result<(), String> {
    for output in OUTPUTS {
        for (room, reports) in rooms(output).into_iter().flat_map(|room| [(room, false), (room, true)]) {
            let way = Way { output, reports, ..way };
            compare(stage, way, input, Cut::No, room)?;
            compare(stage, way, input, Cut::Each(1), room)?;
            for place in 0..=input.src.len() {
                compare(stage, way, input, Cut::At(place), room)?;
            }
        }
    }
    Ok(())
}

/// Decodes an input whole, cut, in rooms that the crate's documentation allows, and in smaller ones.
fn compare_all(way: Way, input: &Input) -> Result<(), String> {
    compare("whole", way, input, Cut::No, AMPLE)?;
    compare("whole", Way { reports: true, ..way }, input, Cut::No, AMPLE)?;
    compare_cuts("cut", way, input, |_| vec![AMPLE])?;
    compare_cuts("room", way, input, |output| (output.least()..ROOMS).collect())?;
    compare_cuts("small", way, input, |output| (0..output.least()).collect())
}

/// Decodes bytes at each place among letters a.
fn compare_among(way: Way, letter: &[u8], input: &Input) -> Result<(), String> {
    let letters = 40usize.saturating_sub(input.src.len()) / letter.len();
    for front in 0..=letters {
        let back = letters - front;
        let src = [&letter.repeat(front)[..], input.src, &letter.repeat(back)].concat();
        let text = ["a".repeat(front).as_str(), input.text, &"a".repeat(back)].concat();
        let place = |(at, length): &(usize, usize)| (at + front * letter.len(), *length);
        let malformed: Vec<_> = input.malformed.iter().map(place).collect();
        let input = Input { src: &src, text: &text, malformed: &malformed, room: 4 };
        for (output, reports) in OUTPUTS.into_iter().flat_map(|output| [(output, false), (output, true)]) {
            let way = Way { output, reports, ..way };
            compare("whole", way, &input, Cut::No, AMPLE)?;
            compare("cut", way, &input, Cut::Each(1), AMPLE)?;
            compare("room", way, &input, Cut::No, output.least() + 5)?;
        }
    }
    Ok(())
}

/// Decodes a long input in few calls and in many. Where U+FFFD stands for bytes is not compared.
fn compare_repeated(way: Way, src: &[u8], text: &str) -> Result<(), String> {
    let malformed: &[_] = if text.contains('\u{FFFD}') { &[(0, 1)] } else { &[] };
    let input = Input { src, text, malformed, room: 4 };
    for output in OUTPUTS {
        let way = Way { output, ..way };
        compare("whole", way, &input, Cut::No, 3 * src.len() + 16)?;
        compare("cut", way, &input, Cut::Each(997), AMPLE)?;
        compare("room", way, &input, Cut::Each(7), 16)?;
    }
    Ok(())
}

/// Decodes each of the bytes from `first` on by itself.
fn compare_bytes(encoding: &'static Encoding, first: usize, text: &str) -> Result<(), String> {
    let bytes = (first..).take(text.chars().count()).map(|it| it as u8);
    let made: String = bytes.map(|byte| encoding.decode_without_bom_handling(&[byte]).0.into_owned()).collect();
    if made == text {
        return Ok(());
    }
    let text = hex(made.as_bytes());
    Err(fails(&[("part", &"text"), ("stage", &"bytes"), ("of", &encoding.name()), ("text", &text)]))
}

impl Decoders {
    /// Reads the words of a head.
    pub fn new(words: &mut Words) -> Decoders {
        let subjects: Vec<_> = parts(words.next()).into_iter().map(named).collect();
        let (marks, reports) = (String::from(words.next()), words.next() == "report");
        let output = |word: &str| match word {
            "utf16" => Output::Utf16,
            "str" => Output::Str,
            "string" => Output::String,
            _ => Output::Utf8,
        };
        let outputs: Vec<_> = parts(words.next()).into_iter().map(output).collect();
        let outputs = if outputs.is_empty() { vec![Output::Utf8] } else { outputs };
        let all = outputs.iter().flat_map(|output| subjects.iter().map(|it| (new_decoder(it, &marks), *output)));
        let targets = all.collect();
        Decoders { subjects, marks, reports, targets }
    }

    /// The answer to the row of a name.
    pub fn answer(&mut self, name: &str, words: &mut Words) -> String {
        let made = match name {
            "text" => self.text(words),
            "call" => self.call(words),
            "used" => self.used(words),
            "lengths" => self.lengths(words),
            "length" => self.length(words),
            "latin1" => self.latin1(words),
            "whole" => self.whole(words),
            "among" => self.among(words),
            "repeat" => self.repeat(words),
            "bytes" => {
                let (first, text) = (number_of(words.next()), text_of(words.next()));
                self.subjects.iter().try_for_each(|it| compare_bytes(it, first, &text))
            }
            _ => return String::from("skip"),
        };
        answer_of(made)
    }

    fn way(&self, encoding: &'static Encoding) -> Way<'_> {
        Way { encoding, marks: &self.marks, output: Output::Utf8, reports: false }
    }

    fn text(&self, words: &mut Words) -> Result<(), String> {
        let (src, text, malformed) = (bytes_of(words.next()), text_of(words.next()), places_of(words.next()));
        let input = Input { src: &src, text: &text, malformed: &malformed, room: number_of(words.next()) };
        self.subjects.iter().try_for_each(|it| compare_all(self.way(it), &input))
    }

    fn call(&mut self, words: &mut Words) -> Result<(), String> {
        let (src, last, room) = (bytes_of(words.next()), words.next() == "yes", number_of(words.next()));
        let want = Wanted::new(words);
        let given = Given { src: &src, last, room, reports: self.reports };
        for (decoder, output) in &mut self.targets {
            let of = decoder.encoding().name();
            let query = caught(|| length(decoder, output.query(self.reports), src.len())).flatten();
            let place: [(&str, &dyn Display); 3] = [("stage", &"call"), ("of", &of), ("output", &lower(*output))];
            let Some(answer) = caught(|| call(decoder, *output, &given)) else {
                return Err(fails(&[&[("part", &"panic" as &dyn Display)], &place[..]].concat()));
            };
            if let Some(other) = want.other(&answer, query) {
                return Err(fails(&[("part", &"call"), place[0], place[1], place[2]]) + " " + &other);
            }
        }
        Ok(())
    }

    fn used(&self, words: &mut Words) -> Result<(), String> {
        let want = words.next();
        let other = self.targets.iter().find(|(decoder, _)| decoder.encoding().name() != want);
        let Some((decoder, _)) = other else { return Ok(()) };
        Err(fails(&[("part", &"used"), ("encoding", &decoder.encoding().name())]))
    }

    fn lengths(&self, words: &mut Words) -> Result<(), String> {
        let (n, want) = (number_of(words.next()), words.next());
        for (decoder, _) in &self.targets {
            let lengths = ["utf8", "report", "utf16"].map(|of| shown(length(decoder, of, n))).join(",");
            if lengths != want {
                return Err(fails(&[("part", &"lengths"), ("of", &decoder.encoding().name()), ("lengths", &lengths)]));
            }
        }
        Ok(())
    }

    fn length(&self, words: &mut Words) -> Result<(), String> {
        let (of, n, want) = (words.next(), number_of(words.next()), length_of(words.next()));
        for (decoder, _) in &self.targets {
            let given = length(decoder, of, n);
            if given != want {
                let (of, given) = (decoder.encoding().name(), shown(given));
                return Err(fails(&[("part", &"lengths"), ("of", &of), ("lengths", &given)]));
            }
        }
        Ok(())
    }

    fn latin1(&self, words: &mut Words) -> Result<(), String> {
        let (src, want) = (bytes_of(words.next()), length_of(words.next()));
        for (decoder, _) in &self.targets {
            let given = decoder.latin1_byte_compatible_up_to(&src);
            if given != want {
                let (of, given) = (decoder.encoding().name(), shown(given));
                return Err(fails(&[("part", &"latin1"), ("of", &of), ("length", &given)]));
            }
        }
        Ok(())
    }

    /// The one-shot call of the head.
    fn at_once<'a>(&self, encoding: &'static Encoding, src: &'a [u8]) -> (Cow<'a, str>, &'static Encoding, bool) {
        let (text, is_malformed) = match self.marks.as_str() {
            "sniff" => return encoding.decode(src),
            "remove" => encoding.decode_with_bom_removal(src),
            _ => encoding.decode_without_bom_handling(src),
        };
        (text, encoding, is_malformed)
    }

    /// Whether the call without replacement returns a text, or none if a sequence is malformed.
    fn is_strict(&self, encoding: &'static Encoding, src: &[u8], text: &str, is_malformed: bool) -> bool {
        let strict = encoding.decode_without_bom_handling_and_without_replacement(src);
        self.marks != "off" || strict.map_or(is_malformed, |it| !is_malformed && it == text)
    }

    fn whole(&self, words: &mut Words) -> Result<(), String> {
        let (src, text, used) = (bytes_of(words.next()), text_of(words.next()), words.next());
        let (flag, lends) = (words.next() == "yes", words.next());
        for encoding in &self.subjects {
            let (made, by, is_malformed) = self.at_once(encoding, &src);
            let lent = if matches!(made, Cow::Borrowed(_)) { "lent" } else { "owned" };
            let is_same = made == text && (by.name(), is_malformed) == (used, flag);
            if !is_same || !self.is_strict(encoding, &src, &text, flag) || (lends != "none" && lends != lent) {
                return Err(fails(&[
                    ("part", &"once"),
                    ("of", &encoding.name()),
                    ("text", &hex(made.as_bytes())),
                    ("encoding", &by.name()),
                    ("flag", &is_malformed),
                    ("lends", &lent),
                ]));
            }
        }
        Ok(())
    }

    fn among(&self, words: &mut Words) -> Result<(), String> {
        let (letter, src, text) = (bytes_of(words.next()), bytes_of(words.next()), text_of(words.next()));
        let input = Input { src: &src, text: &text, malformed: &places_of(words.next()), room: 4 };
        self.subjects.iter().try_for_each(|it| compare_among(self.way(it), &letter, &input))
    }

    fn repeat(&self, words: &mut Words) -> Result<(), String> {
        let (count, src, text) = (number_of(words.next()), bytes_of(words.next()), text_of(words.next()));
        let (middle, of_middle) = (bytes_of(words.next()), text_of(words.next()));
        let (mut src, mut text) = (src.repeat(count), text.repeat(count));
        if !middle.is_empty() {
            src = [&src[..], &middle, &src].concat();
            text = [text.as_str(), &of_middle, &text].concat();
        }
        self.subjects.iter().try_for_each(|it| compare_repeated(self.way(it), &src, &text))
    }
}

/// A length query of a decoder.
fn length(decoder: &Decoder, of: &str, n: usize) -> Option<usize> {
    match of {
        "utf8" => decoder.max_utf8_buffer_length(n),
        "report" => decoder.max_utf8_buffer_length_without_replacement(n),
        _ => decoder.max_utf16_buffer_length(n),
    }
}
