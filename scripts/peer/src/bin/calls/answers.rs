//! The crate's answers to lines, in the form of crates/conformance.
use encoding_rs::{CoderResult, Decoder, DecoderResult, Encoder, EncoderResult, Encoding};
use std::borrow::Cow;
use std::panic::{catch_unwind, AssertUnwindSafe};

/// The greatest number of units that a call reads or writes.
const LENGTH: usize = 4096;

/// A call of a new decoder or encoder, after one that gets other input.
struct Call<'a> {
    marks: &'a str,
    before: Vec<u8>,
    chunk: Vec<u8>,
    room: usize,
    last: bool,
    utf16: bool,
    replaces: bool,
}

/// The outcome of a call, and the units that it has written, in hexadecimal.
struct Answer {
    result: String,
    read: usize,
    written: usize,
    replaced: Option<bool>,
    units: String,
}

/// The input of a call, and how it is made.
#[derive(Clone, Copy)]
struct Offer<'a> {
    src: &'a [u8],
    room: usize,
    last: bool,
    utf16: bool,
    replaces: bool,
}

/// The answer to a line. Where the crate panics it is `panic`.
pub fn answer(line: &str) -> String {
    match call_of(line) {
        None => String::from("?"),
        Some((direction, encoding, call)) => {
            let made = catch_unwind(AssertUnwindSafe(|| match direction {
                "decode" => answer_decoding(encoding, &call),
                "lend" => answer_lending(encoding, &call),
                "lend-text" => answer_lending_bytes(encoding, &call),
                _ => answer_encoding(encoding, &call),
            }));
            made.unwrap_or_else(|_| String::from("panic"))
        }
    }
}

fn call_of(line: &str) -> Option<(&str, &'static Encoding, Call<'_>)> {
    let words: Vec<&str> = line.split_ascii_whitespace().collect();
    let [direction, label, marks, before, chunk, room, last, units, mode] = words[..] else { return None };
    let call = Call {
        marks,
        before: bytes_of(before),
        chunk: bytes_of(chunk),
        room: room.parse::<usize>().ok()?.min(LENGTH),
        last: last == "last",
        utf16: units == "utf16",
        replaces: mode == "replace",
    };
    Some((direction, Encoding::for_label(label.as_bytes())?, call))
}

/// The bytes of hexadecimal digits, and none of `-`.
pub fn bytes_of(digits: &str) -> Vec<u8> {
    let pairs = digits.as_bytes().chunks_exact(2);
    pairs.filter_map(|pair| u8::from_str_radix(std::str::from_utf8(pair).ok()?, 16).ok()).collect()
}

impl Call<'_> {
    fn offer(&self) -> Offer<'_> {
        let Call { room, last, utf16, replaces, .. } = *self;
        Offer { src: &self.chunk, room, last, utf16, replaces }
    }
}

fn answer_decoding(encoding: &'static Encoding, call: &Call) -> String {
    let mut decoder = match call.marks {
        "sniff" => encoding.new_decoder(),
        "remove" => encoding.new_decoder_with_bom_removal(),
        _ => encoding.new_decoder_without_bom_handling(),
    };
    let _ = decoder.decode_to_utf8(&call.before, &mut [0; LENGTH], false);
    let len = call.chunk.len();
    let query = match (call.utf16, call.replaces) {
        (true, _) => decoder.max_utf16_buffer_length(len),
        (false, true) => decoder.max_utf8_buffer_length(len),
        (false, false) => decoder.max_utf8_buffer_length_without_replacement(len),
    };
    let latin1 = decoder.latin1_byte_compatible_up_to(&call.chunk).map_or(String::from("-"), |len| len.to_string());
    let offer = call.offer();
    let answer = decode(&mut decoder, offer);
    let used = decoder.encoding().name();
    let ended = call.last && answer.result == "InputEmpty";
    let src = &call.chunk[answer.read..];
    let rest = Offer { src, room: LENGTH, last: true, replaces: true, ..offer };
    let rest = if ended { String::from("-") } else { decode(&mut decoder, rest).units };
    answer.written_with(used, query, &latin1, &rest)
}

fn decode(decoder: &mut Decoder, offer: Offer) -> Answer {
    let (mut bytes, mut units) = (vec![0; offer.room], vec![0; offer.room]);
    let Offer { src, last, .. } = offer;
    let mut answer = match (offer.utf16, offer.replaces) {
        (false, true) => of_replacing(decoder.decode_to_utf8(src, &mut bytes, last)),
        (true, true) => of_replacing(decoder.decode_to_utf16(src, &mut units, last)),
        (false, false) => of_decoding(decoder.decode_to_utf8_without_replacement(src, &mut bytes, last)),
        (true, false) => of_decoding(decoder.decode_to_utf16_without_replacement(src, &mut units, last)),
    };
    answer.units = if offer.utf16 {
        digits(units[..answer.written].iter().map(|unit| format!("{unit:04X}")))
    } else {
        hex(&bytes[..answer.written])
    };
    answer
}

fn answer_encoding(encoding: &'static Encoding, call: &Call) -> String {
    let mut encoder = encoding.new_encoder();
    let before = Offer { src: &call.before, room: LENGTH, last: false, utf16: call.utf16, replaces: true };
    encode(&mut encoder, before);
    let len = call.chunk.len();
    let query = match (call.utf16, call.replaces) {
        (false, true) => encoder.max_buffer_length_from_utf8_if_no_unmappables(len),
        (true, true) => encoder.max_buffer_length_from_utf16_if_no_unmappables(len / 2),
        (false, false) => encoder.max_buffer_length_from_utf8_without_replacement(len),
        (true, false) => encoder.max_buffer_length_from_utf16_without_replacement(len / 2),
    };
    let pending = encoder.has_pending_state().to_string();
    let answer = encode(&mut encoder, call.offer());
    let used = encoder.encoding().name();
    let ended = call.last && answer.result == "InputEmpty";
    let width = if call.utf16 { 2 } else { 1 };
    let rest = Offer { src: &call.chunk[width * answer.read..], last: true, ..before };
    let rest = if ended { String::from("-") } else { encode(&mut encoder, rest).units };
    answer.written_with(used, query, &pending, &rest)
}

fn encode(encoder: &mut Encoder, offer: Offer) -> Answer {
    let mut bytes = vec![0; offer.room];
    let text = std::str::from_utf8(offer.src).unwrap_or("");
    let pairs = offer.src.chunks_exact(2);
    let units: Vec<u16> = pairs.map(|pair| u16::from_be_bytes([pair[0], pair[1]])).collect();
    let (dst, last) = (&mut bytes, offer.last);
    let mut answer = match (offer.utf16, offer.replaces) {
        (false, true) => of_replacing(encoder.encode_from_utf8(text, dst, last)),
        (true, true) => of_replacing(encoder.encode_from_utf16(&units, dst, last)),
        (false, false) => of_encoding(encoder.encode_from_utf8_without_replacement(text, dst, last)),
        (true, false) => of_encoding(encoder.encode_from_utf16_without_replacement(&units, dst, last)),
    };
    answer.units = hex(&bytes[..answer.written]);
    answer
}

/// Makes a one-shot call of a decoder, which may lend its input.
fn answer_lending(encoding: &'static Encoding, call: &Call) -> String {
    let src = &call.chunk;
    let (text, used, replaced) = match (call.marks, call.replaces) {
        ("sniff", _) => {
            let (text, used, replaced) = encoding.decode(src);
            (Some(text), used, replaced)
        }
        ("remove", _) => {
            let (text, replaced) = encoding.decode_with_bom_removal(src);
            (Some(text), encoding, replaced)
        }
        (_, true) => {
            let (text, replaced) = encoding.decode_without_bom_handling(src);
            (Some(text), encoding, replaced)
        }
        (_, false) => {
            let text = encoding.decode_without_bom_handling_and_without_replacement(src);
            let replaced = text.is_none();
            (text, encoding, replaced)
        }
    };
    let (result, bytes) = match &text {
        Some(Cow::Borrowed(text)) => ("Borrowed", text.as_bytes()),
        Some(Cow::Owned(text)) => ("Owned", text.as_bytes()),
        None => ("None", &b""[..]),
    };
    one_shot(result, src.len(), bytes, replaced, used)
}

/// Makes the one-shot call of an encoder, which may lend its text.
fn answer_lending_bytes(encoding: &'static Encoding, call: &Call) -> String {
    let text = std::str::from_utf8(&call.chunk).unwrap_or("");
    let (bytes, used, replaced) = encoding.encode(text);
    let result = if matches!(bytes, Cow::Borrowed(_)) { "Borrowed" } else { "Owned" };
    one_shot(result, text.len(), &bytes, replaced, used)
}

/// The answer of a one-shot call.
fn one_shot(result: &str, read: usize, bytes: &[u8], replaced: bool, used: &'static Encoding) -> String {
    let (result, written, replaced) = (String::from(result), bytes.len(), Some(replaced));
    Answer { result, read, written, replaced, units: hex(bytes) }.written_with(used.name(), None, "-", "-")
}

fn of_replacing((result, read, written, replaced): (CoderResult, usize, usize, bool)) -> Answer {
    Answer { result: format!("{result:?}"), read, written, replaced: Some(replaced), units: String::new() }
}

fn of_decoding((result, read, written): (DecoderResult, usize, usize)) -> Answer {
    let result = format!("{result:?}").replace(' ', "");
    Answer { result, read, written, replaced: None, units: String::new() }
}

fn of_encoding((result, read, written): (EncoderResult, usize, usize)) -> Answer {
    let result = match result {
        EncoderResult::Unmappable(character) => format!("Unmappable({:04X})", u32::from(character)),
        other => format!("{other:?}"),
    };
    Answer { result, read, written, replaced: None, units: String::new() }
}

impl Answer {
    fn written_with(&self, encoding: &str, query: Option<usize>, state: &str, rest: &str) -> String {
        let Answer { result, read, written, units, .. } = self;
        let replaced = self.replaced.map_or(String::from("-"), |replaced| replaced.to_string());
        let query = query.unwrap_or(0);
        format!("{result} {read} {written} {replaced} {units} {encoding} {query} {state} {rest}")
    }
}

/// Bytes in hexadecimal, or `-` for none.
pub fn hex(bytes: &[u8]) -> String {
    digits(bytes.iter().map(|byte| format!("{byte:02X}")))
}

fn digits(units: impl Iterator<Item = String>) -> String {
    let all: String = units.collect();
    if all.is_empty() { String::from("-") } else { all }
}
