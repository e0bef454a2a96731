//! The twin of `bench calls` over the Rust crate encoding_rs, for scripts/bench: the same arguments
//! after `calls`, the same pieces of standard input, the same calls and the same sum.
use encoding_rs::{CoderResult, Decoder, Encoder, Encoding};
use std::io::{self, Read};
use std::process::ExitCode;

/// The greatest length of the input in bytes, and of an output in bytes or code units.
const LENGTH: usize = 65536;

/// The least room of a call.
const LEAST_ROOM: usize = 16;

/// The length of an output, plus its last unit.
fn sum<T: Copy + Into<u64>>(output: &[T]) -> u64 {
    output.last().map_or(0, |&last| output.len() as u64 + last.into())
}

#[inline(never)]
fn to_utf8(encoding: &'static Encoding, src: &[u8], dst: &mut [u8]) -> u64 {
    let (_, _, written, _) = encoding.new_decoder().decode_to_utf8(src, dst, true);
    sum(&dst[..written])
}

#[inline(never)]
fn to_utf16(encoding: &'static Encoding, src: &[u8], dst: &mut [u16]) -> u64 {
    let (_, _, written, _) = encoding.new_decoder().decode_to_utf16(src, dst, true);
    sum(&dst[..written])
}

#[inline(never)]
fn decode(encoding: &'static Encoding, src: &[u8]) -> u64 {
    sum(encoding.decode(src).0.into_owned().as_bytes())
}

#[inline(never)]
fn decode_lending(encoding: &'static Encoding, src: &[u8]) -> u64 {
    sum(encoding.decode(src).0.as_bytes())
}

#[inline(never)]
fn from_utf8(encoding: &'static Encoding, src: &str, dst: &mut [u8]) -> u64 {
    let (_, _, written, _) = encoding.new_encoder().encode_from_utf8(src, dst, true);
    sum(&dst[..written])
}

#[inline(never)]
fn from_utf16(encoding: &'static Encoding, src: &[u16], dst: &mut [u8]) -> u64 {
    let (_, _, written, _) = encoding.new_encoder().encode_from_utf16(src, dst, true);
    sum(&dst[..written])
}

#[inline(never)]
fn encode(encoding: &'static Encoding, src: &str) -> u64 {
    sum(&encoding.encode(src).0.into_owned())
}

#[inline(never)]
fn encode_lending(encoding: &'static Encoding, src: &str) -> u64 {
    sum(&encoding.encode(src).0)
}

#[inline(never)]
fn for_label(label: &[u8]) -> u64 {
    Encoding::for_label(label).map_or(0, |encoding| encoding.name().len() as u64)
}

#[inline(never)]
fn valid_utf8(src: &[u8]) -> u64 {
    Encoding::utf8_valid_up_to(src) as u64
}

#[inline(never)]
fn valid_ascii(src: &[u8]) -> u64 {
    Encoding::ascii_valid_up_to(src) as u64
}

#[inline(never)]
fn valid_iso_2022_jp(src: &[u8]) -> u64 {
    Encoding::iso_2022_jp_ascii_valid_up_to(src) as u64
}

#[inline(never)]
fn latin1(encoding: &'static Encoding, src: &[u8]) -> u64 {
    let decoder = encoding.new_decoder_without_bom_handling();
    decoder.latin1_byte_compatible_up_to(src).map_or(0, |len| len as u64)
}

/// Calls for a piece in the middle of a stream, as many as it takes: the length of all that it gives, plus the last
/// unit of that. A call gets the place of the unit that is unread, and the output.
#[inline(always)]
fn all_calls<T: Copy + Into<u64>>(
    dst: &mut [T],
    mut call: impl FnMut(usize, &mut [T]) -> (CoderResult, usize, usize, bool),
) -> u64 {
    let (mut at, mut len, mut last) = (0, 0, 0);
    loop {
        let (result, read, written, _) = call(at, dst);
        if let Some(&unit) = dst[..written].last() {
            len += written as u64;
            last = unit.into();
        }
        at += read;
        if result == CoderResult::InputEmpty {
            return len + last;
        }
    }
}

#[inline(never)]
fn chunk_to_utf8(decoder: &mut Decoder, src: &[u8], dst: &mut [u8]) -> u64 {
    all_calls(dst, |at, dst| decoder.decode_to_utf8(&src[at..], dst, false))
}

#[inline(never)]
fn chunk_to_utf16(decoder: &mut Decoder, src: &[u8], dst: &mut [u16]) -> u64 {
    all_calls(dst, |at, dst| decoder.decode_to_utf16(&src[at..], dst, false))
}

#[inline(never)]
fn chunk_from_utf8(encoder: &mut Encoder, src: &str, dst: &mut [u8]) -> u64 {
    all_calls(dst, |at, dst| encoder.encode_from_utf8(&src[at..], dst, false))
}

#[inline(never)]
fn chunk_from_utf16(encoder: &mut Encoder, src: &[u16], dst: &mut [u8]) -> u64 {
    all_calls(dst, |at, dst| encoder.encode_from_utf16(&src[at..], dst, false))
}

/// The input in the forms that calls take, and the length of a piece in bytes.
struct Job<'a> {
    input: &'a [u8],
    text: &'a str,
    units: &'a [u16],
    len: usize,
}

/// The pieces of a length, up to the first that is shorter or ends within a character.
fn pieces(mut text: &str, len: usize) -> impl Iterator<Item = &str> {
    std::iter::from_fn(move || {
        let (piece, rest) = text.split_at_checked(len)?;
        text = rest;
        Some(piece)
    })
}

/// Makes a call for each piece of a round, and returns the sum; nothing for an unknown kind.
fn round(kind: &str, encoding: &'static Encoding, job: &Job, bytes: &mut [u8], units: &mut [u16]) -> Option<u64> {
    let (mut decoder, mut encoder) = (encoding.new_decoder(), encoding.new_encoder());
    let (decoder, encoder) = (&mut decoder, &mut encoder);
    let sources = job.input.chunks_exact(job.len);
    let texts = pieces(job.text, job.len);
    let unit_sources = job.units.chunks_exact(job.len / 2);
    Some(match kind {
        "to-utf8" => sources.map(|src| to_utf8(encoding, src, bytes)).sum(),
        "to-utf16" => sources.map(|src| to_utf16(encoding, src, units)).sum(),
        "decode" => sources.map(|src| decode(encoding, src)).sum(),
        "decode-lending" => sources.map(|src| decode_lending(encoding, src)).sum(),
        "for-label" => sources.map(for_label).sum(),
        "valid-utf8" => sources.map(valid_utf8).sum(),
        "valid-ascii" => sources.map(valid_ascii).sum(),
        "valid-iso-2022-jp" => sources.map(valid_iso_2022_jp).sum(),
        "latin1" => sources.map(|src| latin1(encoding, src)).sum(),
        "chunks-to-utf8" => sources.map(|src| chunk_to_utf8(decoder, src, bytes)).sum(),
        "chunks-to-utf16" => sources.map(|src| chunk_to_utf16(decoder, src, units)).sum(),
        "from-utf8" => texts.map(|src| from_utf8(encoding, src, bytes)).sum(),
        "encode" => texts.map(|src| encode(encoding, src)).sum(),
        "encode-lending" => texts.map(|src| encode_lending(encoding, src)).sum(),
        "chunks-from-utf8" => texts.map(|src| chunk_from_utf8(encoder, src, bytes)).sum(),
        "from-utf16" => unit_sources.map(|src| from_utf16(encoding, src, bytes)).sum(),
        "chunks-from-utf16" => unit_sources.map(|src| chunk_from_utf16(encoder, src, bytes)).sum(),
        _ => return None,
    })
}

/// The sum of all rounds, or nothing for wrong arguments.
fn total(arguments: &[String], input: &[u8]) -> Option<u64> {
    let [_, kind, label, len, room, rounds] = arguments else {
        return None;
    };
    let encoding = Encoding::for_label(label.as_bytes())?;
    let len = len.parse::<usize>().ok()?.max(2);
    let room = room.parse::<usize>().ok()?.clamp(LEAST_ROOM, LENGTH);
    let rounds: u64 = rounds.parse().ok()?;
    let units: Vec<u16> = input.chunks_exact(2).map(|pair| u16::from_le_bytes([pair[0], pair[1]])).collect();
    let text = std::str::from_utf8(input).unwrap_or("");
    let job = Job { input, text, units: &units, len };
    let (mut bytes, mut units) = (vec![0; room], vec![0; room]);
    let mut total = 0;
    for _ in 0..rounds {
        total += round(kind, encoding, &job, &mut bytes, &mut units)?;
    }
    Some(total)
}

fn main() -> ExitCode {
    let arguments: Vec<String> = std::env::args().collect();
    let mut input = Vec::new();
    if io::stdin().take(LENGTH as u64).read_to_end(&mut input).is_err() {
        return ExitCode::from(3);
    }
    match total(&arguments, &input) {
        Some(total) => println!("{total}"),
        None => return ExitCode::from(2),
    }
    ExitCode::from(0)
}
