//! Random and hostile lines.
use crate::answers::hex;
use encoding_rs::Encoding;
use peer::inputs::{damaged, in_encoding, mixed, random_tokens, TEXT};
use peer::random::Random;
use peer::tokens::MARKS;

/// One encoding of each codec.
const CODECS: [&str; 13] = [
    "UTF-8", "UTF-16BE", "UTF-16LE", "gb18030", "GBK", "Big5", "EUC-JP", "ISO-2022-JP", "Shift_JIS", "EUC-KR",
    "windows-1252", "x-user-defined", "replacement",
];

/// Those of single bytes, but the one above.
const SINGLE: [&str; 27] = [
    "IBM866", "ISO-8859-2", "ISO-8859-3", "ISO-8859-4", "ISO-8859-5", "ISO-8859-6", "ISO-8859-7", "ISO-8859-8",
    "ISO-8859-8-I", "ISO-8859-10", "ISO-8859-13", "ISO-8859-14", "ISO-8859-15", "ISO-8859-16", "KOI8-R", "KOI8-U",
    "macintosh", "windows-874", "windows-1250", "windows-1251", "windows-1253", "windows-1254", "windows-1255",
    "windows-1256", "windows-1257", "windows-1258", "x-mac-cyrillic",
];

/// The name of an encoding, most often of one for each codec.
fn name(random: &mut Random) -> &'static str {
    *if random.below(6) == 0 { random.pick(&SINGLE) } else { random.pick(&CODECS) }
}

/// A line of a one-shot call that lends, of a decoder or of an encoder. Every second input is ASCII but for its end.
pub fn lending_line(random: &mut Random) -> String {
    let name = name(random);
    let Some(encoding) = Encoding::for_label(name.as_bytes()) else { return String::from("?") };
    let front = if random.below(2) == 0 { ascii(random) } else { Vec::new() };
    let (direction, marks, rest) = if random.below(5) < 3 {
        let rest = if random.below(2) == 0 { chunk(encoding, random) } else { fed(encoding, random) };
        ("lend", *random.pick(&["sniff", "remove", "off"]), rest)
    } else {
        ("lend-text", "off", text(encoding, false, random, 20))
    };
    let rest = if random.below(2) == 0 { Vec::new() } else { rest };
    let mark: &[u8] = if random.below(4) == 0 && direction == "lend" { *random.pick(MARKS) } else { b"" };
    let mode = *random.pick(&["replace", "report"]);
    format!("{direction} {name} {marks} - {} 0 last utf8 {mode}", hex(&[mark, &front, &rest].concat()))
}

/// ASCII, which may have an escape or a shift.
fn ascii(random: &mut Random) -> Vec<u8> {
    let length = random.below(100);
    let byte = |_| if random.below(200) == 0 { random.below(0x80) as u8 } else { b' ' + random.below(95) as u8 };
    (0..length).map(byte).collect()
}

/// A line, of a decoder or of an encoder.
pub fn line(random: &mut Random) -> String {
    let name = name(random);
    let Some(encoding) = Encoding::for_label(name.as_bytes()) else { return String::from("?") };
    let utf16 = random.below(2) == 0;
    let (direction, marks, before, chunk) = if random.below(5) < 3 {
        ("decode", *random.pick(&["sniff", "remove", "off"]), fed(encoding, random), chunk(encoding, random))
    } else {
        ("encode", "off", text(encoding, utf16, random, 8), text(encoding, utf16, random, 40))
    };
    let room = room(random, chunk.len());
    let [last, units, mode] = [
        *random.pick(&["last", "more"]),
        if utf16 { "utf16" } else { "utf8" },
        *random.pick(&["replace", "report"]),
    ];
    format!("{direction} {name} {marks} {} {} {room} {last} {units} {mode}", hex(&before), hex(&chunk))
}

/// A few units, somewhat more or less than fit, or as many as the query returns and more.
fn room(random: &mut Random, length: usize) -> String {
    match random.below(8) {
        0..=3 => random.below(13).to_string(),
        4 => random.below(28).to_string(),
        5 => random.below(3 * length + 14).to_string(),
        _ => format!("+{}", random.below(4)),
    }
}

/// The input of a decoder before the call: nothing, a byte order mark or a part of it, or tokens that may be broken off.
fn fed(encoding: &'static Encoding, random: &mut Random) -> Vec<u8> {
    let length = random.below(8);
    match random.below(6) {
        0 | 1 => Vec::new(),
        2 => random.pick(MARKS).to_vec(),
        3 => [*random.pick(MARKS), &random_tokens(encoding, random, length)].concat(),
        _ => random_tokens(encoding, random, length),
    }
}

/// The input of a decoder: random bytes, tokens, text whole, damaged and broken off, with a byte order mark or without.
fn chunk(encoding: &'static Encoding, random: &mut Random) -> Vec<u8> {
    let most = *random.pick(&[4, 12, 30]);
    let length = random.below(most);
    let front: &[u8] = if random.below(4) == 0 { *random.pick(MARKS) } else { b"" };
    let rest = match random.below(8) {
        0 | 1 => random.bytes(length),
        2 => {
            let length = random.below(150);
            piece(encoding, random, length)
        }
        3 => piece(encoding, random, length),
        4 => damaged(&piece(encoding, random, length), random, encoding),
        _ => random_tokens(encoding, random, length),
    };
    [front, &rest].concat()
}

/// A piece of some text in the encoding, from any byte on.
fn piece(encoding: &'static Encoding, random: &mut Random, length: usize) -> Vec<u8> {
    let lines: Vec<&str> = TEXT.lines().collect();
    let bytes = in_encoding(encoding, &mixed_or_line(encoding, random, &lines));
    let from = random.below(bytes.len() + 1);
    bytes[from..].iter().copied().take(length).collect()
}

fn mixed_or_line(encoding: &'static Encoding, random: &mut Random, lines: &[&str]) -> String {
    if random.below(2) == 0 { String::from(*random.pick(lines)) } else { mixed(encoding, random, 60) }
}

/// The input of an encoder: UTF-8, or code units in UTF-16BE with surrogates put in and cut off.
fn text(encoding: &'static Encoding, utf16: bool, random: &mut Random, most: usize) -> Vec<u8> {
    let length = random.below(most);
    let count = random.below(most);
    let characters: String = mixed(encoding, random, length).chars().take(count).collect();
    if !utf16 {
        return characters.into_bytes();
    }
    let mut units: Vec<u16> = characters.encode_utf16().collect();
    if random.below(3) == 0 {
        units.insert(random.below(units.len() + 1), 0xD800 + random.below(0x800) as u16);
        units.truncate(count);
    }
    units.into_iter().flat_map(u16::to_be_bytes).collect()
}
