//! A call that a fuzzer makes, of the crate and of crates/conformance. Where they differ it aborts.
use crate::answers::{answer, bytes_of, hex};
use encoding_rs::Encoding;
use peer::inputs::{in_encoding, TEXT};
use std::fs;
use std::io::{self, Read, Write};
use std::process::{Command, Stdio};

/// Encodings of each codec. An input has a byte for one of them, one for the bits below and the marks, one for the room,
/// one for the length of the input of the call before, and then both inputs.
const LABELS: [&str; 16] = [
    "UTF-8", "UTF-16BE", "UTF-16LE", "gb18030", "GBK", "Big5", "EUC-JP", "ISO-2022-JP", "Shift_JIS", "EUC-KR",
    "windows-1252", "windows-1257", "ISO-8859-8", "x-user-defined", "replacement", "IBM866",
];
const ENCODE: u8 = 1;
const LAST: u8 = 2;
const UTF_16: u8 = 4;
const REPLACE: u8 = 8;
const MARKS: [&str; 4] = ["off", "sniff", "remove", "sniff"];

/// Room for all of an input.
const AMPLE: usize = 4096;

/// Rooms in which the inputs that the fuzzer has kept are called once more.
const ROOMS: [&str; 10] = ["0", "1", "2", "3", "4", "6", "9", "14", "+0", "+1"];

/// Writes inputs to begin with: some text in each encoding, decoded and encoded, from UTF-8 and UTF-16.
pub fn write_seeds(folder: &str) -> io::Result<()> {
    let text: String = TEXT.lines().flat_map(|line| line.chars().take(4)).collect();
    for (number, label) in LABELS.iter().enumerate() {
        let Some(encoding) = Encoding::for_label(label.as_bytes()) else { continue };
        let units: Vec<u8> = text.encode_utf16().flat_map(u16::to_be_bytes).collect();
        let texts = [
            (LAST | REPLACE, in_encoding(encoding, &text)),
            (ENCODE | LAST | REPLACE, text.clone().into_bytes()),
            (ENCODE | LAST | UTF_16, units),
        ];
        for (how, bytes) in texts {
            fs::write(format!("{folder}/{number}-{how}"), [&[number as u8, how, 1, 3][..], &bytes].concat())?;
        }
    }
    Ok(())
}

/// Writes the lines of inputs that the fuzzer has kept, in several rooms.
pub fn write_kept(paths: &[&str], out: &mut impl Write) -> io::Result<()> {
    for path in paths {
        let Some(line) = line_of(&fs::read(path)?) else { continue };
        let words: Vec<&str> = line.split(' ').collect();
        for room in ROOMS {
            writeln!(out, "{} {room} {}", words[..5].join(" "), words[6..].join(" "))?;
        }
    }
    Ok(())
}

/// The line of an input, or none where the call would get nothing.
fn line_of(input: &[u8]) -> Option<String> {
    let [label, how, room, before, rest @ ..] = input else { return None };
    let label = LABELS[usize::from(label % 16)];
    let rest = &rest[..rest.len().min(160)];
    let (before, chunk) = rest.split_at(rest.len().min(usize::from(before % 16)));
    let utf16 = how & UTF_16 != 0;
    let (direction, before, chunk) = if how & ENCODE != 0 {
        ("encode", text(utf16, before), text(utf16, chunk))
    } else {
        ("decode", before.to_vec(), chunk.to_vec())
    };
    if chunk.is_empty() {
        return None;
    }
    let marks = if direction == "encode" { "off" } else { MARKS[usize::from(how >> 4 & 3)] };
    // (in little room the crate takes a pair of surrogates for two without a partner)
    let room = if direction == "encode" || room % 2 == 0 { AMPLE } else { 14 + usize::from(room / 2) };
    let [last, units, mode] = [
        if how & LAST != 0 { "last" } else { "more" },
        if utf16 { "utf16" } else { "utf8" },
        if how & REPLACE != 0 { "replace" } else { "report" },
    ];
    Some(format!("{direction} {label} {marks} {} {} {room} {last} {units} {mode}", hex(&before), hex(&chunk)))
}

/// The input of an encoder: UTF-8, with U+FFFD for malformed parts, or code units.
fn text(utf16: bool, bytes: &[u8]) -> Vec<u8> {
    if utf16 { bytes[..bytes.len() & !1].to_vec() } else { String::from_utf8_lossy(bytes).into_owned().into_bytes() }
}

/// Runs both on the line of standard input.
pub fn compare(ours: &str) -> io::Result<()> {
    let mut input = Vec::new();
    io::stdin().read_to_end(&mut input)?;
    let Some(line) = line_of(&input) else { return Ok(()) };
    let theirs = answer(&line);
    let mut child = Command::new(ours).arg("calls").stdin(Stdio::piped()).stdout(Stdio::piped()).spawn()?;
    if let Some(mut stdin) = child.stdin.take() {
        writeln!(stdin, "{line}")?;
    }
    let output = child.wait_with_output()?;
    let ours = String::from_utf8_lossy(&output.stdout);
    if outcome(&line, ours.trim_end()) != outcome(&line, &theirs) {
        eprintln!("{line}\n{ours}{theirs}");
        std::process::abort();
    }
    Ok(())
}

/// The encoding, and the text of the call with that of the rest of the input: these must be the same.
fn outcome(line: &str, answer: &str) -> (String, Vec<u8>) {
    let words: Vec<&str> = answer.split(' ').collect();
    let [result, _, _, _, units, encoding, _, _, rest] = words[..] else { return (String::from(answer), Vec::new()) };
    let utf16 = line.contains(" utf16 ");
    let middle = match result.split_once('(') {
        Some(("Malformed", _)) => vec![if utf16 { vec![0xFF, 0xFD] } else { "\u{FFFD}".into() }].concat(),
        Some(("Unmappable", it)) => {
            let number = u32::from_str_radix(it.trim_end_matches(')'), 16).unwrap_or(0);
            format!("&#{number};").into_bytes()
        }
        _ => Vec::new(),
    };
    (String::from(encoding), [bytes_of(units), middle, bytes_of(rest)].concat())
}
