//! Random and hostile inputs of any length, to decode and to encode.
use crate::random::Random;
use crate::tokens::tokens;
use encoding_rs::{Encoding, UTF_16BE, UTF_16LE};

/// Lines in many languages.
pub const TEXT: &str = include_str!("../text.txt");

/// Characters at the edges of the encoders' steps: controls that ISO-2022-JP refuses, those of its Roman set, katakana of
/// both widths, characters that stand in an index twice, in one of two indexes or only where no encoder looks, of private
/// use, that GB18030-2022 changed, and at the ends of ranges.
#[rustfmt::skip]
const EDGES: &str = concat!(
    "a\n\\~\0\u{E}\u{F}\u{1B}\u{7F}\u{80}\u{81}\u{9F}\u{A0}\u{FF}¢£¥§¨¬°±´¶·×÷éßœŠž€ƒ„…†‡‰‹›‘’“”•–—―‖‾−～〜〝№℡㈱①ⅠⅰⅢ≒≡∫∪∵",
    "ЖжЁёЂђґїΩωάςאשָׁجگیกข฿₫₪中啊一丁丂亜あアｱ｡ﾟ￠￡￢￣￤￥，가힣갂뷁ㄱ㐀㒼䶵龥﨎﨔纊犱黑鷗═╞╡╪十卅兀嗀佢哋𨋢𠕇𠀀😀💩",
    "\u{1E3F}\u{1F9}\u{20087}\u{2FFFF}\u{43F0}\u{E000}\u{E4C6}\u{E5E5}\u{E757}\u{E7C7}\u{E78D}\u{E864}\u{FE10}\u{9FB4}\u{9FBB}",
    "\u{F77F}\u{F780}\u{F7FF}\u{F8FF}\u{FEFF}\u{FFFD}\u{FFFF}\u{10000}\u{10FFFF}",
);

/// An input of each kind, all of about this length.
pub fn kinds(encoding: &'static Encoding, random: &mut Random, length: usize) -> [Vec<u8>; 4] {
    let text = text_of(encoding, length);
    let damaged = damaged(&text, random, encoding);
    [random.bytes(length), random_tokens(encoding, random, length), text, damaged]
}

/// Random tokens to this length, where the last may be broken off.
pub fn random_tokens(encoding: &'static Encoding, random: &mut Random, length: usize) -> Vec<u8> {
    let tokens = tokens(encoding);
    let mut input = Vec::new();
    while input.len() < length {
        input.extend_from_slice(random.pick::<&[u8]>(tokens));
        if random.below(8) == 0 {
            input.push(random.byte());
        }
    }
    input.truncate(length);
    input
}

/// A number of bytes of the text in the encoding, from its start on, again and again. The last character may be cut off.
/// Characters that the encoding lacks are decimal references.
pub fn text_of(encoding: &'static Encoding, length: usize) -> Vec<u8> {
    in_encoding(encoding, TEXT).into_iter().cycle().take(length).collect()
}

/// A text in the encoding, for recode to decode.
pub fn in_encoding(encoding: &'static Encoding, text: &str) -> Vec<u8> {
    if encoding == UTF_16BE {
        text.encode_utf16().flat_map(u16::to_be_bytes).collect()
    } else if encoding == UTF_16LE {
        text.encode_utf16().flat_map(u16::to_le_bytes).collect()
    } else {
        encoding.encode(text).0.into_owned()
    }
}

/// The text with damage at random places: bytes changed, left out, put in, doubled and cut off.
pub fn damaged(text: &[u8], random: &mut Random, encoding: &'static Encoding) -> Vec<u8> {
    let mut input = Vec::new();
    let mut rest = text;
    while !rest.is_empty() {
        let whole = rest.len().min(random.below(200));
        input.extend_from_slice(&rest[..whole]);
        rest = damage(&rest[whole..], &mut input, random, encoding);
    }
    input
}

/// One damage before the rest, and the rest after it.
fn damage<'a>(rest: &'a [u8], input: &mut Vec<u8>, random: &mut Random, encoding: &'static Encoding) -> &'a [u8] {
    let some = rest.len().min(1 + random.below(5));
    match random.below(5) {
        0 => input.push(random.byte()),
        1 => return &rest[some..],
        2 => input.extend_from_slice(&rest[..some]),
        3 => input.extend_from_slice(random.pick::<&[u8]>(tokens(encoding))),
        _ if rest.is_empty() => {}
        _ => {
            input.push(rest[0] ^ (1 << random.below(8)));
            return &rest[1..];
        }
    }
    rest
}

/// A text of about `length` bytes: characters at the edges, characters of the encoding, any characters, and lines.
pub fn mixed(encoding: &'static Encoding, random: &mut Random, length: usize) -> String {
    let edges: Vec<char> = EDGES.chars().collect();
    let lines: Vec<&str> = TEXT.lines().collect();
    let mut text = String::new();
    while text.len() < length {
        match random.below(8) {
            0 => text.push_str(*random.pick(&lines)),
            1 => text.push_str("aaaaaaaaaaaaaaaa"),
            2 | 3 => text.push_str(&encoding.decode_without_bom_handling(&random.bytes(16)).0),
            4 => text.extend(char::from_u32(random.below(0x11_0000) as u32)),
            _ => text.push(*random.pick(&edges)),
        }
    }
    text
}
