//! Sums over what the Rust crate encoding_rs encodes single characters to.
//!
//! They are over every character of the Basic Multilingual Plane and each 97th of the others, and in Big5 every one of
//! plane 2. A sum is FNV-1a with 64 bits, over numbers: of a character that is mappable its bytes and 0x100. Of any
//! other one they are without replacement 0x200 and the character that is reported, and with it the bytes of its
//! reference, with the escape sequence that may follow, and 0x200.
use encoding_rs::{EncoderResult, Encoding, BIG5};

const OFFSET_BASIS: u64 = 0xCBF2_9CE4_8422_2325;
const PRIME: u64 = 0x100_0000_01B3;

fn is_tried(encoding: &'static Encoding, character: char) -> bool {
    let code = u32::from(character);
    code < 0x1_0000 || code % 97 == 0 || (code >> 16 == 2 && encoding == BIG5)
}

fn add(sum: u64, number: u64) -> u64 {
    (sum ^ number).wrapping_mul(PRIME)
}

fn add_character(sum: u64, encoding: &'static Encoding, character: char) -> u64 {
    let (mut local, mut bytes) = ([0; 4], [0; 16]);
    let text = character.encode_utf8(&mut local);
    let (result, _, written) = encoding.new_encoder().encode_from_utf8_without_replacement(text, &mut bytes, true);
    match result {
        EncoderResult::Unmappable(reported) => add(add(sum, 0x200), u64::from(u32::from(reported))),
        EncoderResult::InputEmpty => {
            let sum = bytes[..written].iter().fold(sum, |sum, byte| add(sum, u64::from(*byte)));
            add(sum, 0x100)
        }
        EncoderResult::OutputFull => unreachable!(),
    }
}

/// Adds what `encode` of the crate makes of a character, with a reference where it is unmappable.
fn add_replaced(sum: u64, encoding: &'static Encoding, character: char) -> u64 {
    let mut local = [0; 4];
    let (bytes, _, had_unmappables) = encoding.encode(character.encode_utf8(&mut local));
    let sum = bytes.iter().fold(sum, |sum, byte| add(sum, u64::from(*byte)));
    add(sum, if had_unmappables { 0x200 } else { 0x100 })
}

/// The sums of an encoding without replacement and with it.
pub fn sums_of(encoding: &'static Encoding) -> (u64, u64) {
    let characters = || (0..=0x10_FFFF).filter_map(char::from_u32).filter(|c| is_tried(encoding, *c));
    let reported = characters().fold(OFFSET_BASIS, |sum, c| add_character(sum, encoding, c));
    (reported, characters().fold(OFFSET_BASIS, |sum, c| add_replaced(sum, encoding, c)))
}
