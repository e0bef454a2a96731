//! What the Rust crate makes of an input.
use encoding_rs::Encoding;

/// What a program makes of an input: what it writes, and the status that it ends with.
#[derive(Clone, PartialEq, Eq)]
pub struct Answer {
    pub text: Vec<u8>,
    pub status: i32,
}

/// What recode has to make of an input: what the crate does, sniffing, and with references.
pub fn wanted(encoding: &'static Encoding, to: &'static Encoding, input: &[u8]) -> Answer {
    let (text, _, replaced) = encoding.decode(input);
    let (text, _, had_unmappables) = to.encode(&text);
    Answer { text: text.into_owned(), status: i32::from(replaced || had_unmappables) }
}

/// Whether nothing in the sequence is malformed, with no mark looked for.
pub fn is_well_formed(encoding: &'static Encoding, sequence: &[u8]) -> bool {
    encoding.decode_without_bom_handling_and_without_replacement(sequence).is_some()
}
