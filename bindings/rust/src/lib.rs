//! The interface of the crate [encoding_rs](https://docs.rs/encoding_rs), over code that is proved.
//!
//! Names, signatures and panics are those of the crate, so a program that uses it builds with this
//! package in its place. What the calls do is proved in crates/encoding_c and below it; this
//! package turns slices into pointers, and numbers into results. docs/BINDINGS.md has where the
//! proof ends. Left out: the module `mem`, the feature `serde`, and `no_std`.

mod decoder;
mod encoder;
mod encodings;
mod exports;
mod handle;
mod whole;

use exports as raw;
use std::fmt;
use std::hash::{Hash, Hasher};

pub use decoder::Decoder;
pub use encoder::Encoder;
pub use encodings::*;

/// An encoding of the [Encoding Standard](https://encoding.spec.whatwg.org/).
///
/// There is one of each, by statics such as [`UTF_8`].
pub struct Encoding {
    number: u8,
    name: &'static str,
}

/// Why a call with replacement stopped.
#[must_use]
#[derive(Debug, PartialEq, Eq)]
pub enum CoderResult {
    /// All of the input is read.
    InputEmpty,
    /// The next output does not fit.
    OutputFull,
}

/// Why a decoder's call without replacement stopped.
#[must_use]
#[derive(Debug, PartialEq, Eq)]
pub enum DecoderResult {
    /// All of the input is read.
    InputEmpty,
    /// The next output does not fit.
    OutputFull,
    /// A malformed sequence: its length in bytes, and the number of bytes read after it.
    Malformed(u8, u8),
}

/// Why an encoder's call without replacement stopped.
#[must_use]
#[derive(Debug, PartialEq, Eq)]
pub enum EncoderResult {
    /// All of the input is read.
    InputEmpty,
    /// The next output does not fit.
    OutputFull,
    /// The encoding has no bytes for this character, the last one read.
    Unmappable(char),
}

/// The encoding with a number, if there is one.
fn encoding_with(number: u32) -> Option<&'static Encoding> {
    ALL.get(number as usize).copied()
}

/// A length, or `None` for the number that stands for none.
fn length_or_none(length: usize) -> Option<usize> {
    (length != usize::MAX).then_some(length)
}

impl Encoding {
    /// Returns the encoding that a label names, if any.
    pub fn for_label(label: &[u8]) -> Option<&'static Encoding> {
        // SAFETY: a pointer and a length of one slice.
        encoding_with(unsafe { raw::encoding_c_for_label(label.as_ptr(), label.len()) })
    }

    /// Returns the encoding that a label names, unless it is replacement.
    pub fn for_label_no_replacement(label: &[u8]) -> Option<&'static Encoding> {
        // SAFETY: a pointer and a length of one slice.
        encoding_with(unsafe {
            raw::encoding_c_for_label_no_replacement(label.as_ptr(), label.len())
        })
    }

    /// Returns the encoding and the length of the byte order mark at the start of `buffer`, if any.
    pub fn for_bom(buffer: &[u8]) -> Option<(&'static Encoding, usize)> {
        // SAFETY: a pointer and a length of one slice.
        let mark = unsafe { raw::encoding_c_for_bom(buffer.as_ptr(), buffer.len()) };
        Some((encoding_with(mark.encoding)?, mark.len))
    }

    /// Returns its name.
    pub fn name(&'static self) -> &'static str {
        self.name
    }

    /// Returns whether its output encoding is UTF-8, which has every character.
    pub fn can_encode_everything(&'static self) -> bool {
        // SAFETY: the call takes a number.
        unsafe { raw::encoding_c_can_encode_everything(self.number.into()) }
    }

    /// Returns whether bytes below 0x80 are the ASCII characters with their numbers.
    pub fn is_ascii_compatible(&'static self) -> bool {
        // SAFETY: the call takes a number.
        unsafe { raw::encoding_c_is_ascii_compatible(self.number.into()) }
    }

    /// Returns whether each byte is a character by itself.
    pub fn is_single_byte(&'static self) -> bool {
        // SAFETY: the call takes a number.
        unsafe { raw::encoding_c_is_single_byte(self.number.into()) }
    }

    /// Returns its output encoding: UTF-8 for UTF-16BE, UTF-16LE and replacement, and else itself.
    pub fn output_encoding(&'static self) -> &'static Encoding {
        // SAFETY: the call takes a number.
        let number = unsafe { raw::encoding_c_output_encoding(self.number.into()) };
        encoding_with(number).expect("each encoding has an output encoding")
    }

    /// Returns the length of the longest prefix that is well-formed UTF-8.
    pub fn utf8_valid_up_to(bytes: &[u8]) -> usize {
        // SAFETY: a pointer and a length of one slice.
        unsafe { raw::encoding_c_utf8_valid_up_to(bytes.as_ptr(), bytes.len()) }
    }

    /// Returns the length of the longest prefix that is ASCII.
    pub fn ascii_valid_up_to(bytes: &[u8]) -> usize {
        // SAFETY: a pointer and a length of one slice.
        unsafe { raw::encoding_c_ascii_valid_up_to(bytes.as_ptr(), bytes.len()) }
    }

    /// Returns the length of the longest prefix that stands for itself at the start of ISO-2022-JP.
    pub fn iso_2022_jp_ascii_valid_up_to(bytes: &[u8]) -> usize {
        // SAFETY: a pointer and a length of one slice.
        unsafe { raw::encoding_c_iso_2022_jp_ascii_valid_up_to(bytes.as_ptr(), bytes.len()) }
    }

    /// Returns a decoder that looks for all three byte order marks.
    pub fn new_decoder(&'static self) -> Decoder {
        Decoder::new(self, raw::encoding_c_new_decoder)
    }

    /// Returns a decoder that removes the byte order mark of its own encoding.
    pub fn new_decoder_with_bom_removal(&'static self) -> Decoder {
        Decoder::new(self, raw::encoding_c_new_decoder_with_bom_removal)
    }

    /// Returns a decoder that looks for no byte order mark.
    pub fn new_decoder_without_bom_handling(&'static self) -> Decoder {
        Decoder::new(self, raw::encoding_c_new_decoder_without_bom_handling)
    }

    /// Returns an encoder of the output encoding.
    pub fn new_encoder(&'static self) -> Encoder {
        Encoder::new(self)
    }
}

impl PartialEq for Encoding {
    fn eq(&self, other: &Encoding) -> bool {
        self.number == other.number
    }
}

impl Eq for Encoding {}

impl Hash for Encoding {
    fn hash<H: Hasher>(&self, state: &mut H) {
        self.name.hash(state);
    }
}

impl fmt::Debug for Encoding {
    fn fmt(&self, f: &mut fmt::Formatter<'_>) -> fmt::Result {
        write!(f, "Encoding {{ {} }}", self.name)
    }
}
