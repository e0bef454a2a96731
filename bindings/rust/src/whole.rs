//! Calls for whole inputs.

use crate::{CoderResult, Decoder, DecoderResult, Encoding, ISO_2022_JP, UTF_8};
use std::borrow::Cow;

/// The crate's message for a length that overflows.
const OVERFLOW: &str = "Overflow in buffer size computation";

/// The text of all bytes, with replacement, and whether a malformed sequence is replaced.
fn decoded(mut decoder: Decoder, bytes: &[u8]) -> (String, &'static Encoding, bool) {
    let mut text = String::new();
    let (mut read, mut any_replaced) = (0, false);
    loop {
        let length = match text.is_empty() {
            true => decoder.max_utf8_buffer_length_without_replacement(bytes.len()),
            false => decoder.max_utf8_buffer_length(bytes.len() - read),
        };
        text.reserve(length.expect(OVERFLOW).max(4));
        let (result, more, replaced) = decoder.decode_to_string(&bytes[read..], &mut text, true);
        read += more;
        any_replaced |= replaced;
        if result == CoderResult::InputEmpty {
            return (text, decoder.encoding(), any_replaced);
        }
    }
}

impl Encoding {
    /// Returns whether bytes are their own text in this encoding.
    fn is_own_text(&'static self, bytes: &[u8]) -> bool {
        let own = if self == UTF_8 {
            Encoding::utf8_valid_up_to(bytes)
        } else if self == ISO_2022_JP {
            Encoding::iso_2022_jp_ascii_valid_up_to(bytes)
        } else if self.is_ascii_compatible() {
            Encoding::ascii_valid_up_to(bytes)
        } else {
            return false;
        };
        own == bytes.len()
    }

    /// Returns bytes as their text, if they are their own.
    fn own_text<'a>(&'static self, bytes: &'a [u8]) -> Option<&'a str> {
        // SAFETY: what is its own text is ASCII, or is tested to be well-formed UTF-8.
        self.is_own_text(bytes)
            .then(|| unsafe { std::str::from_utf8_unchecked(bytes) })
    }

    /// Returns the text of bytes, the encoding by which they are decoded, and whether a malformed
    /// sequence is replaced. A byte order mark sets the encoding, and is no part of the text.
    pub fn decode<'a>(&'static self, bytes: &'a [u8]) -> (Cow<'a, str>, &'static Encoding, bool) {
        let (encoding, without_mark) = match Encoding::for_bom(bytes) {
            Some((encoding, len)) => (encoding, &bytes[len..]),
            None => (self, bytes),
        };
        let (text, replaced) = encoding.decode_without_bom_handling(without_mark);
        (text, encoding, replaced)
    }

    /// The same, except that only the byte order mark of the encoding itself is looked for.
    pub fn decode_with_bom_removal<'a>(&'static self, bytes: &'a [u8]) -> (Cow<'a, str>, bool) {
        let without_mark = match Encoding::for_bom(bytes) {
            Some((encoding, len)) if encoding == self => &bytes[len..],
            _ => bytes,
        };
        self.decode_without_bom_handling(without_mark)
    }

    /// The same, except that no byte order mark is looked for.
    pub fn decode_without_bom_handling<'a>(&'static self, bytes: &'a [u8]) -> (Cow<'a, str>, bool) {
        if let Some(text) = self.own_text(bytes) {
            return (Cow::Borrowed(text), false);
        }
        let (text, _, replaced) = decoded(self.new_decoder_without_bom_handling(), bytes);
        (Cow::Owned(text), replaced)
    }

    /// Returns the text of bytes, or `None` if a sequence is malformed. No byte order mark is
    /// looked for.
    pub fn decode_without_bom_handling_and_without_replacement<'a>(
        &'static self,
        bytes: &'a [u8],
    ) -> Option<Cow<'a, str>> {
        if let Some(text) = self.own_text(bytes) {
            return Some(Cow::Borrowed(text));
        }
        if self == UTF_8 {
            return None;
        }
        let mut decoder = self.new_decoder_without_bom_handling();
        let length = decoder.max_utf8_buffer_length_without_replacement(bytes.len());
        let mut text = String::with_capacity(length.expect(OVERFLOW));
        match decoder.decode_to_string_without_replacement(bytes, &mut text, true) {
            (DecoderResult::InputEmpty, _) => Some(Cow::Owned(text)),
            (DecoderResult::Malformed(_, _), _) => None,
            (DecoderResult::OutputFull, _) => unreachable!("the length is enough"),
        }
    }

    /// Returns the bytes of a text, the output encoding, and whether an unmappable character has
    /// become a reference.
    pub fn encode<'a>(&'static self, text: &'a str) -> (Cow<'a, [u8]>, &'static Encoding, bool) {
        let output = self.output_encoding();
        if output == UTF_8 || output.is_own_text(text.as_bytes()) {
            return (Cow::Borrowed(text.as_bytes()), output, false);
        }
        let mut encoder = output.new_encoder();
        let length = encoder.max_buffer_length_from_utf8_if_no_unmappables(text.len());
        let mut bytes = Vec::with_capacity(length.expect(OVERFLOW));
        let (mut read, mut any_replaced) = (0, false);
        loop {
            let (result, more, replaced) =
                encoder.encode_from_utf8_to_vec(&text[read..], &mut bytes, true);
            read += more;
            any_replaced |= replaced;
            if result == CoderResult::InputEmpty {
                return (Cow::Owned(bytes), output, any_replaced);
            }
            let rest = encoder.max_buffer_length_from_utf8_if_no_unmappables(text.len() - read);
            bytes.reserve(rest.expect(OVERFLOW).max(32));
        }
    }
}
