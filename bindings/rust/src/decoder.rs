//! Decoders.

use crate::exports::{self as raw, At, Outcome};
use crate::handle::Handle;
use crate::{encoding_with, length_or_none, CoderResult, DecoderResult, Encoding};

/// Converts a stream of bytes into text, in chunks.
pub struct Decoder {
    handle: Handle<2>,
}

/// The result of a call with replacement, or a panic if the decoder was finished.
fn coder_result(stop: u32) -> CoderResult {
    match stop {
        raw::INPUT_EMPTY => CoderResult::InputEmpty,
        raw::OUTPUT_FULL => CoderResult::OutputFull,
        _ => panic!("Must not use a decoder that has finished."),
    }
}

/// The result of a call without replacement, or a panic if the decoder was finished.
fn decoder_result(outcome: &Outcome) -> DecoderResult {
    match outcome.stop {
        raw::INPUT_EMPTY => DecoderResult::InputEmpty,
        raw::OUTPUT_FULL => DecoderResult::OutputFull,
        raw::REPORTED => {
            let [_, _, len, after] = outcome.report.to_be_bytes();
            DecoderResult::Malformed(len, after)
        }
        _ => panic!("Must not use a decoder that has finished."),
    }
}

/// Makes well-formed UTF-8 of text whose first bytes were exchanged for a well-formed text: the
/// continuation bytes left of a character become NUL.
fn mend(rest: &mut [u8]) {
    for byte in rest.iter_mut().take_while(|byte| **byte & 0xC0 == 0x80) {
        *byte = 0;
    }
}

impl Decoder {
    pub(crate) fn new(
        encoding: &'static Encoding,
        put: unsafe extern "C" fn(*mut At, u32) -> bool,
    ) -> Decoder {
        // SAFETY: the call takes nothing.
        let size = unsafe { raw::encoding_c_decoder_size() };
        Decoder {
            handle: Handle::new(size, put, encoding.number),
        }
    }

    fn length(
        &self,
        query: unsafe extern "C" fn(*mut At, usize) -> usize,
        n: usize,
    ) -> Option<usize> {
        // SAFETY: a copy of a decoder is one.
        let finished = self
            .handle
            .ask(|at| unsafe { raw::encoding_c_decoder_is_finished(at) });
        assert!(!finished, "Must not use a decoder that has finished.");
        self.handle.length(query, n)
    }

    /// Returns the encoding that it decodes. A byte order mark that it looks for changes it.
    pub fn encoding(&self) -> &'static Encoding {
        // SAFETY: a copy of a decoder is one.
        let number = self
            .handle
            .ask(|at| unsafe { raw::encoding_c_decoder_encoding(at) });
        encoding_with(number).expect("a decoder has an encoding")
    }

    /// Returns the length to allocate for UTF-8 with replacement, for that many more bytes.
    pub fn max_utf8_buffer_length(&self, byte_length: usize) -> Option<usize> {
        self.length(raw::encoding_c_max_utf8_buffer_length, byte_length)
    }

    /// Returns the length to allocate for UTF-8 without replacement.
    pub fn max_utf8_buffer_length_without_replacement(&self, byte_length: usize) -> Option<usize> {
        self.length(
            raw::encoding_c_max_utf8_buffer_length_without_replacement,
            byte_length,
        )
    }

    /// Returns the length to allocate for UTF-16.
    pub fn max_utf16_buffer_length(&self, byte_length: usize) -> Option<usize> {
        self.length(raw::encoding_c_max_utf16_buffer_length, byte_length)
    }

    /// Returns the length of a prefix of the next input whose bytes are the characters with their
    /// numbers, or `None` if that holds of no byte.
    pub fn latin1_byte_compatible_up_to(&self, bytes: &[u8]) -> Option<usize> {
        // SAFETY: a copy of a decoder is one, and the pointer and the length are of one slice.
        length_or_none(self.handle.ask(|at| unsafe {
            raw::encoding_c_decoder_latin1_byte_compatible_up_to(at, bytes.as_ptr(), bytes.len())
        }))
    }

    /// Decodes a chunk into UTF-8, with replacement, at a pointer to `len` bytes of room.
    ///
    /// # Safety
    ///
    /// The room is there, and nothing else has it.
    unsafe fn decode_to(&mut self, src: &[u8], dst: *mut u8, len: usize, last: bool) -> Outcome {
        let (from, count) = (src.as_ptr(), src.len());
        raw::encoding_c_decode_to_utf8(&mut self.handle.at(), from, count, dst, len, last)
    }

    /// The same without replacement.
    ///
    /// # Safety
    ///
    /// The room is there, and nothing else has it.
    unsafe fn report_to(&mut self, src: &[u8], dst: *mut u8, len: usize, last: bool) -> Outcome {
        let (at, from, count) = (&mut self.handle.at(), src.as_ptr(), src.len());
        raw::encoding_c_decode_to_utf8_without_replacement(at, from, count, dst, len, last)
    }

    /// Decodes a chunk into UTF-8, with replacement.
    pub fn decode_to_utf8(
        &mut self,
        src: &[u8],
        dst: &mut [u8],
        last: bool,
    ) -> (CoderResult, usize, usize, bool) {
        // SAFETY: the room is `dst`.
        let it = unsafe { self.decode_to(src, dst.as_mut_ptr(), dst.len(), last) };
        (coder_result(it.stop), it.read, it.written, it.replaced)
    }

    /// Decodes a chunk into a `str`, with replacement. What is left of a character that is
    /// overwritten in part becomes NUL.
    pub fn decode_to_str(
        &mut self,
        src: &[u8],
        dst: &mut str,
        last: bool,
    ) -> (CoderResult, usize, usize, bool) {
        // SAFETY: the bytes written are well-formed UTF-8, and `mend` makes the rest so.
        let bytes = unsafe { dst.as_bytes_mut() };
        let (result, read, written, replaced) = self.decode_to_utf8(src, bytes, last);
        mend(&mut bytes[written..]);
        (result, read, written, replaced)
    }

    /// Decodes a chunk and appends its text, within the capacity of the string, with replacement.
    pub fn decode_to_string(
        &mut self,
        src: &[u8],
        dst: &mut String,
        last: bool,
    ) -> (CoderResult, usize, bool) {
        // SAFETY: the room is the spare capacity, and the bytes written are well-formed UTF-8.
        let it = unsafe {
            let bytes = dst.as_mut_vec();
            let room = bytes.spare_capacity_mut();
            let it = self.decode_to(src, room.as_mut_ptr().cast(), room.len(), last);
            bytes.set_len(bytes.len() + it.written);
            it
        };
        (coder_result(it.stop), it.read, it.replaced)
    }

    /// Decodes a chunk into UTF-8, up to a malformed sequence.
    pub fn decode_to_utf8_without_replacement(
        &mut self,
        src: &[u8],
        dst: &mut [u8],
        last: bool,
    ) -> (DecoderResult, usize, usize) {
        // SAFETY: the room is `dst`.
        let it = unsafe { self.report_to(src, dst.as_mut_ptr(), dst.len(), last) };
        (decoder_result(&it), it.read, it.written)
    }

    /// Decodes a chunk into a `str`, up to a malformed sequence. What is left of a character that is
    /// overwritten in part becomes NUL.
    pub fn decode_to_str_without_replacement(
        &mut self,
        src: &[u8],
        dst: &mut str,
        last: bool,
    ) -> (DecoderResult, usize, usize) {
        // SAFETY: the bytes written are well-formed UTF-8, and `mend` makes the rest so.
        let bytes = unsafe { dst.as_bytes_mut() };
        let (result, read, written) = self.decode_to_utf8_without_replacement(src, bytes, last);
        mend(&mut bytes[written..]);
        (result, read, written)
    }

    /// Decodes a chunk and appends its text, within the capacity of the string, up to a malformed
    /// sequence.
    pub fn decode_to_string_without_replacement(
        &mut self,
        src: &[u8],
        dst: &mut String,
        last: bool,
    ) -> (DecoderResult, usize) {
        // SAFETY: the room is the spare capacity, and the bytes written are well-formed UTF-8.
        let it = unsafe {
            let bytes = dst.as_mut_vec();
            let room = bytes.spare_capacity_mut();
            let it = self.report_to(src, room.as_mut_ptr().cast(), room.len(), last);
            bytes.set_len(bytes.len() + it.written);
            it
        };
        (decoder_result(&it), it.read)
    }

    /// Decodes a chunk into UTF-16, with replacement.
    pub fn decode_to_utf16(
        &mut self,
        src: &[u8],
        dst: &mut [u16],
        last: bool,
    ) -> (CoderResult, usize, usize, bool) {
        let (from, count, to, len) = (src.as_ptr(), src.len(), dst.as_mut_ptr(), dst.len());
        // SAFETY: pointers and lengths of two slices.
        let it = unsafe {
            raw::encoding_c_decode_to_utf16(&mut self.handle.at(), from, count, to, len, last)
        };
        (coder_result(it.stop), it.read, it.written, it.replaced)
    }

    /// Decodes a chunk into UTF-16, up to a malformed sequence.
    pub fn decode_to_utf16_without_replacement(
        &mut self,
        src: &[u8],
        dst: &mut [u16],
        last: bool,
    ) -> (DecoderResult, usize, usize) {
        let (from, count, to, len) = (src.as_ptr(), src.len(), dst.as_mut_ptr(), dst.len());
        let at = &mut self.handle.at();
        // SAFETY: pointers and lengths of two slices.
        let it = unsafe {
            raw::encoding_c_decode_to_utf16_without_replacement(at, from, count, to, len, last)
        };
        (decoder_result(&it), it.read, it.written)
    }
}
