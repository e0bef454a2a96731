//! Encoders.

use crate::exports::{self as raw, Outcome};
use crate::handle::Handle;
use crate::{encoding_with, CoderResult, EncoderResult, Encoding};

/// Converts text into bytes, in chunks.
pub struct Encoder {
    handle: Handle<8>,
}

fn coder_result(stop: u32) -> CoderResult {
    if stop == raw::INPUT_EMPTY {
        CoderResult::InputEmpty
    } else {
        CoderResult::OutputFull
    }
}

fn encoder_result(outcome: &Outcome) -> EncoderResult {
    match outcome.stop {
        raw::INPUT_EMPTY => EncoderResult::InputEmpty,
        raw::OUTPUT_FULL => EncoderResult::OutputFull,
        _ => EncoderResult::Unmappable(
            char::from_u32(outcome.report).expect("an unmappable character is one"),
        ),
    }
}

impl Encoder {
    pub(crate) fn new(encoding: &'static Encoding) -> Encoder {
        // SAFETY: the call takes nothing.
        let size = unsafe { raw::encoding_c_encoder_size() };
        Encoder {
            handle: Handle::new(size, raw::encoding_c_new_encoder, encoding.number),
        }
    }

    /// Returns the encoding that it writes, which is an output encoding.
    pub fn encoding(&self) -> &'static Encoding {
        // SAFETY: a copy of an encoder is one.
        let number = self
            .handle
            .ask(|at| unsafe { raw::encoding_c_encoder_encoding(at) });
        encoding_with(number).expect("an encoder has an encoding")
    }

    /// Returns whether an escape sequence is due at the end of the text, in ISO-2022-JP alone.
    pub fn has_pending_state(&self) -> bool {
        // SAFETY: a copy of an encoder is one.
        self.handle
            .ask(|at| unsafe { raw::encoding_c_encoder_has_pending_state(at) })
    }

    /// Returns the length to allocate for that many bytes of UTF-8, with replacement, if no
    /// character is unmappable.
    pub fn max_buffer_length_from_utf8_if_no_unmappables(
        &self,
        byte_length: usize,
    ) -> Option<usize> {
        self.handle.length(
            raw::encoding_c_max_buffer_length_from_utf8_if_no_unmappables,
            byte_length,
        )
    }

    /// Returns the length to allocate for that many bytes of UTF-8, without replacement.
    pub fn max_buffer_length_from_utf8_without_replacement(
        &self,
        byte_length: usize,
    ) -> Option<usize> {
        self.handle.length(
            raw::encoding_c_max_buffer_length_from_utf8_without_replacement,
            byte_length,
        )
    }

    /// Returns the length to allocate for that many code units of UTF-16, with replacement, if no
    /// character is unmappable.
    pub fn max_buffer_length_from_utf16_if_no_unmappables(
        &self,
        u16_length: usize,
    ) -> Option<usize> {
        self.handle.length(
            raw::encoding_c_max_buffer_length_from_utf16_if_no_unmappables,
            u16_length,
        )
    }

    /// Returns the length to allocate for that many code units of UTF-16, without replacement.
    pub fn max_buffer_length_from_utf16_without_replacement(
        &self,
        u16_length: usize,
    ) -> Option<usize> {
        self.handle.length(
            raw::encoding_c_max_buffer_length_from_utf16_without_replacement,
            u16_length,
        )
    }

    /// Encodes a chunk of text with replacement, at a pointer to `len` bytes of room.
    ///
    /// # Safety
    ///
    /// The room is there, and nothing else has it.
    unsafe fn encode_to(&mut self, src: &str, dst: *mut u8, len: usize, last: bool) -> Outcome {
        let (from, count) = (src.as_ptr(), src.len());
        raw::encoding_c_encode_from_utf8(&mut self.handle.at(), from, count, dst, len, last)
    }

    /// The same without replacement.
    ///
    /// # Safety
    ///
    /// The room is there, and nothing else has it.
    unsafe fn report_to(&mut self, src: &str, dst: *mut u8, len: usize, last: bool) -> Outcome {
        let (at, from, count) = (&mut self.handle.at(), src.as_ptr(), src.len());
        raw::encoding_c_encode_from_utf8_without_replacement(at, from, count, dst, len, last)
    }

    /// Encodes a chunk of text, with replacement.
    pub fn encode_from_utf8(
        &mut self,
        src: &str,
        dst: &mut [u8],
        last: bool,
    ) -> (CoderResult, usize, usize, bool) {
        // SAFETY: the room is `dst`.
        let it = unsafe { self.encode_to(src, dst.as_mut_ptr(), dst.len(), last) };
        (coder_result(it.stop), it.read, it.written, it.replaced)
    }

    /// Encodes a chunk of text and appends its bytes, within the capacity, with replacement.
    pub fn encode_from_utf8_to_vec(
        &mut self,
        src: &str,
        dst: &mut Vec<u8>,
        last: bool,
    ) -> (CoderResult, usize, bool) {
        // SAFETY: the room is the spare capacity, and its first bytes are written.
        let it = unsafe {
            let room = dst.spare_capacity_mut();
            let it = self.encode_to(src, room.as_mut_ptr().cast(), room.len(), last);
            dst.set_len(dst.len() + it.written);
            it
        };
        (coder_result(it.stop), it.read, it.replaced)
    }

    /// Encodes a chunk of text, up to an unmappable character.
    pub fn encode_from_utf8_without_replacement(
        &mut self,
        src: &str,
        dst: &mut [u8],
        last: bool,
    ) -> (EncoderResult, usize, usize) {
        // SAFETY: the room is `dst`.
        let it = unsafe { self.report_to(src, dst.as_mut_ptr(), dst.len(), last) };
        (encoder_result(&it), it.read, it.written)
    }

    /// Encodes a chunk of text and appends its bytes, within the capacity, up to an unmappable
    /// character.
    pub fn encode_from_utf8_to_vec_without_replacement(
        &mut self,
        src: &str,
        dst: &mut Vec<u8>,
        last: bool,
    ) -> (EncoderResult, usize) {
        // SAFETY: the room is the spare capacity, and its first bytes are written.
        let it = unsafe {
            let room = dst.spare_capacity_mut();
            let it = self.report_to(src, room.as_mut_ptr().cast(), room.len(), last);
            dst.set_len(dst.len() + it.written);
            it
        };
        (encoder_result(&it), it.read)
    }

    /// Encodes a chunk of UTF-16, with replacement.
    pub fn encode_from_utf16(
        &mut self,
        src: &[u16],
        dst: &mut [u8],
        last: bool,
    ) -> (CoderResult, usize, usize, bool) {
        let (from, count, to, len) = (src.as_ptr(), src.len(), dst.as_mut_ptr(), dst.len());
        // SAFETY: pointers and lengths of two slices.
        let it = unsafe {
            raw::encoding_c_encode_from_utf16(&mut self.handle.at(), from, count, to, len, last)
        };
        (coder_result(it.stop), it.read, it.written, it.replaced)
    }

    /// Encodes a chunk of UTF-16, up to an unmappable character.
    pub fn encode_from_utf16_without_replacement(
        &mut self,
        src: &[u16],
        dst: &mut [u8],
        last: bool,
    ) -> (EncoderResult, usize, usize) {
        let (from, count, to, len) = (src.as_ptr(), src.len(), dst.as_mut_ptr(), dst.len());
        let at = &mut self.handle.at();
        // SAFETY: pointers and lengths of two slices.
        let it = unsafe {
            raw::encoding_c_encode_from_utf16_without_replacement(at, from, count, to, len, last)
        };
        (encoder_result(&it), it.read, it.written)
    }
}
