//! The exports of crates/encoding_c. scripts/clients compares these declarations with them.
//!
//! A slice is a pointer and a length.

/// Where a decoder or an encoder lies.
#[repr(C)]
pub(crate) struct At(pub(crate) *mut u64);

/// The outcome of a call.
#[repr(C)]
pub(crate) struct Outcome {
    pub(crate) stop: u32,
    pub(crate) report: u32,
    pub(crate) read: usize,
    pub(crate) written: usize,
    pub(crate) replaced: bool,
}

/// A byte order mark.
#[repr(C)]
pub(crate) struct Mark {
    pub(crate) encoding: u32,
    pub(crate) len: usize,
}

pub(crate) const INPUT_EMPTY: u32 = 0;
pub(crate) const OUTPUT_FULL: u32 = 1;
pub(crate) const REPORTED: u32 = 2;

extern "C" {
    pub(crate) fn encoding_c_for_label(label: *const u8, label_len: usize) -> u32;
    pub(crate) fn encoding_c_for_label_no_replacement(label: *const u8, label_len: usize) -> u32;
    pub(crate) fn encoding_c_for_bom(buffer: *const u8, buffer_len: usize) -> Mark;
    pub(crate) fn encoding_c_output_encoding(encoding: u32) -> u32;
    pub(crate) fn encoding_c_can_encode_everything(encoding: u32) -> bool;
    pub(crate) fn encoding_c_is_ascii_compatible(encoding: u32) -> bool;
    pub(crate) fn encoding_c_is_single_byte(encoding: u32) -> bool;
    pub(crate) fn encoding_c_utf8_valid_up_to(bytes: *const u8, bytes_len: usize) -> usize;
    pub(crate) fn encoding_c_ascii_valid_up_to(bytes: *const u8, bytes_len: usize) -> usize;
    pub(crate) fn encoding_c_iso_2022_jp_ascii_valid_up_to(
        bytes: *const u8,
        bytes_len: usize,
    ) -> usize;

    pub(crate) fn encoding_c_decoder_size() -> usize;
    pub(crate) fn encoding_c_new_decoder(decoder: *mut At, encoding: u32) -> bool;
    pub(crate) fn encoding_c_new_decoder_with_bom_removal(decoder: *mut At, encoding: u32) -> bool;
    pub(crate) fn encoding_c_new_decoder_without_bom_handling(
        decoder: *mut At,
        encoding: u32,
    ) -> bool;
    pub(crate) fn encoding_c_decoder_encoding(decoder: *mut At) -> u32;
    pub(crate) fn encoding_c_decoder_is_finished(decoder: *mut At) -> bool;
    pub(crate) fn encoding_c_decoder_latin1_byte_compatible_up_to(
        decoder: *mut At,
        bytes: *const u8,
        bytes_len: usize,
    ) -> usize;
    pub(crate) fn encoding_c_max_utf8_buffer_length(decoder: *mut At, byte_length: usize) -> usize;
    pub(crate) fn encoding_c_max_utf8_buffer_length_without_replacement(
        decoder: *mut At,
        byte_length: usize,
    ) -> usize;
    pub(crate) fn encoding_c_max_utf16_buffer_length(decoder: *mut At, byte_length: usize)
        -> usize;
    pub(crate) fn encoding_c_decode_to_utf8(
        decoder: *mut At,
        src: *const u8,
        src_len: usize,
        dst: *mut u8,
        dst_len: usize,
        last: bool,
    ) -> Outcome;
    pub(crate) fn encoding_c_decode_to_utf16(
        decoder: *mut At,
        src: *const u8,
        src_len: usize,
        dst: *mut u16,
        dst_len: usize,
        last: bool,
    ) -> Outcome;
    pub(crate) fn encoding_c_decode_to_utf8_without_replacement(
        decoder: *mut At,
        src: *const u8,
        src_len: usize,
        dst: *mut u8,
        dst_len: usize,
        last: bool,
    ) -> Outcome;
    pub(crate) fn encoding_c_decode_to_utf16_without_replacement(
        decoder: *mut At,
        src: *const u8,
        src_len: usize,
        dst: *mut u16,
        dst_len: usize,
        last: bool,
    ) -> Outcome;

    pub(crate) fn encoding_c_encoder_size() -> usize;
    pub(crate) fn encoding_c_new_encoder(encoder: *mut At, encoding: u32) -> bool;
    pub(crate) fn encoding_c_encoder_encoding(encoder: *mut At) -> u32;
    pub(crate) fn encoding_c_encoder_has_pending_state(encoder: *mut At) -> bool;
    pub(crate) fn encoding_c_max_buffer_length_from_utf8_without_replacement(
        encoder: *mut At,
        byte_length: usize,
    ) -> usize;
    pub(crate) fn encoding_c_max_buffer_length_from_utf8_if_no_unmappables(
        encoder: *mut At,
        byte_length: usize,
    ) -> usize;
    pub(crate) fn encoding_c_max_buffer_length_from_utf16_without_replacement(
        encoder: *mut At,
        u16_length: usize,
    ) -> usize;
    pub(crate) fn encoding_c_max_buffer_length_from_utf16_if_no_unmappables(
        encoder: *mut At,
        u16_length: usize,
    ) -> usize;
    pub(crate) fn encoding_c_encode_from_utf8(
        encoder: *mut At,
        src: *const u8,
        src_len: usize,
        dst: *mut u8,
        dst_len: usize,
        last: bool,
    ) -> Outcome;
    pub(crate) fn encoding_c_encode_from_utf16(
        encoder: *mut At,
        src: *const u16,
        src_len: usize,
        dst: *mut u8,
        dst_len: usize,
        last: bool,
    ) -> Outcome;
    pub(crate) fn encoding_c_encode_from_utf8_without_replacement(
        encoder: *mut At,
        src: *const u8,
        src_len: usize,
        dst: *mut u8,
        dst_len: usize,
        last: bool,
    ) -> Outcome;
    pub(crate) fn encoding_c_encode_from_utf16_without_replacement(
        encoder: *mut At,
        src: *const u16,
        src_len: usize,
        dst: *mut u8,
        dst_len: usize,
        last: bool,
    ) -> Outcome;
}
