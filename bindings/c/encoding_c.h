/* encoding_c.h: the exports of crates/encoding_c, as encoding_rs.c and the packages for Rust and
 * Python call them. scripts/clients compares these declarations with the exports.
 *
 * A slice is a pointer and a length; the pointer is not null, whatever the length. */
#ifndef ENCODING_C_H
#define ENCODING_C_H

#include <stdbool.h>
#include <stddef.h>
#include <stdint.h>

/* The numbers of no encoding, of no length, and of why a call stops. */
#define ENCODING_C_NONE 255
#define ENCODING_C_NO_LENGTH SIZE_MAX
enum encoding_c_stop {
    ENCODING_C_INPUT_EMPTY,
    ENCODING_C_OUTPUT_FULL,
    ENCODING_C_REPORTED,
    ENCODING_C_FINISHED,
    ENCODING_C_NOT_UTF8,
};

/* Where a decoder or an encoder lies. */
typedef struct encoding_c_at {
    void *at;
} encoding_c_at;

/* The outcome of a call. */
typedef struct encoding_c_outcome {
    uint32_t stop;
    uint32_t report;
    size_t read;
    size_t written;
    bool replaced;
} encoding_c_outcome;

/* A byte order mark. */
typedef struct encoding_c_mark {
    uint32_t encoding;
    size_t len;
} encoding_c_mark;

uint32_t encoding_c_for_label(const uint8_t *label, size_t label_len);
uint32_t encoding_c_for_label_no_replacement(const uint8_t *label, size_t label_len);
encoding_c_mark encoding_c_for_bom(const uint8_t *buffer, size_t buffer_len);
size_t encoding_c_name(uint32_t encoding, uint8_t *out, size_t out_len);
uint32_t encoding_c_output_encoding(uint32_t encoding);
bool encoding_c_can_encode_everything(uint32_t encoding);
bool encoding_c_is_ascii_compatible(uint32_t encoding);
bool encoding_c_is_single_byte(uint32_t encoding);
size_t encoding_c_utf8_valid_up_to(const uint8_t *bytes, size_t bytes_len);
size_t encoding_c_ascii_valid_up_to(const uint8_t *bytes, size_t bytes_len);
size_t encoding_c_iso_2022_jp_ascii_valid_up_to(const uint8_t *bytes, size_t bytes_len);

size_t encoding_c_decoder_size(void);
bool encoding_c_new_decoder(encoding_c_at *decoder, uint32_t encoding);
bool encoding_c_new_decoder_with_bom_removal(encoding_c_at *decoder, uint32_t encoding);
bool encoding_c_new_decoder_without_bom_handling(encoding_c_at *decoder, uint32_t encoding);
uint32_t encoding_c_decoder_encoding(encoding_c_at *decoder);
bool encoding_c_decoder_is_finished(encoding_c_at *decoder);
size_t encoding_c_decoder_latin1_byte_compatible_up_to(encoding_c_at *decoder, const uint8_t *bytes,
                                                       size_t bytes_len);
size_t encoding_c_max_utf8_buffer_length(encoding_c_at *decoder, size_t byte_length);
size_t encoding_c_max_utf8_buffer_length_without_replacement(encoding_c_at *decoder,
                                                             size_t byte_length);
size_t encoding_c_max_utf16_buffer_length(encoding_c_at *decoder, size_t byte_length);
encoding_c_outcome encoding_c_decode_to_utf8(encoding_c_at *decoder, const uint8_t *src,
                                             size_t src_len, uint8_t *dst, size_t dst_len,
                                             bool last);
encoding_c_outcome encoding_c_decode_to_utf16(encoding_c_at *decoder, const uint8_t *src,
                                              size_t src_len, uint16_t *dst, size_t dst_len,
                                              bool last);
encoding_c_outcome encoding_c_decode_to_utf8_without_replacement(encoding_c_at *decoder,
                                                                 const uint8_t *src, size_t src_len,
                                                                 uint8_t *dst, size_t dst_len,
                                                                 bool last);
encoding_c_outcome encoding_c_decode_to_utf16_without_replacement(encoding_c_at *decoder,
                                                                  const uint8_t *src,
                                                                  size_t src_len, uint16_t *dst,
                                                                  size_t dst_len, bool last);

size_t encoding_c_encoder_size(void);
bool encoding_c_new_encoder(encoding_c_at *encoder, uint32_t encoding);
uint32_t encoding_c_encoder_encoding(encoding_c_at *encoder);
bool encoding_c_encoder_has_pending_state(encoding_c_at *encoder);
size_t encoding_c_max_buffer_length_from_utf8_without_replacement(encoding_c_at *encoder,
                                                                  size_t byte_length);
size_t encoding_c_max_buffer_length_from_utf8_if_no_unmappables(encoding_c_at *encoder,
                                                                size_t byte_length);
size_t encoding_c_max_buffer_length_from_utf16_without_replacement(encoding_c_at *encoder,
                                                                   size_t u16_length);
size_t encoding_c_max_buffer_length_from_utf16_if_no_unmappables(encoding_c_at *encoder,
                                                                 size_t u16_length);
encoding_c_outcome encoding_c_encode_from_utf8(encoding_c_at *encoder, const uint8_t *src,
                                               size_t src_len, uint8_t *dst, size_t dst_len,
                                               bool last);
encoding_c_outcome encoding_c_encode_from_utf8_tested(encoding_c_at *encoder, const uint8_t *src,
                                                      size_t src_len, uint8_t *dst, size_t dst_len,
                                                      bool last);
encoding_c_outcome encoding_c_encode_from_utf16(encoding_c_at *encoder, const uint16_t *src,
                                                size_t src_len, uint8_t *dst, size_t dst_len,
                                                bool last);
encoding_c_outcome encoding_c_encode_from_utf8_without_replacement(encoding_c_at *encoder,
                                                                   const uint8_t *src,
                                                                   size_t src_len, uint8_t *dst,
                                                                   size_t dst_len, bool last);
encoding_c_outcome
encoding_c_encode_from_utf8_without_replacement_tested(encoding_c_at *encoder, const uint8_t *src,
                                                       size_t src_len, uint8_t *dst, size_t dst_len,
                                                       bool last);
encoding_c_outcome encoding_c_encode_from_utf16_without_replacement(encoding_c_at *encoder,
                                                                    const uint16_t *src,
                                                                    size_t src_len, uint8_t *dst,
                                                                    size_t dst_len, bool last);

#endif
