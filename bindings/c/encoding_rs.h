/* encoding_rs.h: the encodings of the WHATWG Encoding Standard, for C.
 *
 * The names, the arguments and the results are those of Mozilla's C interface to the Rust crate
 * encoding_rs. A program that is written for it compiles with this header and links with this
 * library unchanged. docs/BINDINGS.md says what is proved of the calls, and what is not.
 *
 * An encoding is one of the constants of encoding_rs_statics.h, or NULL where there is none.
 *
 * Calls that convert take lengths by pointers: before a call `*src_len` and `*dst_len` are the
 * lengths of the buffers, and after it the numbers of units read and written. They return
 *
 *   INPUT_EMPTY       all input is read; with `last` the text is ended, and a decoder is finished
 *   OUTPUT_FULL       what comes next does not fit; the call again, with the rest of the input
 *   DECODER_FINISHED  a decoder that is finished is called; nothing is done
 *   another number    without replacement alone. A decoder: a malformed sequence of l bytes, before
 *                     the last a bytes read so far, as (l << 8) | a. An encoder: the last character
 *                     read, by its scalar value, has no bytes in the encoding.
 *
 * A pointer may be null where its length is 0. The caller sees to it that
 *
 *   a buffer is as long as is said, and `src` and `dst` do not overlap;
 *   a decoder or an encoder is one that a call below has made, and no two calls have it at a time;
 *   text to encode is well-formed UTF-8, except for the calls whose names end in `_tested`.
 *
 * Any thread may call any of them. Only those that return a new decoder or encoder take memory.
 */
#ifndef ENCODING_RS_H
#define ENCODING_RS_H

#include <stdbool.h>
#include <stddef.h>
#include <stdint.h>
#ifndef __cplusplus
#include <uchar.h>
#endif

#include "encoding_rs_statics.h"

#ifdef __cplusplus
extern "C" {
#endif

/* The length in bytes of the memory that the calls `.._into` write to, which is aligned as uint64_t
 * is. A copy of it is a copy of the decoder or the encoder. */
#define ENCODING_RS_DECODER_SIZE 16
#define ENCODING_RS_ENCODER_SIZE 64

/* -- Encodings -- */

/* Returns the encoding that a label names, or NULL. White space around it and case do not matter.
 */
const ENCODING_RS_ENCODING *encoding_for_label(const uint8_t *label, size_t label_len);

/* Returns the encoding that a label names, or NULL if it names replacement or none. */
const ENCODING_RS_ENCODING *encoding_for_label_no_replacement(const uint8_t *label,
                                                              size_t label_len);

/* Returns the encoding of the byte order mark at the start of `buffer`, or NULL. Sets `*buffer_len`
 * to the mark's length, or 0. */
const ENCODING_RS_ENCODING *encoding_for_bom(const uint8_t *buffer, size_t *buffer_len);

/* Writes the name of an encoding, without a NUL, and returns its length. `name_out` has at least
 * ENCODING_NAME_MAX_LENGTH bytes. */
size_t encoding_name(const ENCODING_RS_ENCODING *encoding, uint8_t *name_out);

/* Returns whether the output encoding is UTF-8, which has every character. */
bool encoding_can_encode_everything(const ENCODING_RS_ENCODING *encoding);

/* Returns whether bytes below 0x80 are the ASCII characters with their numbers. */
bool encoding_is_ascii_compatible(const ENCODING_RS_ENCODING *encoding);

/* Returns whether each byte is a character by itself. */
bool encoding_is_single_byte(const ENCODING_RS_ENCODING *encoding);

/* Returns the output encoding: UTF-8 for UTF-16BE, UTF-16LE and replacement, and else itself. */
const ENCODING_RS_ENCODING *encoding_output_encoding(const ENCODING_RS_ENCODING *encoding);

/* Return the length of the longest prefix that is well-formed UTF-8, that is ASCII, and that stands
 * for itself at the start of ISO-2022-JP. */
size_t encoding_utf8_valid_up_to(const uint8_t *buffer, size_t buffer_len);
size_t encoding_ascii_valid_up_to(const uint8_t *buffer, size_t buffer_len);
size_t encoding_iso_2022_jp_ascii_valid_up_to(const uint8_t *buffer, size_t buffer_len);

/* -- Decoders -- */

/* Return a decoder that looks for all three byte order marks, for that of its own encoding, or for
 * none. NULL if memory is refused. `decoder_free` takes it back. */
ENCODING_RS_DECODER *encoding_new_decoder(const ENCODING_RS_ENCODING *encoding);
ENCODING_RS_DECODER *encoding_new_decoder_with_bom_removal(const ENCODING_RS_ENCODING *encoding);
ENCODING_RS_DECODER *
encoding_new_decoder_without_bom_handling(const ENCODING_RS_ENCODING *encoding);

/* The same, in memory of the caller's: ENCODING_RS_DECODER_SIZE bytes, or another decoder. */
void encoding_new_decoder_into(const ENCODING_RS_ENCODING *encoding, ENCODING_RS_DECODER *decoder);
void encoding_new_decoder_with_bom_removal_into(const ENCODING_RS_ENCODING *encoding,
                                                ENCODING_RS_DECODER *decoder);
void encoding_new_decoder_without_bom_handling_into(const ENCODING_RS_ENCODING *encoding,
                                                    ENCODING_RS_DECODER *decoder);

/* Frees a decoder that `encoding_new_decoder..` has returned. */
void decoder_free(ENCODING_RS_DECODER *decoder);

/* Returns the encoding that is decoded. A byte order mark that is looked for changes it. */
const ENCODING_RS_ENCODING *decoder_encoding(const ENCODING_RS_DECODER *decoder);

/* Return the length to allocate for `byte_length` more bytes, in bytes or code units; SIZE_MAX if
 * that overflows, or the decoder is finished. */
size_t decoder_max_utf8_buffer_length(const ENCODING_RS_DECODER *decoder, size_t byte_length);
size_t decoder_max_utf8_buffer_length_without_replacement(const ENCODING_RS_DECODER *decoder,
                                                          size_t byte_length);
size_t decoder_max_utf16_buffer_length(const ENCODING_RS_DECODER *decoder, size_t byte_length);

/* Decode a chunk, with U+FFFD for each malformed sequence. `*had_replacements` says whether there
 * was one. */
uint32_t decoder_decode_to_utf8(ENCODING_RS_DECODER *decoder, const uint8_t *src, size_t *src_len,
                                uint8_t *dst, size_t *dst_len, bool last, bool *had_replacements);
uint32_t decoder_decode_to_utf16(ENCODING_RS_DECODER *decoder, const uint8_t *src, size_t *src_len,
                                 char16_t *dst, size_t *dst_len, bool last, bool *had_replacements);

/* Decode a chunk up to a malformed sequence. */
uint32_t decoder_decode_to_utf8_without_replacement(ENCODING_RS_DECODER *decoder,
                                                    const uint8_t *src, size_t *src_len,
                                                    uint8_t *dst, size_t *dst_len, bool last);
uint32_t decoder_decode_to_utf16_without_replacement(ENCODING_RS_DECODER *decoder,
                                                     const uint8_t *src, size_t *src_len,
                                                     char16_t *dst, size_t *dst_len, bool last);

/* Returns the length of a prefix of the next input whose bytes are the characters with their
 * numbers, or SIZE_MAX if that holds of no byte. */
size_t decoder_latin1_byte_compatible_up_to(const ENCODING_RS_DECODER *decoder,
                                            const uint8_t *buffer, size_t buffer_len);

/* -- Encoders -- */

/* Returns an encoder of the output encoding. NULL if memory is refused. `encoder_free` takes it
 * back. */
ENCODING_RS_ENCODER *encoding_new_encoder(const ENCODING_RS_ENCODING *encoding);

/* The same, in memory of the caller's: ENCODING_RS_ENCODER_SIZE bytes, or another encoder. */
void encoding_new_encoder_into(const ENCODING_RS_ENCODING *encoding, ENCODING_RS_ENCODER *encoder);

/* Frees an encoder that `encoding_new_encoder` has returned. */
void encoder_free(ENCODING_RS_ENCODER *encoder);

/* Returns the encoding that is written. */
const ENCODING_RS_ENCODING *encoder_encoding(const ENCODING_RS_ENCODER *encoder);

/* Returns whether an escape sequence is due at the end of the text, in ISO-2022-JP alone. */
bool encoder_has_pending_state(const ENCODING_RS_ENCODER *encoder);

/* Return the length in bytes to allocate for that many more bytes or code units of text; SIZE_MAX
 * if that overflows. With replacement it is enough if no character is unmappable. */
size_t encoder_max_buffer_length_from_utf8_if_no_unmappables(const ENCODING_RS_ENCODER *encoder,
                                                             size_t byte_length);
size_t encoder_max_buffer_length_from_utf8_without_replacement(const ENCODING_RS_ENCODER *encoder,
                                                               size_t byte_length);
size_t encoder_max_buffer_length_from_utf16_if_no_unmappables(const ENCODING_RS_ENCODER *encoder,
                                                              size_t u16_length);
size_t encoder_max_buffer_length_from_utf16_without_replacement(const ENCODING_RS_ENCODER *encoder,
                                                                size_t u16_length);

/* Encode a chunk, with a decimal reference for each unmappable character. `*had_replacements` says
 * whether there was one. Of `dst` the last ten bytes are kept for references, except in UTF-8. */
uint32_t encoder_encode_from_utf8(ENCODING_RS_ENCODER *encoder, const uint8_t *src, size_t *src_len,
                                  uint8_t *dst, size_t *dst_len, bool last, bool *had_replacements);
uint32_t encoder_encode_from_utf16(ENCODING_RS_ENCODER *encoder, const char16_t *src,
                                   size_t *src_len, uint8_t *dst, size_t *dst_len, bool last,
                                   bool *had_replacements);

/* Encode a chunk up to an unmappable character. */
uint32_t encoder_encode_from_utf8_without_replacement(ENCODING_RS_ENCODER *encoder,
                                                      const uint8_t *src, size_t *src_len,
                                                      uint8_t *dst, size_t *dst_len, bool last);
uint32_t encoder_encode_from_utf16_without_replacement(ENCODING_RS_ENCODER *encoder,
                                                       const char16_t *src, size_t *src_len,
                                                       uint8_t *dst, size_t *dst_len, bool last);

/* The same for text that may not be well-formed UTF-8: they test it, and return TEXT_NOT_UTF8. They
 * are no part of Mozilla's interface. */
uint32_t encoder_encode_from_utf8_tested(ENCODING_RS_ENCODER *encoder, const uint8_t *src,
                                         size_t *src_len, uint8_t *dst, size_t *dst_len, bool last,
                                         bool *had_replacements);
uint32_t encoder_encode_from_utf8_without_replacement_tested(ENCODING_RS_ENCODER *encoder,
                                                             const uint8_t *src, size_t *src_len,
                                                             uint8_t *dst, size_t *dst_len,
                                                             bool last);

#ifdef __cplusplus
}
#endif

#endif
