/* The calls of encoding_rs.h, over the exports of crates/encoding_c.
 *
 * The exports are proved, and this file is not. It puts a pointer in the place of a null one, the
 * address of a decoder or an encoder in a struct, an encoding in the place of its number, and the
 * numbers of an outcome where the caller wants them; and it takes memory for new ones. */
#include "encoding_rs.h"

#include <stdlib.h>

#include "encoding_c.h"

struct Encoding_ {
    uint8_t number;
};

#include "encodings.h"

/* Where a slice without units lies. */
static uint64_t nowhere;

static const uint8_t *bytes_at(const uint8_t *bytes) {
    return bytes ? bytes : (const uint8_t *)&nowhere;
}

static uint8_t *room_at(uint8_t *room) {
    return room ? room : (uint8_t *)&nowhere;
}

static const uint16_t *units_at(const char16_t *units) {
    return units ? (const uint16_t *)units : (const uint16_t *)&nowhere;
}

static uint16_t *room_of_units_at(char16_t *room) {
    return room ? (uint16_t *)room : (uint16_t *)&nowhere;
}

static encoding_c_at decoder_at(const Decoder *decoder) {
    return (encoding_c_at){(void *)decoder};
}

static encoding_c_at encoder_at(const Encoder *encoder) {
    return (encoding_c_at){(void *)encoder};
}

static const Encoding *encoding_with(uint32_t number) {
    return number == ENCODING_C_NONE ? NULL : &encodings[number];
}

/* Sets the lengths of a call to what it has read and written, and returns its result. */
static uint32_t result_of(encoding_c_outcome outcome, size_t *src_len, size_t *dst_len) {
    *src_len = outcome.read;
    *dst_len = outcome.written;
    switch (outcome.stop) {
    case ENCODING_C_INPUT_EMPTY:
        return INPUT_EMPTY;
    case ENCODING_C_OUTPUT_FULL:
        return OUTPUT_FULL;
    case ENCODING_C_REPORTED:
        return outcome.report;
    case ENCODING_C_FINISHED:
        return DECODER_FINISHED;
    default:
        return TEXT_NOT_UTF8;
    }
}

/* -- Encodings -- */

const Encoding *encoding_for_label(const uint8_t *label, size_t label_len) {
    return encoding_with(encoding_c_for_label(bytes_at(label), label_len));
}

const Encoding *encoding_for_label_no_replacement(const uint8_t *label, size_t label_len) {
    return encoding_with(encoding_c_for_label_no_replacement(bytes_at(label), label_len));
}

const Encoding *encoding_for_bom(const uint8_t *buffer, size_t *buffer_len) {
    encoding_c_mark mark = encoding_c_for_bom(bytes_at(buffer), *buffer_len);
    *buffer_len = mark.len;
    return encoding_with(mark.encoding);
}

size_t encoding_name(const Encoding *encoding, uint8_t *name_out) {
    return encoding_c_name(encoding->number, name_out, ENCODING_NAME_MAX_LENGTH);
}

bool encoding_can_encode_everything(const Encoding *encoding) {
    return encoding_c_can_encode_everything(encoding->number);
}

bool encoding_is_ascii_compatible(const Encoding *encoding) {
    return encoding_c_is_ascii_compatible(encoding->number);
}

bool encoding_is_single_byte(const Encoding *encoding) {
    return encoding_c_is_single_byte(encoding->number);
}

const Encoding *encoding_output_encoding(const Encoding *encoding) {
    return encoding_with(encoding_c_output_encoding(encoding->number));
}

size_t encoding_utf8_valid_up_to(const uint8_t *buffer, size_t buffer_len) {
    return encoding_c_utf8_valid_up_to(bytes_at(buffer), buffer_len);
}

size_t encoding_ascii_valid_up_to(const uint8_t *buffer, size_t buffer_len) {
    return encoding_c_ascii_valid_up_to(bytes_at(buffer), buffer_len);
}

size_t encoding_iso_2022_jp_ascii_valid_up_to(const uint8_t *buffer, size_t buffer_len) {
    return encoding_c_iso_2022_jp_ascii_valid_up_to(bytes_at(buffer), buffer_len);
}

/* -- Decoders -- */

void encoding_new_decoder_into(const Encoding *encoding, Decoder *decoder) {
    encoding_c_at at = decoder_at(decoder);
    encoding_c_new_decoder(&at, encoding->number);
}

void encoding_new_decoder_with_bom_removal_into(const Encoding *encoding, Decoder *decoder) {
    encoding_c_at at = decoder_at(decoder);
    encoding_c_new_decoder_with_bom_removal(&at, encoding->number);
}

void encoding_new_decoder_without_bom_handling_into(const Encoding *encoding, Decoder *decoder) {
    encoding_c_at at = decoder_at(decoder);
    encoding_c_new_decoder_without_bom_handling(&at, encoding->number);
}

/* Returns memory with a decoder that `into` makes, or NULL. */
static Decoder *decoder_made(const Encoding *encoding, void (*into)(const Encoding *, Decoder *)) {
    Decoder *decoder = malloc(ENCODING_RS_DECODER_SIZE);
    if (decoder) {
        into(encoding, decoder);
    }
    return decoder;
}

Decoder *encoding_new_decoder(const Encoding *encoding) {
    return decoder_made(encoding, encoding_new_decoder_into);
}

Decoder *encoding_new_decoder_with_bom_removal(const Encoding *encoding) {
    return decoder_made(encoding, encoding_new_decoder_with_bom_removal_into);
}

Decoder *encoding_new_decoder_without_bom_handling(const Encoding *encoding) {
    return decoder_made(encoding, encoding_new_decoder_without_bom_handling_into);
}

void decoder_free(Decoder *decoder) {
    free(decoder);
}

const Encoding *decoder_encoding(const Decoder *decoder) {
    encoding_c_at at = decoder_at(decoder);
    return encoding_with(encoding_c_decoder_encoding(&at));
}

size_t decoder_max_utf8_buffer_length(const Decoder *decoder, size_t byte_length) {
    encoding_c_at at = decoder_at(decoder);
    return encoding_c_max_utf8_buffer_length(&at, byte_length);
}

size_t decoder_max_utf8_buffer_length_without_replacement(const Decoder *decoder,
                                                          size_t byte_length) {
    encoding_c_at at = decoder_at(decoder);
    return encoding_c_max_utf8_buffer_length_without_replacement(&at, byte_length);
}

size_t decoder_max_utf16_buffer_length(const Decoder *decoder, size_t byte_length) {
    encoding_c_at at = decoder_at(decoder);
    return encoding_c_max_utf16_buffer_length(&at, byte_length);
}

uint32_t decoder_decode_to_utf8(Decoder *decoder, const uint8_t *src, size_t *src_len, uint8_t *dst,
                                size_t *dst_len, bool last, bool *had_replacements) {
    encoding_c_at at = decoder_at(decoder);
    encoding_c_outcome outcome =
        encoding_c_decode_to_utf8(&at, bytes_at(src), *src_len, room_at(dst), *dst_len, last);
    *had_replacements = outcome.replaced;
    return result_of(outcome, src_len, dst_len);
}

uint32_t decoder_decode_to_utf16(Decoder *decoder, const uint8_t *src, size_t *src_len,
                                 char16_t *dst, size_t *dst_len, bool last,
                                 bool *had_replacements) {
    encoding_c_at at = decoder_at(decoder);
    encoding_c_outcome outcome = encoding_c_decode_to_utf16(&at, bytes_at(src), *src_len,
                                                            room_of_units_at(dst), *dst_len, last);
    *had_replacements = outcome.replaced;
    return result_of(outcome, src_len, dst_len);
}

uint32_t decoder_decode_to_utf8_without_replacement(Decoder *decoder, const uint8_t *src,
                                                    size_t *src_len, uint8_t *dst, size_t *dst_len,
                                                    bool last) {
    encoding_c_at at = decoder_at(decoder);
    encoding_c_outcome outcome = encoding_c_decode_to_utf8_without_replacement(
        &at, bytes_at(src), *src_len, room_at(dst), *dst_len, last);
    return result_of(outcome, src_len, dst_len);
}

uint32_t decoder_decode_to_utf16_without_replacement(Decoder *decoder, const uint8_t *src,
                                                     size_t *src_len, char16_t *dst,
                                                     size_t *dst_len, bool last) {
    encoding_c_at at = decoder_at(decoder);
    encoding_c_outcome outcome = encoding_c_decode_to_utf16_without_replacement(
        &at, bytes_at(src), *src_len, room_of_units_at(dst), *dst_len, last);
    return result_of(outcome, src_len, dst_len);
}

size_t decoder_latin1_byte_compatible_up_to(const Decoder *decoder, const uint8_t *buffer,
                                            size_t buffer_len) {
    encoding_c_at at = decoder_at(decoder);
    return encoding_c_decoder_latin1_byte_compatible_up_to(&at, bytes_at(buffer), buffer_len);
}

/* -- Encoders -- */

void encoding_new_encoder_into(const Encoding *encoding, Encoder *encoder) {
    encoding_c_at at = encoder_at(encoder);
    encoding_c_new_encoder(&at, encoding->number);
}

Encoder *encoding_new_encoder(const Encoding *encoding) {
    Encoder *encoder = malloc(ENCODING_RS_ENCODER_SIZE);
    if (encoder) {
        encoding_new_encoder_into(encoding, encoder);
    }
    return encoder;
}

void encoder_free(Encoder *encoder) {
    free(encoder);
}

const Encoding *encoder_encoding(const Encoder *encoder) {
    encoding_c_at at = encoder_at(encoder);
    return encoding_with(encoding_c_encoder_encoding(&at));
}

bool encoder_has_pending_state(const Encoder *encoder) {
    encoding_c_at at = encoder_at(encoder);
    return encoding_c_encoder_has_pending_state(&at);
}

size_t encoder_max_buffer_length_from_utf8_if_no_unmappables(const Encoder *encoder,
                                                             size_t byte_length) {
    encoding_c_at at = encoder_at(encoder);
    return encoding_c_max_buffer_length_from_utf8_if_no_unmappables(&at, byte_length);
}

size_t encoder_max_buffer_length_from_utf8_without_replacement(const Encoder *encoder,
                                                               size_t byte_length) {
    encoding_c_at at = encoder_at(encoder);
    return encoding_c_max_buffer_length_from_utf8_without_replacement(&at, byte_length);
}

size_t encoder_max_buffer_length_from_utf16_if_no_unmappables(const Encoder *encoder,
                                                              size_t u16_length) {
    encoding_c_at at = encoder_at(encoder);
    return encoding_c_max_buffer_length_from_utf16_if_no_unmappables(&at, u16_length);
}

size_t encoder_max_buffer_length_from_utf16_without_replacement(const Encoder *encoder,
                                                                size_t u16_length) {
    encoding_c_at at = encoder_at(encoder);
    return encoding_c_max_buffer_length_from_utf16_without_replacement(&at, u16_length);
}

uint32_t encoder_encode_from_utf8(Encoder *encoder, const uint8_t *src, size_t *src_len,
                                  uint8_t *dst, size_t *dst_len, bool last,
                                  bool *had_replacements) {
    encoding_c_at at = encoder_at(encoder);
    encoding_c_outcome outcome =
        encoding_c_encode_from_utf8(&at, bytes_at(src), *src_len, room_at(dst), *dst_len, last);
    *had_replacements = outcome.replaced;
    return result_of(outcome, src_len, dst_len);
}

uint32_t encoder_encode_from_utf8_tested(Encoder *encoder, const uint8_t *src, size_t *src_len,
                                         uint8_t *dst, size_t *dst_len, bool last,
                                         bool *had_replacements) {
    encoding_c_at at = encoder_at(encoder);
    encoding_c_outcome outcome = encoding_c_encode_from_utf8_tested(&at, bytes_at(src), *src_len,
                                                                    room_at(dst), *dst_len, last);
    *had_replacements = outcome.replaced;
    return result_of(outcome, src_len, dst_len);
}

uint32_t encoder_encode_from_utf16(Encoder *encoder, const char16_t *src, size_t *src_len,
                                   uint8_t *dst, size_t *dst_len, bool last,
                                   bool *had_replacements) {
    encoding_c_at at = encoder_at(encoder);
    encoding_c_outcome outcome =
        encoding_c_encode_from_utf16(&at, units_at(src), *src_len, room_at(dst), *dst_len, last);
    *had_replacements = outcome.replaced;
    return result_of(outcome, src_len, dst_len);
}

uint32_t encoder_encode_from_utf8_without_replacement(Encoder *encoder, const uint8_t *src,
                                                      size_t *src_len, uint8_t *dst,
                                                      size_t *dst_len, bool last) {
    encoding_c_at at = encoder_at(encoder);
    encoding_c_outcome outcome = encoding_c_encode_from_utf8_without_replacement(
        &at, bytes_at(src), *src_len, room_at(dst), *dst_len, last);
    return result_of(outcome, src_len, dst_len);
}

uint32_t encoder_encode_from_utf8_without_replacement_tested(Encoder *encoder, const uint8_t *src,
                                                             size_t *src_len, uint8_t *dst,
                                                             size_t *dst_len, bool last) {
    encoding_c_at at = encoder_at(encoder);
    encoding_c_outcome outcome = encoding_c_encode_from_utf8_without_replacement_tested(
        &at, bytes_at(src), *src_len, room_at(dst), *dst_len, last);
    return result_of(outcome, src_len, dst_len);
}

uint32_t encoder_encode_from_utf16_without_replacement(Encoder *encoder, const char16_t *src,
                                                       size_t *src_len, uint8_t *dst,
                                                       size_t *dst_len, bool last) {
    encoding_c_at at = encoder_at(encoder);
    encoding_c_outcome outcome = encoding_c_encode_from_utf16_without_replacement(
        &at, units_at(src), *src_len, room_at(dst), *dst_len, last);
    return result_of(outcome, src_len, dst_len);
}
