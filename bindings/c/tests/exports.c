/* Calls each export of crates/encoding_c, and says how many answers are right: those that are
 * wanted of it, and those to bad input. The wanted values are those of the Encoding Standard, by
 * hand. */
#include <stdio.h>
#include <stdlib.h>
#include <string.h>

#include "encoding_c.h"

enum { UTF_8 = 0, ISO_8859_2 = 2, KOI8_U = 16, WINDOWS_1252 = 21, GBK = 29, ISO_2022_JP = 33 };
enum { SHIFT_JIS = 34, REPLACEMENT = 36, UTF_16BE = 37, UTF_16LE = 38, X_USER_DEFINED = 39 };
enum { UNKNOWN = 40, ROOM = 32, MEGABYTE = 1 << 20 };

static int right, wrong;
static uint64_t decoder_room[2], encoder_room[8];
static encoding_c_at decoder = {decoder_room}, encoder = {encoder_room};
static uint8_t bytes[ROOM];
static uint16_t units[ROOM];

static void is(bool holds, int line) {
    if (holds) {
        right++;
    } else {
        wrong++;
        printf("line %d is wrong\n", line);
    }
}

#define IS(holds) is((holds), __LINE__)

/* A text as bytes, and its length. */
#define TEXT(text) (const uint8_t *)(text), sizeof(text) - 1

/* Whether a call has stopped so, and has read and written that much. */
static bool has(encoding_c_outcome it, uint32_t stop, size_t read, size_t written, bool replaced) {
    return it.stop == stop && it.read == read && it.written == written && it.replaced == replaced;
}

static bool has_written(const char *text) {
    return !memcmp(bytes, text, strlen(text));
}

static void try_labels(void) {
    IS(encoding_c_for_label(TEXT(" Latin1\n")) == WINDOWS_1252);
    IS(encoding_c_for_label(TEXT("hz-gb-2312")) == REPLACEMENT);
    IS(encoding_c_for_label(TEXT("utf-7")) == ENCODING_C_NONE);
    IS(encoding_c_for_label(TEXT("utf-8\0")) == ENCODING_C_NONE);
    IS(encoding_c_for_label(TEXT("")) == ENCODING_C_NONE);
    IS(encoding_c_for_label_no_replacement(TEXT("hz-gb-2312")) == ENCODING_C_NONE);
    IS(encoding_c_for_label_no_replacement(TEXT("gb2312")) == GBK);
    uint8_t *label = malloc(MEGABYTE);
    if (!label) {
        abort();
    }
    memset(label, 'a', MEGABYTE);
    IS(encoding_c_for_label(label, MEGABYTE) == ENCODING_C_NONE);
    memset(label, ' ', MEGABYTE);
    memcpy(label + MEGABYTE / 2, "x-user-defined", 14);
    IS(encoding_c_for_label(label, MEGABYTE) == X_USER_DEFINED);
    free(label);
}

static void try_encodings(void) {
    encoding_c_mark mark = encoding_c_for_bom(TEXT("\xFE\xFFx"));
    IS(mark.encoding == UTF_16BE && mark.len == 2);
    mark = encoding_c_for_bom(TEXT("\xEF\xBB"));
    IS(mark.encoding == ENCODING_C_NONE && mark.len == 0);
    IS(encoding_c_name(SHIFT_JIS, bytes, 9) == 9 && has_written("Shift_JIS"));
    IS(encoding_c_name(X_USER_DEFINED, bytes, 13) == 0 && has_written("Shift_JIS"));
    IS(encoding_c_name(UNKNOWN, bytes, ROOM) == 0 && has_written("Shift_JIS"));
    IS(encoding_c_output_encoding(UTF_16LE) == UTF_8);
    IS(encoding_c_output_encoding(KOI8_U) == KOI8_U);
    IS(encoding_c_output_encoding(UNKNOWN) == ENCODING_C_NONE);
    IS(encoding_c_can_encode_everything(UTF_16BE) && !encoding_c_can_encode_everything(GBK));
    IS(!encoding_c_can_encode_everything(UNKNOWN));
    IS(encoding_c_is_ascii_compatible(GBK) && !encoding_c_is_ascii_compatible(UTF_16LE));
    IS(!encoding_c_is_ascii_compatible(UNKNOWN));
    IS(encoding_c_is_single_byte(KOI8_U) && !encoding_c_is_single_byte(GBK));
    IS(!encoding_c_is_single_byte(UINT32_MAX));
    IS(encoding_c_utf8_valid_up_to(TEXT("ab\x1B\xC3\xA9\xFF")) == 5);
    IS(encoding_c_ascii_valid_up_to(TEXT("ab\x1B\xC3\xA9\xFF")) == 3);
    IS(encoding_c_iso_2022_jp_ascii_valid_up_to(TEXT("ab\x1B\xC3\xA9\xFF")) == 2);
}

static void try_new_decoders(void) {
    IS(encoding_c_decoder_size() <= sizeof decoder_room);
    IS(encoding_c_new_decoder(&decoder, WINDOWS_1252));
    encoding_c_outcome it =
        encoding_c_decode_to_utf8(&decoder, TEXT("\xFE\xFF"), bytes, ROOM, false);
    IS(has(it, ENCODING_C_INPUT_EMPTY, 2, 0, false));
    IS(encoding_c_decoder_encoding(&decoder) == UTF_16BE);
    IS(encoding_c_new_decoder_with_bom_removal(&decoder, UTF_16LE));
    it = encoding_c_decode_to_utf8(&decoder,
                                   TEXT("\xFF\xFE"
                                        "a\0"),
                                   bytes, ROOM, true);
    IS(has(it, ENCODING_C_INPUT_EMPTY, 4, 1, false) && has_written("a"));
    IS(encoding_c_new_decoder_with_bom_removal(&decoder, WINDOWS_1252));
    it = encoding_c_decode_to_utf8(&decoder, TEXT("\xFE\xFF"), bytes, ROOM, true);
    IS(has(it, ENCODING_C_INPUT_EMPTY, 2, 4, false));
    IS(encoding_c_new_decoder_without_bom_handling(&decoder, UTF_8));
    it = encoding_c_decode_to_utf8(&decoder, TEXT("\xEF\xBB\xBF"), bytes, ROOM, true);
    IS(has(it, ENCODING_C_INPUT_EMPTY, 3, 3, false));
    uint64_t before[2] = {decoder_room[0], decoder_room[1]};
    IS(!encoding_c_new_decoder(&decoder, UNKNOWN));
    IS(!encoding_c_new_decoder_with_bom_removal(&decoder, ENCODING_C_NONE));
    IS(!encoding_c_new_decoder_without_bom_handling(&decoder, UINT32_MAX));
    IS(!memcmp(before, decoder_room, sizeof before));
}

static void try_decoding(void) {
    encoding_c_new_decoder(&decoder, SHIFT_JIS);
    IS(!encoding_c_decoder_is_finished(&decoder));
    encoding_c_outcome it = encoding_c_decode_to_utf8(&decoder, TEXT("a\x93"), bytes, ROOM, false);
    IS(has(it, ENCODING_C_INPUT_EMPTY, 2, 1, false));
    it = encoding_c_decode_to_utf8(&decoder, TEXT("\xFA!"), bytes, 3, false);
    IS(has(it, ENCODING_C_OUTPUT_FULL, 1, 3, false) && has_written("日"));
    it = encoding_c_decode_to_utf8(&decoder, TEXT("\xFF"), bytes, 0, false);
    IS(has(it, ENCODING_C_OUTPUT_FULL, 0, 0, false));
    it =
        encoding_c_decode_to_utf8_without_replacement(&decoder, TEXT("a\x81 "), bytes, ROOM, false);
    IS(has(it, ENCODING_C_REPORTED, 2, 1, false) && it.report == 0x100);
    it = encoding_c_decode_to_utf8_without_replacement(&decoder, TEXT(" \x93"), bytes, ROOM, false);
    IS(has(it, ENCODING_C_INPUT_EMPTY, 2, 1, false));
    it = encoding_c_decode_to_utf8_without_replacement(&decoder, TEXT("\xFA"), bytes, ROOM, false);
    IS(has(it, ENCODING_C_INPUT_EMPTY, 1, 3, false) && has_written("日"));
    it = encoding_c_decode_to_utf16(&decoder, TEXT("\xFF\x93\xFA"), units, ROOM, false);
    IS(has(it, ENCODING_C_INPUT_EMPTY, 3, 2, true) && units[0] == 0xFFFD && units[1] == 0x65E5);
    it = encoding_c_decode_to_utf16_without_replacement(&decoder, TEXT("a\x93"), units, ROOM, true);
    IS(has(it, ENCODING_C_REPORTED, 2, 1, false) && it.report == 0x100 && units[0] == 'a');
    it = encoding_c_decode_to_utf16_without_replacement(&decoder, TEXT("b"), units, ROOM, true);
    IS(has(it, ENCODING_C_INPUT_EMPTY, 1, 1, false));
    IS(encoding_c_decoder_is_finished(&decoder));
    /* a lead byte of four bytes is malformed if the fourth is wrong, and two are read after it */
    encoding_c_new_decoder(&decoder, GBK);
    it = encoding_c_decode_to_utf8_without_replacement(&decoder,
                                                       TEXT("\x81\x30\x81"
                                                            "a"),
                                                       bytes, ROOM, true);
    IS(has(it, ENCODING_C_REPORTED, 3, 0, false) && it.report == 0x102);
}

static void try_a_finished_decoder(void) {
    encoding_c_new_decoder(&decoder, UTF_8);
    encoding_c_decode_to_utf8(&decoder, TEXT(""), bytes, ROOM, true);
    IS(has(encoding_c_decode_to_utf8(&decoder, TEXT("a"), bytes, ROOM, true), ENCODING_C_FINISHED,
           0, 0, false));
    IS(has(encoding_c_decode_to_utf16(&decoder, TEXT("a"), units, ROOM, true), ENCODING_C_FINISHED,
           0, 0, false));
    IS(has(encoding_c_decode_to_utf8_without_replacement(&decoder, TEXT("a"), bytes, ROOM, false),
           ENCODING_C_FINISHED, 0, 0, false));
    IS(has(encoding_c_decode_to_utf16_without_replacement(&decoder, TEXT("a"), units, ROOM, false),
           ENCODING_C_FINISHED, 0, 0, false));
    IS(encoding_c_max_utf8_buffer_length(&decoder, 1) == ENCODING_C_NO_LENGTH);
    IS(encoding_c_max_utf16_buffer_length(&decoder, 1) == ENCODING_C_NO_LENGTH);
    IS(encoding_c_max_utf8_buffer_length_without_replacement(&decoder, 1) == ENCODING_C_NO_LENGTH);
    IS(encoding_c_decoder_latin1_byte_compatible_up_to(&decoder, TEXT("a")) ==
       ENCODING_C_NO_LENGTH);
}

static void try_lengths(void) {
    encoding_c_new_decoder_without_bom_handling(&decoder, WINDOWS_1252);
    IS(encoding_c_decoder_latin1_byte_compatible_up_to(&decoder, TEXT("caf\xE9 \x80")) == 5);
    IS(encoding_c_max_utf16_buffer_length(&decoder, 10) == 10);
    encoding_c_new_decoder_without_bom_handling(&decoder, UTF_8);
    IS(encoding_c_max_utf8_buffer_length(&decoder, 10) == 33);
    IS(encoding_c_max_utf8_buffer_length_without_replacement(&decoder, 10) == 13);
    IS(encoding_c_max_utf8_buffer_length(&decoder, SIZE_MAX) == ENCODING_C_NO_LENGTH);
    encoding_c_new_encoder(&encoder, KOI8_U);
    IS(encoding_c_max_buffer_length_from_utf8_if_no_unmappables(&encoder, 10) == 20);
    IS(encoding_c_max_buffer_length_from_utf8_without_replacement(&encoder, 10) == 10);
    encoding_c_new_encoder(&encoder, SHIFT_JIS);
    IS(encoding_c_max_buffer_length_from_utf8_without_replacement(&encoder, 10) == 10);
    IS(encoding_c_max_buffer_length_from_utf16_if_no_unmappables(&encoder, 10) == 30);
    IS(encoding_c_max_buffer_length_from_utf16_without_replacement(&encoder, 10) == 20);
    IS(encoding_c_max_buffer_length_from_utf16_without_replacement(&encoder, SIZE_MAX) ==
       ENCODING_C_NO_LENGTH);
}

static void try_encoding(void) {
    static const uint16_t text[] = {0x65E5, 0xD83D};
    IS(encoding_c_encoder_size() <= sizeof encoder_room);
    IS(encoding_c_new_encoder(&encoder, ISO_2022_JP));
    IS(encoding_c_encoder_encoding(&encoder) == ISO_2022_JP &&
       !encoding_c_encoder_has_pending_state(&encoder));
    encoding_c_outcome it = encoding_c_encode_from_utf8(&encoder, TEXT("日"), bytes, ROOM, false);
    IS(has(it, ENCODING_C_INPUT_EMPTY, 3, 5, false) && has_written("\x1B$BF|"));
    IS(encoding_c_encoder_has_pending_state(&encoder));
    it = encoding_c_encode_from_utf16(&encoder, text, 2, bytes, ROOM, true);
    IS(has(it, ENCODING_C_INPUT_EMPTY, 2, 13, true) && has_written("F|\x1B(B&#65533;"));
    it = encoding_c_encode_from_utf16(&encoder, text, 1, bytes, ROOM, true);
    IS(has(it, ENCODING_C_INPUT_EMPTY, 1, 8, false));
    encoding_c_new_encoder(&encoder, KOI8_U);
    it = encoding_c_encode_from_utf8_without_replacement(&encoder, TEXT("є€!"), bytes, ROOM, false);
    IS(has(it, ENCODING_C_REPORTED, 5, 1, false) && it.report == 0x20AC && bytes[0] == 0xA4);
    it = encoding_c_encode_from_utf16_without_replacement(&encoder, text, 1, bytes, ROOM, false);
    IS(has(it, ENCODING_C_REPORTED, 1, 0, false) && it.report == 0x65E5);
    it = encoding_c_encode_from_utf8(&encoder, TEXT("a"), bytes, 9, false);
    IS(has(it, ENCODING_C_OUTPUT_FULL, 0, 0, false));
    encoding_c_new_encoder(&encoder, ISO_2022_JP);
    it = encoding_c_encode_from_utf8_without_replacement(&encoder, TEXT("日"), bytes, ROOM, true);
    IS(has(it, ENCODING_C_INPUT_EMPTY, 3, 8, false));
    it = encoding_c_encode_from_utf16_without_replacement(&encoder, text, 1, bytes, ROOM, true);
    IS(has(it, ENCODING_C_INPUT_EMPTY, 1, 8, false));
    uint64_t before[8];
    memcpy(before, encoder_room, sizeof before);
    IS(!encoding_c_new_encoder(&encoder, UNKNOWN) && !memcmp(before, encoder_room, sizeof before));
}

static void try_tested_text(void) {
    encoding_c_new_encoder(&encoder, ISO_2022_JP);
    encoding_c_outcome it =
        encoding_c_encode_from_utf8_tested(&encoder, TEXT("日\xFF"), bytes, ROOM, true);
    IS(has(it, ENCODING_C_NOT_UTF8, 0, 0, false));
    it = encoding_c_encode_from_utf8_tested(&encoder, TEXT("€日"), bytes, ROOM, false);
    IS(has(it, ENCODING_C_INPUT_EMPTY, 6, 12, true));
    it = encoding_c_encode_from_utf8_without_replacement_tested(&encoder, TEXT("\xED\xA0\x80"),
                                                                bytes, ROOM, true);
    IS(has(it, ENCODING_C_NOT_UTF8, 0, 0, false));
    it = encoding_c_encode_from_utf8_without_replacement_tested(&encoder, TEXT("日"), bytes, ROOM,
                                                                true);
    IS(has(it, ENCODING_C_INPUT_EMPTY, 3, 5, false));
}

int main(void) {
    try_labels();
    try_encodings();
    try_new_decoders();
    try_decoding();
    try_a_finished_decoder();
    try_lengths();
    try_encoding();
    try_tested_text();
    printf("%d right, %d wrong\n", right, wrong);
    return wrong != 0;
}
