/* Makes the calls that lines of standard input list, by encoding_rs.h, and writes an answer for
 * each.
 *
 * crates/conformance_calls/src/calls.rt says how a line stands for a call, and what an answer has.
 * scripts/clients compares the answers with those of the Rust crate encoding_rs. */
#include <stdio.h>
#include <stdlib.h>
#include <string.h>

#include "encoding_rs.h"

enum { ROOM = 4096, WORDS = 9 };

/* A chunk of input: bytes, and the same as code units of UTF-16BE. */
typedef struct Input {
    uint8_t bytes[ROOM];
    char16_t units[ROOM / 2];
    size_t len;
} Input;

/* The output of a call, and what it has done. */
typedef struct Output {
    uint8_t bytes[ROOM];
    char16_t units[ROOM];
    uint32_t result;
    size_t read, written;
    bool replaced, is_utf16;
} Output;

/* How a call is made. */
typedef struct How {
    bool decodes, last, utf16, replaces;
} How;

static Input before, chunk;
static Output output;

static unsigned digit(char c) {
    return c <= '9' ? (unsigned)(c - '0') : (unsigned)(c - 'A' + 10);
}

static void read_input(const char *word, Input *input) {
    size_t count = strcmp(word, "-") ? strlen(word) / 2 : 0;
    input->len = count < ROOM ? count : ROOM;
    for (size_t i = 0; i < input->len; i++) {
        input->bytes[i] = (uint8_t)(16 * digit(word[2 * i]) + digit(word[2 * i + 1]));
    }
    for (size_t i = 0; i < input->len / 2; i++) {
        input->units[i] = (char16_t)(256 * input->bytes[2 * i] + input->bytes[2 * i + 1]);
    }
}

static void print_units(void) {
    for (size_t i = 0; i < output.written; i++) {
        if (output.is_utf16) {
            printf("%04X", (unsigned)output.units[i]);
        } else {
            printf("%02X", output.bytes[i]);
        }
    }
    printf("%s ", output.written ? "" : "-");
}

static void print_name(const Encoding *encoding) {
    uint8_t name[ENCODING_NAME_MAX_LENGTH];
    printf("%.*s ", (int)encoding_name(encoding, name), (const char *)name);
}

static void print_result(How how) {
    if (output.result == INPUT_EMPTY) {
        printf("InputEmpty ");
    } else if (output.result == OUTPUT_FULL) {
        printf("OutputFull ");
    } else if (how.decodes) {
        printf("Malformed(%u,%u) ", (unsigned)(output.result >> 8),
               (unsigned)(output.result & 0xFF));
    } else {
        printf("Unmappable(%04X) ", (unsigned)output.result);
    }
}

/* Decodes `len` bytes into at most `room` units. */
static void decode(Decoder *decoder, const uint8_t *src, size_t len, size_t room, How how) {
    output.read = len;
    output.written = room;
    output.replaced = false;
    output.is_utf16 = how.utf16;
    if (how.utf16 && how.replaces) {
        output.result = decoder_decode_to_utf16(decoder, src, &output.read, output.units,
                                                &output.written, how.last, &output.replaced);
    } else if (how.utf16) {
        output.result = decoder_decode_to_utf16_without_replacement(
            decoder, src, &output.read, output.units, &output.written, how.last);
    } else if (how.replaces) {
        output.result = decoder_decode_to_utf8(decoder, src, &output.read, output.bytes,
                                               &output.written, how.last, &output.replaced);
    } else {
        output.result = decoder_decode_to_utf8_without_replacement(
            decoder, src, &output.read, output.bytes, &output.written, how.last);
    }
}

/* Encodes an input from its unit `from` on into at most `room` bytes. */
static void encode(Encoder *encoder, const Input *input, size_t from, size_t room, How how) {
    output.read = (how.utf16 ? input->len / 2 : input->len) - from;
    output.written = room;
    output.replaced = false;
    output.is_utf16 = false;
    if (how.utf16 && how.replaces) {
        output.result =
            encoder_encode_from_utf16(encoder, input->units + from, &output.read, output.bytes,
                                      &output.written, how.last, &output.replaced);
    } else if (how.utf16) {
        output.result = encoder_encode_from_utf16_without_replacement(
            encoder, input->units + from, &output.read, output.bytes, &output.written, how.last);
    } else if (how.replaces) {
        output.result = encoder_encode_from_utf8_tested(encoder, input->bytes + from, &output.read,
                                                        output.bytes, &output.written, how.last,
                                                        &output.replaced);
    } else {
        output.result = encoder_encode_from_utf8_without_replacement(
            encoder, input->bytes + from, &output.read, output.bytes, &output.written, how.last);
    }
}

/* The answer up to the encoding, which tells whether a rest of the input is to be converted. */
static bool print_outcome(const Encoding *encoding, How how) {
    print_result(how);
    printf("%zu %zu %s ", output.read, output.written,
           how.replaces ? (output.replaced ? "true" : "false") : "-");
    print_units();
    print_name(encoding);
    return how.last && output.result == INPUT_EMPTY;
}

static void print_length(size_t length) {
    printf("%zu ", length == SIZE_MAX ? 0 : length);
}

static void answer_decoding(const Encoding *encoding, const char *marks, size_t room, How how) {
    Decoder *decoder = !strcmp(marks, "sniff") ? encoding_new_decoder(encoding)
                       : !strcmp(marks, "remove")
                           ? encoding_new_decoder_with_bom_removal(encoding)
                           : encoding_new_decoder_without_bom_handling(encoding);
    if (!decoder) {
        abort();
    }
    decode(decoder, before.bytes, before.len, ROOM, (How){true, false, false, true});
    size_t length = how.utf16 ? decoder_max_utf16_buffer_length(decoder, chunk.len)
                    : how.replaces
                        ? decoder_max_utf8_buffer_length(decoder, chunk.len)
                        : decoder_max_utf8_buffer_length_without_replacement(decoder, chunk.len);
    size_t latin1 = decoder_latin1_byte_compatible_up_to(decoder, chunk.bytes, chunk.len);
    decode(decoder, chunk.bytes, chunk.len, room, how);
    size_t from = output.read;
    bool has_ended = print_outcome(decoder_encoding(decoder), how);
    print_length(length);
    printf(latin1 == SIZE_MAX ? "- " : "%zu ", latin1);
    if (has_ended) {
        printf("-");
    } else {
        decode(decoder, chunk.bytes + from, chunk.len - from, ROOM,
               (How){true, true, how.utf16, true});
        print_units();
    }
    printf("\n");
    decoder_free(decoder);
}

static void answer_encoding(const Encoding *encoding, size_t room, How how) {
    Encoder *encoder = encoding_new_encoder(encoding);
    if (!encoder) {
        abort();
    }
    encode(encoder, &before, 0, ROOM, (How){false, false, how.utf16, true});
    size_t units = how.utf16 ? chunk.len / 2 : chunk.len;
    size_t length =
        how.replaces
            ? (how.utf16 ? encoder_max_buffer_length_from_utf16_if_no_unmappables(encoder, units)
                         : encoder_max_buffer_length_from_utf8_if_no_unmappables(encoder, units))
            : (how.utf16 ? encoder_max_buffer_length_from_utf16_without_replacement(encoder, units)
                         : encoder_max_buffer_length_from_utf8_without_replacement(encoder, units));
    bool is_pending = encoder_has_pending_state(encoder);
    encode(encoder, &chunk, 0, room, how);
    size_t from = output.read;
    bool has_ended = print_outcome(encoder_encoding(encoder), how);
    print_length(length);
    printf("%s ", is_pending ? "true" : "false");
    if (has_ended) {
        printf("-");
    } else {
        encode(encoder, &chunk, from, ROOM, (How){false, true, how.utf16, true});
        print_units();
    }
    printf("\n");
    encoder_free(encoder);
}

/* Answers a line, and tells whether it is a call. */
static bool answer(char *line) {
    char *words[WORDS];
    for (int i = 0; i < WORDS; i++) {
        words[i] = strtok(i ? NULL : line, " \n");
        if (!words[i]) {
            return false;
        }
    }
    const Encoding *encoding = encoding_for_label((const uint8_t *)words[1], strlen(words[1]));
    if (!encoding) {
        return false;
    }
    How how = {!strcmp(words[0], "decode"), !strcmp(words[6], "last"), !strcmp(words[7], "utf16"),
               !strcmp(words[8], "replace")};
    size_t room = strtoul(words[5], NULL, 10);
    room = room < ROOM ? room : ROOM;
    read_input(words[3], &before);
    read_input(words[4], &chunk);
    if (how.decodes) {
        answer_decoding(encoding, words[2], room, how);
    } else {
        answer_encoding(encoding, room, how);
    }
    return true;
}

int main(void) {
    static char line[8 * ROOM];
    while (fgets(line, sizeof line, stdin)) {
        if (!answer(line)) {
            puts("?");
        }
    }
    return 0;
}
