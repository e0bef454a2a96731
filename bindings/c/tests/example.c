/* Decodes bytes in chunks, as a program would that reads a file. */
#include <encoding_rs.h>
#include <stdio.h>
#include <string.h>

int main(void) {
    static const char label[] = "shift_jis";
    static const uint8_t bytes[] = "\x93\xFA\x96\x7B\x8C\xEA\n";
    const Encoding *encoding = encoding_for_label((const uint8_t *)label, strlen(label));
    Decoder *decoder = encoding_new_decoder(encoding);
    if (!decoder) {
        return 1;
    }
    /* chunks of three bytes, which cut a character */
    for (size_t at = 0; at < sizeof bytes - 1;) {
        uint8_t text[16];
        size_t left = sizeof bytes - 1 - at;
        size_t read = left < 3 ? left : 3, written = sizeof text;
        bool last = read == left, had_replacements;
        decoder_decode_to_utf8(decoder, bytes + at, &read, text, &written, last, &had_replacements);
        fwrite(text, 1, written, stdout);
        at += read;
    }
    decoder_free(decoder);
    return 0;
}
