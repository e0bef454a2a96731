// Tries each method of encoding_rs.hpp, and says how many answers are right.
#include <cstdio>
#include <vector>

#include "encoding_rs.hpp"

using namespace encoding_rs;
using namespace std::literals;

static int right, wrong;

static void is(bool holds, int line) {
    if (holds) {
        right++;
    } else {
        wrong++;
        std::printf("line %d is wrong\n", line);
    }
}

#define IS(...) is((__VA_ARGS__), __LINE__)

static void try_encodings() {
    IS(Encoding::for_label(" Latin1\n") == Encoding(WINDOWS_1252_ENCODING));
    IS(!Encoding::for_label("utf-7"));
    IS(!Encoding::for_label("utf-8\0"sv));
    IS(!Encoding::for_label(std::string(1 << 20, 'a')));
    IS(Encoding::for_label("hz-gb-2312") == Encoding(REPLACEMENT_ENCODING));
    IS(!Encoding::for_label_no_replacement("hz-gb-2312"));
    IS(Encoding::for_label_no_replacement("gb2312") == Encoding(GBK_ENCODING));
    auto mark = Encoding::for_bom(bytes_of("\xFE\xFFx"));
    IS(mark && mark->encoding == Encoding(UTF_16BE_ENCODING) && mark->length == 2);
    IS(!Encoding::for_bom({}));
    IS(Encoding(X_MAC_CYRILLIC_ENCODING).name() == "x-mac-cyrillic");
    IS(Encoding(UTF_16LE_ENCODING).output_encoding() == Encoding(UTF_8_ENCODING));
    IS(Encoding(UTF_16LE_ENCODING).can_encode_everything());
    IS(!Encoding(ISO_2022_JP_ENCODING).is_ascii_compatible());
    IS(Encoding(KOI8_U_ENCODING).is_single_byte() && !Encoding(GBK_ENCODING).is_single_byte());
    IS(encoding_utf8_valid_up_to(nullptr, 0) == 0);
    IS(encoding_utf8_valid_up_to((const uint8_t *)"caf\xC3\xA9\xFF", 6) == 5);
    IS(encoding_ascii_valid_up_to((const uint8_t *)"caf\xC3\xA9\xFF", 6) == 3);
    IS(encoding_iso_2022_jp_ascii_valid_up_to((const uint8_t *)"ab\x1B$B", 5) == 2);
}

static void try_whole_texts() {
    IS(Encoding(SHIFT_JIS_ENCODING).decode("\x93\xFA\x96\x7B") == "日本");
    IS(Encoding(WINDOWS_1252_ENCODING).decode("\xFF\xFE\x2C\x67") == "本");
    IS(Encoding(UTF_8_ENCODING).decode("") == "");
    IS(Encoding(BIG5_ENCODING).encode("中文 €!") == "\xA4\xA4\xA4\xE5 \xA3\xE1!");
    IS(Encoding(ISO_8859_2_ENCODING).encode("Łódź €") == "\xA3\xF3"
                                                         "d\xBC &#8364;");
    std::string faults(100'000, '\xFF'), marks;
    for (auto it : faults) {
        (void)it;
        marks += "\xEF\xBF\xBD";
    }
    IS(Encoding(UTF_8_ENCODING).decode(faults) == marks);
}

static void try_decoders() {
    Decoder decoder(SHIFT_JIS_ENCODING);
    std::string text(8, '\0');
    auto it = decoder.decode_to_utf8(bytes_of("a\x93"), room_of(text), false);
    IS(it.is_input_empty() && it.read == 2 && it.written == 1 && !it.replaced);
    Decoder other = decoder;
    it = decoder.decode_to_utf8(bytes_of("\xFA"), room_of(text), true);
    IS(it.is_input_empty() && it.read == 1 && text.substr(0, it.written) == "日");
    it = decoder.decode_to_utf8(bytes_of("a"), room_of(text), true);
    IS(it.result == DECODER_FINISHED && it.read == 0 && it.written == 0);
    IS(!decoder.max_utf8_buffer_length(1));
    // the copy goes on by itself
    it = other.decode_to_utf8_without_replacement(bytes_of("\xFF."), room_of(text), true);
    IS(it.malformed_length() == 2 && it.bytes_after_malformed() == 0 && it.read == 1);
    IS(other.max_utf8_buffer_length(10) == 30 && other.max_utf16_buffer_length(10) == 10);
    IS(other.max_utf8_buffer_length_without_replacement(10) == 30);
    IS(!other.max_utf8_buffer_length(SIZE_MAX / 2));
    Decoder latin(WINDOWS_1252_ENCODING, Marks::none);
    IS(latin.latin1_byte_compatible_up_to(bytes_of("caf\xE9 \x80")) == 5);
    IS(!Decoder(UTF_16LE_ENCODING, Marks::own).latin1_byte_compatible_up_to(bytes_of("a")));
    std::vector<char16_t> units(4);
    it = Decoder(UTF_8_ENCODING).decode_to_utf16(bytes_of("\xF0\x9F\x92\xA9!"), units, true);
    IS(it.written == 3 && units[0] == 0xD83D && units[1] == 0xDCA9 && units[2] == u'!');
    it =
        Decoder(UTF_8_ENCODING).decode_to_utf16_without_replacement(bytes_of("a\xFF"), units, true);
    IS(it.malformed_length() == 1 && it.read == 2 && it.written == 1);
    it = Decoder(UTF_8_ENCODING).decode_to_utf8(bytes_of("a"), {}, true);
    IS(it.is_output_full() && it.read == 0 && it.written == 0);
    Decoder sniffing(UTF_8_ENCODING);
    sniffing.decode_to_utf8(bytes_of("\xFF\xFE"), room_of(text), false);
    IS(sniffing.encoding() == Encoding(UTF_16LE_ENCODING));
}

static void try_encoders() {
    Encoder encoder(ISO_2022_JP_ENCODING);
    std::vector<std::uint8_t> bytes(32);
    auto it = encoder.encode_from_utf8("日", bytes, false);
    IS(it.is_input_empty() && it.written == 5 && encoder.has_pending_state());
    it = encoder.encode_from_utf16(u"日", bytes, true);
    IS(it.is_input_empty() && it.written == 5 && !encoder.has_pending_state());
    IS(encoder.encoding() == Encoding(ISO_2022_JP_ENCODING));
    Encoder koi(KOI8_U_ENCODING);
    IS(koi.encode_from_utf8_without_replacement("є€", bytes, true).result == 0x20AC);
    IS(koi.encode_from_utf16_without_replacement(u"€", bytes, true).result == 0x20AC);
    IS(koi.max_buffer_length_from_utf8_if_no_unmappables(10) == 20);
    IS(koi.max_buffer_length_from_utf8_without_replacement(10) == 10);
    IS(koi.max_buffer_length_from_utf16_if_no_unmappables(10) == 20);
    IS(koi.max_buffer_length_from_utf16_without_replacement(10) == 10);
}

static void try_tested_calls() {
    ENCODING_RS_ENCODER *encoder = encoding_new_encoder(UTF_8_ENCODING);
    std::uint8_t bytes[32];
    const auto *text = (const std::uint8_t *)"a\xFF";
    std::size_t read = 2, written = sizeof bytes;
    bool replaced;
    IS(encoder_encode_from_utf8_tested(encoder, text, &read, bytes, &written, true, &replaced) ==
       TEXT_NOT_UTF8);
    IS(read == 0 && written == 0 && !replaced);
    read = 1, written = sizeof bytes;
    IS(encoder_encode_from_utf8_without_replacement_tested(encoder, text, &read, bytes, &written,
                                                           true) == INPUT_EMPTY);
    IS(read == 1 && written == 1 && bytes[0] == 'a');
    encoder_free(encoder);
}

int main() {
    try_encodings();
    try_whole_texts();
    try_decoders();
    try_encoders();
    try_tested_calls();
    std::printf("%d right, %d wrong\n", right, wrong);
    return wrong != 0;
}
