// encoding_rs.hpp: the encodings of the WHATWG Encoding Standard, for C++20.
//
// Classes over encoding_rs.h, which says what each call does and what its caller owes. A decoder
// and an encoder are values: they take no memory, and a copy goes on by itself.
#ifndef ENCODING_RS_HPP
#define ENCODING_RS_HPP

#include <array>
#include <cstddef>
#include <cstdint>
#include <optional>
#include <span>
#include <string>
#include <string_view>

// The types of the C interface, whose names are those of the classes here.
#ifndef ENCODING_RS_ENCODING
namespace encoding_rs::raw {
struct Encoding;
struct Decoder;
struct Encoder;
} // namespace encoding_rs::raw
#define ENCODING_RS_ENCODING encoding_rs::raw::Encoding
#define ENCODING_RS_DECODER encoding_rs::raw::Decoder
#define ENCODING_RS_ENCODER encoding_rs::raw::Encoder
#endif
#include "encoding_rs.h"

namespace encoding_rs {

// Bytes of any character type.
inline std::span<const std::uint8_t> bytes_of(std::string_view text) {
    return {reinterpret_cast<const std::uint8_t *>(text.data()), text.size()};
}

inline std::span<std::uint8_t> room_of(std::string &text) {
    return {reinterpret_cast<std::uint8_t *>(text.data()), text.size()};
}

// The outcome of a call: why it stopped, the units read and written, and whether it has replaced a
// malformed sequence or written a reference.
struct Outcome {
    std::uint32_t result;
    std::size_t read;
    std::size_t written;
    bool replaced = false;

    bool is_input_empty() const { return result == INPUT_EMPTY; }
    bool is_output_full() const { return result == OUTPUT_FULL; }
    // Of a malformed sequence: its length, and the number of bytes read after it.
    std::size_t malformed_length() const { return result >> 8; }
    std::size_t bytes_after_malformed() const { return result & 0xFF; }
};

// An encoding.
class Encoding {
  public:
    // Of a constant of encoding_rs_statics.h.
    constexpr Encoding(const ENCODING_RS_ENCODING *encoding) : encoding_(encoding) {}

    static std::optional<Encoding> for_label(std::string_view label) {
        auto bytes = bytes_of(label);
        return found(encoding_for_label(bytes.data(), bytes.size()));
    }

    static std::optional<Encoding> for_label_no_replacement(std::string_view label) {
        auto bytes = bytes_of(label);
        return found(encoding_for_label_no_replacement(bytes.data(), bytes.size()));
    }

    // The encoding and the length of a byte order mark.
    struct Mark;
    static std::optional<Mark> for_bom(std::span<const std::uint8_t> buffer);

    std::string name() const {
        std::array<std::uint8_t, ENCODING_NAME_MAX_LENGTH> name;
        auto length = encoding_name(encoding_, name.data());
        return {name.begin(), name.begin() + length};
    }

    Encoding output_encoding() const { return encoding_output_encoding(encoding_); }
    bool can_encode_everything() const { return encoding_can_encode_everything(encoding_); }
    bool is_ascii_compatible() const { return encoding_is_ascii_compatible(encoding_); }
    bool is_single_byte() const { return encoding_is_single_byte(encoding_); }
    const ENCODING_RS_ENCODING *get() const { return encoding_; }

    // The whole text of bytes in UTF-8, with U+FFFD for each malformed sequence. A byte order mark
    // sets the encoding, and is no part of the text.
    std::string decode(std::string_view bytes) const;

    // The bytes of a whole text in the output encoding, with references for unmappable characters.
    // The text is well-formed UTF-8.
    std::string encode(std::string_view text) const;

    friend bool operator==(Encoding, Encoding) = default;

  private:
    static std::optional<Encoding> found(const ENCODING_RS_ENCODING *encoding) {
        return encoding ? std::optional<Encoding>(encoding) : std::nullopt;
    }

    const ENCODING_RS_ENCODING *encoding_;
};

struct Encoding::Mark {
    Encoding encoding;
    std::size_t length;
};

inline std::optional<Encoding::Mark> Encoding::for_bom(std::span<const std::uint8_t> buffer) {
    auto length = buffer.size();
    const ENCODING_RS_ENCODING *encoding = encoding_for_bom(buffer.data(), &length);
    return encoding ? std::optional<Mark>({encoding, length}) : std::nullopt;
}

// The byte order marks that a decoder looks for: all three, that of its own encoding, or none.
enum class Marks { all, own, none };

// A length to allocate, or nothing where there is none.
inline std::optional<std::size_t> length_or_nothing(std::size_t length) {
    return length == SIZE_MAX ? std::nullopt : std::optional<std::size_t>(length);
}

// Decodes a stream of bytes in chunks.
class Decoder {
  public:
    explicit Decoder(Encoding encoding, Marks marks = Marks::all) {
        if (marks == Marks::all) {
            encoding_new_decoder_into(encoding.get(), get());
        } else if (marks == Marks::own) {
            encoding_new_decoder_with_bom_removal_into(encoding.get(), get());
        } else {
            encoding_new_decoder_without_bom_handling_into(encoding.get(), get());
        }
    }

    Encoding encoding() const { return decoder_encoding(get()); }

    std::optional<std::size_t> max_utf8_buffer_length(std::size_t length) const {
        return length_or_nothing(decoder_max_utf8_buffer_length(get(), length));
    }

    std::optional<std::size_t>
    max_utf8_buffer_length_without_replacement(std::size_t length) const {
        return length_or_nothing(decoder_max_utf8_buffer_length_without_replacement(get(), length));
    }

    std::optional<std::size_t> max_utf16_buffer_length(std::size_t length) const {
        return length_or_nothing(decoder_max_utf16_buffer_length(get(), length));
    }

    std::optional<std::size_t>
    latin1_byte_compatible_up_to(std::span<const std::uint8_t> bytes) const {
        return length_or_nothing(
            decoder_latin1_byte_compatible_up_to(get(), bytes.data(), bytes.size()));
    }

    Outcome decode_to_utf8(std::span<const std::uint8_t> src, std::span<std::uint8_t> dst,
                           bool last) {
        Outcome it{0, src.size(), dst.size()};
        it.result = decoder_decode_to_utf8(get(), src.data(), &it.read, dst.data(), &it.written,
                                           last, &it.replaced);
        return it;
    }

    Outcome decode_to_utf16(std::span<const std::uint8_t> src, std::span<char16_t> dst, bool last) {
        Outcome it{0, src.size(), dst.size()};
        it.result = decoder_decode_to_utf16(get(), src.data(), &it.read, dst.data(), &it.written,
                                            last, &it.replaced);
        return it;
    }

    Outcome decode_to_utf8_without_replacement(std::span<const std::uint8_t> src,
                                               std::span<std::uint8_t> dst, bool last) {
        Outcome it{0, src.size(), dst.size()};
        it.result = decoder_decode_to_utf8_without_replacement(get(), src.data(), &it.read,
                                                               dst.data(), &it.written, last);
        return it;
    }

    Outcome decode_to_utf16_without_replacement(std::span<const std::uint8_t> src,
                                                std::span<char16_t> dst, bool last) {
        Outcome it{0, src.size(), dst.size()};
        it.result = decoder_decode_to_utf16_without_replacement(get(), src.data(), &it.read,
                                                                dst.data(), &it.written, last);
        return it;
    }

  private:
    ENCODING_RS_DECODER *get() { return reinterpret_cast<ENCODING_RS_DECODER *>(room_.data()); }
    const ENCODING_RS_DECODER *get() const {
        return reinterpret_cast<const ENCODING_RS_DECODER *>(room_.data());
    }

    std::array<std::uint64_t, ENCODING_RS_DECODER_SIZE / 8> room_;
};

// Encodes text in chunks.
class Encoder {
  public:
    explicit Encoder(Encoding encoding) { encoding_new_encoder_into(encoding.get(), get()); }

    Encoding encoding() const { return encoder_encoding(get()); }
    bool has_pending_state() const { return encoder_has_pending_state(get()); }

    std::optional<std::size_t>
    max_buffer_length_from_utf8_if_no_unmappables(std::size_t length) const {
        return length_or_nothing(
            encoder_max_buffer_length_from_utf8_if_no_unmappables(get(), length));
    }

    std::optional<std::size_t>
    max_buffer_length_from_utf8_without_replacement(std::size_t length) const {
        return length_or_nothing(
            encoder_max_buffer_length_from_utf8_without_replacement(get(), length));
    }

    std::optional<std::size_t>
    max_buffer_length_from_utf16_if_no_unmappables(std::size_t length) const {
        return length_or_nothing(
            encoder_max_buffer_length_from_utf16_if_no_unmappables(get(), length));
    }

    std::optional<std::size_t>
    max_buffer_length_from_utf16_without_replacement(std::size_t length) const {
        return length_or_nothing(
            encoder_max_buffer_length_from_utf16_without_replacement(get(), length));
    }

    // The text is well-formed UTF-8.
    Outcome encode_from_utf8(std::string_view text, std::span<std::uint8_t> dst, bool last) {
        auto src = bytes_of(text);
        Outcome it{0, src.size(), dst.size()};
        it.result = encoder_encode_from_utf8(get(), src.data(), &it.read, dst.data(), &it.written,
                                             last, &it.replaced);
        return it;
    }

    Outcome encode_from_utf16(std::u16string_view src, std::span<std::uint8_t> dst, bool last) {
        Outcome it{0, src.size(), dst.size()};
        it.result = encoder_encode_from_utf16(get(), src.data(), &it.read, dst.data(), &it.written,
                                              last, &it.replaced);
        return it;
    }

    // The text is well-formed UTF-8.
    Outcome encode_from_utf8_without_replacement(std::string_view text, std::span<std::uint8_t> dst,
                                                 bool last) {
        auto src = bytes_of(text);
        Outcome it{0, src.size(), dst.size()};
        it.result = encoder_encode_from_utf8_without_replacement(get(), src.data(), &it.read,
                                                                 dst.data(), &it.written, last);
        return it;
    }

    Outcome encode_from_utf16_without_replacement(std::u16string_view src,
                                                  std::span<std::uint8_t> dst, bool last) {
        Outcome it{0, src.size(), dst.size()};
        it.result = encoder_encode_from_utf16_without_replacement(get(), src.data(), &it.read,
                                                                  dst.data(), &it.written, last);
        return it;
    }

  private:
    ENCODING_RS_ENCODER *get() { return reinterpret_cast<ENCODING_RS_ENCODER *>(room_.data()); }
    const ENCODING_RS_ENCODER *get() const {
        return reinterpret_cast<const ENCODING_RS_ENCODER *>(room_.data());
    }

    std::array<std::uint64_t, ENCODING_RS_ENCODER_SIZE / 8> room_;
};

// The whole output of a call that is made again until all input is read. `convert` takes the place
// in the input, and the room.
template <typename Convert> std::string whole_output(std::size_t first_room, Convert convert) {
    std::string output(first_room, '\0');
    std::size_t read = 0, written = 0;
    for (;;) {
        Outcome it = convert(read, room_of(output).subspan(written));
        read += it.read;
        written += it.written;
        if (it.is_input_empty()) {
            output.resize(written);
            return output;
        }
        output.resize(output.size() + output.size() / 2 + 32);
    }
}

inline std::string Encoding::decode(std::string_view bytes) const {
    Decoder decoder(*this);
    return whole_output(bytes.size() + 16, [&](std::size_t read, std::span<std::uint8_t> room) {
        return decoder.decode_to_utf8(bytes_of(bytes).subspan(read), room, true);
    });
}

inline std::string Encoding::encode(std::string_view text) const {
    Encoder encoder(*this);
    return whole_output(text.size() + 16, [&](std::size_t read, std::span<std::uint8_t> room) {
        return encoder.encode_from_utf8(text.substr(read), room, true);
    });
}

} // namespace encoding_rs

#endif
