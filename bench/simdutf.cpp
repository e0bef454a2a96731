// The twin of `bench calls` over simdutf, for scripts/bench: `simdutf IMPLEMENTATION WAY LEN ROUNDS`.
// Standard input, of 64 KiB at most, is cut into pieces of LEN bytes, each of whole characters. Each
// round converts each piece, as WAY says: `validate` copies UTF-8 once it is known to be
// well-formed, `to-utf16` is from UTF-8 to UTF-16LE, and `from-utf16` back. `valid-utf8` and
// `valid-ascii` only find the longest valid prefix. Standard output is the sum of the lengths and
// of the last units of what each piece gives; of a prefix, of its length. The status is 0; 1 where
// a piece to convert is malformed, since simdutf replaces nothing; 2 where the processor lacks the
// implementation, or an argument is wrong; and 3 where reading fails.
#include <simdutf.h>

#include <cstdint>
#include <cstdio>
#include <cstdlib>
#include <cstring>
#include <optional>
#include <string_view>
#include <type_traits>
#include <unistd.h>

namespace {

constexpr size_t LENGTH = 64 << 10;

alignas(64) char input[LENGTH];
alignas(64) char16_t units[LENGTH];
alignas(64) char bytes[3 * LENGTH / 2];

// The length of what a piece gives, plus its last unit. Nothing, where it gives none.
template <typename Unit>
std::optional<uint64_t> sum(const Unit *made, size_t count) {
    if (count == 0) return std::nullopt;
    return count + static_cast<std::make_unsigned_t<Unit>>(made[count - 1]);
}

std::optional<uint64_t> validate(const simdutf::implementation &simd, const char *piece, size_t length) {
    if (!simd.validate_utf8(piece, length)) return std::nullopt;
    std::memcpy(bytes, piece, length);
    return sum(bytes, length);
}

std::optional<uint64_t> to_utf16(const simdutf::implementation &simd, const char *piece, size_t length) {
    const size_t count = simd.convert_utf8_to_utf16le(piece, length, units);
    return sum(reinterpret_cast<const uint16_t *>(units), count);
}

std::optional<uint64_t> from_utf16(const simdutf::implementation &simd, const char *piece, size_t length) {
    const auto *text = reinterpret_cast<const char16_t *>(piece);
    return sum(bytes, simd.convert_utf16le_to_utf8(text, length / 2, bytes));
}

std::optional<uint64_t> valid_utf8(
    const simdutf::implementation &simd, const char *piece, size_t length) {
    return simd.validate_utf8_with_errors(piece, length).count;
}

std::optional<uint64_t> valid_ascii(
    const simdutf::implementation &simd, const char *piece, size_t length) {
    return simd.validate_ascii_with_errors(piece, length).count;
}

using Way = std::optional<uint64_t> (*)(const simdutf::implementation &, const char *, size_t);

Way way_of(std::string_view name) {
    if (name == "validate") return validate;
    if (name == "to-utf16") return to_utf16;
    if (name == "valid-utf8") return valid_utf8;
    if (name == "valid-ascii") return valid_ascii;
    return name == "from-utf16" ? from_utf16 : nullptr;
}

const simdutf::implementation *implementation_of(std::string_view name) {
    for (const auto *each : simdutf::get_available_implementations()) {
        if (each->name() == name && each->supported_by_runtime_system()) return each;
    }
    return nullptr;
}

// Reads up to the end of the input or of the buffer. The number of bytes, or nothing.
std::optional<size_t> fill() {
    size_t at = 0;
    while (at < LENGTH) {
        const ssize_t count = read(0, input + at, LENGTH - at);
        if (count < 0) return std::nullopt;
        if (count == 0) break;
        at += count;
    }
    return at;
}

// Makes the calls of all rounds, writes the sum, and returns the status.
int run(const simdutf::implementation &simd, Way way, size_t length, uint64_t rounds) {
    const std::optional<size_t> end = fill();
    if (!end) return 3;
    uint64_t total = 0;
    for (uint64_t round = 0; round < rounds; round++) {
        for (size_t at = 0; length <= *end - at; at += length) {
            const std::optional<uint64_t> made = way(simd, input + at, length);
            if (!made) return 1;
            total += *made;
        }
    }
    std::printf("%llu\n", static_cast<unsigned long long>(total));
    return 0;
}

} // namespace

int main(int count, char **words) {
    const Way way = count == 5 ? way_of(words[2]) : nullptr;
    const auto *simd = way ? implementation_of(words[1]) : nullptr;
    const size_t length = simd ? std::strtoull(words[3], nullptr, 10) : 0;
    return length ? run(*simd, way, length, std::strtoull(words[4], nullptr, 10)) : 2;
}
