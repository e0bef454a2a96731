"""The declarations of the exports of crates/encoding_c, in Rattle, C and Rust. For scripts/clients.

What the C header and the Rust package declare is compared with what the sources of the crate say: each function with
its parameters, each struct with its fields, and each number. Spaces and line ends don't matter. The module for pages
declares nothing: its calls are those of exports, and its numbers theirs.
"""

import re

from common import paths, read

SOURCES = "crates/encoding_c/src/*.rt"
HANDLES = "crates/enc_handles/src"
C_HEADER, RUST_SOURCE = "bindings/c/encoding_c.h", "bindings/rust/src/exports.rs"
FOR_PAGES = "bindings/web/encoding.js"

EXPORT = re.compile(r'^pub extern "C" fn (\w+)\(([^)]*)\)(?: -> (\w+))?', re.M)
STRUCT = re.compile(r"^#\[repr\(C\)\]\n#\[derive\(Drop\)\]\npub struct (\w+) \{\n(.*?)^\}", re.M | re.S)
FIELD = re.compile(r"^    pub (\w+): (\w+),", re.M)
NUMBER = re.compile(r"^pub const (\w+): u32 = (\d+);", re.M)

# How a type of Rattle stands in C and in Rust; the name of a parameter or a field stands for `{}`.
C_TYPES = {
    "u32": "uint32_t {}", "usize": "size_t {}", "bool": "bool {}", "Outcome": "encoding_c_outcome {}",
    "Mark": "encoding_c_mark {}", "&[u8]": "const uint8_t *{0}, size_t {0}_len",
    "&[u16]": "const uint16_t *{0}, size_t {0}_len", "&mut [u8]": "uint8_t *{0}, size_t {0}_len",
    "&mut [u16]": "uint16_t *{0}, size_t {0}_len", "&mut DecoderAt": "encoding_c_at *{}",
    "&mut EncoderAt": "encoding_c_at *{}",
}
RUST_TYPES = {
    "u32": "{}: u32", "usize": "{}: usize", "bool": "{}: bool", "Outcome": "{}: Outcome", "Mark": "{}: Mark",
    "&[u8]": "{0}: *const u8, {0}_len: usize", "&[u16]": "{0}: *const u16, {0}_len: usize",
    "&mut [u8]": "{0}: *mut u8, {0}_len: usize", "&mut [u16]": "{0}: *mut u16, {0}_len: usize",
    "&mut DecoderAt": "{}: *mut At", "&mut EncoderAt": "{}: *mut At",
}
# The exports that the Rust package has no use for: its names are statics, and a `str` is well-formed.
NOT_IN_RUST = ("encoding_c_name", "encoding_c_encode_from_utf8_tested",
               "encoding_c_encode_from_utf8_without_replacement_tested")


def joined(text):
    """A declaration in one line."""
    return re.sub(r",? \)", ")", re.sub(r"\s+", " ", text).replace("( ", "(")).strip()


def exports():
    """Each export: its name, its parameters as pairs of a name and a type, and the type of its result."""
    found = []
    for path in paths(SOURCES):
        for name, parameters, result in EXPORT.findall(read(path)):
            pairs = re.findall(r"(\w+): (&(?:mut )?\[\w+\]|(?:&mut )?\w+)", parameters)
            found.append((name, pairs, result))
    return found


def in_c(name, pairs, result):
    parameters = ", ".join(C_TYPES[kind].format(it) for it, kind in pairs) or "void"
    return C_TYPES[result].format(f"{name}({parameters})") + ";"


def in_rust(name, pairs, result):
    parameters = ", ".join(RUST_TYPES[kind].format(it) for it, kind in pairs)
    return f"pub(crate) fn {name}({parameters}) -> {result};"


def structs():
    """The fields of each struct that an export returns, as pairs of a name and a type."""
    texts = [read(path) for path in (*paths(SOURCES), f"{HANDLES}/outcome.rt")]
    return {name: FIELD.findall(fields) for text in texts for name, fields in STRUCT.findall(text)}


def numbers():
    """The numbers of why a call stops, and that of no encoding."""
    return [*NUMBER.findall(read(f"{HANDLES}/outcome.rt")), *NUMBER.findall(read(f"{HANDLES}/numbers.rt"))]


def faults_of_c():
    """What the C header lacks, and what it declares beside the exports."""
    text = re.sub(r"/\*.*?\*/", "", read(C_HEADER), flags=re.S)
    there = {joined(it) for it in re.findall(r"^\w[\w ]*\s\bencoding_c_\w+\([^;]*;", text, re.M)}
    wanted = {in_c(*it) for it in exports()}
    for name, fields in structs().items():
        lines = " ".join(C_TYPES[kind].format(it) + ";" for it, kind in fields)
        wanted.add(f"encoding_c_{name.lower()} {{ {lines} }}")
    bodies = re.findall(r"^typedef struct (\w+) (\{.*?^\})", text, re.M | re.S)
    there |= {f"{name} {joined(body)}" for name, body in bodies if name != "encoding_c_at"}
    listed = re.search(r"enum encoding_c_stop \{(.*?)\}", text, re.S)[1]
    there |= {(it.strip(), str(place)) for place, it in enumerate(listed.split(",")) if it.strip()}
    there |= set(re.findall(r"^#define (ENCODING_C_NONE) (\d+)", text, re.M))
    wanted |= {(f"ENCODING_C_{name}".replace("NO_ENCODING", "NONE"), value) for name, value in numbers()}
    return differences(C_HEADER, wanted, there)


def faults_of_rust():
    """What the Rust package lacks, and what it declares beside the exports."""
    text = read(RUST_SOURCE)
    there = {joined(it) for it in re.findall(r"pub\(crate\) fn [^;]*;", text)}
    wanted = {in_rust(*it) for it in exports() if it[0] not in NOT_IN_RUST}
    for name, fields in structs().items():
        lines = ", ".join(f"pub(crate) {it}: {kind}" for it, kind in fields)
        wanted.add(f"{name} {{ {lines}, }}")
    there |= {f"{name} {joined(body)}" for name, body in re.findall(r"struct (\w+) (\{.*?\})", text, re.S)}
    own = dict(re.findall(r"pub\(crate\) const (\w+): u32 = (\d+);", text))
    there |= set(own.items())
    wanted |= {it for it in numbers() if it[0] in own}
    return differences(RUST_SOURCE, wanted, there)


def faults_of_pages():
    """The calls of the module for pages that are no exports, and its numbers that are not theirs."""
    text, known = read(FOR_PAGES), {name.replace("NO_ENCODING", "NONE"): value for name, value in numbers()}
    calls = set(re.findall(r"\bencoding_c_\w+", text)) - {name for name, _, _ in exports()}
    own = [it for it in re.findall(r"\b([A-Z_]+) = (\d+)[,;]", text) if known.get(it[0], it[1]) != it[1]]
    return [f"{FOR_PAGES} has {it}, which is no export's" for it in sorted(map(str, [*calls, *own]))]


def differences(path, wanted, there):
    lacking = [f"{path} lacks {it}" for it in sorted(map(str, wanted - there))]
    return lacking + [f"{path} has {it}, which is no export's" for it in sorted(map(str, there - wanted))]


def compared():
    """How many declarations there are, and what differs."""
    return len(exports()) + len(structs()) + len(numbers()), faults_of_c() + faults_of_rust() + faults_of_pages()
