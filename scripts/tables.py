"""The sources of tables: what indexes, and the standard's arithmetic, make of numbers. For scripts/make-sources.

- crates/enc_index/src/data has of each index its runs, which are its definition: (first pointer, last pointer, first
  code point), where the code points of one pointer after another follow each other. A table has the code point of each
  pointer, and 0 where it is unmapped. A grid, for loops that read two bytes with no branch, has the UTF-8 and the
  UTF-16 of the character at each place: 256 places for single bytes, then the rows of the index, each with an empty
  place after it for bad trail bytes, and then two empty rows for bad lead bytes.
- crates/enc_index_pointers/src/pages has of each look-up of encoders the pages of pointers: a first table says for each
  64 code points which page has their pointers, and a second one has these pages, one after another. The first page has
  none. Of gb18030's ranges it has the runs by code point.
- `computed` has tables that other crates take from the standard's arithmetic, and `private_use` the characters that
  gb18030 writes with two bytes beside its index.
"""

from lists import entries_of, lists, rows_of, single_byte, text_of

BY = "Written by scripts/make-sources"
DATA, PAGES = "crates/enc_index/src/data", "crates/enc_index_pointers/src/pages"
PRIVATE_USE_TEXT = "data/gb18030-private-use.txt"

# Lines are long, since the gate takes the lines of a crate for the work and the memory that it needs: two pages of
# pointers are in one, or the code points of a single-byte index.
RUNS_A_LINE, NUMBERS_A_LINE = 40, 128
# The code points of a page, and those of the table of bytes by code point.
PAGE, DIRECT = 64, 0x800
NO_POINTER, NO_BYTE = 0xFFFF, 0xFF
# The single bytes of a grid, and the empty rows at its end.
SINGLE_BYTES, EMPTY_ROWS = 256, 2
# The last pointer of each range of gb18030 that doesn't end where the next one begins, and the pointer that its encoder
# gives U+E7C7 and no other character.
LAST_OF_RANGES, PRIVATE_USE_POINTER = {39394: 39419, 189000: 1237575}, 7457

INDEXES = {it.name: it for it in lists().indexes}
# The indexes of the legacy single-byte encodings, each named as an encoding. ISO-8859-8-I has that of ISO-8859-8.
SINGLE_BYTE = [it for it in single_byte() if it.index == it.ident]


def runs_of(entries):
    """The entries as runs: first pointer, last pointer, first code point."""
    runs = []
    for pointer, code_point in entries:
        if runs and runs[-1][1] + 1 == pointer and runs[-1][2] + pointer - runs[-1][0] == code_point:
            runs[-1][1] = pointer
        else:
            runs.append([pointer, pointer, code_point])
    return runs


def ranges():
    """The runs of index gb18030 ranges, whose entries are the first pointers of ranges."""
    entries = entries_of("gb18030-ranges")
    starts = [pointer for pointer, _ in entries[1:]]
    lasts = [LAST_OF_RANGES.get(pointer) or after - 1 for (pointer, _), after in zip(entries, starts + [None])]
    return [(pointer, last, code_point) for (pointer, code_point), last in zip(entries, lasts)]


def table_of(name, length):
    """The code points by pointer, and 0 where there is none."""
    found = dict(entries_of(name))
    return [found.get(pointer, 0) for pointer in range(length)]


def characters_of(table):
    """The characters of a table, and the empty text where there is none."""
    return [chr(code_point) if code_point else "" for code_point in table]


def grid_of(index):
    """The characters of an index by their places in its grid, and the empty text at an empty place."""
    characters = characters_of(table_of(index.name, index.length))
    places = [chr(byte) for byte in range(128)] + [""] * (SINGLE_BYTES - 128)
    for start in range(0, index.length, index.width):
        places += characters[start : start + index.width] + [""]
    return places + [""] * (EMPTY_ROWS * (index.width + 1))


def pointers_of(lookup):
    """The pointer of each character that has one, for encoders."""
    found = {}
    for pointer, code_point in entries_of(lookup.index):
        if lookup.counts(pointer) and (code_point not in found or code_point in lookup.last_of):
            found[code_point] = pointer
    return found


def pages_of(found, none):
    """The page of each 64 code points, and the pages, each 64 pointers. The first page has none."""
    page_of = [0] * (max(found) // PAGE + 1)
    pages = [[none] * PAGE]
    for code_point in sorted(found):
        if not page_of[code_point // PAGE]:
            page_of[code_point // PAGE] = len(pages)
            pages.append([none] * PAGE)
        pages[page_of[code_point // PAGE]][code_point % PAGE] = found[code_point]
    return page_of, pages


def single_byte_pages():
    """The pages of each single-byte index for the basic plane, 1024 for each, and the pages, each once."""
    page_of, pages = [], [[NO_BYTE] * PAGE]
    for it in SINGLE_BYTE:
        found = {code_point: pointer for pointer, code_point in reversed(entries_of(it.name.lower()))}
        places, own = pages_of(found, NO_BYTE)
        pages += [page for page in own if page not in pages]
        page_of += [pages.index(own[place]) for place in places] + [0] * (0x10000 // PAGE - len(places))
    return page_of, pages


def direct_bytes(name):
    """The byte of each character below U+0800, and 0 for none."""
    found = {code_point: pointer + 128 for pointer, code_point in reversed(entries_of(name))}
    return list(range(128)) + [found.get(code_point, 0) for code_point in range(128, DIRECT)]


def word_of(character):
    """The UTF-8 of a character, the first byte lowest, and the number of its bytes highest. 0 for more than three."""
    utf8 = character.encode("utf-8")
    return len(utf8) << 24 | int.from_bytes(utf8, "little") if len(utf8) <= 3 else 0


def unit_of(character):
    """The UTF-16 code unit of a character, or 0 if it takes two."""
    return ord(character) if "" < character < "\U00010000" else 0


def items_text(doc, declaration, items, each):
    """A list of data: of a slice, where its type says so, and else of an array."""
    opens = "&[" if "&[" in declaration else "["
    rows = (", ".join(items[start : start + each]) for start in range(0, len(items), each))
    lines = "".join(f"    {row},\n" for row in rows)
    return f"/// {doc}\n#[rattlefmt::skip]\n{declaration} = {opens}\n{lines}];\n"


def runs_text(doc, constant, runs):
    items = [f"({first}, {last}, 0x{code_point:04X})" for first, last, code_point in runs]
    return items_text(doc, f"pub const {constant}: &[(u32, u32, u32)]", items, RUNS_A_LINE)


def array_text(doc, constant, number, numbers, visible="pub", digits=None):
    digits = digits or {"u8": 2, "u16": 4, "u32": 5}[number]
    items = [f"0x{value:0{digits}X}" for value in numbers]
    return items_text(doc, f"{visible} static {constant}: [{number}; {len(numbers)}]", items, NUMBERS_A_LINE)


def words_and_units(constant, characters, of_words, of_units, visible="pub"):
    """The UTF-8 and the UTF-16 of characters."""
    words, units = list(map(word_of, characters)), list(map(unit_of, characters))
    return [array_text(f"The UTF-8 of {of_words}", f"{constant}_WORDS", "u32", words, visible, 8),
            array_text(f"The UTF-16 code unit{of_units}", f"{constant}_UNITS", "u16", units, visible)]


def source(title, text, parts, more=""):
    """A source of data: its title, the text from which it is written, if there is one, and its parts."""
    by = f"{BY} from {text}:\n//! change that text and run the script, and not this file."
    by = by if text else f"{BY}: change the script and run it, and not this file."
    return f"//! {title}\n//!\n//! {by}\n{more}\n" + "\n".join(parts)


OF_RUNS = (
    "//!\n"
    "//! Each run is its first pointer, its last pointer, and the code point of the first. The code\n"
    "//! points of the pointers after it follow one by one.\n"
)
OF_GRIDS = (
    "//!\n"
    "//! A grid has 256 places for single bytes, then the rows of the index with an empty place after\n"
    "//! each, and then two empty rows.\n"
)


def table_source(index):
    by_pointer = f"The code points of index {index.title} by pointer, and 0 where it is unmapped."
    table = table_of(index.name, index.length)
    return source(f"Index {index.title} (Encoding Standard 5).", text_of(index.name), [
        runs_text(f"The runs of index {index.title}.", f"{index.constant}_RUNS", runs_of(entries_of(index.name))),
        array_text(by_pointer, f"{index.constant}_TABLE", index.number, table),
    ], OF_RUNS)


def grid_source(index):
    of_words = "each place: first byte lowest, number of bytes highest. 0 for none or four bytes."
    of_units = " of each place. 0 for none or two units."
    parts = words_and_units(index.constant, grid_of(index), of_words, of_units)
    return source(f"Index {index.title} as a grid (Encoding Standard 5).", text_of(index.name), parts, OF_GRIDS)


def pages_source(lookup):
    page_of, pages = pages_of(pointers_of(lookup), NO_POINTER)
    title = f"Pointers in index {INDEXES[lookup.index].title} (Encoding Standard 5), for {lookup.users}."
    by_place = "64 pointers a page, and 0xFFFF where there is none."
    return source(title, text_of(lookup.index), [
        array_text("The page of each 64 code points.", f"{lookup.constant}_PAGE_OF", "u16", page_of),
        array_text(by_place, f"{lookup.constant}_POINTERS", "u16", sum(pages, [])),
    ])


def ranges_by_code_point():
    title = "Pointers in index gb18030 ranges (Encoding Standard 5)."
    doc = "The ranges without the pointer 7457: first and last code point, and the first one's pointer."
    items = [f"(0x{code_point:04X}, 0x{code_point + last - first:04X}, {first})"
             for first, last, code_point in ranges() if first != PRIVATE_USE_POINTER]
    declaration = "pub const GB18030_RANGES_BY_CODE_POINT: &[(u32, u32, u32)]"
    return source(title, text_of("gb18030-ranges"), [items_text(doc, declaration, items, RUNS_A_LINE)])


def single_byte_sources():
    """The runs, tables, words and units, pages and bytes of all single-byte indexes, one index after another."""
    names = [it.name.lower() for it in SINGLE_BYTE]
    runs = [
        runs_text(f"The runs of the index of {it.name}.", f"{it.constant}_RUNS", runs_of(entries_of(name)))
        for it, name in zip(SINGLE_BYTE, names)
    ]
    tables = [table_of(name, 128) for name in names]
    ascii_bytes = list(map(chr, range(128)))
    by_pointer = "The code points by pointer, 128 for each index, and 0 where a pointer is unmapped."
    by_page = "The page of each 64 code points, 1024 for each index."
    by_place = "The pointers of 64 code points a page, and 0xFF where there is none."
    by_code_point = "The byte of each character below U+0800, 2048 for each index, and 0 for none."
    of_words = "256 bytes for each index: first byte lowest, number of bytes highest. 0 for none."
    characters = sum((ascii_bytes + characters_of(table) for table in tables), [])
    page_of, pages = single_byte_pages()
    encodings, of_index = "the legacy single-byte encodings (Encoding Standard 9", ', "index single-byte").'
    return {
        f"{DATA}/single_byte.rt": source(f"The indexes of {encodings}{of_index}", "data/indexes", [
            *runs, array_text(by_pointer, "SINGLE_BYTE_TABLE", "u16", sum(tables, []))], OF_RUNS),
        f"{DATA}/single_byte_words.rt": source(f"The characters of bytes in {encodings}.1).", "data/indexes",
            words_and_units("SINGLE_BYTE", characters, of_words, "s of 256 bytes for each index. 0 for none.")),
        f"{PAGES}/single_byte.rt": source(f"Pointers in the indexes of {encodings}{of_index}", "data/indexes", [
            array_text(by_page, "SINGLE_BYTE_PAGE_OF", "u8", page_of),
            array_text(by_place, "SINGLE_BYTE_POINTERS", "u8", sum(pages, []))]),
        f"{PAGES}/single_byte_direct.rt": source(f"The bytes of characters in {encodings}.2).", "data/indexes", [
            array_text(by_code_point, "SINGLE_BYTE_DIRECT", "u8", sum(map(direct_bytes, names), []))]),
    }


def data():
    """The sources of data, by path."""
    made = {f"{DATA}/{it.module}.rt": table_source(it) for it in lists().indexes}
    made |= {f"{DATA}/{it.module}_grid.rt": grid_source(it) for it in lists().indexes if it.grid == "grid"}
    made |= {f"{PAGES}/{it.module}.rt": pages_source(it) for it in lists().lookups}
    runs = runs_text("The runs of index gb18030 ranges.", "GB18030_RANGES_RUNS", ranges())
    title = "Index gb18030 ranges (Encoding Standard 5)."
    made[f"{DATA}/gb18030_ranges.rt"] = source(title, text_of("gb18030-ranges"), [runs], OF_RUNS)
    made[f"{PAGES}/gb18030_ranges.rt"] = ranges_by_code_point()
    return made | single_byte_sources()


def ends_of(mask):
    """The ends of four characters, where the bits of a mask say which bytes lead a pair."""
    ends, end = [], 0
    for _ in range(4):
        end += 1 + (mask >> end & 1)
        ends.append(end)
    return ends


def ends_source():
    rows = [str(ends_of(mask)) for mask in range(256)]
    doc = "The offsets at which four characters end, by a mask of the lead bytes among eight bytes."
    ends = items_text(doc, "pub(crate) static ENDS: [[u8; 4]; 256]", rows, 32)
    return source("The ends of characters of one and two bytes.", "", [ends])


def marked_source():
    """The places of the bytes of eight code units that the bits of each mask mark, and zeros up to sixteen places."""
    marked = [[byte for byte in range(16) if mask >> byte // 2 & 1] for mask in range(256)]
    places = [place for those in marked for place in those + [0] * (16 - len(those))]
    doc = "The numbers of the bytes of eight code units that a mask marks: sixteen, the rest 0."
    return source("The places of marked code units.", "", [array_text(doc, "MARKED", "u8", places, "pub(crate)")])


def packed_text(doc, name, rows):
    """Rows of sixteen places of bytes, the last of which are zeros."""
    places = [place for those in rows for place in those + [0] * (16 - len(those))]
    return array_text(doc, name, "u8", places, "pub(crate)")


def lanes_of(width, lens):
    """The places of the first bytes of lanes, as many of each as `lens` says."""
    return [width * lane + byte for lane, count in enumerate(lens) for byte in range(count)]


def pairs_of(mask):
    """The places of eight characters of two bytes, or of one where the bit of the character is set."""
    return lanes_of(2, [2 - (mask >> lane & 1) for lane in range(8)])


def triples_of(mask):
    """The places of four characters of three bytes, less one for each bit that is set of two."""
    return lanes_of(4, [3 - (mask >> 2 * lane & 3).bit_count() for lane in range(4)])


def packed_source():
    """The places of the bytes of characters in lanes, by the masks of those that are left out."""
    masks = range(256)
    return source("The places of the bytes of UTF-8 in lanes.", "", [
        packed_text("Of eight pairs of bytes, by a mask of those whose second byte is left out.", "PAIR_PLACES",
                    map(pairs_of, masks)),
        packed_text("Of four lanes of three bytes, by a mask of two bits each, one for each byte that is left out.",
                    "TRIPLE_PLACES", map(triples_of, masks))])


# The faults of two bytes in UTF-8, each a bit, the lowest first: what they are, the upper and the lower halves that the
# first byte has, and the upper halves that the second has. The last is none within a character of three or four bytes.
CONTINUATION = range(0x8, 0xC)
FAULTS = [
    ("a lead byte, and no continuation byte", range(0xC, 0x10), range(0x10), [*range(0x8), *range(0xC, 0x10)]),
    ("ASCII, and a continuation byte", range(0x8), range(0x10), CONTINUATION),
    ("C0 or C1", [0xC], [0x0, 0x1], CONTINUATION),
    ("E0, and a byte below A0", [0xE], [0x0], [0x8, 0x9]),
    ("ED, and a byte from A0 on", [0xE], [0xD], [0xA, 0xB]),
    ("F0, or F5 and above, and a byte below 90", [0xF], [0x0, *range(0x5, 0x10)], [0x8]),
    ("F4 and above, and a byte from 90 on", [0xF], range(0x4, 0x10), [0x9, 0xA, 0xB]),
    ("two continuation bytes", CONTINUATION, range(0x10), CONTINUATION),
]


def halves_text(doc, constant, halves):
    """The faults that a byte with each half may have part in."""
    faults = [sum(1 << bit for bit, has in enumerate(halves) if half in has) for half in range(0x10)]
    return items_text(doc, f"pub(crate) const {constant}: [u8; 16]", [f"0x{value:02X}" for value in faults], 16)


def utf8_faults_source():
    bits = "".join(f"//! | 0x{1 << bit:02X} | {fault[0]} |\n" for bit, fault in enumerate(FAULTS))
    title = "The faults of two bytes in UTF-8, by their halves. A pair has those that all three tables have."
    return source(title, "", [
        halves_text("By the upper half of the first byte.", "FIRST_UPPER", [fault[1] for fault in FAULTS]),
        halves_text("By the lower half of the first byte.", "FIRST_LOWER", [fault[2] for fault in FAULTS]),
        halves_text("By the upper half of the second byte.", "SECOND_UPPER", [fault[3] for fault in FAULTS]),
    ], f"//!\n//! | Bit | The bytes |\n//! |---|---|\n{bits}")


def user_defined_source():
    """The UTF-8 and the UTF-16 of each byte in x-user-defined."""
    characters = [chr(byte if byte < 128 else 0xF700 + byte) for byte in range(256)]
    of_words = "each byte: first byte lowest, number of bytes highest."
    parts = words_and_units("USER_DEFINED", characters, of_words, " of each byte.", "pub(crate)")
    return source("The characters of bytes in x-user-defined (Encoding Standard 14.5).", "", parts)


def replaced_bytes_source():
    """The UTF-8 and the UTF-16 of each byte in ISO-2022-JP with ASCII designated, in error mode "replacement": U+FFFD for
    a malformed one, and none for 1B."""
    characters = [chr(byte) if byte < 128 else "\uFFFD" for byte in range(256)]
    characters[0x0E] = characters[0x0F] = "\uFFFD"
    characters[0x1B] = ""
    of_words = "each byte: first byte lowest, number of bytes highest. 0 for none."
    parts = words_and_units("REPLACED", characters, of_words, " of each byte. 0 for none.", "pub(crate)")
    title = "The characters of bytes in ASCII, with U+FFFD for malformed ones (Encoding Standard 12.2.1)."
    return source(title, "", parts)


def computed():
    """The tables of other crates, by path."""
    return {
        "crates/enc_decoder_single_byte/src/user_defined_words.rt": user_defined_source(),
        "crates/enc_decoder_iso_2022_jp/src/replaced_bytes.rt": replaced_bytes_source(),
        "crates/enc_utf8/src/ends.rt": ends_source(),
        "crates/enc_utf8/src/packed.rt": packed_source(),
        "crates/enc_output/src/marked.rt": marked_source(),
        "crates/enc_utf8/src/utf8_faults.rt": utf8_faults_source(),
    }


def definition_of(title, doc, name, row_type, rows):
    """A file of definitions with one list of rows."""
    listed = [" ∷ ".join(rows[start : start + 4]) for start in range(0, len(rows), 4)]
    out = f"-- {title}\n-- {BY} from {PRIVATE_USE_TEXT}.\nuse Rattle.std.specs.Prelude.{{ℕ, List, [], ◌∷◌}}\n\n"
    out += f"-- {doc}\nabbrev pub {name} : List ({row_type})\n"
    return out + f"{name} =\n    " + "\n    ∷ ".join(listed) + " ∷ []\n"


def private_use():
    """The characters of private use with two bytes of their own in gb18030, with these, and with those of the index."""
    rows, table = rows_of(PRIVATE_USE_TEXT, 16, 16, 16), dict(entries_of("gb18030"))
    title = "Characters of private use in gb18030 and GBK (Encoding Standard 10.2.2)."
    doc = "A character and its two bytes a row. Index gb18030 has other characters at these bytes."
    items = [f"('\\u{{{code:04X}}}', 0x{lead:02X}, 0x{trail:02X})" for code, lead, trail in rows]
    parts = [items_text(doc, "pub const PRIVATE_USE: &[(char, u8, u8)]", items, 3)]
    in_index = [(code, table[(lead - 0x81) * 190 + trail - (0x40 if trail < 0x7F else 0x41)]) for code, lead, trail in rows]
    return {
        "crates/enc_encode/src/encoders/private_use.rt": source(title, PRIVATE_USE_TEXT, parts),
        "crates/enc_encode/specs/PrivateUse.antt": definition_of(
            'Characters of private use in gb18030 (Encoding Standard 10.2.2, "gb18030 encoder", step 5).',
            "code points, each with its two bytes", "private_use_rows", "ℕ × ℕ × ℕ",
            [f"(0x{code:04X}, 0x{lead:02X}, 0x{trail:02X})" for code, lead, trail in rows]),
        "crates/enc_round_trip/specs/Replaced.antt": definition_of(
            "Characters that gb18030 reads back as others (Encoding Standard 10.2.2, step 5; 10.2.1).",
            "code points, each with that of its bytes in index gb18030", "replaced_characters", "ℕ × ℕ",
            [f"(0x{code:04X}, 0x{other:04X})" for code, other in in_index]),
    }


def sources():
    """Each file, by path."""
    return data() | computed() | private_use()
