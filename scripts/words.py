"""The words of templates: what sources say of each encoding, codec, index and look-up. For scripts/make-sources.

A word is a text, and a list has words for each of its items. Both have the names by which data/templates call them.
"""

import textwrap

from common import paths, read
from lists import byte_ranges, constant_of, encodings, entries_of, first_of, labels_of, lists, pairs_of, snake_of
from lists import texts_of_encodings
from tables import BY, DATA, INDEXES, NO_POINTER, PAGE, PAGES, SINGLE_BYTE, pages_of, pointers_of, runs_of, sources

POINTERS = "crates/enc_index_pointers/src/pointers"
# The fewest letters in a row that are worth lanes.
LEAST_LETTERS = 16


def names_of(ident, constant):
    return {"Name": ident, "NAME": constant, "name": constant.lower()}


def words_of_labels(labels):
    """Labels as the words of a definition."""
    lines = textwrap.wrap(" ".join(labels), 88, break_on_hyphens=False)
    if len(lines) == 1:
        return f' words "{lines[0]}"'
    return "\n    " + "\n    ++ ".join(f'words "{line}"' for line in lines)


def words_of_encoding(it, number):
    index_in_code = f"(SingleByteIndex::{it.index})" if it.index else ""
    return names_of(it.ident, it.constant) | {
        "title": it.name, "section": it.section, "number": number,
        "about": textwrap.indent(textwrap.fill(texts_of_encodings()[it.name], 96, break_on_hyphens=False), "/// "),
        "codec_in_code": f"Codec::{it.codec}{index_in_code}",
        "codec_in_spec": f"codec.{it.codec}" + (f" index.{it.index}" if it.index else ""),
        "Output": "Utf8" if it.writes_utf_8 else it.ident,
        "OUTPUT": "UTF_8" if it.writes_utf_8 else it.constant,
        "ascii_compatible": str("ascii-compatible" in it.properties).lower(),
        "single_byte": str("single-byte" in it.properties).lower(),
        "labels": " ".join(it.labels), "words_of_labels": words_of_labels(it.labels),
    }


def pattern(those):
    """The pattern of an arm for these encodings."""
    return " | ".join(f"Self::{it.ident}" for it in those)


def taken_labels():
    """The labels that recode takes, in lines: names of encodings in lower case first, and then the others."""
    taken = [it for it in encodings() if it.codec != "Replacement"]
    names = [it.name.lower() for it in taken]
    every = " ".join(names + [it for it in labels_of(taken) if it not in names])
    return textwrap.indent(textwrap.fill(every, 96, break_on_hyphens=False), "    ")


def of_encodings():
    every = encodings()
    by_label = [{"label": label, "Name": it.ident, "number": every.index(it)} for label, it in pairs_of(every)]
    ordered = [it["label"] for it in by_label]
    return {
        "encodings": [words_of_encoding(it, number) for number, it in enumerate(every)], "encoding_count": len(every),
        "labels_in_order": by_label, "label_count": len(by_label), "longest_label": max(map(len, ordered)),
        "longest_name": max(len(it.name) for it in every),
        "words_in_order": words_of_labels(ordered), "taken_labels": taken_labels(),
        "those_that_write_utf_8": pattern([it for it in every if it.writes_utf_8]),
        "those_not_ascii_compatible": pattern([it for it in every if "ascii-compatible" not in it.properties]),
        "those_not_single_byte": pattern([it for it in every if "single-byte" not in it.properties]),
    }


# What `new` of a decoder takes, if it takes something.
ARGUMENTS = {"Utf16Be": "true", "Utf16Le": "false", "SingleByte": "WINDOWS_1252"}


def words_of_codec(it):
    own = first_of(it.name)
    decoder = it.decoder if it.decoder == it.name or it.recipe in "CD" else None
    as_another = f", which decodes as {first_of(decoder).name} does" if decoder and it.decoder != it.name else ""
    return names_of(it.name, constant_of(it.name)) | {
        "title": own.name, "section": own.section, "as_another": as_another,
        "Decoder": it.decoder, "decoder": constant_of(decoder).lower() if decoder else snake_of(it.decoder),
        "Encoder": it.encoder, "lengths": it.byte_lengths,
        "pattern": f"Codec::{it.name}" + ("(_)" if it.name == "SingleByte" else ""),
        "arguments": ARGUMENTS.get(it.name, ""), "sample": f"samples::{constant_of(it.name)}",
        "encoder_name": f'Some("{it.encoder}")' if it.encoder != "-" else "None",
    }


def each_once(every, which):
    """The first codec of each decoder or encoder."""
    first = {it[which]: it for it in reversed(list(every)) if it[which] != "-"}
    return [it for it in every if first.get(it[which]) is it]


def with_titles(every, which):
    """The decoders or the encoders of some codecs, each once, with the titles of all codecs that have it."""
    found = [it for it in every if it[which] == it["Name"]]
    titles = {it["Name"]: [other["title"] for other in every if other[which] == it["Name"]] for it in found}
    return [it | {"titles": " and ".join(sorted(titles[it["Name"]], key=lambda title: title != it["title"]))} for it in found]


def words_of_pairs(it, codec):
    """The words of an encoding of two bytes: its index, its leads and its trails."""
    index = INDEXES[it.index]
    (lead, last_lead), (trail, last_trail) = byte_ranges(it.leads)[0], byte_ranges(it.trails)[0]
    numbers = {"first_lead": lead, "last_lead": last_lead, "first_trail": trail, "last_trail": last_trail}
    return codec | {name: f"0x{byte:02X}" for name, byte in numbers.items()} | {
        "index": index.module, "rows": index.rows, "width": index.width, "places": index.width + 1, "length": index.length,
    }


def of_codecs():
    every = {it.name: words_of_codec(it) for it in lists().codecs}
    multi = [every[it.name] for it in lists().codecs if it.recipe in "CD"]
    decoders, encoders = with_titles(multi, "Decoder"), with_titles(multi, "Encoder")
    of_pairs = {it.name for it in lists().codecs if it.recipe == "C"}
    return {
        "codecs": list(every.values()),
        "decoders": [{"Name": it["Decoder"], "name": it["decoder"]} for it in each_once(every.values(), "Decoder")],
        "encoders": [{"Name": it["Encoder"]} for it in each_once(every.values(), "Encoder")],
        "multi_byte_codecs": multi, "multi_byte_decoders": decoders,
        "double_byte_decoders": [it for it in decoders if it["Name"] in of_pairs],
        "multi_byte_encoders": encoders,
        "double_byte_encoders": [it for it in encoders if it["lengths"] == "TwoBytes"],
        "plain_pairs": [words_of_pairs(it, every[it.decoder]) for it in lists().pairs if it.is_plain],
    }


def depth(length):
    """How often a list of this length is halved."""
    return (length - 1).bit_length()


def words_of_index(it):
    """The words of an index. The list `grid` has it if it has a grid."""
    character_in = "character_in" if it.planes == "Basic" else "character_in_all"
    more = {"title": it.title, "rows": it.rows, "width": it.width, "planes": it.planes, "character_in": character_in}
    return names_of(it.ident, it.constant) | more | {"grid": [{}] if it.grid == "grid" else []}


def words_of_lookup(it):
    index, kind, said = INDEXES[it.index], it.counting.split(" ")[0], it.counting
    first = {"-": "", "from": f" {said} on", "below": f", if that is {said}", "not": f" that is {said}"}
    lasts = [f"U+{code_point:04X}" for code_point in it.last_of]
    last = " and ".join(filter(None, [", ".join(lasts[:-1]), *lasts[-1:]]))
    page_of, pages = pages_of(pointers_of(it), NO_POINTER)
    depths = f"{depth(len(pages) * PAGE)} {depth(len(page_of))}"
    return names_of(it.ident, it.constant) | {
        "index": index.module, "Index": index.ident, "title": index.title, "planes": index.planes, "users": it.users,
        "which": f"the first{first[kind]}" + (f", or the last for {last}" if last else ""),
        "bound": said.removeprefix("below ") if kind == "below" else index.length,
        "counts": f"is_{it.module}_pointer" if kind in ("from", "not") else "any_pointer",
        "by_last": f"is_last_in_{it.module}" if last else "no_character",
        "depths": f"{depth(index.length)} {depths}",
    }


def modules_in(folder, made):
    """The modules of the files of a folder, each as a word."""
    names = (it.removeprefix(f"{folder}/").removesuffix(".rt") for it in made if it.startswith(f"{folder}/"))
    return [{"module": it} for it in sorted(set(names))]


def letters_of(name):
    """The run of a single-byte index with the most letters that are no capitals, if they are sixteen and more."""
    def small(run):
        first, last, code_point = run
        return sum(chr(code_point + it - first).isalpha() and not chr(code_point + it - first).isupper()
                   for it in range(first, last + 1))

    first, last, code_point = max(runs_of(entries_of(name.lower())), key=small)
    if small((first, last, code_point)) < LEAST_LETTERS:
        first, last, code_point = 127, -128, 255
    return {"first_letter": f"0x{first + 128:X}", "last_letter": f"0x{last + 128:X}",
            "letter_shift": f"0x{code_point - first - 128:X}"}


def of_indexes():
    indexes, lookups = map(words_of_index, lists().indexes), [words_of_lookup(it) for it in lists().lookups]
    indexes, made = list(indexes), sources()
    single_bytes = [{"Name": it.ident, "NAME": it.constant, "title": it.name, "number": place, **letters_of(it.name)}
                    for place, it in enumerate(SINGLE_BYTE)]
    by_hand = [it for it in paths(f"{POINTERS}/*.rt") if BY not in read(it)]
    tables = [it for it in indexes if not it["grid"]]
    for place, it in enumerate(tables):
        # a proof names the first call of a function by it alone
        is_first = all(other["character_in"] != it["character_in"] for other in tables[:place])
        it["call"] = it["character_in"] + ("" if is_first else f"-in-{it['Name']}")
    return {
        "count": len(single_bytes), "last": len(single_bytes) - 1, "single_bytes": single_bytes, "lookups": lookups,
        "indexes": indexes, "grids": [it for it in indexes if it["grid"]], "tables": tables,
        "data": modules_in(DATA, made), "pages": modules_in(PAGES, made),
        "pointers": modules_in(POINTERS, [*by_hand, *(f"{POINTERS}/{it['name']}.rt" for it in lookups)]),
    }


def of_handles():
    """What a caller in another language holds. The compiler moves an encoder once before it is written."""
    decoder = {"Name": "Decoder", "name": "decoder", "a_name": "a decoder", "A_name": "A decoder",
               "State_file": "Decoding", "moved_first": []}
    encoder = {"Name": "Encoder", "name": "encoder", "a_name": "an encoder", "A_name": "An encoder",
               "State_file": "Encoder", "moved_first": [{}]}
    return {"handled": [decoder, encoder]}


def words():
    """All words and lists."""
    return of_encodings() | of_codecs() | of_indexes() | of_handles()
