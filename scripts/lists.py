"""The lists in data/: encodings, codecs, indexes, look-ups and pairs of bytes. For the scripts that go through them."""

import functools
import re
from typing import NamedTuple

from common import give_up, is_there, read

ENCODINGS, CODECS, CONSTANTS = "data/encodings.txt", "data/codecs.txt", "data/constants.txt"
PROPERTIES = ("ascii-compatible", "single-byte", "writes-utf-8")


def refuse(path, why):
    give_up(f"{path}: {why}", 1)


def ident_of(words):
    """Words as a name in CamelCase."""
    return "".join(it.capitalize() for it in words)


def snake_of(ident):
    """A name in CamelCase as words with _ between: `euc_kr` for `EucKr`."""
    return re.sub(r"(?<=[a-z])(?=[A-Z0-9])", "_", ident).lower()


class Encoding(NamedTuple):
    """A line of data/encodings.txt."""
    name: str
    constant: str
    section: str
    codec: str
    index: str
    properties: tuple
    labels: tuple

    @property
    def ident(self):
        """Its variant of `EncodingId`."""
        return ident_of(self.constant.split("_"))

    @property
    def writes_utf_8(self):
        return "writes-utf-8" in self.properties


class Codec(NamedTuple):
    """A line `codec` of data/codecs.txt."""
    name: str
    decoder: str
    encoder: str
    recipe: str
    byte_lengths: str


class Named:
    """The names of something in sources, by its name."""

    @property
    def constant(self):
        return self.module.upper()

    @property
    def module(self):
        return self.name.replace("-", "_")

    @property
    def ident(self):
        return ident_of(self.name.split("-"))


class Index(NamedTuple):
    """A line `index`."""
    name: str
    title: str
    size: str
    number: str
    grid: str

    constant, module, ident = Named.constant, Named.module, Named.ident

    @property
    def rows(self):
        return int(self.size.split(" x ")[0])

    @property
    def width(self):
        return int(self.size.split(" x ")[1])

    @property
    def length(self):
        """The number of its pointers."""
        return self.rows * self.width

    @property
    def planes(self):
        """The variant of `Planes`."""
        return "All" if self.number == "u32" else "Basic"


class LookUp(NamedTuple):
    """A line `lookup`."""
    name: str
    index: str
    users: str
    counting: str
    by_last: str

    constant, module, ident = Named.constant, Named.module, Named.ident

    def counts(self, pointer):
        """Whether a pointer counts."""
        numbers = [int(it) for it in re.findall(r"\d+", self.counting)]
        if self.counting.startswith("from"):
            return pointer >= numbers[0]
        if self.counting.startswith("below"):
            return pointer < numbers[0]
        return not numbers or not numbers[0] <= pointer <= numbers[1]

    @property
    def last_of(self):
        """The code points of which the last pointer counts."""
        return [int(it, 16) for it in self.by_last.split(" ")] if self.by_last != "-" else []


class Pairs(NamedTuple):
    """A line `pairs`."""
    decoder: str
    index: str
    leads: str
    trails: str
    without: str
    characters_of: str
    samples: str

    @property
    def characters(self):
        """Its characters with their bytes."""
        samples = [it.split("=") for it in self.samples.split(" ")] if self.samples != "-" else []
        return [(character, bytes.fromhex(digits)) for character, digits in samples]

    @property
    def is_plain(self):
        """Whether its characters are ASCII and those of the index, and its leads and its trails a range each."""
        return self.characters_of == "index" and "," not in self.leads + self.trails

    @property
    def sequences(self):
        """Each two bytes with their character, or None, by the leads, the trails and the index."""
        characters = by_pointer(self.index)
        both = [bytes([lead, trail]) for lead in bytes_in(self.leads) for trail in bytes_in(self.trails)]
        return [(data, characters.get(pointer)) for pointer, data in enumerate(both)]


class Lists(NamedTuple):
    """All lines of data/codecs.txt, each kind in its order."""
    codecs: list
    indexes: list
    lookups: list
    pairs: list


def byte_ranges(text):
    """Ranges of bytes, as 40-7E,80-FE, each with its first and last byte."""
    return [tuple(int(it, 16) for it in part.split("-")) for part in text.split(",")] if text != "-" else []


def bytes_in(text):
    """The bytes of ranges, in their order."""
    return [byte for first, last in byte_ranges(text) for byte in range(first, last + 1)]


def lines_of(path):
    return [line.strip() for line in read(path).splitlines() if line.strip() and not line.startswith("#")]


def rows_of(path, *bases):
    """The numbers of each line of a text, whose first ones ascend."""
    rows = [tuple(int(number, base) for number, base in zip(line.split(), bases)) for line in lines_of(path)]
    if any(later[0] <= earlier[0] for earlier, later in zip(rows, rows[1:])):
        refuse(path, "the first numbers of lines don't ascend")
    return rows


def text_of(index):
    return f"data/indexes/index-{index}.txt"


def entries_of(index):
    """The entries of an index: pointers with their code points."""
    return rows_of(text_of(index), 10, 16)


def by_pointer(index):
    """The characters of an index by their pointers."""
    return {pointer: chr(code_point) for pointer, code_point in entries_of(index)}


def encoding_of(line):
    """The encoding of a line."""
    name, constant, section, codec, properties, *labels = line.split()
    codec, _, index = codec.partition(":")
    properties = () if properties == "-" else tuple(properties.split(","))
    return Encoding(name, constant, section, codec, index, properties, tuple(labels))


def fault_of(encoding):
    """What is wrong with an encoding by itself, if anything."""
    if not encoding.labels:
        return "it has no label"
    if encoding.name.lower() not in encoding.labels:
        return "its name is no label"
    if list(encoding.labels) != sorted(encoding.labels):
        return "its labels are not in order"
    unknown = [it for it in encoding.properties if it not in PROPERTIES]
    return f"no such property: {unknown[0]}" if unknown else None


@functools.cache
def encodings():
    """The encodings, in the order of the list."""
    try:
        found = [encoding_of(line) for line in lines_of(ENCODINGS)]
    except ValueError:
        refuse(ENCODINGS, "a line has fewer than six parts")
    for it in found:
        if fault := fault_of(it):
            refuse(ENCODINGS, f"{it.name}: {fault}")
    for words in ([it.name for it in found], [it.ident for it in found], labels_of(found)):
        if twice := sorted({it for it in words if words.count(it) > 1}):
            refuse(ENCODINGS, f"twice: {', '.join(twice)}")
    return found


@functools.cache
def texts_of_encodings():
    """What each encoding is in practice, by name."""
    found = re.findall(r"^(\S+)\n((?: +\S.*\n)+)", read(CONSTANTS), re.M)
    if [it[0] for it in found] != [it.name for it in encodings()]:
        refuse(CONSTANTS, f"it has not the encodings of {ENCODINGS} in their order")
    return {name: " ".join(text.split()) for name, text in found}


def labels_of(those):
    """All labels of encodings, in the order of the list."""
    return [label for it in those for label in it.labels]


def pairs_of(those):
    """Each label with its encoding, in the order of the search: shorter ones first, and those of one length by their
    bytes from the last to the first."""
    pairs = [(label, it) for it in those for label in it.labels]
    return sorted(pairs, key=lambda pair: (len(pair[0]), pair[0][::-1]))


@functools.cache
def first_of(codec):
    """The first encoding of a codec."""
    return next(it for it in encodings() if it.codec == codec)


def label_of(codec):
    return first_of(codec).name.lower()


def constant_of(codec):
    return first_of(codec).constant if codec != "SingleByte" else "SINGLE_BYTE"


def single_byte():
    """The legacy single-byte encodings: those that have an index."""
    return [it for it in encodings() if it.index]


def check(lists):
    """Ends the script if the lists can't be right."""
    named = {it.codec for it in encodings()}
    for name in sorted(named ^ {it.name for it in lists.codecs}):
        refuse(CODECS, f"{name}: an encoding of {ENCODINGS} and a line codec have it, or neither")
    decoders, indexes = {it.decoder for it in lists.codecs}, {it.name: it for it in lists.indexes}
    for index in lists.indexes:
        if not is_there(text_of(index.name)):
            refuse(CODECS, f"no {text_of(index.name)}")
    for lookup in lists.lookups:
        if lookup.index not in indexes:
            refuse(CODECS, f"lookup {lookup.name}: no index {lookup.index}")
    for pairs in lists.pairs:
        if pairs.decoder not in decoders or pairs.index not in indexes:
            refuse(CODECS, f"pairs {pairs.decoder}: no such decoder, or no index {pairs.index}")
        rows = len(set(bytes_in(pairs.leads)) - set(bytes_in(pairs.without))) * len(bytes_in(pairs.trails))
        if rows > indexes[pairs.index].length:
            refuse(CODECS, f"pairs {pairs.decoder}: more than index {pairs.index} has")


@functools.cache
def lists():
    """The codecs, indexes, look-ups and pairs, each in the order of the list."""
    kinds = {"codec": Codec, "index": Index, "lookup": LookUp, "pairs": Pairs}
    found = {kind: [] for kind in kinds}
    for line in lines_of(CODECS):
        kind, *words = re.split(r" {2,}", line)
        if kind not in kinds or len(words) != len(kinds[kind]._fields):
            refuse(CODECS, f"not a line of {', '.join(kinds)}: {line}")
        found[kind].append(kinds[kind](*words))
    every = Lists(*found.values())
    check(every)
    return every
