"""Long texts from memory to memory, for scripts/bench: `bench calls` beside its twin over the crate, and beside one over
simdutf where both ends are UTF-8 or UTF-16.

One decoder or encoder takes 60 KiB of a text in four calls, each with room for all that it gives. A piece ends with a
character, and spaces make up its length. Queries that only read get such pieces.
"""

import re
from statistics import median
import textwrap

from calls import LENGTH, Cell, is_less, measure, pieces
from common import TOP, run_quietly
from programs import CACHE, field, install, unpacked
from report import markdown
import corpora

# The length of a piece, and the room of a call.
PIECE = 15360
ROOM = 65536

# simdutf's implementations, and what it does for a text, by the kind of calls and the label.
SIMDUTF = {"simdutf SSE": "westmere", "simdutf AVX2": "haswell"}
WAYS = {("chunks-to-utf8", "utf-8"): "validate", ("chunks-to-utf8", "utf-16le"): "from-utf16",
        ("chunks-to-utf16", "utf-8"): "to-utf16", ("chunks-from-utf16", "utf-8"): "from-utf16",
        ("valid-utf8", "utf-8"): "valid-utf8", ("valid-ascii", "utf-8"): "valid-ascii",
        ("latin1", "utf-8"): "valid-ascii"}

LIBRARIES = "usr/lib/x86_64-linux-gnu"

TO_UTF16, FROM_UTF16 = "chunks-to-utf16", "chunks-from-utf16"
TO_UTF8, FROM_UTF8 = "chunks-to-utf8", "chunks-from-utf8"
TITLES = {TO_UTF8: "to UTF-8", TO_UTF16: "to UTF-16", FROM_UTF16: "from UTF-16", FROM_UTF8: "from UTF-8"}

# The queries, by the kind of calls, and the texts that each reads to the end.
QUERIES = {"valid-utf8": "utf8_valid_up_to", "valid-ascii": "ascii_valid_up_to",
           "valid-iso-2022-jp": "iso_2022_jp_ascii_valid_up_to", "latin1": "latin1_byte_compatible_up_to"}
QUERIED = {"valid-utf8": corpora.UNICODE[:3], "valid-ascii": corpora.UNICODE[:1],
           "valid-iso-2022-jp": corpora.UNICODE[:1], "latin1": corpora.LATIN1}

PICTURE = "The rate of decoding to UTF-16 by that of the crate encoding_rs"
AXIS = "rate of decode_to_utf16 / its rate in encoding_rs"


def build_simdutf():
    """The program over simdutf, which runs with the loader and the libraries of simdutf's release, and its version."""
    install("g++", "g++")
    [headers] = unpacked("sid", "libsimdutf-dev")
    library = re.match(r"\S+", field(headers, "Depends"))[0]
    folders = [f"{it}/{LIBRARIES}" for it in unpacked("sid", library, "libstdc++6", "libc6", "libgcc-s1")]
    run_quietly(
        ["g++", "-std=c++17", "-O3", "-I", f"{headers}/usr/include", "-o", f"{CACHE}/simdutf",
         f"{TOP}/bench/simdutf.cpp", f"{folders[0]}/libsimdutf.so.{library.removeprefix('libsimdutf')}",
         "-Wl,--allow-shlib-undefined", "-Wl,--disable-new-dtags", f"-Wl,-rpath,{':'.join(folders)}",
         f"-Wl,--dynamic-linker,{folders[2]}/ld-linux-x86-64.so.2"])
    return f"{CACHE}/simdutf", field(headers, "Version")


class Text(Cell):
    """Calls of a kind with a long text, of a corpus."""

    def __init__(self, corpus, kind, data):
        super().__init__(kind, corpus.label, data, PIECE, ROOM)
        self.title = corpus.title
        self.kind = kind
        self.way = WAYS.get((kind, corpus.label)) if corpus.languages else None

    def commands(self, programs):
        """The commands of ours and of the crate's, and those of simdutf where it does the same."""
        *ours_and_crate, simdutf = programs
        made = super().commands(ours_and_crate)
        if self.way:
            made += [[*simdutf, name, self.way, str(PIECE)] for name in SIMDUTF.values()]
        return made

    def taken(self, command):
        """The processor time of a run, without that of a run of no rounds: some programs take milliseconds to start."""
        return super().taken(command) - self.run(command, 0)[0]

    def rate(self, number=0):
        """GB of input a second, by a program's number."""
        taken = median(times[number] for times in self.times)
        return f"{len(self.data) * self.rounds / taken / 1e9:.2f}"


class Query(Text):
    """A query of a kind that reads a text, of a corpus, to its end.

    In windows-1252 each piece ends with é: the crate counts no ASCII after the last other byte (docs/UPSTREAM.md).
    """

    def __init__(self, corpus, kind, data):
        if corpus.label == "windows-1252":
            data = b"".join(data[at:at + PIECE - 1] + b"\xE9" for at in range(0, len(data), PIECE))
        super().__init__(corpus, kind, data)

    def compare(self, programs):
        total = super().compare(programs)
        if total != self.rounds * len(self.data):
            raise SystemExit(f"bench: {QUERIES[self.kind]} ends within {self.title}")
        return total


def text_of(corpus, kind):
    """The calls of a kind with the text of a corpus. Random bytes are cut anywhere."""
    if not corpus.languages:
        with open(corpora.path(CACHE, corpus, corpora.RANDOM_MIB), "rb") as file:
            return Text(corpus, kind, file.read(LENGTH))
    codec = {"encode": "utf-8", "from-units": "utf-16-le"}.get(corpus.way, corpus.codec)
    text = corpora.block(corpus)[:8 * LENGTH].decode(codec, "ignore")
    return (Query if kind in QUERIES else Text)(corpus, kind, pieces(text, codec, PIECE))


def texts():
    """The texts that are converted, by kind."""
    kinds = {"decode": TO_UTF8, "to-units": TO_UTF16, "from-units": FROM_UTF16, "encode": FROM_UTF8}
    return [text_of(corpus, kinds[corpus.way]) for corpus in corpora.CORPORA]


def queries():
    """The queries that are measured, each with its texts."""
    return [text_of(corpora.Corpus(*row, kind=kind), query)
            for query, rows in QUERIED.items() for row in rows for kind in corpora.KINDS]


def measured(programs, rounds):
    """Each text with what is measured of it. `programs`: the commands of ours, of the crate's and of simdutf's."""
    every = texts() + queries()
    measure(every, programs, rounds)
    return every


def cells(text):
    """The rate of a text, and that by the crate's by instructions and by time: nothing for none."""
    if not text:
        return ["", "", ""]
    return [text.rate(), f"{text.by_instructions():.2f}", f"{text.by_time():.2f}"]


def table(title, kinds, every):
    """A table in Markdown, of the texts of two kinds beside the crate."""
    heads = [title, *(head for kind in kinds for head in (f"{TITLES[kind]}, GB/s", "by instructions", "by time"))]
    rows = {}
    for text in every:
        if text.kind in kinds:
            rows.setdefault(text.title, {})[text.kind] = text
    return markdown(heads, (
        [name, *(cell for kind in kinds for cell in cells(row.get(kind)))] for name, row in rows.items()))


def by_simdutf(text):
    """The rate of a text by those of simdutf's implementations, by time: nothing for none."""
    return [f"{text.by_time(it):.2f}" if text.way else "" for it in range(2, 2 + len(SIMDUTF))]


def simdutf_table(every):
    """A table in Markdown, of the texts that simdutf converts too: the rates, and ours by those of each implementation,
    by time and by instructions."""
    heads = ["Text", "GB/s", *SIMDUTF, *(f"by {name}" for name in SIMDUTF), "by instructions of SSE"]
    return markdown(heads, (
        [f"{text.title}, {TITLES[text.kind]}", text.rate(), *(text.rate(it) for it in range(2, 2 + len(SIMDUTF))),
         *by_simdutf(text), f"{text.instructions[2] / text.instructions[0]:.2f}"] for text in every if text.way))


def query_table(every):
    """A table in Markdown, of the queries: beside the crate, and beside simdutf where it answers the same."""
    heads = ["Queries that only read", "GB/s", "by instructions", "by time", *(f"by {name}" for name in SIMDUTF)]
    return markdown(heads, ([f"`{QUERIES[it.kind]}`, {it.title}", *cells(it), *by_simdutf(it)] for it in every))


def summary(every, what):
    """How many conversions or queries are below the crate and below twice its rate, and below simdutf by SSE."""
    rates = [it.by_time() for it in every]
    beside = [it.by_time(2) for it in every if it.way]
    return textwrap.fill(
        f"By time {sum(map(is_less, rates))} of {len(rates)} {what} are below the crate, and "
        f"{sum(it < 1.995 for it in rates)} below twice its rate; of {len(beside)} beside simdutf "
        f"{sum(map(is_less, beside))} are below its rate by SSE, and the least has {min(beside):.2f}.", 120)


def text(circumstances, every):
    """The circumstances of the measurement, what is slow, the picture and the tables."""
    converted, asked = ([it for it in every if it.kind in kinds] for kinds in (TITLES, QUERIES))
    parts = [circumstances, summary(converted, "conversions")]
    parts += [f"![{PICTURE}, for each text](speed-utf16.svg)", simdutf_table(converted)]
    parts += [table("Decoding", (TO_UTF8, TO_UTF16), converted), table("Encoding", (FROM_UTF8, FROM_UTF16), converted)]
    return "\n\n".join([*parts, summary(asked, "queries"), query_table(asked)])
