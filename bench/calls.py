"""Short calls, for scripts/bench: `bench calls` beside its twin over the crate, bench/peer/src/bin/calls.rs.

A text is cut into pieces of 16, 64 and 256 bytes, each for a new decoder or encoder or for a one-shot call, and into
chunks of 1 and 4 KiB for one decoder or encoder, with room for 1 or 4 Ki units in a call. A piece ends with a
character, and spaces make up its length. So does a chunk to encode; a chunk to decode may end within a character.
"""

from concurrent.futures import ThreadPoolExecutor
import functools
import os
import resource
from statistics import median
import subprocess
import textwrap

import corpora
import counts
from report import STYLE, head, markdown

# The lengths of pieces, and those of chunks with the room of a call.
LENGTHS = (16, 64, 256)
CHUNKS = ((1024, 1024), (1024, 4096), (4096, 1024), (4096, 4096))

# The length of an input, the processor time of a run in seconds, and the rounds whose instructions are counted.
LENGTH = 61440
TARGET = 0.04
COUNTED = 2

# Labels, in pieces of 16 bytes.
LABELS = ("utf-8 windows-1252 UTF-8 iso-8859-1 shift_jis gb2312 euc-kr big5 windows-1251 ISO-8859-1 latin1 utf8 euc-jp "
          "gbk koi8-r us-ascii").split()

# The calls with pieces, the calls with chunks, and the title of both.
DECODING = (("to-utf8", "chunks-to-utf8", "to UTF-8"), ("to-utf16", "chunks-to-utf16", "to UTF-16"),
            ("decode", None, "one-shot"), ("decode-lending", None, "lending"))
ENCODING = (("from-utf8", "chunks-from-utf8", "from UTF-8"), ("from-utf16", "chunks-from-utf16", "from UTF-16"),
            ("encode", None, "one-shot"), ("encode-lending", None, "lending"))
CODECS = {"from-utf8": "utf-8", "encode": "utf-8", "encode-lending": "utf-8", "from-utf16": "utf-16-le"}

ASCII_LABELS = ("windows-1252", "Shift_JIS", "ISO-2022-JP")
PICTURE = "The rate of short calls by that of the crate encoding_rs, for each text and length"
AXIS = "bytes of a piece, or chunk/room of a call"
# The colours of the cells, by their ratios.
LEGEND = {"less": "slower: below 1.00", "more": "1.00 to 1.49", "much": "1.50 and more"}
LEFT = 270
CELL = 44
HIGH = 20
GAP = 14
CELL_STYLE = """  .less { fill: #f2b8a0; }
  .more { fill: #cfe3f7; }
  .much { fill: #8fc1ef; }
  @media (prefers-color-scheme: dark) {
    .less { fill: #8a3a1d; }
    .more { fill: #1f3f5f; }
    .much { fill: #2f6fb3; }
  }
"""


class Cell:
    """Calls of a kind with a text: the input and its cuts, the times of ours and of the crate's, a pair for each round,
    and the instructions of a call of both."""

    def __init__(self, kind, label, data, length, room):
        self.arguments = [kind, label, str(length), str(room)]
        self.data = data
        self.calls = len(data) // length
        self.rounds = 20
        self.times = []
        self.instructions = ()

    def commands(self, programs):
        """The command of each program, without the number of rounds."""
        return [[*program, *self.arguments] for program in programs]

    def run(self, command, rounds):
        """The processor time of a run and the sum that it prints."""
        before = resource.getrusage(resource.RUSAGE_CHILDREN)
        done = subprocess.run([*command, str(rounds)], input=self.data, stdout=subprocess.PIPE, check=True)
        after = resource.getrusage(resource.RUSAGE_CHILDREN)
        return after.ru_utime - before.ru_utime + after.ru_stime - before.ru_stime, done.stdout

    def taken(self, command):
        """The processor time of a run."""
        return self.run(command, self.rounds)[0]

    def compare(self, programs):
        """Compares the sums that the programs print, and returns their sum."""
        totals = [self.run(command, self.rounds)[1] for command in self.commands(programs)]
        if len(set(totals)) != 1:
            raise SystemExit(f"bench: sums differ: {' '.join(self.arguments)}: {totals}")
        return int(totals[0])

    def prepare(self, programs):
        """Compares the sums, and finds out how many rounds take the time of a run. A run that takes less than a quarter
        of it is too short to tell."""
        self.compare(programs)
        while (least := min(map(self.taken, self.commands(programs)))) < TARGET / 4:
            self.rounds *= 4
        self.rounds = max(1, int(self.rounds * TARGET / least))

    def measure(self, programs):
        """Measures each program once."""
        self.times.append([*map(self.taken, self.commands(programs))])

    def count(self, programs):
        """Counts the instructions of a call: those that COUNTED rounds more take, so that what is made once is not in."""
        def of(command, rounds):
            return counts.instructions([*command, str(rounds)], self.data)

        more = [of(command, 1 + COUNTED) - of(command, 1) for command in self.commands(programs)]
        self.instructions = [it / (COUNTED * self.calls) for it in more]

    def by_time(self, other=1):
        """The rate by that of another program, the crate's: the median of the rounds' ratios."""
        return median(times[other] / times[0] for times in self.times)

    def by_instructions(self):
        """The crate's instructions by ours."""
        ours, theirs = self.instructions[:2]
        return theirs / ours

    def nanoseconds(self):
        """The time of a call."""
        return median(times[0] for times in self.times) * 1e9 / (self.rounds * self.calls)


class Row:
    """A text in an encoding, with its cells: a list for each kind of calls."""

    def __init__(self, title, groups):
        self.title = title
        self.groups = groups

    def cells(self):
        return [cell for group in self.groups for cell in group]


@functools.cache
def pieces(text, codec, length):
    """Pieces of a text that are encoded by themselves, with spaces up to the length."""
    made, at = b"", 0
    space = " ".encode(codec)
    while len(made) < LENGTH:
        end = at + length
        while len(text[at:end].encode(codec)) > length:
            end -= 1
        piece = text[at:end].encode(codec)
        made += piece + space * ((length - len(piece)) // len(space))
        at = end if end + length < len(text) else 0
    return made[:LENGTH]


def cells(kinds, text, codec, label):
    """The cells of a row, with the text in a codec or, where a call encodes, in that of its input."""
    groups = []
    for single, chunks, _ in kinds:
        source = CODECS.get(single, codec)
        group = [Cell(single, label, pieces(text, source, length), length, 4 * length + 16) for length in LENGTHS]
        for length, room in CHUNKS if chunks else ():
            data = pieces(text, source, length) if single in CODECS else text.encode(source)[:LENGTH]
            group.append(Cell(chunks, label, data, length, room))
        groups.append(group)
    return groups


def row(corpus, kinds):
    """The row of a corpus. Each run of white space in its text is a space."""
    read = "utf-8" if corpus.way == "encode" else corpus.codec
    text = " ".join(corpora.block(corpus)[:4 * LENGTH].decode(read, "ignore").split())
    return Row(corpus.title, cells(kinds, text, corpus.codec, corpus.label))


def tables():
    """The rows of each direction, with its kinds of calls."""
    running = [corpus for corpus in corpora.CORPORA if corpus.kind == corpora.RUNNING and corpus.languages]
    decoded = [row(corpus, DECODING) for corpus in running if corpus.way == "decode"]
    english = " ".join("".join(corpora.lines("en", corpora.RUNNING)).split())
    text = english.encode("ascii", "ignore").decode()[:4 * LENGTH]
    decoded += [Row(f"{label}, ASCII", cells(DECODING, text, "ascii", label)) for label in ASCII_LABELS]
    shown = [corpus for corpus in running if corpus.way == "encode"]
    encoded = [row(corpus, ENCODING) for corpus in shown
               if corpus.languages != ["en"] or corpus.title.startswith(ASCII_LABELS)]
    labels = "".join(label.ljust(16) for label in LABELS).encode() * (LENGTH // 16 // len(LABELS))
    return (DECODING, decoded), (ENCODING, encoded), Row("labels", [[Cell("for-label", "utf-8", labels, 16, 16)]])


def counted(every, programs):
    """Counts the instructions of each cell's calls, some cells side by side."""
    counts.prepare()
    with ThreadPoolExecutor(os.cpu_count()) as pool:
        for number, _ in enumerate(pool.map(lambda cell: cell.count(programs), every), 1):
            if number % 60 == 0 or number == len(every):
                print(f"calls whose instructions are counted: {number} of {len(every)}", flush=True)


def measure(every, programs, rounds):
    """Compares the sums of each cell, and measures it."""
    for cell in every:
        cell.prepare(programs)
    print(f"sums of calls compared with the crate's: {len(every)}", flush=True)
    for number in range(rounds):
        for cell in every:
            cell.measure(programs)
        print(f"round {number + 1} of {rounds}", flush=True)
    counted(every, programs)


def measured(programs, rounds):
    """The rows of each direction with what is measured of their cells, and the cell of labels. `programs`: the commands
    of ours and of the crate's."""
    decoded, encoded, labels = tables()
    measure([cell for row in (*decoded[1], *encoded[1], labels) for cell in row.cells()], programs, rounds)
    return (("Decoding", *decoded), ("Encoding", *encoded)), labels.groups[0][0]


def names(chunks):
    """The heads of the columns of a kind of calls."""
    return [str(length) for length in LENGTHS] + (
        [f"{length >> 10}K/{room >> 10}K" for length, room in CHUNKS] if chunks else [])


def table(title, rows, number, chunks):
    """A table in Markdown, of one kind of calls: what each cell is by the crate, by instructions and by time."""
    return markdown([title, *names(chunks)], (
        [row.title, *(f"{cell.by_instructions():.2f}, {cell.by_time():.2f}" for cell in row.groups[number])]
        for row in rows))


def summary(every):
    """How many cells are below the crate, and how many have 1.3 times its rate and more."""
    parts = []
    for name, ratios in (("instructions", [it.by_instructions() for it in every]),
                         ("time", [it.by_time() for it in every])):
        less, much = (sum(holds(it) for it in ratios) for holds in (is_less, lambda it: it >= 1.295))
        parts.append(f"by {name} {less} are below 1.00, the least has {min(ratios):.2f}, and {much} have 1.30 and more")
    return textwrap.fill(f"Of {len(every)} cells, {'; '.join(parts)}.", 120)


def text(circumstances, directions, label):
    """The circumstances of the measurement, the picture, and a table for each kind of calls."""
    every = [cell for _, _, rows in directions for row in rows for cell in row.cells()]
    parts = [circumstances, f"![{PICTURE}](speed-calls.svg)", summary(every)]
    for name, kinds, rows in directions:
        parts += [table(f"{name}, {title}", rows, number, chunks) for number, (_, chunks, title) in enumerate(kinds)]
    parts.append(textwrap.fill(
        f"`Encoding::for_label` takes {label.nanoseconds():.0f} ns and {label.instructions[0]:.0f} instructions a label, at "
        f"{label.by_time():.2f} times the rate of the crate, which executes {label.by_instructions():.2f} times as many.", 120))
    return "\n\n".join(parts)


def is_less(ratio):
    """Whether a ratio is shown as less than 1.00."""
    return ratio < 0.995


def fill(ratio):
    """The class of a cell: below the crate, above it, or half as fast again."""
    return "less" if is_less(ratio) else "more" if ratio < 1.495 else "much"


def draw_legend(top):
    """The colours of the cells, in a line at a height."""
    made = []
    for number, (kind, said) in enumerate(LEGEND.items()):
        x = LEFT + 200 * number
        made.append(f'<rect class="{kind}" x="{x}" y="{top - 13}" width="{CELL - 2}" height="{HIGH - 2}"/>')
        made.append(f'<text x="{x + CELL + 4}" y="{top}">{said}</text>')
    return made


def draw_rows(name, kinds, rows, top):
    """The rows of a direction, from a height on, below the heads of its columns."""
    made, left = [f'<text class="title" x="8" y="{top}">{name}</text>'], LEFT
    made.append(f'<text x="{LEFT - 8}" y="{top + 16}" text-anchor="end">{AXIS}</text>')
    for _, chunks, title in kinds:
        heads = names(chunks)
        made.append(f'<text x="{left}" y="{top}">{title}</text>')
        made += [f'<text x="{left + CELL * place + CELL / 2}" y="{top + 16}" text-anchor="middle">{head}</text>'
                 for place, head in enumerate(heads)]
        left += CELL * len(heads) + GAP
    for number, row in enumerate(rows):
        y, x = top + 24 + HIGH * number, LEFT
        made.append(f'<text x="{LEFT - 8}" y="{y + 13}" text-anchor="end">{row.title}</text>')
        for group in row.groups:
            for cell in group:
                ratio = cell.by_time()
                made.append(f'<rect class="{fill(ratio)}" x="{x}" y="{y}" width="{CELL - 2}" height="{HIGH - 2}"/>')
                made.append(f'<text x="{x + CELL / 2 - 1}" y="{y + 13}" text-anchor="middle">{ratio:.2f}</text>')
                x += CELL
            x += GAP
    return made


def draw(path, directions):
    """Writes the picture: a cell for each text and length, by whether it is slower than the crate or faster."""
    width = LEFT + CELL * sum(len(names(chunks)) for _, chunks, _ in DECODING) + GAP * len(DECODING)
    made, top = draw_legend(44), 76
    for name, kinds, rows in directions:
        made += draw_rows(name, kinds, rows, top)
        top += 24 + HIGH * len(rows) + 30
    begin = head(PICTURE, width, top - 20, STYLE.replace("</style>", CELL_STYLE + "</style>"))
    with open(path, "w", encoding="utf-8") as file:
        file.write("\n".join([*begin, *made, "</svg>", ""]))
