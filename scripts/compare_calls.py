"""Compares single calls with those of the Rust crate encoding_rs: compare_calls.py OURS CRATE SEED COUNT LENDING | -

For scripts/compare-crate. OURS is the program of crates/conformance: module `calls` of crates/conformance_calls says
how a line stands for a call. CRATE is the program of scripts/peer/src/bin/calls. It makes COUNT random and hostile
lines and LENDING of one-shot calls that lend (with - they are those of standard input), and answers as OURS does.
Compared are the result, the units read and written, the flag, the units, the encoding after the call, the length that
the call's query returned before, the length of the Latin-1 prefix or whether an encoder had a pending state, and the
units that the rest of the input gives. Of calls that lend they are the text, the flag, the encoding and whether the
text is borrowed, as the crate's `Cow` is.

Where the two differ by design, or where the crate has a fault, a rule says so. Each line comes under one of RULES or
differs; each rule is printed with the number of its calls. Of the first lines that differ the smallest that was found
is shown. FAULTS has a line for each fault; one that no longer shows it differs too, since its rule is to go. The status
is 0 where none differs.
"""

import collections
import itertools
import re
import subprocess
import sys
from typing import NamedTuple

# The number of lines that are compared at a time, and of those that differ and are shown.
BATCH, SHOWN = 100_000, 5
# The room of a call for the rest of an input.
AMPLE = 4096

ALIKE = "alike in each answer"
EARLIER = "the crate returns OutputFull, at an earlier place or for a later sequence"
PENDING = "Malformed at one place, with other bytes read and pending"
HELD_MARK = "Malformed at EF, where the crate does not count the BB that it holds"
AHEAD = "OutputFull at one place of UTF-16, where the crate has read the code unit that does not fit"
PANIC = "the crate panics, in less room than it asks for or where U+FFFD does not fit"
LOST = "the crate loses the lead byte that it holds"
SPLIT = "the crate takes a pair of surrogates at the end of the room for two without a partner"
LENT = "one-shot calls that lend, alike in text, flag and encoding, and borrowed where the crate's `Cow` is"
RULES = (ALIKE, EARLIER, PENDING, HELD_MARK, AHEAD, PANIC, LOST, SPLIT, LENT)

OTHER_LENGTHS = "other lengths, as the tables have them"
BYTE_80 = "a Latin-1 prefix that the crate ends at byte 80 of Shift_JIS"
ASCII_END = "a Latin-1 prefix in whose length the crate leaves out the ASCII bytes at the end"
NOTES = (OTHER_LENGTHS, BYTE_80, ASCII_END)

# What the crate does against its documentation, each by the call with the fewest bytes that a search has found, of
# those with as much room as that asks for.
FAULTS = (
    (HELD_MARK, "decode ISO-2022-JP sniff EFBB - 2 last utf16 report"),
    (PANIC, "decode ISO-2022-JP off - 1B2442611B 4 last utf8 replace"),
    (PANIC, "decode windows-1252 sniff EFBB - 4 last utf8 replace"),
    (LOST, "decode Big5 off 81 - 4 more utf8 replace"),
    (SPLIT, "encode windows-1252 off - D83DDE00 1 last utf16 report"),
    (BYTE_80, "decode Shift_JIS off - 80 4 last utf8 report"),
    (ASCII_END, "decode windows-1252 off - 61 4 last utf8 report"),
)

ONE_SHOT = ("lend", "lend-text")
TWO_BYTES = ("Big5", "EUC-KR", "Shift_JIS")
UTF_16 = ("UTF-16BE", "UTF-16LE")
BIG5_PAIRS = ("\u00ca\u0304", "\u00ca\u030c", "\u00ea\u0304", "\u00ea\u030c")
MULTI_BYTE = (*TWO_BYTES, "EUC-JP", "GBK", "gb18030", "ISO-2022-JP", "UTF-8", *UTF_16, "replacement")
# The crate's lengths for n units, where the library has others: to UTF-8 with and without replacement, to UTF-16, from
# UTF-8, and from UTF-16, without the room for a reference.
CRATE_LENGTHS = {
    "Big5": lambda n: (3 + 3 * n, 2 + 2 * n, 1 + n, n + 1, 2 * n),
    "EUC-JP": lambda n: (3 * n, 2 + n + (n + 1) // 2, n, n + 1, 2 * n),
    "EUC-KR": lambda n: (3 * n, 2 + n + (n + 1) // 2, n, n + 1, 2 * n),
    "GBK": lambda n: (1 + 3 * n, 1 + 3 * n, 1 + n, n + 3, 2 * n + 2),
    "gb18030": lambda n: (1 + 3 * n, 1 + 3 * n, 1 + n, 2 * n + 2, 4 * n),
    "ISO-2022-JP": lambda n: (3 * n, 3 * n, n, 3 * n + 3, 4 * n + 3 + (n + 1) // 2),
    "Shift_JIS": lambda n: (3 * n, 3 * n, n, n + 1, 2 * n),
}
# The same of the library.
LENGTHS = {it: lambda n: (3 * n, 3 * n, n, n, 2 * n) for it in CRATE_LENGTHS}
LENGTHS["gb18030"] = lambda n: (3 * n, 3 * n, n, 2 * n, 4 * n)
LENGTHS["ISO-2022-JP"] = lambda n: (3 * n, 3 * n, n, 4 * n + 3, 5 * n + 3)


class Line(NamedTuple):
    """A call, after one for the bytes `before`."""
    direction: str
    label: str
    marks: str
    before: bytes
    chunk: bytes
    room: int
    last: str
    units: str
    mode: str

    def __str__(self):
        return " ".join((it.hex().upper() or "-") if isinstance(it, bytes) else str(it) for it in self)

    @property
    def decodes(self):
        return self.direction == "decode"

    @property
    def replaces(self):
        return self.mode == "replace"

    @property
    def width(self):
        """The bytes of a unit of the input."""
        return 1 if self.decodes or self.units == "utf8" else 2

    @property
    def code(self):
        """Python's codec of the units that a decoder writes."""
        return "utf-8" if self.units == "utf8" else "utf-16-be"

    @property
    def least(self):
        """The room with which the crate always makes progress."""
        if self.decodes:
            return 4 if self.units == "utf8" else 2
        return 14 if self.replaces else 4


class Answer(NamedTuple):
    """The answer of a program to a line."""
    result: str
    read: int
    written: int
    replaced: str
    units: bytes
    encoding: str
    query: int
    state: str
    rest: bytes

    @property
    def malformed(self):
        """The two numbers of `Malformed`, or none."""
        return [int(it) for it in re.findall(r"\d+", self.result)] if self.result.startswith("Malformed") else []

    def whole(self, line):
        """The units of the call and of the rest, with a replacement for a sequence or character that is reported."""
        middle = b""
        if self.malformed:
            middle = "\ufffd".encode(line.code)
        elif self.result.startswith("Unmappable"):
            middle = b"&#%d;" % int(self.result[11:-1], 16)
        return self.units + middle + self.rest


def parsed(kind, text):
    """A line or an answer. A dash stands for no bytes."""
    parsers = {str: str, int: int, bytes: lambda digits: bytes.fromhex(digits.strip("-"))}
    return kind(*(parsers[of](word) for of, word in zip(kind.__annotations__.values(), text.split(), strict=True)))


def said(program, lines):
    """What a program says to lines."""
    text = "".join(f"{it}\n" for it in lines)
    return subprocess.run(program, input=text, stdout=subprocess.PIPE, check=True, text=True).stdout.splitlines()


def answers(program, lines):
    """The answers of a program to lines. None where it panics."""
    return [None if it == "panic" else parsed(Answer, it) for it in said(program, lines)]


def has_lengths(line, ours, crate):
    """Whether the queries return the same or, where they differ by design and no byte is held, those of the tables."""
    if line.label not in LENGTHS:
        return ours.query == crate.query
    if line.decodes and (line.before or line.marks != "off"):
        return True
    to_wide = line.units == "utf16"
    which = (2 if to_wide else 0 if line.replaces else 1) if line.decodes else 3 + to_wide
    references = 10 if line.replaces and not line.decodes else 0
    both = (of[line.label](len(line.chunk) // line.width)[which] + references for of in (LENGTHS, CRATE_LENGTHS))
    return (ours.query, crate.query) == tuple(both)


def notes_of(line, ours, crate):
    """The differences by design beside the rule of a line, or None for a Latin-1 prefix whose length has no reason."""
    if crate is None:
        return []
    notes = [OTHER_LENGTHS] * (ours.query != crate.query)
    if ours.state == crate.state:
        return notes
    begin, end = (0, 0) if "-" in (ours.state, crate.state) else (int(crate.state), int(ours.state))
    more = line.chunk[begin:end]
    if crate.encoding == "Shift_JIS" and more and more[0] == max(more) == 0x80:
        return [*notes, BYTE_80]
    is_end = line.label not in MULTI_BYTE and begin < end == len(line.chunk) and more.isascii()
    return [*notes, ASCII_END if is_end else None]


def rule_of_full(line, ours, crate):
    """The rule for a crate that returns OutputFull. Both may have stopped after U+FFFD for a lead surrogate, and the
    crate has read the unit after that whole. Or its query returns more than the room, or an encoder meets a character
    that is unmappable, and less than its least room is left: then it has written and read no more than the library."""
    at_one_place = ours.result == "OutputFull" and ours.units == crate.units and crate.units.endswith(b"\xef\xbf\xbd")
    if at_one_place and crate.encoding in UTF_16 and line.replaces and crate.read == ours.read + 1:
        return AHEAD
    may = line.room < crate.query or (not line.decodes and ours.replaced == "true")
    begins = ours.units.startswith(crate.units) and crate.read <= ours.read
    flag = crate.replaced == ours.replaced or (crate.replaced, ours.replaced) == ("false", "true")
    return EARLIER if may and line.room - crate.written < line.least and begins and flag else None


def rule_of_malformed(line, ours, crate):
    """The rule for two results `Malformed(l, a)`: the sequence ends a bytes before the last byte read."""
    (ours_long, ours_after), (crate_long, crate_after) = ours.malformed, crate.malformed
    if ours_long != crate_long or ours.units != crate.units:
        return None
    apart = crate.read - crate_after - (ours.read - ours_after)
    if line.marks == "sniff" and line.before == b"\xef\xbb" and crate.read == ours.read == 0 and apart == 1:
        return HELD_MARK
    return PENDING if apart == 0 else None


def may_panic(line, ours):
    """Whether the crate asks for more room: as always, for the held bytes of a byte order mark each as U+FFFD, and for
    U+FFFD where the library stops before it."""
    held = line.marks != "off" and line.before == b"\xef\xbb" and line.units == "utf8"
    is_full = line.replaces and ours.result == "OutputFull" and ours.rest.startswith("\ufffd".encode(line.code))
    return line.decodes and (is_full or line.room < (6 if held else line.least))


def is_needless(line, ours):
    """Whether the library returns OutputFull though the next text (in Big5 it may be of two characters) fits or the
    room is as long as its query says."""
    if ours.result != "OutputFull":
        return False
    promised, needed = line.decodes or not line.replaces or ours.replaced == "false", line.least
    if line.decodes:
        text = ours.rest.decode(line.code)
        first = text[: 2 if ours.encoding == "Big5" and text[:2] in BIG5_PAIRS else 1]
        needed = len(first.encode(line.code)) // (1 if line.units == "utf8" else 2)
    return needed <= line.room - ours.written or (promised and line.room >= ours.query)


def agree_beside(line, ours, crate):
    """Whether the library needs its OutputFull and, unless the crate panics, the queries and the encodings agree."""
    if line.direction in ONE_SHOT or is_needless(line, ours):
        return False
    agree = crate is None or (has_lengths(line, ours, crate) and ours.encoding == crate.encoding)
    return agree and None not in notes_of(line, ours, crate)


def rule_of(line, ours, crate):
    """The rule by which two answers agree, or none."""
    if line.direction in ONE_SHOT:
        return LENT if ours == crate else None
    if not agree_beside(line, ours, crate):
        return None
    if crate is None:
        return PANIC if may_panic(line, ours) else None
    if ours.whole(line) != crate.whole(line):
        return None
    # (the calls themselves, without their encodings, the queries and the rest)
    if ours[:5] == crate[:5]:
        return ALIKE
    if crate.result == "OutputFull":
        return rule_of_full(line, ours, crate)
    return rule_of_malformed(line, ours, crate) if ours.malformed and crate.malformed else None


def may_lose(line, crate):
    """Whether the crate has a fault here: a decoder of one byte or two reads nothing, and forgets the lead byte."""
    if not line.decodes or crate is None or crate.encoding not in TWO_BYTES or crate.read or crate.written:
        return False
    is_full = crate.result == "OutputFull" and line.room < line.least
    return is_full or (crate.result == "InputEmpty" and not line.chunk and line.last == "more")


def may_split(line, crate):
    """Whether the crate has a fault here: an encoder of single bytes reads the lead of a pair of surrogates alone, as
    only one byte is left before the end of the room or the part kept for references. That of U+FFFD has 8 bytes."""
    if line.decodes or line.units == "utf8" or line.label in MULTI_BYTE or crate is None or not crate.read:
        return False
    halves = [it & 0xFC for it in line.chunk[2 * crate.read - 2 : 2 * crate.read + 1 : 2]]
    return halves == [0xD8, 0xDC] and line.room - crate.written == (10 + 1 - 8 if line.replaces else 1)


def other_line(line, crate):
    """The line as which the crate takes this one by a fault, with its rule, or none."""
    if may_lose(line, crate):
        how = {"label": crate.encoding, "marks": "off", "before": b"", "room": AMPLE, "last": "last", "mode": "replace"}
        return LOST, line._replace(**how)
    if may_split(line, crate):
        front, rest = line.chunk[: 2 * crate.read - 2], line.chunk[2 * crate.read + 2 :]
        return SPLIT, line._replace(chunk=front + b"\xff\xfd\xff\xfd" + rest)
    return None


def judge(programs, lines):
    """The rule of each line, or none, and after it the notes, by the commands of both programs."""
    ours, crate = (answers(it, lines) for it in programs)
    calls = list(zip(lines, ours, crate, strict=True))
    rules = [rule_of(*it) for it in calls]
    open_lines = [at for at, it in enumerate(calls) if not rules[at] and agree_beside(*it)]
    others = [(at, *it) for at in open_lines if (it := other_line(lines[at], crate[at]))]
    for (at, rule, line), answer in zip(others, answers(programs[0], [it[2] for it in others]), strict=True):
        if answer.units == crate[at].rest if rule == LOST else rule_of(line, answer, crate[at]) == ALIKE:
            rules[at] = rule
    return [(rule, *notes_of(*it)) for rule, it in zip(rules, calls)]


def smaller(line):
    """Lines that have a little less than this one."""
    if line.room:
        yield line._replace(room=line.room - 1)
    for name in ("before", "chunk"):
        data = getattr(line, name)
        for at in range(0, len(data), line.width):
            yield line._replace(**{name: data[:at] + data[at + line.width :]})


def smallest(programs, line):
    """A line that differs, as long as one of those that have less does."""
    while line:
        least, less = line, list(smaller(line))
        line = next((it for it, (rule, *_) in zip(less, judge(programs, less), strict=True) if not rule), None)
    return least


def show(programs, line):
    line = smallest(programs, line)
    print(f"  differs: {line}")
    for name, program in zip(("the library", "the crate"), programs):
        print(f"    {name}: {said(program, [line])[0]}")


def in_room(programs, texts):
    """Lines. Where the room is `+N`, it is N more than the library's query returns."""
    lines = [parsed(Line, it) for it in texts]
    above = [at for at, it in enumerate(texts) if it.split()[5].startswith("+")]
    for at, answer in zip(above, answers(programs[0], [lines[at] for at in above]), strict=True):
        lines[at] = lines[at]._replace(room=answer.query + lines[at].room)
    return lines


def lines_of(crate, how):
    """The lines of standard input, or random and hostile ones that the crate's program makes."""
    if how == ["-"]:
        return sys.stdin
    seed, *counts = how
    commands = [[crate, kind, seed, count] for kind, count in zip(("lines", "lending"), counts, strict=True)]
    programs = [subprocess.Popen(it, stdout=subprocess.PIPE, text=True) for it in commands]
    return itertools.chain.from_iterable(it.stdout for it in programs)


def main(words):
    ours, crate, *how = words
    programs, made = ([ours, "calls"], [crate, "answers"]), iter(lines_of(crate, how))
    rules, notes, shown = collections.Counter(), collections.Counter(), 0
    while texts := list(itertools.islice(made, BATCH)):
        lines = in_room(programs, texts)
        judged = judge(programs, lines)
        rules.update(it[0] for it in judged)
        notes.update(note for it in judged for note in it[1:])
        for line in [line for line, it in zip(lines, judged) if not it[0]][: SHOWN - shown]:
            shown += 1
            show(programs, line)
    for rule in RULES:
        print(f"{rules[rule]:>9} calls: {rule}")
    for note in NOTES:
        print(f"{notes[note]:>9} of these with {note}")
    for (fault, line), found in zip(FAULTS, judge(programs, [parsed(Line, it) for _, it in FAULTS]), strict=True):
        if fault not in found:
            print(f"  no fault of the crate any more: {line}")
            rules[None] += 1
    total, differ = sum(rules.values()), rules[None]
    print(f"compare-crate: {total - differ} calls alike or apart by a rule, {differ} differ")
    return int(differ > 0 or total == 0 or (how != ["-"] and total != sum(map(int, how[1:]))))


sys.exit(main(sys.argv[1:]))
