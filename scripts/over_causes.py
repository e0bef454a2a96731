"""Why rows of conformance do not hold over another implementation: rules, each with a cause in words. For
scripts/conformance."""

import re
import unicodedata
from typing import NamedTuple

REPLACEMENT = "\ufffd"

# Causes of texts.
PRIVATE = "bytes have private-use characters"
CONTROLS = "bytes without a character are controls"
LACKS = "bytes that have a character are malformed"
LACKS_CONTROLS = "bytes of controls are malformed"
HAS = "malformed bytes, or the last of them, have a character"
OTHER = "bytes have another character"
COUNT = "another number of U+FFFD"
SKIPS = "malformed bytes are skipped"
TAKES = "a malformed sequence takes bytes after it along"
PLACES = "the text is the same, and the malformed sequences are other bytes"
CUT = "another text if the input is cut than if it is whole"
GB18030_2022 = "GB18030-2022, or A3 A0, is not known"
FOUR_BYTES = "GBK has no sequences of four bytes"
# Causes of bytes.
UNMAPPABLE = "characters with bytes are unmappable"
MAPPABLE = "unmappable characters have bytes"
OTHER_BYTES = "characters have other bytes"
# Causes of Python and of Node.
LATIN_1 = "80 to 9F are controls"
ERROR = "the codec raises an error, though errors have a handler"
FF = "with `ignoreBOM`, FF at the start is lost"
NO_DECODER = "no TextDecoder has the encoding"
THROWS = "without `fatal`, cut inputs throw"
FATAL = "`fatal` throws where nothing is malformed, or does not throw where something is"
# Causes of the crate.
SMALL = "`OutputFull` though the next text fits, in under 4 bytes or 2 code units"
SMALL_PANIC = "a panic in under 4 bytes or 2 code units"
SMALL_ENCODER = "`OutputFull` though the next bytes fit, in under 14 bytes"
EARLIER = "`OutputFull` earlier than by the length query"
AFTER = "`Malformed` with more or fewer bytes read after it"
MARK_PANIC = "a panic in 4 or 5 bytes after the start of a byte order mark (UPSTREAM)"
SECOND_PANIC = "a panic where a second U+FFFD of ISO-2022-JP does not fit (UPSTREAM)"
HELD_MARK = "EF, as of a byte order mark, is placed one byte on (UPSTREAM)"
LOST = "a held lead byte is lost in a call that has no input (UPSTREAM)"
SPLIT = "a pair of surrogates is split at the end of the room (UPSTREAM)"
FINISHED = "a query of a finished decoder panics"
LENGTHS = "another length (DIFFERENCES)"
ASCII_END = "the Latin-1 prefix ends before the ASCII bytes at its end (UPSTREAM)"
BYTE_80 = "the Latin-1 prefix ends at byte 80 (UPSTREAM)"
NOT_EXPLAINED = "not explained"

NEW_IN_2022 = {*map(chr, range(0xFE10, 0xFE1A)), *map(chr, range(0x9FB4, 0x9FBC)), "\u1e3f", "\ue7c7"}
# These, and those of private use in their place before.
OLD = (*range(0xE78D, 0xE797), 0xE81E, 0xE826, 0xE82B, 0xE82C, 0xE832, 0xE843, 0xE854, 0xE864)
IN_2022 = NEW_IN_2022 | {*map(chr, OLD)}
CONTROL = {chr(it) for it in range(0x80, 0xA0)}
FOUR = re.compile(rb"[\x81-\xfe][0-9][\x81-\xfe][0-9]")
LOSING = ("Big5", "EUC-KR", "Shift_JIS")
# The encodings whose lengths are others.
OTHER_LENGTHS = ("Big5", "EUC-JP", "EUC-KR", "GBK", "gb18030", "ISO-2022-JP", "Shift_JIS")


class Failure(NamedTuple):
    """A row that does not hold, and what an implementation gives."""
    row: object
    given: dict

    def get(self, name):
        return self.given.get(name, "")

    @property
    def is_small(self):
        """Whether a call has less room than the crate's documentation asks for."""
        if self.get("stage") != "call":
            return self.get("stage") == "small"
        least = 2 if self.get("output") == "utf16" else 4
        if self.row.kind == "encoder":
            least = 4 if self.row.head.mode == "report" else 14
        return self.row.fields.get("room", least) < least

    def texts(self):
        """The text of the standard and that which is given, without the letters of a row `among`."""
        want, got = self.row.fields["text"], bytes.fromhex(self.get("text").strip("-")).decode("utf-8", "surrogatepass")
        if self.row.name == "among":
            return want.strip("a"), got.strip("a")
        if self.row.name == "repeat":
            side, middle = want * self.row.fields["n"], self.row.fields["middle_text"]
            want = side + middle + side if self.row.fields["middle"] else side
        return want, got


def is_within(part, whole):
    """Whether the characters of a text are among those of another, in order."""
    rest = iter(whole)
    return all(it in rest for it in part)


def is_2022(want, got):
    if len(want) != len(got):
        return False
    return all(it == other or it in NEW_IN_2022 or (it, other) == ("\u3000", "\ue5e5") for it, other in zip(want, got))


def causes_of_bytes(want, got):
    """The causes of a row `bytes`: of each byte that differs."""
    pairs = {(it, other) for it, other in zip(want, got) if it != other}
    return sorted({cause_of_texts(*it) for it in pairs}) or [NOT_EXPLAINED]


def cause_of_texts(want, got):
    """The cause of a text that is given for another."""
    plain_want, plain_got = (it.replace(REPLACEMENT, "") for it in (want, got))
    more = set(plain_got) - set(plain_want)
    if more and all(unicodedata.category(it) == "Co" for it in more):
        return PRIVATE
    if more and more <= CONTROL:
        return CONTROLS
    if plain_want == plain_got:
        return COUNT if REPLACEMENT in got else SKIPS
    if REPLACEMENT not in want:
        lacks = LACKS_CONTROLS if set(plain_want) - set(plain_got) <= CONTROL else LACKS
        return lacks if REPLACEMENT in got else OTHER
    if is_within(plain_want, plain_got):
        return HAS
    return TAKES if is_within(plain_got, plain_want) else OTHER


def causes_of_texts(failure):
    """The causes of a text, of Python or of Node."""
    want, got = failure.texts()
    if failure.get("of") in ("gb18030", "GBK") and is_2022(want, got):
        return [GB18030_2022]
    if failure.row.name == "bytes":
        return causes_of_bytes(want, got)
    if failure.get("of") == "GBK" and failure.get("codec") != "gb18030" and FOUR.search(failure.row.fields["src"]):
        return [FOUR_BYTES]
    return [cause_of_texts(want, got)]


def cause_of_encoding(failure):
    """The cause of bytes, of Python or of Node."""
    want = failure.row.fields["text" if failure.row.name == "whole" else "bytes"]
    text = failure.row.fields["src" if failure.row.name == "whole" else "text"]
    if failure.get("of") in ("gb18030", "GBK") and IN_2022.intersection(text):
        return GB18030_2022
    references = [len(re.findall(rb"&#\d+;", it)) for it in (want, bytes.fromhex(failure.get("bytes").strip("-")))]
    if references[0] == references[1]:
        return OTHER_BYTES
    return UNMAPPABLE if references[0] < references[1] else MAPPABLE


def of_python(failure):
    part, stage = failure.get("part"), failure.get("stage")
    if part == "error":
        return [ERROR]
    if stage == "cut":
        return [CUT]
    if part == "bytes":
        return [cause_of_encoding(failure)]
    return [PLACES] if part == "places" else causes_of_texts(failure)


def of_node(failure):
    part, stage = failure.get("part"), failure.get("stage")
    if part == "lacks":
        return [NO_DECODER]
    if part == "fatal":
        return [FATAL]
    if part == "label":
        return [NOT_EXPLAINED]
    if failure.get("text") == "throws":
        return [THROWS if stage == "cut" else NOT_EXPLAINED]
    if stage == "cut":
        return [CUT]
    if part == "bytes":
        return [cause_of_encoding(failure)]
    want, got = failure.texts()
    if failure.get("of") == "windows-1252" and failure.row.head.marks == "off" and want.replace("ÿ", "", 1) == got:
        return [FF]
    if failure.get("of") == "windows-1252" and set(got) - set(want) <= CONTROL:
        return [LATIN_1]
    return causes_of_texts(failure)


def numbers_of(result):
    """The two numbers of `Malformed`, or none."""
    return tuple(map(int, re.findall(r"\d+", result))) if result.startswith("Malformed") else None


def cause_of_panic(failure):
    if failure.row.name in ("latin1", "lengths", "length"):
        return FINISHED
    if failure.row.kind == "encoder":
        return None
    if failure.is_small:
        return SMALL_PANIC
    if failure.row.head.marks != "off":
        return MARK_PANIC
    return SECOND_PANIC if failure.get("of") == "ISO-2022-JP" else None


def cause_of_call(failure):
    """The cause of the answer to a row `call` or `units`."""
    fields, given = failure.row.fields, failure.given
    result, read, query = given["result"], int(given["read"]), given.get("query", "0")
    both = numbers_of(result), numbers_of(fields["result"])
    if all(both) and both[0][0] == both[1][0]:
        apart = read - both[0][1] - (fields["read"] - both[1][1])
        return HELD_MARK if apart == 1 and failure.row.head.marks != "off" else None if apart else AFTER
    if result == "Unmappable(FFFD)" and failure.row.name == "units":
        return SPLIT
    if result == "OutputFull" and read <= fields["read"] and int(given["written"]) <= fields["written"]:
        if failure.is_small:
            return SMALL if failure.row.kind == "decoder" else SMALL_ENCODER
        return EARLIER if failure.row.kind == "encoder" or fields["room"] < int(query.replace("none", "0")) else None
    return LOST if failure.get("of") in LOSING and fields["last"] and not fields["src"] else None


def of_crate(failure):
    part, row = failure.get("part"), failure.row
    if part == "panic":
        return [cause_of_panic(failure)]
    if part == "split":
        return [SPLIT]
    if part == "stuck":
        return [(SMALL if row.kind == "decoder" else SMALL_ENCODER) if failure.is_small else None]
    if part == "places" and row.head.marks != "off" and b"\xef\xbb" in row.fields["src"]:
        return [HELD_MARK]
    if part == "lengths":
        return [LENGTHS if failure.get("of") in OTHER_LENGTHS else None]
    if part == "latin1":
        return [BYTE_80 if b"\x80" in row.fields["src"] and failure.get("of") == "Shift_JIS" else ASCII_END]
    return [cause_of_call(failure) if part == "call" else None]


RULES = {"crate": of_crate, "python": of_python, "node": of_node}


def causes_of(name, row, given):
    """The causes for which a row does not hold over an implementation."""
    return [it or NOT_EXPLAINED for it in RULES[name](Failure(row, given))]
