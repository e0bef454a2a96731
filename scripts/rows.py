"""Rows of conformance, read from the files that conformance/README.md describes.

rows.py FILE..    says how many rows each file has, and names each that can't be read with its file and its line; the
                  status is 1 if there is one

`rows_of` returns the rows of a file. One that can't be read has a fault, and no fields.
"""

import os
import re
import sys
from typing import NamedTuple

from common import give_up, paths, read, report
from lists import encodings

FOLDER = "conformance"
SPACES = " \t\n\f\r"
MARKS, MODES = ("off", "sniff", "remove"), ("replace", "report")
OUTPUTS, INPUTS = ("utf8", "utf16", "str", "string"), ("utf8", "utf16", "vec")
# Rows of calls: each is of the decoder or the encoder after the calls before it.
CALLS = ("call", "units")
STATEFUL = (*CALLS, "used", "lengths", "length", "latin1", "pending")
FLAGS = ("ascii-compatible", "single-byte", "line-feeds-divide")
ESCAPE = re.compile(r"x([0-9A-F]{2})|u\{([0-9A-F]{1,8})\}")


class Unreadable(Exception):
    """Why a row can't be read."""


class Head(NamedTuple):
    """What the rows after a head are of. `ways` are its outputs or its inputs, and `number` is its line."""
    kind: str
    number: int
    names: tuple
    marks: str
    mode: str
    ways: tuple
    barred: str


class Row(NamedTuple):
    """A row, with its place, the head before it if it needs one, and its fields by their names. The row of a head has
    that as its `head`."""
    path: str
    number: int
    line: str
    head: Head
    kind: str
    name: str
    fields: dict
    fault: str

    @property
    def place(self):
        return f"{self.path}:{self.number}"

    @property
    def form(self):
        """Its kind and its name."""
        return f"{self.kind} {self.name}".strip()


def labels():
    """The name of the encoding of each label."""
    return {label: it.name for it in encodings() for label in it.labels}


LABELS = labels()


def split(line):
    """The words of a line, each with whether it stands in quotes."""
    words, rest = [], line.strip(SPACES)
    while rest:
        if rest[0] == '"':
            word, quote, rest = rest[1:].partition('"')
            if not quote:
                raise Unreadable("a quote is not closed")
            if rest and rest[0] != " ":
                raise Unreadable("no space stands after a quote")
            words.append((word, True))
        else:
            word, _, rest = rest.partition(" ")
            if '"' in word:
                raise Unreadable("no space stands before a quote")
            words.append((word, False))
        rest = rest.lstrip(SPACES)
    return words


def escaped(piece):
    """The bytes of what stands after a backslash: `xNN` or `u{N}`, and other characters."""
    found = ESCAPE.match(piece)
    if not found:
        raise Unreadable("a backslash without a number")
    rest = piece[found.end():].encode()
    if found[1]:
        return bytes.fromhex(found[1]) + rest
    number = int(found[2], 16)
    if number > 0x10FFFF or 0xD800 <= number < 0xE000:
        raise Unreadable("no character has this number")
    return chr(number).encode() + rest


def number_of(word):
    if not re.fullmatch("[0-9]{1,20}", word):
        raise Unreadable("no number")
    return int(word)


def pair_of(word, sign):
    """The two numbers of a word, with a sign between them."""
    first, found, second = word.partition(sign)
    if not found:
        raise Unreadable("no pair of numbers")
    return number_of(first), number_of(second)


def one_of(word, words):
    if word not in words:
        raise Unreadable(f"{word}: none of {', '.join(dict.fromkeys(words))}")
    return word


def encoding_of(label):
    """The name of the encoding of a label, in whatever letters."""
    if label.lower() not in LABELS:
        raise Unreadable("no encoding has this label")
    return LABELS[label.lower()]


def result_of(word, named):
    """A result of a decoder, or of an encoder, which names the unmappable character."""
    faults = r"Unmappable\([0-9A-F]{1,6}\)" if named else r"Malformed\([0-9]{1,3},[0-9]{1,3}\)"
    if not re.fullmatch(f"InputEmpty|OutputFull|{faults}", word):
        raise Unreadable("no result has this name")
    return word


def units_of(word):
    """Code units in hexadecimal, with commas, or none for a dash."""
    parts = word.split(",") if word != "-" else []
    if not all(re.fullmatch("[0-9A-F]{1,4}", it) for it in parts):
        raise Unreadable("no code units in hexadecimal")
    return tuple(int(it, 16) for it in parts)


class Words:
    """The words of a row that are still to be read."""

    def __init__(self, line):
        self.rest = split(line)

    def next(self, quoted):
        if not self.rest:
            raise Unreadable("a word is missing")
        word, is_quoted = self.rest.pop(0)
        if is_quoted != quoted:
            raise Unreadable("bytes or a text are not in quotes" if quoted else "a word is in quotes")
        return word

    def word(self):
        return self.next(False)

    def takes(self, *words):
        """The next word if it is one of these, which is then taken, or none."""
        return self.word() if self.rest and self.rest[0] in [(it, False) for it in words] else None

    def bytes(self):
        front, *pieces = self.next(True).split("\\")
        return front.encode() + b"".join(map(escaped, pieces))

    def text(self):
        try:
            return self.bytes().decode()
        except UnicodeDecodeError:
            raise Unreadable("a text is not UTF-8") from None

    def number(self):
        return number_of(self.word())

    def number_or_none(self):
        return None if self.takes("none") else self.number()

    def name(self):
        return encoding_of(self.word())

    def exact_name(self):
        """The name of an encoding, and none of its labels."""
        return one_of(self.word(), LABELS.values())

    def name_or_none(self):
        return None if self.takes("none") else self.exact_name()

    def choice(self, yes, no):
        return one_of(self.word(), (yes, no)) == yes


def head_of(kind, number, words):
    """What the rows after `LABEL.. MARKS MODE [OUTPUT..]` or `LABEL.. MODE [INPUT..] [barring TEXT]` are of."""
    names, ends = [], MARKS if kind == "decoder" else MODES
    while not (end := words.takes(*ends)):
        names.append(words.name())
    if not names:
        raise Unreadable("a label is missing")
    marks, mode = (end, one_of(words.word(), MODES)) if kind == "decoder" else ("off", end)
    ways, barred = [], ""
    while words.rest:
        if kind == "encoder" and words.takes("barring"):
            barred = words.text()
            if any(it.isascii() for it in barred):
                raise Unreadable("an ASCII character can't be barred")
            break
        ways.append(one_of(words.word(), OUTPUTS if kind == "decoder" else INPUTS))
    return Head(kind, number, tuple(names), marks, mode, tuple(ways), barred)


def decoder_text(words):
    made = {"src": words.bytes(), "text": words.text(), "malformed": [], "room": None}
    while words.rest:
        word = words.word()
        if word.startswith("room="):
            made["room"] = number_of(word[5:])
        else:
            made["malformed"].append(pair_of(word, "+"))
    if made["room"] is None:
        made["room"] = max((len(it.encode()) for it in made["text"]), default=0)
    return made


def call(words, src, units, named):
    """The call of a decoder or an encoder, whose input has been read."""
    made = {"src": src, "last": words.choice("last", "more"), "room": words.number()}
    made |= {"result": result_of(words.word(), named), "read": words.number(), "written": words.number()}
    made |= {"replaced": words.choice("replaced", "-"), "units": units()}
    return made


def decoder_call(words):
    made = call(words, words.bytes(), words.text, False)
    made["held"] = None
    if words.rest:
        word = words.word()
        if not word.startswith("held="):
            raise Unreadable("there is a word too many")
        made["held"] = number_of(word[5:])
    return made


def encoder_call(words):
    return call(words, words.text(), words.bytes, True)


def units_call(words):
    return call(words, units_of(words.word()), words.bytes, True)


def length(words):
    of = one_of(words.word(), ("utf8", "report", "utf16"))
    return {"of": of, "n": words.number(), "length": words.number_or_none()}


def whole(words, src, text, fault):
    return {"src": src(), "text": text(), "encoding": words.name(), "flag": words.choice(fault, "-"),
            "lends": words.takes("lent", "owned")}


def among(words):
    made = {"letter": words.bytes(), "src": words.bytes(), "text": words.text(), "malformed": []}
    if words.rest:
        made["malformed"].append(pair_of(words.word(), "+"))
    if not made["letter"] or any(at for at, _ in made["malformed"]):
        raise Unreadable("no letter, or a malformed sequence that is not at 0")
    return made


def repeat(words):
    made = {"n": words.number(), "src": words.bytes(), "text": words.text(), "middle": b"", "middle_text": ""}
    return made | ({"middle": words.bytes(), "middle_text": words.text()} if words.rest else {})


def sums(words):
    both = [words.word(), words.word()]
    if not all(re.fullmatch("[0-9A-F]{16}", it) for it in both):
        raise Unreadable("no sum of sixteen hexadecimal digits")
    return {"sums": both}


def first_bytes(words):
    word, text = words.word(), words.text()
    if not re.fullmatch("[0-9A-F]{1,2}", word):
        raise Unreadable("no hexadecimal digits of a byte")
    if int(word, 16) + len(text) > 256:
        raise Unreadable("more characters than bytes")
    return {"first": int(word, 16), "text": text}


def encoding(words):
    made = {"encoding": words.exact_name(), "output": words.exact_name()}
    return made | {"flags": [one_of(words.word(), FLAGS) for _ in range(len(words.rest))]}


def mark(words):
    made = {"src": words.bytes(), "encoding": words.name_or_none()}
    return made | {"length": words.number() if made["encoding"] else 0}


# What reads the fields of a row, by the kind of its head and its name.
FORMS = {
    ("decoder", "text"): decoder_text,
    ("decoder", "call"): decoder_call,
    ("decoder", "used"): lambda it: {"encoding": it.name()},
    ("decoder", "lengths"): lambda it: {"n": it.number(), "lengths": [it.number_or_none() for _ in range(3)]},
    ("decoder", "length"): length,
    ("decoder", "latin1"): lambda it: {"src": it.bytes(), "length": it.number_or_none()},
    ("decoder", "whole"): lambda it: whole(it, it.bytes, it.text, "malformed"),
    ("decoder", "among"): among,
    ("decoder", "repeat"): repeat,
    ("decoder", "bytes"): first_bytes,
    ("encoder", "text"): lambda it: {"text": it.text(), "bytes": it.bytes()},
    ("encoder", "long"): lambda it: {"text": it.text(), "bytes": it.bytes()},
    ("encoder", "sum"): sums,
    ("encoder", "call"): encoder_call,
    ("encoder", "units"): units_call,
    ("encoder", "pending"): lambda it: {"pending": it.choice("yes", "no")},
    ("encoder", "lengths"): lambda it: {"n": it.number(), "lengths": [it.number_or_none() for _ in range(4)]},
    ("encoder", "whole"): lambda it: whole(it, it.text, it.bytes, "unmappable"),
    ("", "encoding"): encoding,
    ("", "label"): lambda it: {"label": it.bytes(), "encoding": it.name_or_none()},
    ("", "mark"): mark,
    ("", "valid"): lambda it: {"of": one_of(it.word(), ("utf8", "ascii", "iso-2022-jp")), "src": it.bytes(),
                               "length": it.number()},
}


def check(head, name, fields):
    """Refuses a row that its head is not for."""
    if name in STATEFUL and not head.ways:
        raise Unreadable(f"the head names no {'output' if head.kind == 'decoder' else 'input'}")
    if name == "units" and set(head.ways) != {"utf16"}:
        raise Unreadable("an encoder of the head reads UTF-8")
    if head.kind == "encoder" and name in ("whole", "sum") and head.barred:
        raise Unreadable("this row bars no characters")
    if fields.get("held") is not None and head.marks != "off":
        raise Unreadable("held bytes are those of marks `off`")


def parsed(number, line, head):
    """The head that holds after a line, its kind, its name and its fields."""
    words = Words(line)
    name = words.word()
    if name in ("decoder", "encoder"):
        head = head_of(name, number, words)
        found = head, name, "", {}
    elif ("", name) in FORMS:
        found = head, "", name, FORMS["", name](words)
    elif not head:
        raise Unreadable("no head stands before this row")
    elif (head.kind, name) not in FORMS:
        raise Unreadable(f"no row of {'a decoder' if head.kind == 'decoder' else 'an encoder'} has this name")
    else:
        found = head, head.kind, name, FORMS[head.kind, name](words)
        check(head, name, found[3])
    if words.rest:
        raise Unreadable("there is a word too many")
    return found


def rows_of(path, text=None):
    """The rows of a file."""
    rows, head = [], None
    for number, line in enumerate((read(path) if text is None else text).split("\n"), 1):
        line = line.removesuffix("\r")
        if not line or line.startswith("#"):
            continue
        try:
            head, kind, name, fields = parsed(number, line, head)
            rows.append(Row(path, number, line, head, kind, name, fields, None))
        except Unreadable as why:
            if line.split(" ")[0] in ("decoder", "encoder"):
                head = None
            rows.append(Row(path, number, line, head, "", "", {}, str(why)))
    return rows


def files_of(named):
    """The files that are named, or all of the folder."""
    return named or paths(f"{FOLDER}/*.txt")


def main(named):
    if {"-h", "--help"} & set(named):
        print(__doc__.strip())
        return 0
    faults = []
    for path in files_of(named):
        try:
            rows = rows_of(path, read(os.path.abspath(path)) if named else None)
        except (OSError, UnicodeDecodeError) as why:
            give_up(f"{path}: {why}")
        print(f"{path}: {len(rows)} rows")
        faults += [f"{it.place}: cannot be read: {it.fault}" for it in rows if it.fault]
    return report(faults, f"{len(faults)} rows cannot be read")


if __name__ == "__main__":
    sys.exit(main(sys.argv[1:]))
