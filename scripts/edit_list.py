"""The edits of the crates: what their files say, which functions they change, and which can be tried at once.

For scripts/edits, witnesses.py and scripts/documents.
"""

import functools
import os
import re
from typing import NamedTuple

from common import crates, is_there, paths, read

# The head line of an impl or a trait, and that of a function, with its attributes.
HEAD = re.compile(
    r"^(?:(?P<owner>(?:unsafe )?impl\b[^{\n]*|(?:pub(?:\(crate\))? )?trait\b[^{\n]*)|(?P<attributes>(?: *#\[.*\n)*)"
    r"(?P<head>(?P<indent> *)(?:pub(?:\([a-z]+\))? +)?(?:const +)?(?:extern \"C\" +)?fn +(?P<name>\w+)[^{\n]*\{?))", re.M)
TEST = re.compile(r"^#\[test\]\nfn (\w+)\(", re.M)

# The lines of an edit that say more than its pairs: what they are for, and how each begins.
LINES = {"call": "# call: ", "shown": "# shown by: ", "reason": "# not shown: ", "same": "# same by: "}


class Pair(NamedTuple):
    """A text of a file, and the one that takes its place."""
    file: str
    old: str
    new: str


class Place(NamedTuple):
    """What a pair changes: the file, and the function in it, by its name, its owner's head line and its own; or none."""
    file: str
    name: str = ""
    owner: str = ""
    head: str = ""


class Edit:
    """A change of a crate: a wrong one or, in the folder equal, one that means the same.

    `call` is the public call that it is for, `shown` the test, the program or the file of rows that shows it to be
    wrong, `reason` why none does, and `same` the one that shows it to mean the same. Each is empty where the file has
    no such line.
    """

    def __init__(self, crate, path):
        self.crate, self.path, self.name = crate, path, os.path.basename(path)[: -len(".edit")]
        self.text, self.pairs, self.fault, self.label = read(path), [], "", f"{crate}/{self.name}"
        said = {what: re.findall(f"^{begin}(.*)$", self.text, re.M) for what, begin in LINES.items()}
        self.call, self.shown, self.reason, self.same = (" ".join(said[what]).strip() for what in LINES)
        now = {"file": "", "old": ""}
        for what, text in re.findall("^(file|old|new):(.*)$", self.text, re.M):
            now[what] = text.strip() if what == "file" else text.removeprefix(" ")
            if what == "new":
                self.pairs.append(Pair(**now))
        try:
            self.places = places_of(self)
        except (OSError, ValueError) as error:
            self.places, self.fault = [], f"it can't be applied: {error}"
        self.is_of_functions = bool(self.places) and all(it.name for it in self.places)


def apply(crate, pairs):
    """The texts of the files that these pairs change, by path. A ValueError where an old text isn't there once."""
    texts = {}
    for file, old, new in pairs:
        text = texts.get(file) or read(f"crates/{crate}/{file}")
        if not old or text.count(old) != 1:
            raise ValueError(f"{old!r} stands {text.count(old) if old else 0} times in {file}")
        texts[file] = text.replace(old, new)
    return texts


def places_of(edit):
    """The places that an edit changes, each once."""
    if not edit.pairs:
        raise ValueError("it has no pair")
    apply(edit.crate, edit.pairs)
    found = []
    for number, (file, old, _) in enumerate(edit.pairs):
        before = apply(edit.crate, edit.pairs[:number]).get(file) or read(f"crates/{edit.crate}/{file}")
        # (an old text may begin with the blanks of its line)
        found.append(place_at(file, before, before.index(old) + len(old) - len(old.lstrip())))
    return list(dict.fromkeys(found))


def functions(file, text):
    """The functions of a source, as places: where its attributes, its head line and its body begin, and it ends."""
    owner = ""
    for it in HEAD.finditer(text):
        if it["owner"]:
            owner = it["owner"].strip()
            continue
        begin, indent = it.start("head"), it["indent"]
        end = (text.find(f"\n{indent}}}\n", begin) + 1 or len(text)) + len(indent)
        opens = re.compile(rf"^{indent}(?:\).*)?\{{$", re.M).search(text, begin, end)
        body = it.end("head") if it["head"].endswith("{") or not opens else opens.end()
        # (two impls of a file may have a method of one name)
        yield Place(file, it["name"], owner if indent else "", it["head"].strip()), (it.start(), begin, body, end)


def place_at(file, text, at):
    """What stands at an index of a text: the last function that begins before it, if it ends after it."""
    before = [(place, end) for place, (_, begin, _, end) in functions(file, text) if begin <= at]
    return before[-1][0] if before and at <= before[-1][1] else Place(file)


def ends_of(text, place):
    """Where the attributes, the head line and the body of a function begin and it ends, or None if it is not there."""
    return next((ends for it, ends in functions(place.file, text) if it == place), None)


def beside(text, place, counts, wrong, marks):
    """A source in which a wrong body stands before that of a function, between two marks: it counts where an expression
    is true."""
    at = ends_of(text, place)[2]
    return text[:at] + f"\nif {counts} {{ {marks[0]}\nreturn {{{wrong}}};\n}} {marks[1]}\n" + text[at:]


@functools.cache
def edits_of(crate):
    """The edits of a crate: those that stand singly in must-fail, and those of edits."""
    files = paths(f"crates/{crate}/must-fail/*.edit") + paths(f"crates/{crate}/edits/*.edit")
    return [Edit(crate, it) for it in files]


@functools.cache
def equal_of(crate):
    """The changes of a crate that mean the same."""
    return [Edit(crate, it) for it in paths(f"crates/{crate}/equal/*.edit")]


def file_of_test(name):
    """The file that a test stands in, from the top, or nothing where there is no such test."""
    crate, *modules = name.split("::")
    test = modules.pop() if modules else ""
    path = f"crates/{crate}/src/{'/'.join(modules) or 'lib'}.rt"
    return path if is_there(path) and test in TEST.findall(read(path)) else ""


def is_program(name):
    """Whether a crate is a program that says by a file what it prints."""
    return all(is_there(f"crates/{name}/{it}") for it in ("src/main.rt", "stdout"))


def is_rows(name):
    """Whether a path is that of a file of rows, which the program crates/conformance runs."""
    return bool(re.fullmatch(r"conformance/[\w-]+\.txt", name)) and is_there(name)


def is_of_c(name):
    """Whether a path is that of a program in C that calls the exports."""
    return bool(re.fullmatch(r"bindings/c/tests/\w+\.c", name)) and is_there(name)


def is_witness(name):
    return bool(file_of_test(name)) or is_program(name) or is_rows(name) or is_of_c(name)


def fault_of(edit):
    """What is wrong with an edit before it runs, with the lines that name its witness too, or nothing."""
    if edit.fault:
        return f"BAD EDIT: {edit.fault}"
    if "/equal/" in edit.path:
        return "" if is_witness(edit.same) else f"there is no test and no file {edit.same or 'that it names'}"
    if bool(edit.shown) == bool(edit.reason):
        return f"it has {'both' if edit.shown else 'neither'} of '{LINES['shown'].strip()}' and '{LINES['reason'].strip()}'"
    is_shown = not edit.shown or is_witness(edit.shown)
    return "" if is_shown else f"there is no test, no program and no file of rows {edit.shown}"


def fits(group, edit, most):
    """Whether an edit can be tried with those of a group: it changes other functions, and all can be applied."""
    if len(group) >= most or not edit.is_of_functions or not group[0].is_of_functions:
        return False
    if {it for other in group for it in other.places} & {*edit.places}:
        return False
    try:
        return bool(apply(edit.crate, [it for other in [*group, edit] for it in other.pairs]))
    except ValueError:
        return False


def groups_of(edits, most):
    """The edits of a crate in groups that can be tried at once. One that is not of a function is a group of its own."""
    groups = []
    for edit in edits:
        group = next((it for it in groups if fits(it, edit, most)), [])
        if not group:
            groups.append(group)
        group.append(edit)
    return groups


def out_of_date():
    """What is wrong with the edits."""
    every = [it for of in (edits_of, equal_of) for crate in crates() for it in of(crate)]
    return [f"{it.path}: {fault}" for it in every if (fault := fault_of(it))]
