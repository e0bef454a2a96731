"""The rules of CONTRIBUTING.md ("House rules", "Names") that can be counted. For scripts/documents."""

import re

from common import paths, read
from sources import blocks, end_of_group, is_written

# The most lines of a file, and of a proof's, and the most columns of a line, and of an import.
MOST_LINES, MOST_OF_PROOFS, MOST_COLUMNS, MOST_OF_IMPORTS = 799, 400, 100, 120
# The most parameters of a function, and of a lemma or a module, each by itself, and the most `_` side by side.
MOST_OF_FUNCTIONS, MOST_PARAMETERS, MOST_HOLES = 5, 9, 5
# The most names that two spec files may share.
MOST_SHARED = 11

HOLES = re.compile(rf"(?<=\s)_(?:\s+_){{{MOST_HOLES},}}(?=[\s,)\]])")
# The head of a lemma or a module, and a group of its parameters.
HEAD = re.compile(r"^ *(?:module _|(?:pub )?[^\s:({]+ :)(?=\s+[({])", re.M)
GROUP = re.compile(r"\s*(?:→\s*)?[({]([^(){}:]+):")
# The head of a function up to its parameters, and a bracket with none in it.
FUNCTION = re.compile(r"\bfn \w+(?:<[^(]*>)?\(")
INNER = re.compile(r"[(<[{][^()<>[\]{}]*[])>}]")
LOCAL = re.compile(r"\blet (\w)(?: :| =)")
IMPORT = re.compile(r" *(?:pub |ghost |unfoldable )*use ")
# `rt fmt` writes these in one line.
WHOLE_LINE = re.compile(r" *#\[tactic\(|(?:pub )?use [^{]*$")


def sources():
    """The sources that are written by hand."""
    found = paths("crates/*/*/**/*.rt") + paths("crates/*/*/**/*.antt")
    return sorted(it for it in found if "/out/" not in it and not is_written(it))


def wide_lines(text):
    """The places of lines that have too many columns."""
    every = ((it.start(), it[0]) for it in re.finditer(".+", text))
    wide = ((at, line) for at, line in every if len(line) > (MOST_OF_IMPORTS if IMPORT.match(line) else MOST_COLUMNS))
    return [(at, "a line of too many columns") for at, line in wide if not WHOLE_LINE.match(line)]


def parameters(text, at):
    """The number of parameters that follow a place, group by group."""
    number = 0
    while group := GROUP.match(text, at):
        number += len(group[1].split())
        at = end_of_group(text, group.end())
    return number


def long_heads(text):
    """The places of functions that have too many parameters, and of conditions without a name."""
    found = [(it.start(), "a condition without a name") for it in re.finditer(r"^ *requires \{", text, re.M)]
    for it in FUNCTION.finditer(text):
        inner, parts = None, text[it.end():end_of_group(text, it.end()) - 1].replace("->", "")
        while parts != inner:
            inner, parts = parts, INNER.sub("", parts)
        if sum(bool(part.strip()) for part in parts.split(",")) > MOST_OF_FUNCTIONS:
            found.append((it.start(), f"more than {MOST_OF_FUNCTIONS} parameters"))
    return found


def unnamed(text):
    """Places of a proof where names are wanted: `_` side by side, many parameters, facts of one letter cited twice."""
    found = [(it.start(), "six `_` or more side by side") for it in HOLES.finditer(text)]
    heads = (it for it in HEAD.finditer(text) if parameters(text, it.end()) > MOST_PARAMETERS)
    found += [(it.start(), f"more than {MOST_PARAMETERS} parameters") for it in heads]
    for block in re.finditer(r"^\S.*?(?=^\S|\Z)", text, re.M | re.S):
        for it in LOCAL.finditer(block[0]):
            if len(re.findall(rf"(?<![\w.]){it[1]}(?!\w)", block[0])) > 2:
                found.append((block.start() + it.start(), f"`{it[1]}` is cited more than once, and has one letter"))
    return found


def names_out_of_date():
    """Shared names that CONTRIBUTING.md doesn't list with a reason, and what it lists beside them."""
    files, listed = {}, re.findall(r"^- shared: `([^`]+)`: \S", read("CONTRIBUTING.md"), re.M)
    for path in paths("crates/*/specs/*.antt"):
        for name in blocks(path):
            files.setdefault(name, []).append(path)
    shared = {name: those for name, those in files.items() if len(those) > 1}
    found = [f"{', '.join(those)}: {name} is defined in each" for name, those in shared.items() if name not in listed]
    found += [f"CONTRIBUTING.md: {name} is not shared" for name in listed if name not in shared]
    return found + [f"CONTRIBUTING.md: more than {MOST_SHARED} shared names"] * (len(listed) > MOST_SHARED)


def broken_rules():
    """What is against a rule, in the order of files."""
    found = []
    for path in sources():
        text, proof = read(path), "/proofs/" in path
        most = MOST_OF_PROOFS if proof else MOST_LINES
        found += [f"{path}: more than {most} lines"] * (text.count("\n") > most)
        places = wide_lines(text) + (unnamed(text) if proof else long_heads(text))
        found += [f"{path}:{text.count(chr(10), 0, place) + 1}: {what}" for place, what in places]
    return found
