"""The definitions of spec files: the comment, the text, and the fields or constructors of each."""

import functools
import re
from dataclasses import dataclass, field

from common import paths, read
from sources import HEAD
from surface import libraries

FIELD = re.compile(r"^ +(?:pub )?([^\s:({]+) :(?= |$)")
IMPORT = re.compile(r"(?:pub )?(?:use|mod) ")


@dataclass(eq=False)
class Definition:
    """A definition of a spec file. Its kind is `record`, `data` or what is before its type: `abbrev`, `unfoldable`."""
    path: str
    name: str
    kind: str
    line: int
    comment: str
    text: str
    fields: list = field(default_factory=list)


def comment_of(lines):
    """The text of the lines of a comment: paragraphs, with what is drawn left as it is."""
    return "\n".join(it.strip()[2:].removeprefix(" ") for it in lines)


@functools.cache
def definitions_of(path):
    """The definitions of a spec file, by name."""
    found, comment, now, headed = {}, [], None, False
    for number, line in enumerate(read(path).splitlines(), 1):
        if IMPORT.match(line):
            comment, now, headed = [], None, True
        elif head := HEAD.match(line):
            kind = "record" if " record " in f" {line[: head.start(1)]}" else line.split()[0]
            kind = "data" if re.match(r"(?:pub )?data ", line) else kind
            now = found[head[1]] = Definition(path, head[1], kind, number, comment_of(comment), line)
            comment = []
        elif line.startswith("--"):
            comment, now = comment + [line] if headed else [], None
        elif not line.strip():
            comment, now = [], None
        elif now:
            now.text += "\n" + line
        elif found and not comment:
            now = [*found.values()][-1]
            now.text += "\n" + line
    for it in found.values():
        if it.kind in ("record", "data"):
            it.fields = [name[1] for line in it.text.splitlines()[1:] if (name := FIELD.match(line))]
    return found


@functools.cache
def spec_files():
    """The spec files of the libraries, those of the crates that callers link first, but for the lists of them."""
    return [it for crate in libraries() for it in paths(f"crates/{crate}/specs/*.antt") if not it.endswith("/Lib.antt")]


def head_of(path):
    """The comment that heads a spec file, but for what a script says of itself."""
    lines = re.match(r"(?:--.*\n)*", read(path))[0].splitlines()
    return re.sub(r"\n*Written by scripts/make-sources [^\n]*(?:\n[^\n]+)*", "", comment_of(lines)).strip()
