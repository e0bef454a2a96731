"""The sources of the crates: their definitions, and their lines. For scripts/documents."""

import functools
import re

from common import paths, read

HEAD = re.compile(r"(?:(?:abbrev|unfoldable|pub|record|data) )+(?!mod |use )([^\s:({]+)")
# a clause of a contract, with brackets within brackets, and what else is no code
CLAUSE = r"^ *(?:requires|ensures)\b[^{\n]*\{(?:[^{}]|\{(?:[^{}]|\{[^{}]*\})*\})*\}"
NO_CODE = re.compile(CLAUSE + r"|^ *(?:pub |ghost )*(?:use|mod|ghost) [^;]*;", re.M)
IMPORTS = re.compile(r"^(?:pub |ghost )*use [^{\n]*(?:\{[^}]*\})?.*$|^pub mod .*$", re.M)


@functools.cache
def blocks(path):
    """The definitions of a spec file, by name, as texts without comments and imports."""
    found, name = {}, None
    for line in read(path).splitlines():
        if head := HEAD.match(line):
            name = head[1]
            found[name] = ""
        if name and not line.startswith(("use ", "pub use ", "pub mod ", "--")):
            found[name] += line + "\n"
    return found


def specs_of(crate):
    """The spec files of a crate, but for the list of them."""
    return [it for it in paths(f"crates/{crate}/specs/*.antt") if not it.endswith("/Lib.antt")]


def end_of_group(text, at):
    """The place after the bracket that closes a group, which is open at a place."""
    depth = 1
    while depth and at < len(text):
        depth += (text[at] in "({") - (text[at] in ")}")
        at += 1
    return at


def headline(spec):
    """The first sentence of the comment that heads a spec file."""
    comment = re.match(r"(?:-- .*\n)*", read(spec))[0]
    words = " ".join(line[2:].strip() for line in comment.splitlines())
    return re.match(r".*?\.(?= [A-Z]|$)|.*", words)[0]


def counted(block, comment):
    """How many lines of a block are neither blank nor a comment."""
    return sum(bool(line.strip()) and not line.strip().startswith(comment) for line in block.splitlines())


def lines_of(path):
    """The lines of a file that are neither blank nor a comment nor an import."""
    return counted(IMPORTS.sub("", read(path)), "--" if path.endswith(".antt") else "//")


def executable_lines(path):
    """The lines of a file of code that are neither blank, comments, imports, contracts nor ghost."""
    return counted(NO_CODE.sub("", read(path)), "//")


def is_written(path):
    """Whether a script writes the whole file."""
    return bool(re.search(r"^(?://!|--) Written by scripts/", read(path), re.M))


def tests_of(crate):
    """The number of tests of a crate."""
    return sum(read(it).count("#[test]") for it in paths(f"crates/{crate}/src/**/*.rt"))
