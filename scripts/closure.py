"""The definitions that contracts rest on, by the names that they cite. For scripts/documents.

A definition is a block of a file of `crates/*/specs/`, and a type of the code an enum or a struct of `crates/*/src/`.
Names are found by the `use` lines of the file that cites them. A line of a definition is one that is neither blank nor
a comment.
"""

import functools
import os
import re
from typing import NamedTuple

from common import crates, is_there, item, paths, read
from places import decoders
from sources import blocks, counted, end_of_group

RUN = "crates/encoding_rs/src/run.rt"
ENCODE_RUN = "crates/encoding_rs/src/encode_run.rt"
LABELS = "crates/enc_stream/src/labels.rt"
CODECS = "crates/enc_codec/specs/Codecs.antt"

CONTRACT = re.compile(r"\n +(?=(?:requires|ensures)\*? )|\{\}?\n|;\n")
CLAUSE = re.compile(r"\s*(?://.*\s+)*(requires|ensures)\*? (\w+ )?(?=\{)")
WORD = re.compile(r"[^\W\d][\w']*(?:-[\w']+)*|\w+")
# A field of a record that is made, whose name cites nothing.
FIELD = re.compile(r"(?<=[\s{;])\w+ = ")
TYPE = r"^(?:pub(?:\(crate\))? )?(?:enum|struct) {}\b.*?(?:;$|^\}})"


class Definition(NamedTuple):
    """A definition or a type of the code: its file, its name and its number of lines."""
    path: str
    name: str
    lines: int


@functools.cache
def imports(path):
    """The names that `use` lines of a file bring in, each with the module and the name there."""
    text = read(path)
    found = {local: (module, local) for module, local in re.findall(r"^use Rattle\.(\S+) as (\w+)$", text, re.M)}
    for module, names in re.findall(r"^ *(?:ghost )?use Rattle\.([\w.]+?)\.\{(.*?)\}", text, re.M | re.S):
        for it in names.split(","):
            name, _, local = it.strip().partition(" as ")
            found[local or name] = (module, name)
    return found


def spec_file(module):
    """The file of a module of definitions, passed on by another crate or not. None for the standard library's."""
    crate, _, rest = module.partition(".specs.")
    path = f"crates/{crate}/specs/{rest}.antt"
    if crate not in crates() or is_there(path):
        return path if crate in crates() else None
    passed = re.search(rf"^pub use Rattle\.(\w+)\.specs\.{rest}$", read(f"crates/{crate}/specs/Lib.antt"), re.M)
    return passed and spec_file(f"{passed[1]}.specs.{rest}")


def declared(module):
    """A type of the code, by its module of declarations. None for constants, which are data, and the library's."""
    crate, path = re.match(r"(\w+)\.specs\.declared\.(.*)", module).groups()
    words = [it for it in path.split(".") if it != "TheVariants"]
    if words[-1] == "TheConstants" or crate not in crates():
        return None
    source = f"crates/{crate}/src/{'/'.join(words[:-1])}.rt"
    block = re.search(TYPE.format(words[-1]), read(source), re.M | re.S)
    return Definition(source, words[-1], counted(block[0], ("//", "#[")))


def defined(path, name):
    """The definition of a name, which may be a constructor of it. None if the file lacks it."""
    those = blocks(path)
    if name not in those:
        name = next((it for it, block in those.items() if re.search(rf"^ +{name} :", block, re.M)), None)
    return name and Definition(path, name, counted(those[name], "--"))


def meant(word, path):
    """The definition or the type that a word in a file stands for, or None."""
    if path.endswith(".antt") and word in blocks(path):
        return defined(path, word)
    module, name = imports(path).get(word, ("", ""))
    if ".declared." in module:
        return declared(module)
    file = module and spec_file(module)
    return defined(file, name) if file else None


def cited(text, path, found, closed=()):
    """Adds to `found` the definitions whose names a text of a file cites, after those that they rest on.

    What the definitions `closed` rest on is left out.
    """
    for word in dict.fromkeys(WORD.findall(FIELD.sub("", text))):
        it = meant(word, path)
        if it and it not in found:
            found[it] = None
            if it.path.endswith(".antt") and it.name not in closed:
                cited(blocks(it.path)[it.name], it.path, found, closed)
            found[it] = found.pop(it)


def contract(text, start):
    """The conditions and the clauses of the function whose signature begins at a place."""
    found = {"requires": {}, "ensures": {}}
    at = CONTRACT.search(text, start).start()
    while clause := CLAUSE.match(text, at):
        begin, at = clause.end() + 1, end_of_group(text, clause.end() + 1)
        found[clause[1]][(clause[2] or "its clause").strip()] = text[begin : at - 1]
    return found["requires"], found["ensures"]


def runs():
    """The number of runs of all indexes."""
    text = "".join(map(read, paths("crates/enc_index/src/data/*.rt")))
    return sum(it.count("(") for it in re.findall(r"_RUNS: .*?= &\[(.*?)\];", text, re.S))


def clauses_of(source, function):
    """The clauses of a function, by name."""
    text = read(source)
    return contract(text, text.index(f"pub fn {function}("))[1]


def size(items):
    """The lines of definitions and of types."""
    return [sum(it.lines for it in items if it.path.endswith(end)) for end in (".antt", ".rt")]


def sizes_under(source, function):
    """The lines of definitions and of types that a function's clauses rest on."""
    found = {}
    cited(" ".join(clauses_of(source, function).values()), source, found)
    return size(found)


def texts():
    """The parts of what `run::decode_run` rests on, and labels: each with the text that needs it, and its file."""
    clauses = clauses_of(RUN, "decode_run")
    yield "core", " ".join(said for name, said in clauses.items() if name != "run"), RUN
    for it in decoders():
        head = rf"^codec_rule \(?(?:codec\.)?(?:{'|'.join(it.codecs)})\b"
        rows = re.findall(rf"{head}.*?=(.*)", blocks(CODECS)["codec_rule"], re.M)
        yield "core" if it.name == "Utf8" else it.name, "\n".join(rows), CODECS
    yield "clause `run`", clauses["run"], RUN
    yield "labels", " ".join(clauses_of(LABELS, "for_label").values()), LABELS


def parts():
    """The definitions of each part: those that no part before it needs."""
    found, sections = {}, {}
    for name, text, source in texts():
        taken = set(found)
        cited(text, source, found, closed=("codec_rule",))
        sections[name] = sections.get(name, []) + [it for it in found if it not in taken]
    return sections


def listed():
    """The list of docs/VERIFY.md: of each part the files with their definitions, lowest crate first, code last."""
    said, order = "", list(crates())
    for part, items in parts().items():
        said += item(part)
        files = dict.fromkeys(it.path for it in items)
        for path in sorted(files, key=lambda path: (path.endswith(".rt"), order.index(path.split("/")[1]))):
            those = [it for it in items if it.path == path]
            link = f"[{os.path.basename(path).removesuffix('.antt')}](../{path})"
            said += item(f"{link}: {', '.join(f'`{it.name}`' for it in those)}", 1)
    return said
