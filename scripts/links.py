"""The files, folders and tests that documents name, and the code that they show. For scripts/documents."""

import os
import re

import claims
from common import crates, paths, read
from edit_list import file_of_test

# Folders whose name begins a path of the repository, and words that begin one below crates.
ROOTS = ("crates/", "docs/", "scripts/", "data/", "bench/", "bindings/", "completions/", ".ci/")
BELOW = re.compile(r"\b((?:enc|recode|example|test)\w*/(?:src|specs|proofs|must-fail|edits|equal)/[\w./-]*\w)")
# Code that is shown, and the sources that have it: tests, examples and their proofs.
CODE = re.compile(r"^```(?:rust|antt)\n(.*?)^```$", re.M | re.S)
ANY_CODE = re.compile(r"^```.*?^```$", re.M | re.S)
EXAMPLES = ("crates/test_*/src/doc_examples.rt", "crates/example_*/src/*.rt", "crates/example_*/proofs/**/*.antt")
# The documents whose names have to be those of sources, beside docs/PROVED.md.
NAMING = ("ARCHITECTURE.md", "docs/PROOFS.md", "docs/STANDARD.md")
# A line of a walk: a file, and the functions in it.
PLACED = re.compile(r"^(\w+/src/[\w/]+\.rt) +([\w, ]+)$", re.M)
# What stands for any name.
ANY = re.compile(r"NAME|Name|WHAT|\bname(?![a-z])")


def named_in(document):
    """The paths that a document names: targets of links, and words that look like one, but what is built."""
    text = re.sub(r"<!--.*?-->", "", read(document), flags=re.S)
    links = [it for it in re.findall(r"\]\(([^)#\s]+)", text) if "://" not in it]
    words = [it.rstrip(".") for it in re.findall(r"(?<![\w/.$])([\w.-]+(?:/[\w.-]+)+/?)", text)]
    named = [it for it in words if it.startswith(ROOTS) and "/out/" not in it]
    named += [f"crates/{it}" for it in BELOW.findall(text)]
    return [(it, os.path.join(os.path.dirname(document), it)) for it in links] + [(it, it) for it in named]


def documents():
    return sorted(paths("*.md") + paths("*/*.md") + paths("crates/*/*.md"))


def wide_lines():
    """The rows of tables that have more than 160 columns, and the lines outside code that have more than 120."""
    found = []
    for it in (it for it in documents() if not it.startswith("crates/")):
        text = ANY_CODE.sub(lambda code: "\n" * code[0].count("\n"), read(it))
        lines = enumerate(text.splitlines(), 1)
        found += [f"{it}:{at}: too many columns" for at, line in lines if re.match(r"\|.{160}|(?!\|).{121}", line)]
    return found


def anchors(document):
    """The anchors of the headings of a document."""
    headings = re.findall(r"^#+ (.*)$", read(document), re.M)
    return {re.sub(r"[^\w -]", "", it.lower()).replace(" ", "-") for it in headings}


def dead_anchors():
    """The headings that links of documents lead to and that are not there."""
    linked = [(it, *link) for it in documents() for link in re.findall(r"\]\(([\w./-]*\.md)?#([\w-]+)\)", read(it))]
    linked = [(it, os.path.join(os.path.dirname(it), path) if path else it, anchor) for it, path, anchor in linked]
    return [f"{it}: {path} has no heading {anchor}" for it, path, anchor in linked if anchor not in anchors(path)]


def dead_paths():
    """The paths that documents name and that are not there."""
    named = [(document, *it) for document in documents() for it in named_in(document)]
    return [f"{document}: no {it}" for document, it, path in named if not paths(ANY.sub("*", path))]


def missing_tests():
    """The tests that docs/DIFFERENCES.md names and the test crates lack."""
    named = re.findall(r"`(test_\w+)::([\w:]+)::(\w+)`", read("docs/DIFFERENCES.md"))
    missing = [it for it in named if not file_of_test("::".join(it))]
    return [f"docs/DIFFERENCES.md: no test {name} in crates/{crate}/src/{module.replace('::', '/')}.rt"
            for crate, module, name in missing]


def bare(path):
    """A file without what its lines begin with: blanks, and the marks of documentation."""
    return re.sub(r"^ *(?:///|//!)? *", "", read(path), flags=re.M)


def misnumbered():
    """The records of docs/DECISIONS.md that don't stand in the order of their numbers, or in no theme."""
    themes, records = read("docs/DECISIONS.md").split("\n## Records\n")
    numbers = [int(it) for it in re.findall(r"^(\d+)\. \*\*", records, re.M)]
    found = [f"{it} stands where {at} should" for at, it in enumerate(numbers, 1) if it != at]
    spans = re.findall(r"(\d+)(?: to (\d+))?(?=,|$)", themes, re.M)
    listed = {it for first, last in spans for it in range(int(first), int(last or first) + 1)}
    found += [f"no theme has {it}" for it in sorted({*numbers} ^ listed)]
    return [f"docs/DECISIONS.md: {it}" for it in found]


def untested_code():
    """The code in the documentation of crates that no test and no example has."""
    examples = "".join(bare(it) for pattern in EXAMPLES for it in paths(pattern))
    documents = paths("crates/*/src/**/*.rt") + paths("crates/*/CALLING.md")
    shown = [(it, code) for it in documents for code in CODE.findall(bare(it))]
    return [f"{it}: no example has: {code.splitlines()[0]}" for it, code in shown if code not in examples]


def pictured(text):
    """A document in which the names of pictures, those with `_` or a capital within, are in backticks too."""
    pictures = " ".join(re.findall(r"```text\n(.*?)```", text, re.S))
    return text + re.sub(r"([A-Za-z]\w*(?:_|[a-z](?=[A-Z]))\w*[a-z0-9])", r"`\1`", pictures)


def unknown_names():
    """The names in documents that no source, spec or proof has, and the functions of walks that are elsewhere."""
    proofs = paths("crates/*/proofs/**/*.antt")
    words = {os.path.basename(it)[:-5] for it in proofs}.union(*(re.findall(r"\w+", read(it)) for it in proofs))
    found = [f"{it}: nothing is named {name}" for it in NAMING for name in claims.unknown(pictured(read(it)), words)]
    placed = [(path, name) for path, names in PLACED.findall(read(NAMING[0])) for name in names.split(", ")]
    return found + [f"{NAMING[0]}: no {name} in crates/{path}" for path, name in placed
                    if f"fn {name}" not in re.findall(r"\bfn \w+", read(f"crates/{path}"))]


def crates_without_an_item():
    listed = " ".join(re.findall(r"^- ((?:`\w+`,?\s+)*`\w+`):", read("ARCHITECTURE.md"), re.M))
    return [f"ARCHITECTURE.md: no item of {it}" for it in crates() if f"`{it}`" not in listed]
