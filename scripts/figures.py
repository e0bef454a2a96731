"""The figures of documents that can be counted, and the lists of them. For scripts/documents."""

import os
import re

import claims
import closure
import measured
import rows
from common import crates, differing, item, paths, read
from edit_list import edits_of, equal_of
from lists import encodings, labels_of
from places import decoders
from sources import executable_lines, headline, is_written, lines_of, specs_of, tests_of

FROM, TO = "<!-- scripts/documents writes from here -->", "<!-- to here -->"
# The folders of sources, by their names in docs/MEASURED.md, with the text beside the number of each.
FOLDERS = {
    "definitions": ("specs", "`specs/`, without imports"),
    "code": ("src", "`src/` of libraries and programs: contracts and tables too"),
    "proofs": ("proofs", "`proofs/`, without imports; some have rows that scripts write"),
}


def list_of(numbers):
    """A list of numbers: what each is of, the number, and where it is from."""
    return "".join(item(f"{what}: {number} ({where})") for what, number, where in numbers)


def listed(numbers):
    return ", ".join(f"{number} in `{name}`" for name, number in numbers.items() if number)


def is_of_tests(path):
    """Whether a file is of a crate that tests alone need."""
    return path.startswith(("crates/test_", "crates/conformance"))


def lines_in(folder, test):
    """The lines of a folder of the crates of tests, or of the others: all, and those of files that scripts write."""
    files = [it for it in paths(f"crates/*/{folder}/**/*.*") if is_of_tests(it) == test]
    return sum(map(lines_of, files)), sum(map(lines_of, filter(is_written, files)))


def of_tree():
    """What is counted in the tree."""
    every, tests, encoded = {it: edits_of(it) for it in crates()}, {it: tests_of(it) for it in crates()}, encodings()
    edits = [it for those in every.values() for it in those]
    single, calls = sum("/must-fail/" in it.path for it in edits), sum(bool(it.call) for it in edits)
    shown, equal = sum(bool(it.shown) for it in edits), sum(len(equal_of(it)) for it in crates())
    files = rows.files_of([])
    count = sum(bool(row.name) for it in files for row in rows.rows_of(it))
    codecs, by_crate = sum(len(it.codecs) for it in decoders()), {it: len(those) for it, those in every.items()}
    clauses = [len(it.clauses) for it in claims.functions() if it.clauses]
    by_hand = [it for it in paths("crates/*/src/**/*.rt") if not is_written(it) and not is_of_tests(it)]
    executable, proofs = sum(map(executable_lines, by_hand)), lines_in("proofs", False)[0]
    in_folders = {name: (*lines_in(folder, False), said) for name, (folder, said) in FOLDERS.items()}
    return list_of([
        ("encodings", len(encoded), f"{sum(not it.writes_utf_8 for it in encoded)} have an encoder; "
         f"{len(labels_of(encoded))} labels; {codecs} codecs, of {len(decoders())} decoders"),
        ("indexes", len(paths("data/indexes/index-*.txt")),
         f"{closure.runs()} runs of pointers and code points, in `crates/enc_index/src/data/`"),
        ("crates", len(every), "`crates.txt`"),
        *((f"{name} in all", f"{lines} lines, {written} in files that scripts write", said)
          for name, (lines, written, said) in in_folders.items()),
        ("executable lines by hand", executable, f"proofs have {proofs / executable:.2f} lines for each"),
        ("functions that state a contract", f"{len(clauses)}, by {sum(clauses)} clauses", "`src/`"),
        ("edits", len(edits), f"{listed(by_crate)}; {calls} name a call; `rt ci` tries {single}"),
        ("shown by a run", shown,
         f"{len(edits) - shown} edits say why no run shows them; {equal} changes in `equal/` mean the same"),
        ("tests", sum(tests.values()), f"{listed(tests)}; the crates of tests have {lines_in('src', True)[0]} lines"),
        ("rows of conformance", count, f"{len(files)} files"),
    ])


def of_theorem():
    """The lines of the definitions under the theorem, by their parts."""
    sizes = {part: closure.size(items) for part, items in closure.parts().items()}
    whole = [*map(sum, zip(*(size for part, size in sizes.items() if part != "labels")))]
    less = [of_all - of_run for of_all, of_run in zip(whole, sizes["clause `run`"])]
    every = {"under `decode_run`": whole, "the same without clause `run`": less, **sizes,
             "under `encode_run`, some of them in the list": closure.sizes_under(closure.ENCODE_RUN, "encode_run")}
    return "".join(item(f"{part}: {lines} lines{f', and {types} of types' if types else ''}")
                   for part, (lines, types) in every.items())


def with_lists(path, *lists):
    """A document with these lists between its marks."""
    return re.sub(f"{FROM}\n.*?{TO}", lambda _, rest=iter(lists): f"{FROM}\n{next(rest)}{TO}", read(path), flags=re.S)


def definitions():
    """docs/DEFINITIONS.md: an item for each spec file."""
    items = {it: item(f"[{os.path.basename(it)[:-5]}](../{it}): {headline(it)}") for it in paths("crates/*/specs/*")}
    return """\
# Definitions

The files of `crates/*/specs/`, lowest crate first, each with the sentence that heads it. Each definition has a name
of its own, so a search for the name in `crates/*/specs/` finds it. [VERIFY.md](VERIFY.md) lists those that the main
theorem cites. `scripts/documents` writes this file.
""" + "".join(f"\n## {it}\n\n{''.join(map(items.get, specs_of(it)))}" for it in crates() if specs_of(it))


def written():
    """The documents with figures, by path."""
    return {
        measured.PAGE: with_lists(measured.PAGE, of_tree(), of_theorem(), *measured.written()),
        "docs/VERIFY.md": with_lists("docs/VERIFY.md", closure.listed()),
        "docs/DEFINITIONS.md": definitions(),
    }


def out_of_date():
    """The spec files without a headline, and the documents whose figures are others now."""
    found = [f"{it}: no headline" for crate in crates() for it in specs_of(crate) if not headline(it)]
    return found + [f"{it}: figures or files are others now: run scripts/documents" for it in differing(written())]
