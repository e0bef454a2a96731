"""Compares docs/PROVED.md with the contracts in the sources. For scripts/documents.

A claim is an item under "What is proved". An item in it has functions, a colon, and clauses that each of these has.

A function is `name`, `crate::name`, `module::name` or, of a type or a trait, `Type::name`. A star stands for letters. A
name by itself takes the qualifier before it in its item. A name in italics stands for the functions of the list item
with this name, `- *NAME*: FUNCTIONS`.

A clause is a label, `its clause` if the contract is one clause without a label, or `every clause`. Names in parentheses
after it are of definitions that the clause cites, of facts that those cite, or of their fields.
"""

import fnmatch
import functools
import os
import re
from dataclasses import dataclass

import edit_list
from closure import contract, meant
from common import crates, paths, read
from sources import blocks

CLAIMS = "docs/PROVED.md"

# Crates and traits all of whose public clauses are claims.
CRATES_CLAIMED = ("enc_stream", "encoding_rs", "enc_reader", "enc_writer", "recode_engine", "encoding_c")
TRAITS_CLAIMED = ("Units", "Chars", "RawDecoder", "RawEncoder", "Source", "Sink")

# How the head of an export begins, which other languages call.
EXPORT = 'pub extern "C" fn '
LABEL = re.compile(r"(?:`(\w+)`|(its clause|every clause))(?: \((.*?)\))?")
# An item of a list with the items in it, if it is no list of names.
CLAIM = re.compile(r"^- (?!\*[^*]+\*: )(.*(?:\n  (?!- ).*)*)((?:\n  - .*(?:\n    .*)*)*)", re.M)


@dataclass(eq=False)
class Function:
    """A function: its type or trait, the names that may qualify it, and what each condition and clause says."""
    path: str
    name: str
    crate: str
    owner: str
    public: bool
    qualifiers: set
    conditions: dict
    clauses: dict

    def __str__(self):
        return f"{self.owner or self.crate}::{self.name}"


def owner_of(head):
    """The type or the trait of a head line, if any, and whether its functions are those of a trait."""
    while "<" in head:
        head = re.sub(r"<[^<>]*>", "", head)
    found = re.search(r".*\b(impl|trait|for)\b\W*(\w+)", head)
    return (found[2], found[1] != "impl") if found else (None, False)


def functions_of(crate):
    """The functions of a crate, but those that are public within it alone, and those of tables of data."""
    files = [it for it in paths(f"crates/{crate}/src/**/*.rt") if not re.search("/(data|pages)/", it)]
    modules = {os.path.basename(it)[:-3]: read(it) for it in files}
    # the public modules, each with the names that it passes on
    public = {"lib", *re.findall(r"^pub mod (\w+)", modules.get("lib", ""), re.M)}
    uses = {it: " ".join(re.findall(r"^pub use ([^;]*);", modules.get(it, ""), re.M)) for it in public}
    shown = {it: set(re.findall(r"\w+", names)) for it, names in uses.items()}
    for path in files:
        module = os.path.basename(path)[:-3]
        for place, (_, begin, _, _) in edit_list.functions(path, read(path)):
            name, (owner, of_trait) = place.name, owner_of(place.owner)
            through = {it for it, names in shown.items() if (owner or name) in names or it == module}
            is_public, names = (place.head.startswith("pub") or of_trait) and through, {crate, module, owner, *through}
            is_public = is_public or place.head.startswith(EXPORT)
            if place.head.startswith(("fn ", "pub fn ", EXPORT)):
                yield Function(path, name, crate, owner, bool(is_public), names, *contract(read(path), begin))


@functools.cache
def functions():
    return [it for crate in crates() for it in functions_of(crate)]


def cited(said, path):
    """The definitions that a clause of a file cites, the facts (in capitals) that those cite, and the fields of all."""
    reached, waiting = {}, [meant(it, path) for it in re.findall(r"\w+", said)]
    while waiting:
        it = waiting.pop()
        if it and it.path.endswith(".antt") and it.name not in reached:
            block = blocks(it.path)[it.name]
            reached[it.name] = re.findall(r"^ +pub (\w+) :", block, re.M)
            names = re.findall(r"\b[A-Z]\w*", re.sub(r"--.*", "", block))
            waiting += [meant(name, it.path) for name in names]
    return {*reached}.union(*reached.values())


def named(path, before):
    """The functions of a name, public and with clauses if there are any, and its qualifiers: its own or those before."""
    *qualifiers, name = path.split("::")
    qualifiers = qualifiers or before
    found = [it for it in functions() if fnmatch.fnmatchcase(it.name, name) and it.qualifiers.issuperset(qualifiers)]
    found = [it for it in found if not it.owner or it.owner in qualifiers]
    found = [it for it in found if it.public] or found
    # a method of a trait that states nothing itself has the name of one of the type's own
    return (len(found) > 1 and [it for it in found if it.clauses]) or found, qualifiers


class Claims:
    """The claims of the document: which clauses they name, and which names are wrong."""

    def __init__(self, text):
        self.lists = dict(re.findall(r"^- \*([^*]+)\*: (.*(?:\n  .*)*)", text, re.M))
        self.claimed, self.wrong = set(), []
        for claim in CLAIM.finditer(text.partition("\n## What is proved\n")[2].partition("\n## ")[0]):
            said, *items = (" ".join(it.split()) for it in (claim[1], *claim[2].split("\n  - ")[1:]))
            self.add(said, [it.partition(": ")[::2] for it in items])

    def add(self, said, parts):
        """Adds a claim, by its text and the functions and clauses of each item in it."""
        if not parts or not all(re.search("[*`]", part) and LABEL.search(labels) for part, labels in parts):
            self.wrong.append(f"a claim has items of functions, a colon and their clauses: {said}")
        for part, labels in parts:
            for function in self.functions_in(part):
                self.add_clauses(function, labels)

    def functions_in(self, part):
        found, before = [], []
        for name, path in re.findall(r"\*([^`*]+)\*|`(.+?)`", part):
            if name:
                found += self.functions_in(self.lists.get(name, f"`{name}`"))
                continue
            these, before = named(path, before)
            found += these
            if not these or len(these) > 1 and "*" not in path:
                self.wrong.append(f"{path} is {len(these)} functions")
        return found

    def add_clauses(self, function, part):
        for label, unlabelled, names in LABEL.findall(part):
            labels = function.clauses if unlabelled == "every clause" else [label or unlabelled]
            self.claimed |= {(function, it) for it in labels}
            for it in labels:
                said = function.clauses.get(it, function.conditions.get(it))
                if said is None:
                    self.wrong.append(f"{function} has no clause {it}")
                elif names:
                    lacking = set(re.findall(r"`(.+?)`", names)) - cited(said, function.path)
                    self.wrong += [f"{it} of {function} has no {name}" for name in sorted(lacking)]


@functools.cache
def words():
    """What can be named: crates, and the words of sources and specs."""
    files = paths("crates/*/src/**/*.rt") + paths("crates/*/specs/*.antt")
    return set(crates()).union(*(re.findall(r"\w+", read(it)) for it in files))


def unknown(text, more=frozenset()):
    """The names in a text that nothing has: words in backticks, with `::`, dots, dashes or blanks between."""
    known, names = words() | more, re.findall(r"`([A-Za-z_]\w*(?:(?:::|[. -])\w+)*)`", text)
    return [it for it in dict.fromkeys(names) if not known.issuperset(re.findall(r"\w+", it))]


def out_of_date():
    text = read(CLAIMS)
    claims = Claims(text)
    public = [it for it in functions() if it.public and (it.crate in CRATES_CLAIMED or it.owner in TRAITS_CLAIMED)]
    clauses = [(it, label) for it in public for label in it.clauses]
    missing = [f"no claim names {label} of {it}" for it, label in clauses if (it, label) not in claims.claimed]
    found = [*dict.fromkeys(claims.wrong), *missing, *(f"no source has {it}" for it in unknown(text))]
    return [f"{CLAIMS}: {it}" for it in found]
