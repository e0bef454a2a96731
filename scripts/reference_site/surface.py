"""The items of the libraries: what they export, with signature, documentation, conditions and clauses."""

import functools
import re
from dataclasses import dataclass, field

import edit_list
from claims import owner_of
from closure import CLAUSE, CONTRACT
from common import crates, is_there, paths, read
from sources import end_of_group

# The crates that callers link, and the last library of crates.txt.
FOR_CALLERS = ("encoding_rs", "enc_reader", "enc_writer", "recode_engine")
# Modules of tables, which are data.
TABLES = re.compile(r"/src/(?:data|pages)(?:/|\.rt$)")

# The places of items that have a form which is not read.
NOT_READ = []

TYPE = re.compile(
    r"^(?P<vis>pub(?:\([a-z]+\))? )?(?P<kind>struct|enum|trait|type|const|static) (?P<name>\w+)", re.M)
USE = re.compile(r"^(?P<pub>pub )?(?:pub\([a-z]+\) )?use (?P<tree>[^;]*);", re.M)
MODULE = re.compile(r"^(pub )?mod (\w+);", re.M)
MEMBER = re.compile(r"^    ghost (\w+): (\{.*?\});\n", re.M | re.S)
VARIANT = re.compile(r"^    (?P<name>[A-Z]\w*)(?P<rest>(?:\([^)]*\)|\s*\{[^}]*\})?[^,\n]*),?\n", re.M)
FIELD = re.compile(r"^    (?P<vis>pub )?(?P<name>[a-z]\w*): (?P<rest>[^\n]*?),?\n", re.M)


@dataclass(eq=False)
class Clause:
    """A condition or a clause of a contract: its label, if it has one, its comment and its text."""
    kind: str
    label: str
    comment: str
    text: str

    @property
    def anchor(self):
        """How it is called within its function. (A condition and a clause may have one name.)"""
        return self.label if self.kind == "ensures" and self.label else f"{self.kind}.{self.label}".rstrip(".")


@dataclass(eq=False)
class Part:
    """A variant, a field, a ghost member or a constant of a type or a trait."""
    kind: str
    name: str
    doc: str
    text: str


@dataclass(eq=False)
class Item:
    """An item: where it stands, its documentation and its text, its clauses or its parts."""
    kind: str
    crate: str
    path: str
    name: str
    line: int
    public: bool
    doc: str
    text: str
    owner: str = ""
    of_trait: str = ""
    clauses: list = field(default_factory=list)
    parts: list = field(default_factory=list)
    functions: list = field(default_factory=list)

    @property
    def title(self):
        return f"{self.owner}::{self.name}" if self.owner else self.name

    def summary(self):
        """The first sentence of its documentation."""
        first = self.doc.split("\n\n")[0].replace("\n", " ")
        return re.match(r".*?[.:](?= [A-Z`\[]|$)|.*", first)[0]


def libraries():
    """The libraries: those that callers link, and then the others, highest first."""
    every = [it for it in crates() if is_there(f"crates/{it}/src/lib.rt") and not it.startswith("test_")]
    first = [it for it in FOR_CALLERS if it in every]
    return [*first, *(it for it in reversed(every) if it not in first)]


def line_at(text, place):
    return text.count("\n", 0, place) + 1


def before(text, place, mark):
    """The lines directly before a place that begin with a mark, without it. Attributes between are passed over."""
    lines = text[:place].splitlines()
    while lines and (re.match(r"\s*#\[", lines[-1]) or lines[-1].strip() in (")]", "]")):
        lines.pop()
    found = []
    while lines and lines[-1].strip().startswith(mark):
        found.insert(0, lines.pop().strip()[len(mark):].removeprefix(" "))
    return "\n".join(found)


def attributes(text, place):
    """The lines of attributes directly before a place that a reader wants to see."""
    found = re.search(r"(?:^ *#\[[^\n]*\]\n)*\Z", text[:place], re.M)[0]
    return "".join(it for it in found.splitlines(True) if re.match(r"#\[derive\(|#\[repr\(", it))


def clauses_at(text, begin):
    """The conditions and clauses of the function whose signature begins at a place, and where the signature ends."""
    at = CONTRACT.search(text, begin).start()
    while comment := re.search(r"\n +//[^\n]*\Z", text[begin:at]):
        at = begin + comment.start()
    end, found = at, []
    while it := CLAUSE.match(text, at):
        comment = " ".join(line.strip()[2:].strip() for line in it[0].splitlines() if line.strip().startswith("//"))
        start, at = it.end() + 1, end_of_group(text, it.end() + 1)
        found.append(Clause(it[1], (it[2] or "").strip(), comment, dedent(text[start: at - 1].strip())))
    return found, end


def dedent(text):
    """A text whose lines after the first lose the blanks that all of them begin with."""
    first, *others = text.split("\n")
    least = min((len(it) - len(it.lstrip()) for it in others if it.strip()), default=0)
    return "\n".join([first, *("    " + it[least:] for it in others)])


def signature(text):
    """The text of a signature, moved to the left."""
    lines = text.rstrip().removesuffix("{}").rstrip("{; \n").split("\n")
    indent = len(lines[0]) - len(lines[0].lstrip())
    return "\n".join(it[indent:] if not it[:indent].strip() else it for it in lines)


def type_text(text, match):
    """The text of a type: without private fields and long values; of a trait, its head."""
    head = text[match.start():]
    kind = match["kind"]
    if kind in ("type", "const", "static"):
        whole = head[: head.index(";\n") + 1]
        return whole if whole.count("\n") < 4 else whole[: whole.index(" =") + 2] + " ..;"
    first = head[: head.index("\n")]
    if kind == "trait" or not first.endswith("{"):
        return first.rstrip(" {")
    whole = head[: re.search(r"^\}", head, re.M).end()]
    if kind == "enum":
        return re.sub(r"^ *//.*\n", "", whole, flags=re.M)
    shown = [f"    pub {it['name']}: {it['rest']},\n" for it in FIELD.finditer(whole) if it["vis"]]
    private = sum(1 for it in FIELD.finditer(whole) if not it["vis"])
    rest = "    // private fields\n" if private else ""
    return f"{first}\n{''.join(shown)}{rest}}}" if shown else f"{first} /* private fields */ }}"


def parts_of(text, match):
    """The variants of an enum, the public fields of a struct, or the ghost members and constants of a trait."""
    head = text[match.start():]
    if not head[: head.index("\n")].endswith("{"):
        return []
    whole = head[: re.search(r"^\}", head, re.M).end()]
    pattern = {"enum": VARIANT, "struct": FIELD}.get(match["kind"])
    if pattern:
        those = [it for it in pattern.finditer(whole) if match["kind"] == "enum" or it["vis"]]
        return [Part("variant" if match["kind"] == "enum" else "field", it["name"], before(whole, it.start(), "///"),
                     it[0].strip().rstrip(",")) for it in those]
    if match["kind"] != "trait":
        return []
    found = [Part("ghost", it[1], before(whole, it.start(), "//"), dedent(it[2][1:-1].strip()))
             for it in MEMBER.finditer(whole)]
    for it in re.finditer(r"^    (const|type) (\w+)([^;\n]*);", whole, re.M):
        found.append(Part(it[1], it[2], before(whole, it.start(), "///"), it[0].strip()))
    return found


def owners(head):
    """The type whose functions an impl or a trait has, and the trait, if it is one's."""
    name, of_trait = owner_of(head)
    while "<" in head:
        head = re.sub(r"<[^<>]*>", "", head)
    found = re.search(r"\bimpl\b\W*([\w:]+) for\b", head)
    return name or "", found[1].split("::")[-1] if found else name if of_trait else ""


def type_at(path, text, match):
    """The type or the constant whose head line matches."""
    return Item(
        match["kind"], path.split("/")[1], path, match["name"], line_at(text, match.start()), match["vis"] == "pub ",
        before(text, match.start(), "///"), attributes(text, match.start()) + type_text(text, match),
        parts=parts_of(text, match))


def function_at(path, text, place, begin):
    """The function whose signature begins at a place."""
    owner, of_trait = owners(place.owner) if place.owner else ("", "")
    clauses, end = clauses_at(text, begin)
    is_trait = re.match(r"(?:pub(?:\([a-z]+\))? )?trait\b", place.owner)
    public = place.head.startswith("pub ") or bool(of_trait)
    return Item("fn", path.split("/")[1], path, place.name, line_at(text, begin), public, before(text, begin, "///"),
                signature(text[begin:end]), owner, "" if is_trait else of_trait, clauses)


@functools.cache
def items_of(path):
    """The items of a file: types, constants and functions, with those of impls. What has another form is noted."""
    text = read(path)
    ways = [(it.start(), type_at, (path, text, it)) for it in TYPE.finditer(text)]
    ways += [(begin, function_at, (path, text, place, begin))
             for place, (_, begin, _, _) in edit_list.functions(path, text)]
    found = []
    for at, way, arguments in ways:
        try:
            found.append(way(*arguments))
        except (AttributeError, IndexError, TypeError, ValueError):
            NOT_READ.append(f"{path}:{line_at(text, at)}")
    return found


@functools.cache
def models_of(path):
    """The models of types of a file: what their values are in contracts, by the name of the type."""
    text, found = read(path), {}
    for it in re.finditer(r"^impl(?:<[^{]*?>)? Model for (\w+)[^{\n]*\{\n(.*?)^\}", text, re.M | re.S):
        members = re.findall(r"^    ghost (\w+) = (\{.*?\});", it[2], re.M | re.S)
        found[it[1]] = [Part("ghost", name, "", dedent(body[1:-1].strip())) for name, body in members]
    return found


def module_file(crate, module):
    """The file of a module of a crate, or None."""
    path = f"crates/{crate}/src/{'/'.join(module) or 'lib'}.rt"
    return path if is_there(path) else None


def leaves(tree, prefix=()):
    """The paths that a `use` tree brings in, each with its local name."""
    tree = tree.strip()
    found = re.match(r"((?:\w+::)*)\{(.*)\}$", tree, re.S)
    if not found:
        path, _, local = tree.partition(" as ")
        words = prefix + tuple(path.strip().split("::"))
        return [(words, local.strip() or words[-1])]
    inner, depth, last, those = found[2], 0, 0, []
    for at, letter in enumerate(inner + ","):
        depth += (letter == "{") - (letter == "}")
        if letter == "," and not depth:
            those.append(inner[last:at])
            last = at + 1
    prefix += tuple(found[1].split("::")[:-1])
    return [leaf for it in those if it.strip() for leaf in leaves(it, prefix)]


@functools.cache
def uses_of(path):
    """What `use` lines of a file bring in: the path of each local name, and whether it is passed on."""
    return {local: (words, bool(it["pub"])) for it in USE.finditer(read(path)) for words, local in leaves(it["tree"])}


def place_of(words, path):
    """The crate and the module that a path of a `use` line begins in, and the name there."""
    crate, *inner = path.removeprefix("crates/").removesuffix(".rt").split("/")
    module = [it for it in inner[1:] if it != "lib"]
    first, rest = words[0], list(words[1:])
    if first == "crate":
        module = []
    elif first in ("self", "super"):
        module = module[: len(module) - (first == "super")]
    elif first in crates() and not module_file(crate, (*module, first)):
        crate, module = first, []
    else:
        rest = list(words)
    return crate, tuple(module + rest[:-1]), rest[-1] if rest else ""


@functools.cache
def resolved(name, path):
    """The item that a name of a file of code means, by its own items and by its `use` lines, or None."""
    own = next((it for it in items_of(path) if it.name == name and not it.owner), None)
    if own:
        return own
    uses = uses_of(path)
    for local in [name] if name in uses else ["*"] if "*" in uses else []:
        crate, module, inner = place_of(uses[local][0], path)
        file, inner = module_file(crate, module), name if inner == "*" else inner
        if file and (file, inner) != (path, name):
            return resolved(inner, file)
    return None


def exported(crate, module=()):
    """What a crate exports: items by their public path."""
    path = module_file(crate, module)
    found = {}
    if not path:
        return found
    text = read(path)
    for it in items_of(path):
        if it.public and not it.owner:
            found["::".join([*module, it.name])] = it
    for local, (_, passed) in uses_of(path).items():
        if passed and (item := resolved(local, path)):
            found["::".join([*module, local])] = item
    for public, name in MODULE.findall(text):
        if public and not TABLES.search(f"/src/{'/'.join([*module, name])}/"):
            found |= exported(crate, (*module, name))
    return found


@functools.cache
def functions_by_owner(crate):
    """The functions of types and traits of a crate, by the name of the type."""
    found = {}
    for path in files_of(crate):
        for it in items_of(path):
            if it.kind == "fn" and it.owner:
                found.setdefault(it.owner, []).append(it)
    return found


@functools.cache
def files_of(crate):
    """The sources of a crate, but tables of data."""
    return [it for it in paths(f"crates/{crate}/src/**/*.rt") if not TABLES.search(it)]


def head_comment(path):
    """The comment that heads a source."""
    lines = re.match(r"(?://!.*\n)*", read(path))[0].splitlines()
    text = "\n".join(it[3:].removeprefix(" ") for it in lines)
    return re.sub(r"\n*Written by scripts/make-sources [^\n]*(?:\n[^\n]+)*", "", text).strip()
