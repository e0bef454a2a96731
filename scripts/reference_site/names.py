"""Texts of contracts, definitions and code with links."""

import html
import posixpath
import re
from urllib.parse import quote

from closure import WORD
from common import read
from homes import Target
from kinds import (
    OF_BORROWS, fields_of, kind_before, kind_of_field, kinds_by_place, kinds_in, kinds_of_lambdas, kinds_of_signature,
    record_of, result_of, results_by_place, split_by,
)
from meanings import Std, imports, meaning, meaning_of_path
from surface import resolved

TOKEN = re.compile(
    r"(?P<comment>(?:--|//)[^\n]*)|(?P<string>\"(?:[^\"\\\n]|\\.)*\")|(?P<number>\b(?:0x[0-9A-Fa-f_]+|\d+)\b)"
    rf"|(?P<word>{WORD.pattern})|(?P<sign>[≡≢×→↔λ≤<∷⊎⊥=+*&|%^◌/-]+)|(?P<other>.|\n)", re.S)
GROUP = re.compile(r"[({]([^(){}:=;.]+) :(?= |$)", re.M)
LAMBDA = re.compile(r"λ ([^.()]*)\.|\blet (\w+) = ")
WORDS_OF_LANGUAGE = {*"λ record where pub abbrev unfoldable data Type if then else let in Unit use".split()}
# What contracts call the value of a call, and types and numbers that the language of contracts has by itself.
OF_CONTRACTS = {"result", "self", "Self", "String", "u8", "u16", "u32", "u64", "usize", "char", "bool", "str"}
RUST = (
    "as break const crate dyn else enum extern fn for ghost if impl in let loop match mod move mut pub ref return self "
    "Self static struct super trait type unsafe use where while true false"
).split()


def with_those_above(trait):
    """A trait, and those that it names after its own name, and so on."""
    found = [trait]
    for it in found:
        names = re.findall(r"\w+", it.text.partition(":")[2])
        found += [above for name in names if (above := trait_named(name, it.path)) and above not in found]
    return found


class Scope:
    """Where a text stands: its file, what is bound in it, the trait of each type parameter, the record whose fields are
    bare names in it, and the records of what is bound."""

    def __init__(self, path, bound=(), traits=None, trait=None, record=None, kinds=None):
        self.path, self.bound, self.traits, self.trait, self.record = path, {*bound}, traits or {}, trait, record
        self.kinds, self.results = kinds or {}, {}

    def of(self, word):
        if self.record and word in self.record.fields:
            return Target(self.record, word)
        traits = with_those_above(self.trait) if self.trait else []
        return next((Target(trait, word) for trait in traits for it in trait.parts if it.name == word), None)

    def result_of_call(self, head):
        """The record that a function returns, or a member of a trait."""
        if head in self.results:
            return self.results[head]
        first, _, rest = head.partition(".")
        target = self.of(first) if not rest else None
        if rest and (trait := self.traits.get(first)):
            target = Target(trait, rest)
        parts = getattr(target.thing, "parts", ()) if target else ()
        if member := next((it for it in parts if it.name == target.part), None):
            return record_of(split_by(member.text, "→")[-1], target.thing.path)
        found = meaning(head, self.path)
        is_definition = isinstance(found, Target) and not found.part and hasattr(found.thing, "fields")
        return result_of(found.thing) if is_definition else None


def bound_in(text):
    """The words that groups and lambdas of a text bind."""
    found = set()
    for it in [*GROUP.finditer(text), *LAMBDA.finditer(text)]:
        found |= {*WORD.findall(" ".join(word for word in it.groups() if word))}
    return found


def bound_by_equations(definition):
    """The words that the left sides of the equations of a definition bind."""
    found = set()
    for it in re.finditer(rf"^{re.escape(definition.name)}(?= )(.*?)=(?=\s)", definition.text, re.M | re.S):
        if " : " not in it[1].split("\n")[0]:
            words = re.sub(r"\w+\.\w+", " ", it[1])
            found |= {word for word in WORD.findall(words) if not is_pattern(meaning(word, definition.path))}
    return found


def is_pattern(target):
    """Whether a name may be a constructor. (A variable may have the name of a function.)"""
    return target.part if isinstance(target, Target) else bool(target)


def scope_of_definition(definition):
    bound = bound_in(definition.text) | bound_by_equations(definition)
    record = definition if definition.kind in ("record", "data") else None
    kinds = kinds_by_place(definition) | kinds_in(definition.text, definition.path)
    if record:
        kinds = {name: it for name in record.fields if (it := kind_of_field(record, name))} | kinds
    scope = Scope(definition.path, bound - ({*record.fields} if record else set()), record=record, kinds=kinds)
    scope.results = results_by_place(definition)
    return scope


def parameters(text):
    """The names of the parameters of a signature, and the bounds of its type parameters."""
    bound = {*re.findall(r"\b(\w+): ", text), *re.findall(r"\bconst (\w+):", text)}
    return bound, dict(re.findall(r"\b([A-Z]\w*): ((?:\w+::)*\w+)", text))


def trait_named(name, path):
    found = resolved(name.split("::")[-1], path)
    return found if found and found.kind == "trait" else None


def scope_of_item(item):
    """The scope of the clauses of a function, or of the members of a type."""
    head = item.text if item.kind == "fn" else ""
    bound, traits = parameters(head)
    if item.owner:
        owner = next((it for it in re.findall(r"^(?:unsafe )?(?:impl|(?:pub )?trait)\b[^{\n]*", read(item.path), re.M)
                      if re.search(rf"\b{item.owner}\b", it)), "")
        traits = parameters(owner)[1] | traits
    own = item if item.kind == "trait" else None
    if item.owner and not item.of_trait:
        own = trait_named(item.owner, item.path)
    generics = re.search(r"fn \w+<(.*?)>\(", head, re.S)
    bound |= {*traits, *re.findall(r"\b[A-Z]\w*\b", generics[1] if generics else "")}
    traits = {name: trait_named(it, item.path) for name, it in traits.items()}
    owner = resolved(item.owner, item.path) if item.owner and not own else None
    return Scope(item.path, bound, traits, own, kinds=kinds_of_signature(item, owner) if item.kind == "fn" else None)


class Marker:
    """Writes texts with links. It notes what each text leads to, and the names that have no meaning."""

    def __init__(self, homes):
        self.homes, self.edges, self.unknown, self.standard = homes, {}, {}, {}
        # the numbers of links, and of fields whose record is not known
        self.links, self.fields = 0, 0

    def link(self, target, page, text, source=None, title=""):
        """A link to a target from a page."""
        to, anchor = self.homes.home(target)
        self.links += 1
        if source is not None and target.thing is not source:
            self.edges.setdefault(id(target.thing), {})[id(source)] = source
        said = f' title="{html.escape(title)}"' if title else ""
        return f'<a class="ref" href="{href(page, to, anchor)}"{said}>{text}</a>'

    def marked(self, text, scope, page, source):
        """A text of a contract or a definition, with links."""
        bound, found, before = scope.bound | bound_in(text), [], ""
        for it in TOKEN.finditer(text):
            if it["word"]:
                found.append(self.word(it, text, scope, bound, page, source, before))
                before = it[0]
            else:
                kind = {"comment": "c1", "string": "s", "number": "mi", "sign": "o"}.get(it.lastgroup)
                escaped = html.escape(it[0], quote=False)
                found.append(f'<span class="{kind}">{escaped}</span>' if kind else escaped)
        return "".join(found)

    def word(self, it, text, scope, bound, page, source, before):
        word, at = it[0], it.start()
        if at > 1 and text[at - 1] == "." and not text[at - 2].isspace():
            target = self.after_dot(word, text, at, before if text[: at - 1].endswith(before) else "", scope)
            if isinstance(target, Target):
                return self.link(target, page, word, source)
            self.fields += not target and word not in OF_BORROWS
            return std(word, target.module) if target else f'<span class="na">{word}</span>'
        if word in WORDS_OF_LANGUAGE:
            return f'<span class="k">{word}</span>'
        is_field = scope.record and word in scope.record.fields
        if is_field and re.search(r"^ +(?:pub )?\Z", text[:at], re.M) and re.match(r" :(?=\s)", text[it.end():]):
            return f'<span class="nf" id="{html.escape(self.homes.home(Target(scope.record, word))[1])}">{word}</span>'
        if re.match(r" =(?=\s)", text[it.end():]) and re.search(r"[{;]\s*\Z", text[:at]):
            return f'<span class="na">{word}</span>'
        if word in bound or word in OF_CONTRACTS and not is_field:
            return f'<span class="nv">{word}</span>'
        if target := scope.of(word):
            return self.link(target, page, word, source)
        target = meaning(word, scope.path)
        if isinstance(target, Std):
            self.standard.setdefault(word, target.module)
            return std(word, target.module)
        if target and target.thing is source and not target.part:
            return f'<span class="nf">{word}</span>'
        if target:
            return self.link(target, page, word, source)
        if word not in imports(scope.path)[1] and not word.startswith("_"):
            self.unknown.setdefault(word, set()).add(scope.path)
        return word

    @staticmethod
    def after_dot(word, text, at, before, scope):
        """What a word after a dot means: a member of a trait or a type, or a field of a record."""
        if (trait := scope.traits.get(before)) and any(it.name == word for it in trait.parts):
            return Target(trait, word)
        if word in OF_BORROWS:
            return None
        kinds = scope.kinds | kinds_in(text, scope.path) | kinds_of_lambdas(text, scope.kinds)
        record = kind_before(text, at, kinds, scope.result_of_call)
        if record and word in fields_of(record):
            return Target(record, word)
        return scope.of(word) if before == "Self" else meaning_of_path(before, word, scope.path) if before else None

    def rust(self, text, item, page):
        """A text of the code, with links to types."""
        found = []
        pattern = r"(//[^\n]*)|(/\*.*?\*/)|(\"(?:[^\"\\]|\\.)*\")|('\w+)(?!')|(\b\d\w*)|([^\W\d]\w*!?)|(#\[[^\n]*\])"
        last = 0
        for it in re.finditer(pattern, text, re.S):
            found.append(html.escape(text[last: it.start()], quote=False))
            last = it.end()
            kind = ("", "c1", "c1", "s", "nl", "mi", "", "cp")[it.lastindex]
            escaped = html.escape(it[0], quote=False)
            found.append(f'<span class="{kind}">{escaped}</span>' if kind else self.rust_word(it[0], item, page))
        return "".join([*found, html.escape(text[last:], quote=False)])

    def rust_word(self, word, item, page):
        if word in RUST:
            return f'<span class="k">{word}</span>'
        if word == item.name:
            return f'<span class="nf">{word}</span>'
        target = resolved(word, item.path) if word[0].isupper() else None
        if target:
            return self.link(Target(target), page, f'<span class="nc">{word}</span>', item)
        of_std = word[0].isupper() or word in OF_CONTRACTS
        return f'<span class="kt">{word}</span>' if of_std else word


def breakable(name):
    """A name as HTML that may be broken within it."""
    return html.escape(name, quote=False).replace("::", "::<wbr>").replace("_", "_<wbr>")


def std(word, module):
    return f'<span class="std" title="{html.escape(f"standard library: {module}")}">{word}</span>'


def href(page, to, anchor=""):
    """The address of a page and an anchor, from another page."""
    path = "" if page == to else posixpath.relpath(f"{to}.html", posixpath.dirname(page))
    return path + (f"#{quote(anchor)}" if anchor else "")
