"""Which record a part of a clause or of a definition is, if its type is written: the fields after a dot are its own."""

import functools
import re

from closure import WORD
from common import read
from definitions import Definition
from homes import Target
from meanings import meaning
from surface import files_of, models_of, resolved

# What comes after a dot and leaves a value as it is.
OF_BORROWS = ("now", "old", "new", "entry")
CHAIN = re.compile(r"(?:[\w']+\.)*[\w']+\Z")
FIELD_OF_CODE = re.compile(r"^    (?:pub(?:\([a-z]+\))? )?([a-z]\w*): ([^\n]*?),?\n", re.M)
PARAMETER = re.compile(r"\b(\w+): ((?:&(?:'\w+ )?)?(?:mut )?\w+)")


def fields_of(thing):
    """The names of the fields of a record, or of the public ones of a struct."""
    if isinstance(thing, Definition):
        return thing.fields if thing.kind == "record" else []
    return [it.name for it in thing.parts if it.kind == "field"]


def record_named(word, path):
    """The record or the struct that a word in a file means, or None. A struct with a model is the record of that."""
    found = meaning(word, path) if word else None
    if not isinstance(found, Target) or found.part:
        return None
    if isinstance(found.thing, Definition):
        return found.thing if found.thing.kind == "record" else None
    return value_of(found.thing)


@functools.cache
def value_of(item):
    """What a value of a type of the code is in contracts."""
    if item.kind != "struct":
        return None
    for path in files_of(item.crate):
        for it in models_of(path).get(item.name, []):
            if it.name == "Value":
                return record_of(it.text, path)
    return item


def record_of(text, path):
    """The record that the text of a type means."""
    word = WORD.match(text.strip())
    return record_named(word[0], path) if word else None


def record_of_code(text, path):
    """The record that a type of the code means in contracts."""
    word = re.match(r"(?:&|'\w+ |mut )*(\w+)", text.strip())
    item = resolved(word[1], path) if word else None
    return value_of(item) if item else None


@functools.cache
def kind_of_field(thing, name):
    """The record that a field is, or None."""
    if isinstance(thing, Definition):
        text = re.search(rf"^ +(?:pub )?{re.escape(name)} : (.*)", thing.text, re.M)
        return record_of(text[1], thing.path) if text else None
    head = rf"^(?:pub(?:\([a-z]+\))? )?struct {thing.name}\b[^\n]*"
    body = re.search(head + r"\{\n(.*?)^\}", read(thing.path), re.M | re.S)
    types = dict(FIELD_OF_CODE.findall(body[1])) if body else {}
    return record_of_code(types[name], thing.path) if name in types else None


def split_by(text, sign):
    """The parts of a text between signs that stand in no brackets."""
    parts, depth = [""], 0
    for it in re.split(rf"([(){{}}]|{sign})", text):
        depth += (it in "({") - (it in ")}") if it and it in "(){}" else 0
        if not depth and re.fullmatch(sign, it):
            parts.append("")
        else:
            parts[-1] += it
    return parts


def type_of(definition):
    """The text of the type of a definition."""
    text = re.match(r"[^:]* : (.*?)(?=^\S|\Z)", definition.text, re.M | re.S)
    return text[1] if text else ""


def result_of(definition):
    """The record that a definition returns."""
    return record_of(split_by(type_of(definition), "→")[-1], definition.path)


def kinds_in(text, path):
    """The records of what groups of a text bind, by name."""
    found = {}
    for it in re.finditer(r"[({]([^(){}:=;.]+) : (\w+)", text):
        if record := record_named(it[2], path):
            found |= dict.fromkeys(it[1].split(), record)
    return found


def kinds_by_place(definition):
    """The records of what the equations of a definition bind, by the type of the definition."""
    found, places = {}, split_by(type_of(definition), "→")
    for it in re.finditer(rf"^{re.escape(definition.name)} (.*?) =(?=\s)", definition.text, re.M | re.S):
        for word, of_place in zip(split_by(it[1], r"\s+"), places):
            # an element of a list, and what an option holds
            within = re.fullmatch(r"\((?:Some )?(\w+)(?: ∷ \w+)?\)", word)
            kind = re.sub(r"^(?:List|Option) ", "", of_place.strip()) if within else of_place.strip()
            name, record = within[1] if within else word, record_named(kind, definition.path)
            if record and re.fullmatch(r"\w+", name):
                found[name] = record
    return found


def results_in(text, path):
    """What functions that groups of a text or places of a type bind return, by name, where their type has a name."""
    found = {}
    for names, kind in re.findall(r"[({]([^(){}:=;.]+) : (\w+)\)", text):
        target = meaning(kind, path)
        of_type = isinstance(target, Target) and re.search(rf"^{kind} = (.*→.*)$", target.thing.text, re.M)
        if of_type and (record := record_of(of_type[1].split("→")[-1], target.thing.path)):
            found |= dict.fromkeys(names.split(), record)
    return found


def results_by_place(definition):
    """The same of what the equations of a definition bind."""
    first = re.search(rf"^{re.escape(definition.name)} (.*?) =(?=\s)", definition.text, re.M | re.S)
    words, places = split_by(first[1], r"\s+") if first else [], split_by(type_of(definition), "→")
    groups = "".join(f"({word} : {kind.strip()})" for word, kind in zip(words, places) if re.fullmatch(r"\w+", word))
    return results_in(groups, definition.path) | results_in(definition.text, definition.path)


def kinds_of_signature(item, owner):
    """The records of the parameters of a function, of `self` and of its result."""
    found = {name: record_of_code(text, item.path) for name, text in PARAMETER.findall(item.text)}
    found["self"] = value_of(owner) if owner and not isinstance(owner, Definition) else None
    result = re.search(r"\) -> (.*)\Z", item.text, re.S)
    found["result"] = record_of_code(result[1], item.path) if result else None
    within = re.match(r"(?:Result|Option)<(\w+)", result[1]) if result else None
    # what `IfOk` and `IfSome` bind of the result
    found[""] = record_of_code(within[1], item.path) if within else None
    return {name: it for name, it in found.items() if it}


def kinds_of_lambdas(text, kinds):
    """The record of what a clause binds of the result, if it holds one."""
    names = re.findall(r"If(?:Ok|Some) result \(λ (\w+)\.", text)
    return dict.fromkeys(names, kinds[""]) if "" in kinds else {}


def kind_before(text, at, kinds, result_of_call):
    """The record that stands before the dot that ends at a place, or None."""
    text = text[: at - 1]
    if text.endswith(")"):
        depth, begin = 1, len(text) - 1
        while depth and begin:
            begin -= 1
            depth += (text[begin] == ")") - (text[begin] == "(")
        head = re.match(r"\(((?:\w+\.)?\w+) ", text[begin:])
        return result_of_call(head[1]) if head and not re.search(r"[=≡×→]", text[begin:]) else None
    chain = CHAIN.search(text)
    if not chain or text[: chain.start()].endswith((")", ").")):
        return None
    first, *others = chain[0].split(".")
    found = kinds.get(first)
    for it in others:
        found = found if it in OF_BORROWS else kind_of_field(found, it) if found else None
    return found
