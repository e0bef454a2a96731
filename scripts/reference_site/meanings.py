"""What the names in contracts and definitions mean: definitions, items, and names of the standard library."""

import functools
import re
from typing import NamedTuple

from closure import spec_file
from common import crates, is_there, read
from definitions import definitions_of
from homes import Target
from surface import functions_by_owner, items_of, resolved

IMPORTS = re.compile(r"^ *(?:ghost |unfoldable |pub )*use Rattle\.([\w.]+?)\.\{(.*?)\}", re.M | re.S)
ALIASES = re.compile(r"^ *(?:ghost |unfoldable |pub )*use Rattle\.([\w.]+) as (\w+);?$", re.M)


class Std(NamedTuple):
    """A name of the standard library, by its module."""
    module: str


@functools.cache
def imports(path):
    """The names that a file brings in, each with its module and its name there, and the names of modules."""
    text, found, modules = read(path), {}, {}
    for module, names in IMPORTS.findall(text):
        for it in names.split(","):
            name, _, local = it.strip().partition(" as ")
            found[local.strip() or name] = (module, name)
    for module, local in ALIASES.findall(text):
        if module.split(".")[-1] == local:
            found[local] = tuple(module.rsplit(".", 1))
        else:
            modules[local] = module
    return found, modules


def declared(module, name):
    """The type, variant or constant of the code that a module of declarations has by a name."""
    crate, _, inner = module.partition(".specs.declared.")
    words = inner.split(".")
    if crate not in crates():
        return Std(module)
    at = next((n for n in range(len(words), 0, -1) if is_there(f"crates/{crate}/src/{'/'.join(words[:n])}.rt")), 0)
    file = f"crates/{crate}/src/{'/'.join(words[:at]) or 'lib'}.rt"
    of_file = {it.name: it for it in items_of(file) if not it.owner}
    rest = [it for it in words[at:] if it not in ("TheVariants", "TheConstants")]
    if not rest:
        return Target(of_file[name]) if name in of_file else None
    item = of_file.get(rest[0])
    if not item:
        return None
    return Target(item, name) if any(it.name == name for it in item.parts) else Target(item)


def member(module, name):
    """What a module has by a name."""
    if ".declared." in module:
        return declared(module, name)
    file = spec_file(module)
    return in_spec(name, file) if file else None if module.split(".")[0] in crates() else Std(module)


def in_spec(name, file):
    """The definition of a spec file, or the field or constructor, by its name."""
    those = definitions_of(file)
    if name in those:
        return Target(those[name])
    return next((Target(it, name) for it in those.values() if name in it.fields), None)


@functools.cache
def meaning(word, path):
    """What a word in a file means: a target, a name of the standard library, or None."""
    if path.endswith(".antt") and word in definitions_of(path):
        return Target(definitions_of(path)[word])
    found, modules = imports(path)
    if word in found:
        return member(*found[word])
    if path.endswith(".antt"):
        those = (it for it in definitions_of(path).values() if it.kind == "data" and word in it.fields)
        return next((Target(it, word) for it in those), None)
    item = resolved(word, path)
    return Target(item) if item else None


@functools.cache
def meaning_of_path(base, word, path):
    """What a word after another and a dot means, if the other is a module, a type or a trait."""
    _, modules = imports(path)
    if base in modules:
        return member(modules[base], word)
    found = meaning(base, path)
    if isinstance(found, Target) and not found.part:
        parts = getattr(found.thing, "fields", None) or [it.name for it in getattr(found.thing, "parts", [])]
        if word in parts:
            return Target(found.thing, word)
        if getattr(found.thing, "kind", "") in ("struct", "trait", "enum"):
            those = functions_by_owner(found.thing.crate).get(found.thing.name, [])
            return next((Target(it) for it in those if it.name == word), None)
    return None
