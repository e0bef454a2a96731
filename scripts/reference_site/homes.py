"""On which page each definition and each item of the crates stands, and under which anchor."""

import os
from typing import NamedTuple

from definitions import definitions_of, spec_files
from surface import FOR_CALLERS, Item, exported, functions_by_owner, libraries


class Target(NamedTuple):
    """Where a name leads to: a definition or an item, and one of its parts."""
    thing: object
    part: str = ""


def page_of_spec(path):
    crate, name = path.split("/")[1], os.path.basename(path).removesuffix(".antt")
    return f"definitions/{crate}/{name}"


def anchor_of(item):
    """The anchor of an item on its page."""
    if not item.owner:
        return item.name
    return ".".join(it for it in (item.owner, item.of_trait if item.of_trait != item.owner else "", item.name) if it)


class Homes:
    """The pages, and the place of each item. What no crate exports gets a place when it is named first."""

    def __init__(self):
        self.places, self.paths, self.private = {}, {}, {}
        shown = [(crate, path, item) for crate in libraries()
                 for path, item in sorted(exported(crate).items(), key=lambda it: it[0].count("::"))]
        # what callers see stands under its path for them, and anything else in its own crate if that exports it
        for it in sorted(shown, key=lambda it: it[0] not in FOR_CALLERS and (it[0] != it[2].crate) + 1):
            self.add(*it)
        self.definitions = [it for path in spec_files() for it in definitions_of(path).values()]

    def add(self, crate, path, item):
        """Gives an item that a crate exports its place, unless a crate before has one."""
        if id(item) in self.places:
            return
        *modules, _ = path.split("::")
        page = f"crates/{crate}/{'/'.join(modules)}".rstrip("/")
        if not modules and item.kind in ("struct", "enum", "trait", "type"):
            page += f"/{item.name}"
        elif not modules:
            page += "/constants" if item.kind == "const" else ""
        self.settle(item, page, f"{crate}::{path}")

    def settle(self, item, page, path):
        self.places[id(item)] = page
        self.paths[id(item)] = path
        if item.kind in ("struct", "enum", "trait", "type"):
            for it in functions_by_owner(item.crate).get(item.name, []):
                if it.public and it.path.split("/")[1] == item.crate:
                    self.places[id(it)] = page
                    self.paths[id(it)] = f"{path}::{it.name}"

    def page(self, item):
        """The page of an item."""
        if id(item) not in self.places:
            self.private.setdefault(item.crate, []).append(item)
            self.settle(item, f"crates/{item.crate}/private", f"{item.crate}::{item.title}")
        return self.places[id(item)]

    def home(self, target):
        """The page and the anchor of a target."""
        thing, part = target
        if isinstance(thing, Item):
            return self.page(thing), ".".join(it for it in (anchor_of(thing), part) if it)
        return page_of_spec(thing.path), ".".join(it for it in (thing.name, part) if it)

    def path(self, item):
        """The path by which callers name an item."""
        self.page(item)
        return self.paths[id(item)]

    def short(self, item):
        """The end of that path, with the type or the module, or else the crate."""
        return "::".join(self.path(item).split("::")[-2:])
