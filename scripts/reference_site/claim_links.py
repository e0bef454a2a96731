"""The claims of docs/PROVED.md: which clauses of which functions each cites, as links, and the claims of a clause."""

import html
import re
from dataclasses import dataclass

from claims import CLAIMS, LABEL, Claims
from closure import WORD
from common import read
from definitions import Definition
from homes import Target
from meanings import meaning
from names import href
from surface import items_of

PAGE = "documents/PROVED"
# The most claims of a clause that are not folded.
MOST_OPEN = 2


@dataclass
class Row:
    """A claim: its number, its text, and of each part of its functions the names, the functions and the labels."""
    number: int
    text: str
    parts: list

    @property
    def anchor(self):
        return f"claim-{self.number}"


def items_named(function):
    """The items of a function that claims.py has found, those with a contract first."""
    those = [it for it in items_of(function.path) if it.name == function.name and it.owner == (function.owner or "")]
    return sorted(those, key=lambda it: not it.clauses)[:1]


def reached(text, path):
    """The definitions that a clause cites, the facts that those cite, and the fields of all, by name, nearest first."""
    found, waiting = {}, [meaning(it, path) for it in WORD.findall(text)]
    while waiting:
        target = waiting.pop(0)
        if isinstance(target, Target) and isinstance(it := target.thing, Definition) and it.name not in found:
            found[it.name] = Target(it)
            for name in it.fields:
                found.setdefault(name, Target(it, name))
            body = re.sub(r"--.*", "", it.text)
            waiting += [meaning(name, it.path) for name in re.findall(r"\b[A-Z]\w*", body)]
    return found


class LinkedClaims(Claims):
    """The claims, with the items that each names."""

    def __init__(self, homes):
        self.homes, self.rows, self.by_clause, self.links, self.texts = homes, {}, {}, 0, []
        super().__init__(read(CLAIMS))

    def add(self, said, parts):
        super().add(said, parts)
        row = Row(len(self.rows) + 1, said, [])
        for part, labels in parts:
            items = [item for it in self.functions_in(part) for item in items_named(it)]
            row.parts.append((part, list(dict.fromkeys(items)), LABEL.findall(labels)))
            for item in row.parts[-1][1]:
                self.homes.page(item)
                for clause in self.clauses_of(item, row.parts[-1][2]):
                    self.by_clause.setdefault(id(clause), {})[row.number] = row
        self.rows[said] = row

    @staticmethod
    def clauses_of(item, labels):
        """The clauses of an item that labels name."""
        found = []
        for label, unlabelled, _ in labels:
            those = [it for it in item.clauses if unlabelled == "every clause" or it.label == label]
            found += sorted(those, key=lambda it: it.kind != "ensures")[: None if unlabelled == "every clause" else 1]
        return found

    def of_clause(self, _item, clause, page, pages):
        """The claims that cite a clause, as HTML."""
        rows = [*self.by_clause.get(id(clause), {}).values()]
        if not rows:
            return ""
        said = "".join(f'<li>{pages.inline(it.text, CLAIMS, page)} <a class="source" '
                       f'href="{href(page, PAGE, it.anchor)}">claim</a></li>' for it in rows)
        body = f'<ul class="claims">{said}</ul>'
        if len(rows) <= MOST_OPEN:
            return body
        return f'<details class="fold"><summary>In words <span>({len(rows)} claims)</span></summary>{body}</details>'

    # The claims of the document

    def link_to(self, item, page, clause=None):
        """A link to an item, or to a clause of it."""
        to, anchor = self.homes.home(Target(item))
        self.links += 1
        name = html.escape(clause.label or "its clause") if clause else html.escape(self.homes.short(item))
        code = f"<code>{name}</code>" if not clause or clause.label else name
        return f'<a href="{href(page, to, anchor + (f".{clause.anchor}" if clause else ""))}">{code}</a>'

    def names_in(self, names, item, clause, page, marker):
        """The names in parentheses after a label, as links."""
        those = reached(clause.text, item.path)

        def link(match):
            return marker.link(those[match[1]], page, match[0]) if match[1] in those else match[0]
        said = html.escape(names, quote=False)
        return " (" + re.sub(r"<code>(.+?)</code>", link, re.sub(r"`(.+?)`", r"<code>\1</code>", said)) + ")"

    def labels(self, item, labels, page, marker, with_names):
        """The clauses of an item that labels name, as links."""
        found = []
        for label in labels:
            those = self.clauses_of(item, [label])
            said = ", ".join(self.link_to(item, page, it) for it in those[:3])
            said += f" and {len(those) - 3} more" if len(those) > 3 else ""
            names = self.names_in(label[2], item, those[0], page, marker) if those and label[2] and with_names else ""
            found.append((said or html.escape(label[0] or label[1])) + names)
        return ", ".join(found)

    def part(self, text, items, labels, page, marker):
        """A part of the functions of a claim with its clauses."""
        if not items:
            return f"<div>{html.escape(text)}</div>"
        if len(items) == 1:
            return f"<div>{self.link_to(items[0], page)}: {self.labels(items[0], labels, page, marker, True)}</div>"
        name = re.sub(r"\*([^`*]+)\*|`(.+?)`", lambda it: f"<em>{it[1]}</em>" if it[1] else f"<code>{it[2]}</code>",
                      html.escape(text, quote=False))
        rows = "".join(f"<li>{self.link_to(it, page)}: {self.labels(it, labels, page, marker, False)}</li>"
                       for it in items)
        return (f'<details class="fold"><summary>{name}: {self.labels(items[0], labels, page, marker, True)} '
                f"<span>({len(items)} functions)</span></summary><ul>{rows}</ul></details>")

    def listed(self, claims, pages, page=PAGE):
        """A list of claims, by their texts, as HTML."""
        found = []
        for said in claims:
            row = self.rows[" ".join(said.split())]
            parts = "".join(self.part(*it, page, pages.marker) for it in row.parts)
            text = pages.inline(row.text, CLAIMS, page)
            found.append(f'<div class="claim" id="{row.anchor}"><div class="claim-text">{text}</div>'
                         f'<div class="claim-by">{parts}</div></div>')
        return f'<div class="claim-table">{"".join(found)}</div>'
