"""The pages of items and of definitions, in Markdown with parts in HTML."""

import html
import os
import re

from claims import CLAIMS
from common import read
from definitions import definitions_of, head_of, spec_files
from groups import grouped
from homes import Target, anchor_of, page_of_spec
from meanings import Std, meaning
from names import breakable, href, scope_of_definition, scope_of_item
from sources import headline
from surface import Item, exported, files_of, functions_by_owner, head_comment, items_of, libraries, models_of, resolved

KINDS = {"fn": "function", "struct": "struct", "enum": "enum", "trait": "trait", "type": "type", "const": "constant",
         "static": "static"}
CODE = re.compile(r"`([^`\n]+)`")
# The most names that stand in a list without being folded.
MOST_SHOWN = 6


def one_line(text):
    """A text of HTML in one line, as a block of Markdown wants it."""
    return text.replace("\n", "&#10;")


def pre(marked, kind=""):
    return f'<div class="highlight {kind}"><pre>{one_line(marked)}</pre></div>'


def folded(title, content, number, opened=False):
    """A part that a reader opens."""
    summary = f"<summary>{title} <span>({number})</span></summary>"
    return f'<details class="fold"{" open" if opened else ""}>{summary}{content}</details>'


def trait_of(name, path):
    """The trait of a name in a file, or in another file of the crate."""
    name, files = name.split("::")[-1], [path, *files_of(path.split("/")[1])]
    return next((it for file in files if (it := resolved(name, file))), None)


class Pages:
    """Writes pages. `room` maps the name of each to its text."""

    def __init__(self, homes, marker, standard, claims, sources):
        self.homes, self.marker, self.standard, self.claims, self.sources = homes, marker, standard, claims, sources
        self.room, self.clauses, self.shown = {}, {}, {}
        # what links names in documents, once the places of all items are known
        self.prose = None

    def items(self):
        """The items that have a place."""
        every = [it for crate in libraries() for path in files_of(crate) for it in items_of(path)]
        return [it for it in every if id(it) in self.homes.places]

    # Texts

    def inline(self, text, path, page):
        """A line of documentation as HTML: names in brackets are links."""
        text = html.escape(" ".join(text.split()), quote=False)
        text = re.sub(r"\[`([^`]+)`\]", lambda it: self.doc_link(it[1], path, page), text)
        text = re.sub(r"\*\*(.+?)\*\*", r"<strong>\1</strong>", text)
        text = re.sub(r"(?<![\w*])\*([^*\s][^*]*)\*(?!\w)", r"<em>\1</em>", text)
        return self.standard.linked(CODE.sub(lambda it: self.code(it, path, page), text))

    def code(self, match, path, page):
        """Words in backticks, which in a document may be a link."""
        code = f"<code>{match[1]}</code>"
        return self.prose.code(html.unescape(match[1]), code, page) if self.prose and path == CLAIMS else code

    def doc_link(self, name, path, page):
        """What a name in brackets of documentation leads to."""
        target = self.named_in_docs(name.removesuffix("()"), path)
        code = f"<code>{breakable(name)}</code>"
        return self.marker.link(target, page, code) if target else code

    def named_in_docs(self, name, path):
        first, _, rest = name.partition("::")
        owner = resolved(first, path)
        if not rest:
            return Target(owner) if owner else None
        if not owner:
            return None
        if any(it.name == rest for it in owner.parts):
            return Target(owner, rest)
        those = functions_by_owner(owner.crate).get(owner.name, [])
        return next((Target(it) for it in those if it.name == rest and self.homes.page(it)), None)

    def markdown(self, doc, path, page):
        """Documentation as Markdown, with links."""
        text = re.sub(r"\[`([^`\]]+)`\]", lambda it: self.doc_link(it[1], path, page), doc)
        return self.standard.linked(text)

    def comment(self, text, path, page):
        """A comment of a spec file as HTML: paragraphs, and drawings as they are."""
        found = []
        for part in re.split(r"\n\s*\n", text.strip("\n")):
            if part.startswith("    "):
                found.append(f'<pre class="drawing">{one_line(html.escape(part, quote=False))}</pre>')
            elif part.strip():
                escaped = html.escape(" ".join(part.split()), quote=False)
                said = CODE.sub(lambda it: self.name_in_comment(it[1], path, page), escaped)
                found.append(f"<p>{self.standard.linked(said)}</p>")
        return "".join(found)

    def name_in_comment(self, name, path, page):
        target = meaning(name, path)
        if isinstance(target, Std) or not target:
            target = self.shown.get(name)
        return self.marker.link(target, page, f"<code>{name}</code>") if target else f"<code>{name}</code>"

    # Items

    def source_link(self, item, page):
        return f'<a class="source" href="{href(page, self.sources.page(item.path), f"L{item.line}")}">source</a>'

    def cited_by(self, thing, page):
        """The definitions and functions that cite a thing."""
        those = [*self.marker.edges.get(id(thing), {}).values()]
        if not those:
            return ""
        order = sorted(those, key=lambda it: (isinstance(it, Item), it.path, it.name))
        links = []
        for it in order:
            page_of, anchor = self.homes.home(Target(it))
            name = self.homes.short(it) if isinstance(it, Item) else it.name
            links.append(f'<a href="{href(page, page_of, anchor)}">{breakable(name)}</a>')
        names = f'<p class="names spaced">{" ".join(links)}</p>'
        return folded("Cited by", names, len(links), len(links) <= MOST_SHOWN)

    def clause(self, item, clause, scope, page):
        """A condition or a clause, as a block."""
        self.clauses[id(clause)] = clause
        anchor = html.escape(f"{anchor_of(item)}.{clause.anchor}")
        name = html.escape(clause.label) or ("condition" if clause.kind == "requires" else "its clause")
        said = f"<p>{self.inline(clause.comment, item.path, page)}</p>" if clause.comment else ""
        marked = self.marker.marked(clause.text, scope, page, item)
        claims = self.claims.of_clause(item, clause, page, self)
        return (
            f'<div class="clause {clause.kind}" id="{anchor}"><div class="clause-head">'
            f'<span class="clause-kind">{clause.kind}</span> <a class="clause-name" href="#{anchor}">{name}</a>'
            f"</div>{said}{pre(marked)}{claims}</div>")

    def contract(self, item, page):
        if not item.clauses:
            return ""
        scope = scope_of_item(item)
        blocks = [self.clause(item, it, scope, page) for it in item.clauses]
        if len(blocks) > 20:
            blocks = [folded("Clauses", "".join(blocks), len(blocks))]
        return f'<div class="contract">{"".join(blocks)}</div>'

    def parts(self, item, page):
        """Variants, public fields and members of a type, as a list."""
        if not item.parts:
            return ""
        scope, rows = scope_of_item(item), []
        for it in item.parts:
            if it.kind == "ghost":
                marked = self.marker.marked(it.text, scope, page, item)
                text = f'<span class="k">ghost</span> {html.escape(it.name)}: {marked}'
            else:
                text = self.marker.rust(it.text, item, page)
            said = self.inline(it.doc, item.path, page)
            anchor = html.escape(f"{anchor_of(item)}.{it.name}")
            rows.append(f'<dt id="{anchor}"><code>{one_line(text)}</code></dt><dd>{said}</dd>')
        return f'<dl class="parts">{"".join(rows)}</dl>'

    def model(self, item, page):
        """What a value of a type is in contracts."""
        members = next((those[item.name] for it in files_of(item.crate) if item.name in (those := models_of(it))), [])
        if not members:
            return ""
        scope = scope_of_item(item)
        texts = [f'<span class="nf">{it.name}</span> = {self.marker.marked(it.text, scope, page, item)}'
                 for it in members]
        return ('<div class="model"><div class="clause-head"><span class="clause-kind">model</span></div>'
                "<p>What a value is in contracts, and what always holds of it.</p>" + pre("\n".join(texts)) + "</div>")

    def head(self, item, page):
        """The path of an item and a link to its source, and its signature."""
        path = html.escape(self.homes.path(item))
        kind = KINDS.get(item.kind, item.kind)
        passed = f" of <code>{item.crate}</code>" if not path.startswith(f"{item.crate}::") else ""
        return (f'<div class="item-head"><span class="item-path">{kind} <code>{path}</code>{passed}</span>'
                f"{self.source_link(item, page)}</div>" + pre(self.marker.rust(item.text, item, page), "signature"))

    def item(self, item, page, level):
        """The text of an item under a heading."""
        mark = "#" * level
        title = f"`{item.of_trait}::{item.name}`" if item.of_trait and item.of_trait != item.owner else f"`{item.name}`"
        return "\n\n".join(it for it in (
            f'<div class="anchor" id="{html.escape(anchor_of(item))}"></div>', f"{mark} {title}", self.head(item, page),
            self.markdown(item.doc, item.path, page), self.parts(item, page), self.model(item, page),
            self.contract(item, page)) if it)

    def methods(self, item):
        """The public functions of a type, and those of traits with a contract or documentation of their own."""
        those = [it for it in functions_by_owner(item.crate).get(item.name, []) if it.public]
        own = [it for it in those if item.kind == "trait" or not it.of_trait]
        return own, [it for it in those if it not in own and (it.clauses or it.doc)]

    def inherited(self, item, page):
        """The functions of traits whose contract and documentation are those of the trait."""
        own, of_traits = self.methods(item)
        found = []
        for it in functions_by_owner(item.crate).get(item.name, []):
            if it.public and it not in own and it not in of_traits:
                target = self.of_trait(it)
                code = f"<code>{it.of_trait}::{it.name}</code>"
                link = self.marker.link(target, page, code) if target else code
                found.append(f'<span id="{html.escape(anchor_of(it))}">{link}</span>')
        return f'<p class="names">As their traits say: {", ".join(found)}.</p>' if found else ""

    def of_trait(self, item):
        """The function of a trait that a function implements, if the trait is of these crates."""
        trait = trait_of(item.of_trait, item.path)
        those = functions_by_owner(trait.crate).get(trait.name, []) if trait else []
        return next((Target(it) for it in those if it.name == item.name and id(it) in self.homes.places), None)

    def traits(self, item, page):
        """The traits that a type implements."""
        heads = re.findall(rf"^(?:unsafe )?impl(?:<[^{{\n]*?>)? ([\w:]+)(?:<[^{{\n]*?>)? for {item.name}\b",
                           "\n".join(read(it) for it in files_of(item.crate)), re.M)
        found = []
        for it in dict.fromkeys(heads):
            target = trait_of(it, item.path)
            code = f"<code>{it}</code>"
            if it != "Model":
                found.append(self.marker.link(Target(target), page, code) if target else code)
        return f'<p class="names">Implements {", ".join(found)}.</p>' if found and item.kind != "trait" else ""

    def type_page(self, item, page):
        own, of_traits = self.methods(item)
        parts = [f'<div class="anchor" id="{item.name}"></div>', f"# `{item.name}`", self.head(item, page),
                 self.markdown(item.doc, item.path, page), self.parts(item, page), self.model(item, page),
                 self.traits(item, page), lambda: self.cited_by(item, page)]
        if len(own) > 12:
            parts.append(self.summaries(own, page))
            for title, those in grouped(own):
                parts += [f"## {title}", *(self.item(it, page, 3) for it in those)]
        else:
            parts += [self.item(it, page, 2) for it in own]
        inherited = self.inherited(item, page)
        if of_traits or inherited:
            parts += ["## Functions of traits", inherited, *(self.item(it, page, 3) for it in of_traits)]
        self.room[page] = parts

    def summary_rows(self, items, page, with_owner):
        rows = []
        for it in items:
            name = it.title if with_owner else it.name
            to, anchor = self.homes.home(Target(it))
            link = f'<a href="{href(page, to, anchor)}"><code>{breakable(name)}</code></a>'
            rows.append(f"<dt>{link}</dt><dd>{self.inline(it.summary(), it.path, page)}</dd>")
        return f'<dl class="summary">{"".join(rows)}</dl>'

    def summaries(self, items, page, with_owner=False):
        """A line for each function, by group."""
        return "".join(f'<p class="group">{title}</p>{self.summary_rows(those, page, with_owner)}'
                       for title, those in grouped(items))

    def module_page(self, crate, module, items, page):
        """The page of a public module: its types, and then its functions."""
        path = f"crates/{crate}/src/{module.replace('::', '/')}.rt"
        types = [it for it in items if it.kind != "fn"]
        functions = [it for it in items if it.kind == "fn"]
        parts = [f"# `{crate}::{module}`", self.markdown(head_comment(path), path, page),
                 self.summary_rows([*functions, *types], page, False)]
        for it in [*functions, *types]:
            parts.append(self.item(it, page, 2))
            if it.kind != "fn":
                own, of_traits = self.methods(it)
                parts += [*(self.item(method, page, 3) for method in own + of_traits), self.inherited(it, page)]
        self.room[page] = "\n\n".join(it for it in parts if it)

    def constants_page(self, crate, items, page):
        rows = []
        for it in items:
            rows.append(f'<dt id="{it.name}"><code>{html.escape(it.name)}</code></dt>'
                        f"<dd>{self.inline(it.doc, it.path, page)} {self.source_link(it, page)}</dd>")
        self.room[page] = "\n\n".join((
            "# Constants", f"The constants of `{crate}`.",
            f'<dl class="summary">{"".join(rows)}</dl>'))

    def crate_page(self, crate):
        """The page of a crate, and those of its types and modules."""
        page = f"crates/{crate}"
        shown = exported(crate)
        own = {path: it for path, it in shown.items() if self.homes.path(it) == f"{crate}::{path}"}
        passed = {path: it for path, it in shown.items() if path not in own and "::" not in path}
        types = [it for path, it in own.items() if "::" not in path and it.kind in ("struct", "enum", "trait", "type")]
        constants = [it for path, it in own.items() if "::" not in path and it.kind == "const"]
        functions = [it for path, it in own.items() if "::" not in path and it.kind == "fn"]
        modules = {}
        for path, it in own.items():
            if "::" in path:
                modules.setdefault(path.rpartition("::")[0], []).append(it)
        pages = [f"{page}/{it.name}" for it in types] + [f"{page}/{it.replace('::', '/')}" for it in modules]
        for it in types:
            self.type_page(it, f"{page}/{it.name}")
        for module, those in modules.items():
            self.module_page(crate, module, those, f"{page}/{module.replace('::', '/')}")
        if constants:
            self.constants_page(crate, constants, f"{page}/constants")
            pages.append(f"{page}/constants")
        self.room[page] = self.crate_text(crate, page, types, functions, modules, constants, passed)
        return page, pages

    def crate_text(self, crate, page, types, functions, modules, constants, passed):
        path = f"crates/{crate}/src/lib.rt"
        of_types = [method for it in types for method in self.methods(it)[0]]
        of_modules = [it for those in modules.values() for it in those if it.kind == "fn"]
        parts = [f"# `{crate}`", self.markdown(head_comment(path), path, page)]
        if types:
            parts += ["## Types", self.summary_rows(types, page, False)]
        if constants:
            link = f'<a href="{href(page, page + "/constants")}">Constants</a>'
            parts.append(f'<p>{link}: {len(constants)}, as <code>{constants[0].name}</code>.</p>')
        for title, those in grouped(of_types + functions + of_modules):
            parts += [f"## {title}", self.summary_rows(those, page, True)]
        if passed:
            parts += ["## Passed on", "Of crates that have a page of their own:",
                      self.summary_rows([*passed.values()], page, False)]
        parts += [self.item(it, page, 2) for it in functions]
        return "\n\n".join(it for it in parts if it)

    def private_page(self, crate):
        """The page of what no crate exports, but a contract or a claim names."""
        page = f"crates/{crate}/private"
        those = sorted(self.homes.private.get(crate, []), key=lambda it: (it.kind == "const", it.path, it.line))
        parts = [f"# Private items of `{crate}`",
                 "No crate exports them, but a definition, a clause or a claim names them."]
        for it in those:
            parts.append(self.item(it, page, 2))
            if it.kind not in ("fn", "const", "static"):
                own, of_traits = self.methods(it)
                parts += [*(self.item(method, page, 3) for method in own + of_traits), self.inherited(it, page)]
        self.room[page] = "\n\n".join(it for it in parts if it)

    # Definitions

    def definition(self, it, page):
        marked = self.marker.marked(it.text, scope_of_definition(it), page, it)
        return it, marked

    def spec_page(self, path):
        """The page of a spec file, with its definitions."""
        page = page_of_spec(path)
        name, crate = os.path.basename(path).removesuffix(".antt"), path.split("/")[1]
        those = [self.definition(it, page) for it in definitions_of(path).values()]
        head = (f'<div class="item-head"><span class="item-path">definitions of <code>{crate}</code></span>'
                f'<a class="source" href="{href(page, self.sources.page(path))}">source</a></div>')
        self.room[page] = [f"# {name}: definitions", head, lambda: self.comment(head_of(path), path, page)]
        for it, marked in those:
            self.room[page] += [lambda it=it, marked=marked: self.definition_block(it, marked, page)]

    def definition_block(self, it, marked, page):
        name, said = html.escape(it.name), self.comment(it.comment, it.path, page)
        return "\n\n".join((
            f'<div class="anchor" id="{name}"></div>', f"## `{it.name}`",
            f'<div class="definition" data-name="{name}">{said}{pre(marked)}{self.cited_by(it, page)}</div>'))

    def spec_lists(self):
        """The lists of spec files, crate by crate. The page of each with the pages under it."""
        found = {}
        for crate in libraries():
            those = [it for it in spec_files() if it.split("/")[1] == crate]
            page, rows = f"definitions/{crate}", []
            for path in those:
                to = page_of_spec(path)
                name = os.path.basename(path).removesuffix(".antt")
                rows.append(f'<dt><a href="{href(page, to)}"><code>{name}</code></a></dt>'
                            f"<dd>{self.inline(headline(path), path, page)}</dd>")
            if those:
                self.room[page] = "\n\n".join((
                    f"# Definitions of `{crate}`", f"The files of `crates/{crate}/specs/`.",
                    f'<dl class="summary">{"".join(rows)}</dl>'))
                found[page] = [page_of_spec(it) for it in those]
        return found

    def texts(self):
        """The text of each page. (What waits for all links to be known is written now.)"""
        for page, text in self.room.items():
            parts = [text] if isinstance(text, str) else [it() if callable(it) else it for it in text]
            yield page, "\n\n".join(it for it in parts if it)

    def title(self, page):
        """The heading of a page."""
        text = self.room[page]
        parts = [text] if isinstance(text, str) else [it for it in text if isinstance(it, str)]
        return re.search(r"^# (.*)", "\n\n".join(parts), re.M)[1]
