"""Writes a reference to browse, from sources, definitions and documents: scripts/reference [--walk] [FOLDER]

Each public item of the libraries has its signature, its documentation and its contract. Each name in a clause leads to
its definition, each definition to those under it and to its section of the standard, and each claim of docs/PROVED.md
to its clauses. The site is written to FOLDER, or to out/reference. It needs no server and no network: open index.html.

--walk then walks through it in headless Chromium, and says what it saw: every link leads somewhere, a search finds
what it should and shows a passage of it, clicks lead from a call to the rule of UTF-8, a button chooses light or dark
colours, in which pictures can be read, nothing is wider than a phone, and nothing is fetched. The status is 0 only if
all of that held.

Sphinx, MyST and furo, and for the walk Chromium and Selenium, are Debian's packages, and are installed where they are
missing. Where one cannot be had, a line says which, and the status is 2.
"""

import argparse
import html
import json
import os
import re
import shutil
import subprocess
import sys
import tempfile

from browsers import PYTHON, driven
from claim_links import LinkedClaims
from common import TOP, give_up, write
from definitions import spec_files
from homes import Homes
from names import Marker, breakable, href
from pages import Pages
from programs import install_all
from prose import Prose, Sources, documents, page_of_document
from standard import Standard
from surface import FOR_CALLERS, NOT_READ, libraries

HERE = os.path.dirname(os.path.abspath(__file__))
FOLDER = f"{TOP}/out/reference"
# The modules that the site needs of Debian's Python, with their packages.
SPHINX = {"sphinx": "python3-sphinx", "myst_parser": "python3-myst-parser", "furo": "furo"}
CONFIGURATION = """
import sys
sys.path.append({here!r})
project = "encoding_rs in Rattle"
html_title = "encoding_rs in Rattle"
extensions = ["myst_parser", "extension"]
html_theme = "furo"
html_theme_options = {{"top_of_page_button": None}}
html_static_path = [{static!r}]
html_css_files = ["site.css"]
html_extra_path = ["extra"]
html_show_sourcelink = False
html_copy_source = False
html_show_copyright = False
html_show_search_summary = False
html_permalinks = False
smartquotes = False
html_use_index = False
suppress_warnings = ["myst.header", "toc.not_included"]
highlight_language = "none"
"""


def toctree(pages):
    return "```{toctree}\n:hidden:\n\n" + "\n".join(f"/{it}" for it in pages) + "\n```"


class Site:
    """The pages of the reference, and what is counted of them."""

    def __init__(self):
        self.homes, self.standard, self.sources = Homes(), Standard(), Sources()
        self.marker = Marker(self.homes)
        self.claims = LinkedClaims(self.homes)
        self.pages = Pages(self.homes, self.marker, self.standard, self.claims, self.sources)
        self.trees = {}
        self.write_items()
        self.prose = self.pages.prose = Prose(self.pages, self.claims)
        self.write_documents()
        self.write_start()

    def write_items(self):
        """The pages of crates and definitions. Private items come last: what is written before names them."""
        for crate in libraries():
            page, under = self.pages.crate_page(crate)
            self.trees[page] = under
        for path in spec_files():
            self.pages.spec_page(path)
        before = -1
        while before != (before := sum(len(it) for it in self.homes.private.values())):
            for crate in [*self.homes.private]:
                self.pages.private_page(crate)
        for crate in self.homes.private:
            self.trees[f"crates/{crate}"].append(f"crates/{crate}/private")
        self.trees |= self.pages.spec_lists()

    def write_documents(self):
        for it in documents():
            page, text = self.prose.page(it)
            self.pages.room[page] = text

    def link(self, path, page):
        """A link to an item or a definition of the start page."""
        target = self.prose.target(path)
        if not target:
            self.prose.dead.append(f"start.md: {path}")
            return f"`{path}`"
        return f'<a class="ref" href="{href(page, *self.homes.home(target))}"><code>{breakable(path)}</code></a>'

    def link_to_clause(self, path, clause, page):
        """A link to a clause of a function of the start page."""
        target = self.prose.target(path)
        if not target or all(it.label != clause for it in target.thing.clauses):
            self.prose.dead.append(f"start.md: clause {clause} of {path}")
            return f"`{clause}`"
        to, anchor = self.homes.home(target)
        return f'<a href="{href(page, to, f"{anchor}.{clause}")}"><code>{clause}</code></a>'

    def write_start(self):
        """The start page, and the lists of pages on it."""
        page = "index"
        with open(f"{HERE}/start.md", encoding="utf-8") as file:
            text = file.read()
        words = {it: self.link_to_clause("encoding_rs::run::decode_run", it, page)
                 for it in ("beginning", "text", "faults")}
        words["constants"] = f'<a href="{href(page, "crates/encoding_rs/constants")}">constants</a>'
        words["crates"] = ", ".join(f'<a href="{href(page, f"crates/{it}")}"><code>{it}</code></a>'
                                    for it in FOR_CALLERS)
        words["documents"] = ", ".join(f'<a href="{href(page, page_of_document(it))}">{it}</a>' for it in documents())
        text = re.sub(r"\{(\w+)\}", lambda it: words.get(it[1], it[0]), text)
        text = re.sub(r"\[`([^`]+)`\]", lambda it: self.link(it[1], page), text)
        pages = [it for _, branches in self.tree() for _, it, _ in branches]
        self.pages.room[page] = f"{text}\n\n{toctree(pages)}"

    def tree(self):
        """The list of pages: captions, and below each pages with those under them, each with its title."""
        def title(page):
            name = re.sub("^Definitions of |: definitions$|`", "", self.pages.title(page))
            return html.escape(name.split("::")[-1])

        def branch(page):
            return title(page), page, [(title(it), it) for it in self.trees.get(page, [])]

        below = [it for it in libraries() if it not in FOR_CALLERS]
        return [
            ("For callers", [branch(f"crates/{it}") for it in FOR_CALLERS]),
            ("Crates below", [branch(f"crates/{it}") for it in below]),
            ("Definitions", [branch(it) for it in self.trees if it.startswith("definitions/")]),
            ("Documents", [branch(page_of_document(it)) for it in documents()])]

    def write(self, room):
        """Writes what Sphinx reads."""
        for page, text in self.pages.texts():
            tree = f"\n\n{toctree(self.trees[page])}" if self.trees.get(page) else ""
            path = f"{room}/{page}.md"
            os.makedirs(os.path.dirname(path), exist_ok=True)
            with open(path, "w", encoding="utf-8") as file:
                file.write(text + tree + "\n")
        with open(f"{room}/conf.py", "w", encoding="utf-8") as file:
            file.write(CONFIGURATION.format(here=HERE, static=f"{HERE}/static"))
        with open(f"{room}/given.json", "w", encoding="utf-8") as file:
            json.dump({"top": TOP, "sources": self.sources.pages, "tree": self.tree()}, file)
        os.makedirs(f"{room}/extra")
        for path, to in self.sources.copied.items():
            os.makedirs(os.path.dirname(f"{room}/extra/{to}"), exist_ok=True)
            shutil.copy(f"{TOP}/{path}", f"{room}/extra/{to}")
        for to, text in self.sources.pictures.items():
            write(f"{room}/extra/{to}", text)

    def counts(self):
        """The numbers of the reference, and what could not be linked."""
        of_callers = [it for it in self.pages.items() if self.homes.path(it).split("::")[0] in FOR_CALLERS]
        private = sum(map(len, self.homes.private.values()))
        below = len(self.pages.items()) - len(of_callers) - private
        yield f"{len(of_callers)} items for callers, {below} of crates below, {private} private ones that are named"
        yield (f"{len(self.pages.clauses)} conditions and clauses, {len(self.homes.definitions)} definitions in "
               f"{len(spec_files())} files")
        yield (f"{self.marker.links} links from signatures, clauses and definitions, {self.claims.links} from "
               f"{len(self.claims.rows)} claims, {self.prose.links} from documents, "
               f"{self.standard.links} to the standard")
        yield f"{len(self.pages.room)} pages, {len(self.sources.pages)} of sources"
        unknown = [f"{name} ({', '.join(sorted(those))})" for name, those in sorted(self.marker.unknown.items())]
        unknown += [f"section {it} of the standard" for it in sorted(self.standard.unknown)] + self.prose.dead
        yield f"{len(unknown)} names without a link, beside {len(self.marker.standard)} of the standard library"
        yield from (f"  {it}" for it in unknown)
        yield (f"{self.marker.fields} fields after a dot without a link: private ones, those of the standard library, "
               "and where no type is written")
        yield from (f"  not read: {it}" for it in NOT_READ)


def is_site(folder):
    """Whether Sphinx has made a folder."""
    return os.path.exists(f"{folder}/.buildinfo")


def build(folder):
    """Builds the site into a folder, and prints what it has. A folder of anything else is left as it is."""
    if os.path.exists(folder) and not (os.path.isdir(folder) and (is_site(folder) or not os.listdir(folder))):
        give_up(f"{folder} is there, and is no reference")
    install_all(SPHINX, {PYTHON: "python3"})
    site = Site()
    with tempfile.TemporaryDirectory(prefix="reference-") as room:
        site.write(room)
        made = f"{room}.made"
        words = [PYTHON, "-m", "sphinx", "-b", "html", "-q", "-d", f"{room}.trees", "-j", "2", room, made]
        ran = subprocess.run(words, stdin=subprocess.DEVNULL, capture_output=True, text=True, check=False)
        shutil.rmtree(f"{room}.trees", ignore_errors=True)
        if ran.returncode:
            give_up(f"Sphinx failed: {ran.stderr[-3000:]}", 3)
        if ran.stderr.strip():
            print(ran.stderr.strip()[-4000:], file=sys.stderr)
        shutil.rmtree(folder, ignore_errors=True)
        shutil.copytree(made, folder)
        shutil.rmtree(made)
    for it in site.counts():
        print(it)


def main():
    parser = argparse.ArgumentParser(description=__doc__, formatter_class=argparse.RawDescriptionHelpFormatter)
    parser.add_argument("--walk", action="store_true", help="walk through it in Chromium")
    parser.add_argument("folder", nargs="?", default=FOLDER, metavar="FOLDER")
    options = parser.parse_args()
    folder = os.path.abspath(options.folder)
    build(folder)
    return driven(f"{HERE}/walk.py", folder) if options.walk else 0
