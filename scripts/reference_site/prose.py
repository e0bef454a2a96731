"""The documents of the repository as pages: their links, the items and files that they name, and the claims."""

import html
import os
import posixpath
import re

from claims import CLAIM, CLAIMS
from common import TOP, is_there, paths, read
from definitions import spec_files
from homes import Target, page_of_spec
from names import breakable, href
from surface import libraries

DOCUMENTS = ("README.md", "ARCHITECTURE.md", "CONTRIBUTING.md", "CHANGELOG.md", "docs/*.md", "data/README.md",
             "crates/*/CALLING.md")
# A link or a picture, a word in backticks, and a path of the repository by itself.
PICTURE = r"!\[(?P<alt>[^\]]*)\]\((?P<picture>[^)\s]+)\)"
LINK = r"\[(?P<text>(?:`[^`]*`|[^\[\]`])*)\]\((?P<target>[^)\s]+)\)"
TICKED = r"(?P<ticks>`+)(?P<code>.+?)(?P=ticks)"
BARE = r"(?<![\w/.$`(\[-])(?P<path>(?:crates|docs|scripts|data|bench|completions)/[\w./-]*\w|(?:[A-Z]+)\.md)"
PROSE = re.compile("|".join((PICTURE, LINK, TICKED, BARE)))
FENCE = re.compile(r"^(```.*?^```)$", re.M | re.S)
CLAIM_LIST = re.compile(rf"(?:{CLAIM.pattern}\n)+", re.M)
LIST_OF_NAMES = re.compile(r"^- \*([^*]+)\*:", re.M)
# The comments around what scripts write. Others stay: they end a list.
WRITTEN = re.compile(r"<!-- (?:scripts/|to here).*?-->\n?", re.S)
# The style of a picture in dark colours, and its declaration of both.
DARK = re.compile(r"^ *@media \(prefers-color-scheme: dark\) \{\n(.*?)^ *\}\n(?= *(?:\.|<))", re.M | re.S)
BOTH = re.compile(r"^ *:root \{ color-scheme: light dark; \}\n", re.M)


def documents():
    return [path for pattern in DOCUMENTS for path in paths(pattern)]


def page_of_document(path):
    name = path.removesuffix(".md").replace("docs/", "")
    return f"documents/{name.replace('/', '-')}"


class Sources:
    """The files that have a page of their own, those that are copied, and pictures, by their texts."""

    def __init__(self):
        self.pages, self.copied, self.pictures = {}, {}, {}

    def page(self, path):
        """The page of a file, or of a folder, whose files get one too."""
        if path not in self.pages:
            self.pages[path] = f"source/{path}"
            for it in paths(f"{path}/**/*") if os.path.isdir(f"{TOP}/{path}") else ():
                if os.path.isfile(f"{TOP}/{it}") and "/out/" not in it:
                    self.pages[it] = f"source/{it}"
        return self.pages[path]

    def copy(self, path):
        self.copied[path] = f"files/{path}"
        return self.copied[path]

    def schemes(self, path):
        """A picture by the class of its element. One with dark colours is two: the theme, which a reader can choose,
        decides which is shown, and not the browser."""
        if not path.endswith(".svg") or not DARK.search(text := BOTH.sub("", read(path))):
            return {"picture": self.copy(path)}
        light, dark = DARK.sub("", text), DARK.sub(r"\1", text)
        made = {"picture only-light": ("light", light), "picture only-dark": ("dark", dark)}
        stem = f"files/{path.removesuffix('.svg')}"
        self.pictures |= {f"{stem}-{scheme}.svg": drawn for scheme, drawn in made.values()}
        return {kind: f"{stem}-{scheme}.svg" for kind, (scheme, _) in made.items()}


class Prose:
    """Writes documents as pages."""

    def __init__(self, pages, claims):
        self.pages, self.claims, self.links, self.dead = pages, claims, 0, []
        self.by_path, self.by_name = {}, {}
        homes = pages.homes
        for definition in homes.definitions:
            self.by_name.setdefault(definition.name, []).append(Target(definition))
        order = {crate: at for at, crate in enumerate(libraries())}
        for item in sorted(pages.items(), key=lambda it: order[it.crate]):
            words = homes.path(item).split("::")
            for at in range(len(words) - 1):
                self.by_path.setdefault("::".join(words[at:]), []).append(Target(item))
            self.by_path.setdefault(f"{item.crate}::{item.title}", []).append(Target(item))
            if not item.of_trait or item.of_trait == item.owner:
                self.by_name.setdefault(item.name, []).append(Target(item))

    def target(self, name):
        """The item or the definition that a name in a document means, if it means one."""
        if "::" in name:
            return self.by_path.get(name, [None])[0]
        those = self.by_name.get(name, [])
        # a short word in lower case is the name of a clause or of a parameter too
        return those[0] if len(those) == 1 and re.search("[A-Z_]", name) else None

    def file_address(self, path, page):
        """The address of what shows a file or a folder, from a page, or None if there is none."""
        path = posixpath.normpath(path)
        if path in documents():
            return href(page, page_of_document(path))
        if path in spec_files():
            return href(page, page_of_spec(path))
        if os.path.isfile(f"{TOP}/{path}"):
            if path.endswith((".svg", ".png")):
                return posixpath.relpath(self.pages.sources.copy(path), posixpath.dirname(page))
            return href(page, self.pages.sources.page(path))
        if os.path.isdir(f"{TOP}/{path}") and path.startswith("crates/"):
            crate = path.split("/")[1]
            if path == f"crates/{crate}" and crate in libraries():
                return href(page, path)
            return href(page, self.pages.sources.page(path))
        return None

    def replaced(self, match, document, page):
        """A link, a picture, a name or a path of a document, as HTML."""
        folder = os.path.dirname(document)
        if match["picture"]:
            path = posixpath.normpath(os.path.join(folder, match["picture"]))
            self.dead += [f"{document}: {match['picture']}"] * (not is_there(path))
            made = self.pages.sources.schemes(path) if is_there(path) else {}
            return "".join(f'<img class="{kind}" src="{posixpath.relpath(to, posixpath.dirname(page))}" '
                           f'alt="{html.escape(match["alt"])}">' for kind, to in made.items())
        if target := match["target"]:
            path, *anchor = re.split("(?=#)", target)
            is_address = "://" in target or not path
            at = target if is_address else self.file_address(os.path.join(folder, path), page)
            at = at and at + "".join(anchor) * (not is_address)
            if not at:
                self.dead.append(f"{document}: {target}")
            self.links += 1
            inner = re.sub(r"`([^`]*)`", lambda it: f"<code>{html.escape(it[1], quote=False)}</code>", match["text"])
            return f'<a href="{at}">{inner}</a>' if at else inner
        # (a search shows a heading as a link)
        if match.string[match.string.rfind("\n", 0, match.start()) + 1:].startswith("#"):
            return match[0]
        if path := match["path"]:
            at = self.file_address(path, page) if self.is_shown(path) else None
            self.links += bool(at)
            return f'<a href="{at}">{path}</a>' if at else path
        return self.code(match["code"], match[0], page)

    @staticmethod
    def is_shown(path):
        """Whether a path by itself is worth a link: a document, or a file of a crate or of data."""
        return re.fullmatch(r"[\w./-]+\.(?:md|rt|antt|edit|txt)", path) is not None

    def code(self, code, whole, page):
        """Words in backticks: a link if they name a file, an item or a definition."""
        path = next((it for it in (code, f"crates/{code}") if "/" in code and self.is_shown(it) and is_there(it)), None)
        if path or code in libraries():
            at = self.file_address(path or f"crates/{code}", page)
        else:
            target = self.target(code)
            at = href(page, *self.pages.homes.home(target)) if target else None
        self.links += bool(at)
        return f'<a class="ref" href="{at}"><code>{breakable(code)}</code></a>' if at else whole

    def text(self, text, document, page):
        """A part of a document that is not code."""
        linked = PROSE.sub(lambda it: self.replaced(it, document, page), text)
        return self.pages.standard.linked(linked)

    def page(self, document):
        """The page of a document."""
        page, text = page_of_document(document), WRITTEN.sub("", read(document))
        lists = []

        def kept(match):
            claims = [it for it in CLAIM.finditer(match[0]) if it[2]]
            if not claims:
                return match[0]
            lists.append(self.claims.listed([it[1] for it in claims], self.pages, page))
            return f"\n%CLAIMS{len(lists) - 1}%\n\n"
        if document == CLAIMS:
            text = CLAIM_LIST.sub(kept, text)
            text = LIST_OF_NAMES.sub(r'- <span id="names-\1"></span>*\1*:', text)
        parts = FENCE.split(text)
        found = "".join(it if it.startswith("```") else self.text(it, document, page) for it in parts)
        found = re.sub(r"%CLAIMS(\d+)%", lambda it: lists[int(it[1])], found)
        # (names of languages that Pygments knows)
        found = re.sub(r"^```(\w+),.*$", r"```\1", found, flags=re.M)
        return page, re.sub(r"^```(?:text|antt)$", "```none", found, flags=re.M)
