"""Steps of Sphinx beside pages of Markdown.

It makes the list of pages beside each, pages of sources, the passages that a search shows, and what Debian's theme
lacks.
"""

import html
import json
import os
import re
import shutil

from docutils import nodes
from pygments import highlight
from pygments.filter import simplefilter
from pygments.formatters import HtmlFormatter
from pygments.lexers import get_lexer_by_name
from pygments.token import Error, Token

LEXERS = {".rt": "rust", ".antt": "agda", ".md": "markdown", ".py": "python", ".sh": "bash"}
# Longer files have no colours.
MOST_COLOURED = 400_000
PAGE = """<!doctype html>
<html lang="en"><head><meta charset="utf-8"><meta name="viewport" content="width=device-width,initial-scale=1">
<title>{title}</title>
<link rel="stylesheet" href="{up}_static/pygments.css"><link rel="stylesheet" href="{up}_static/styles/furo.css">
<link rel="stylesheet" href="{up}_static/site.css"></head>
<body class="of-source"><script>{choose_theme}</script><p><a href="{up}index.html">encoding_rs in Rattle</a></p>
<h1>{title}</h1>{body}</body></html>
"""

# The choice of colours that the theme keeps.
CHOOSE_THEME = 'document.body.dataset.theme = localStorage.getItem("theme") || "auto";'
# The page that searches, and its scripts.
SEARCH, SEARCH_FILES = "search", ("passages.js", "search.js")


@simplefilter
def without_errors(self, lexer, stream, options):  # pylint: disable=unused-argument
    """Takes what a lexer doesn't know as text."""
    for kind, value in stream:
        yield (Token.Text if kind is Error else kind), value


def given(app):
    """What scripts/reference has written for this extension."""
    if not hasattr(app, "reference_given"):
        with open(os.path.join(app.confdir, "given.json"), encoding="utf-8") as file:
            app.reference_given = json.load(file)
    return app.reference_given


# The list of pages

def entry(page, title, level, is_current, under, address):
    kinds = f"toctree-l{level}" + " current" * is_current
    link = f'<a class="reference internal{" current" * is_current}" href="{address(page)}">{title}</a>'
    inner = f"<ul>{under}</ul>" if under else ""
    return f'<li class="{kinds}">{link}{inner}</li>'


def tree(app, current, address):
    """The list of pages as HTML, with those under the crate of the current page."""
    found = []
    for caption, branches in given(app)["tree"]:
        rows = []
        for title, page, leaves in branches:
            is_here = current == page or current in (leaf for _, leaf in leaves)
            under = [entry(leaf, name, 2, leaf == current, "", address) for name, leaf in leaves if is_here]
            rows.append(entry(page, title, 1, is_here, "".join(under), address))
        found.append(f'<p class="caption" role="heading"><span class="caption-text">{caption}</span></p>'
                     f"<ul>{''.join(rows)}</ul>")
    return "".join(found)


def put_tree(app, pagename, templatename, context, doctree):  # pylint: disable=unused-argument
    """Gives the theme that list. (By itself it would make the list of all pages anew for each.)"""
    address = context["pathto"]
    context["toctree"] = lambda **_: tree(app, pagename, address)


def tell_apart(app, doctree):  # pylint: disable=unused-argument
    """Gives a section another name where an item on its page has that one."""
    text = "".join(it.astext() for it in doctree.findall(nodes.raw))
    anchors = {*re.findall(r'<div class="anchor" id="([^"]+)"', text)}
    for section in doctree.findall(nodes.section):
        section["ids"] = [f"{it}-section" if it in anchors else it for it in section["ids"]]


# Sources

def lines_of(path, text):
    """The lines of a file as HTML, with colours where its language is known."""
    name = LEXERS.get(os.path.splitext(path)[1])
    if not name or len(text) > MOST_COLOURED:
        return html.escape(text, quote=False).splitlines()
    lexer = get_lexer_by_name(name, stripnl=False)
    lexer.add_filter(without_errors())
    return highlight(text, lexer, HtmlFormatter(nowrap=True)).splitlines()


def body_of_folder(path, page, pages):
    """The list of the files of a folder."""
    rows = []
    for file in sorted(it for it in pages if it.startswith(f"{path}/")):
        address = os.path.relpath(f"{pages[file]}.html", os.path.dirname(page))
        rows.append(f'<li><a href="{address}">{html.escape(os.path.relpath(file, path))}</a></li>')
    return f"<ul>{''.join(rows)}</ul>"


def body_of_file(top, path):
    with open(f"{top}/{path}", encoding="utf-8", errors="replace") as file:
        lines = lines_of(path, file.read())
    rows = "".join(f'<span class="line" id="L{at}"><a class="number" href="#L{at}">{at}</a>{line}</span>'
                   for at, line in enumerate(lines, 1))
    return f'<div class="highlight lines"><pre>{rows}</pre></div>'


# The theme, as Debian builds it, lacks what upstream's tools add.

def read(path):
    with open(path, encoding="utf-8") as file:
        return file.read()


def with_files(text, at):
    """A style with what it takes from a web server beside it."""
    for wanted in set(re.findall(r"url\((/javascript/[^)]+)\)", text)):
        shutil.copy(f"/usr/share{wanted}", at)
        text = text.replace(wanted, os.path.basename(wanted))
    return text


def with_dark_by_itself(text, _):
    """A style whose dark colours hold where the browser asks for them, too, unless the reader has chosen others."""
    dark = re.search(r'@media not print \{(\s+body\[data-theme="dark"\].*?\} )\}\n', text, re.S)
    if not dark or "prefers-color-scheme" in text:
        return text
    dark = dark[1].replace('[data-theme="dark"]', ':not([data-theme="light"])')
    return f"{text}@media not print {{ @media (prefers-color-scheme: dark) {{{dark}}} }}\n"


def with_imports(text, at):
    """A script with those that it imports before it: no browser loads a module from a file."""
    return re.sub(r'^import \w+ from "\./([^"]+)";$', lambda it: read(f"{at}/{it[1]}"), text, flags=re.M)


STEPS = {".css": (with_files, with_dark_by_itself), ".js": (with_imports,)}


def complete_theme(app, failure):
    """Adds to the copies of the theme's files in the site."""
    static = os.path.join(app.outdir, "_static")
    for at, _, names in os.walk(static) if not failure else ():
        for path in (os.path.join(at, it) for it in names):
            steps = STEPS.get(os.path.splitext(path)[1], ())
            text = after = read(path) if steps else ""
            for step in steps:
                after = step(after, at)
            if after != text:
                with open(path, "w", encoding="utf-8") as file:
                    file.write(after)


# Search

def words_of(part):
    """The text of a part of a page."""
    text = re.sub(r"</?(?:a|b|code|em|i|span|strong|wbr)\b[^>]*>", "", part)
    return " ".join(html.unescape(re.sub(r"<[^>]*>", " ", text)).split())


def passages_of(page):
    """The text of a page by sections, each with its anchor: what stands before the first has none.

    In each the prose comes first, and then the code.
    """
    article = re.search(r'<article role="main">(.*?)</article>', page, re.S)[1]
    article = re.sub(r'<(h[1-6]|script|style)\b.*?</\1>|<div class="item-head">.*?</div>', "", article, flags=re.S)
    parts = re.split(r'<section id="([^"]+)">', article)
    for anchor, part in zip(["", *parts[1::2]], parts[::2]):
        code = re.findall(r"<pre\b.*?</pre>", part, re.S)
        prose = re.sub(r"<pre\b.*?</pre>", " ", part, flags=re.S)
        if text := words_of(" ".join([prose, *code])):
            yield anchor, text


def write_passages(app, failure):
    """Writes the passages of all pages as a script, since a page from a file can't read another one."""
    if failure:
        return
    pages = {it: [*passages_of(read(os.path.join(app.outdir, f"{it}.html")))] for it in sorted(app.env.found_docs)}
    with open(os.path.join(app.outdir, "_static", SEARCH_FILES[0]), "w", encoding="utf-8") as file:
        file.write(f"const passages = {json.dumps(pages, ensure_ascii=False, separators=(',', ':'))};\n")


def put_search(app, pagename, templatename, context, doctree):  # pylint: disable=unused-argument
    """Gives the page of the search the scripts that show passages."""
    for it in SEARCH_FILES if pagename == SEARCH else ():
        app.add_js_file(it)


def write_sources(app, failure):
    """Writes the pages of sources, which a search doesn't read."""
    if failure:
        return
    top, pages = given(app)["top"], given(app)["sources"]
    for path, page in pages.items():
        to = os.path.join(app.outdir, f"{page}.html")
        os.makedirs(os.path.dirname(to), exist_ok=True)
        body = body_of_folder(path, page, pages) if os.path.isdir(f"{top}/{path}") else body_of_file(top, path)
        with open(to, "w", encoding="utf-8") as file:
            up = "../" * page.count("/")
            file.write(PAGE.format(title=html.escape(path), up=up, body=body, choose_theme=CHOOSE_THEME))


def setup(app):
    app.connect("doctree-read", tell_apart, priority=100)
    app.connect("html-page-context", put_tree, priority=400)
    app.connect("html-page-context", put_search)
    app.connect("build-finished", complete_theme)
    app.connect("build-finished", write_passages)
    app.connect("build-finished", write_sources)
    return {"parallel_read_safe": True, "parallel_write_safe": True}
