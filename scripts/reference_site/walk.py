"""Walks through the reference in headless Chromium, with no network: walk.py FOLDER

It says what it saw, and its status is 0 only if each link leads somewhere, a search finds a call and shows a passage of
each page that it finds, clicks lead from a call to the rule of UTF-8, a button chooses the colours, in which pictures
can be read, no page is wider than a phone, and nothing was fetched from anywhere else.
"""

import collections
import itertools
import json
import os
import re
import sys
import time
from urllib.parse import unquote, urlsplit

from selenium.common.exceptions import TimeoutException
from selenium.webdriver.common.by import By
from selenium.webdriver.common.keys import Keys
from selenium.webdriver.support.ui import WebDriverWait

sys.path.append(os.path.dirname(os.path.dirname(os.path.abspath(__file__))))
from browsers import DESK, PHONE, browser, set_size  # noqa: E402

# What is searched, and the page that is found first.
SOUGHT = {
    "decode_to_utf8": "crates/encoding_rs/Decoder.html", "whole_utf_8": "definitions/enc_stream/Decoding.html",
    "decode_run": "crates/encoding_rs/run.html",
}
# The walk by clicks: from the clauses of a function to a definition.
FROM, TO = ("crates/encoding_rs/run.html", "decode_run."), ("definitions/enc_decoder_utf/Utf8.html", "utf_8_rule")
# The fewest letters of a passage.
LEAST_PASSAGE = 20
# A page with pictures, and what a browser asks for with what the button then chooses, click by click.
PICTURED = "documents/SPEED.html"
SCHEMES = {"light": ("auto", "dark", "light"), "dark": ("auto", "light", "dark")}
# The least contrast of text (WCAG 2, level AA).
LEAST_CONTRAST = 4.5
# The most faults of a kind that are listed.
MOST_LISTED = 20
# What a page has: links, anchors, blocks with their links, what is wider than its room or the screen (except code and
# tables, which scroll within themselves), the number of tables that do, and pictures that are missing.
LOOK = """
const all = (query, of = document) => [...of.querySelectorAll(query)];
const links = (of) => all('a[href]', of).map((it) => it.href);
return {
  links: [...new Set(links(document))],
  anchors: all('[id]').map((it) => it.id),
  blocks: all('.definition[data-name], .clause[id]').map(
    (it) => [it.dataset.name || it.id, all('pre a.ref', it).map((link) => link.href)]),
  wide: all('html, body, body *').filter(
    (it) => it.clientWidth && it.scrollWidth > it.clientWidth + 1 && !it.closest('pre, .table-wrapper') &&
      (it.scrollWidth > window.innerWidth ||
        it.scrollWidth > window.innerWidth - 40 && getComputedStyle(it).overflowX !== 'visible')).map(
    (it) => `${it.tagName.toLowerCase()}.${it.className} ${it.scrollWidth}`),
  tables: all('.table-wrapper').filter((it) => it.scrollWidth > it.clientWidth).length,
  missing: all('img').filter((it) => !it.naturalWidth).map((it) => it.src),
};
"""
COLOURS = """
const shown = (query) => [...document.querySelectorAll(query)].filter((it) => it.getClientRects().length);
return {
  chosen: document.body.dataset.theme,
  background: getComputedStyle(document.body).backgroundColor,
  pictures: shown('img.only-light, img.only-dark').map((it) => it.src),
  buttons: shown('button.theme-toggle').length,
};
"""
BLOCK = """
const [name] = arguments;
return [...document.querySelectorAll('.definition[data-name], .clause[id]')].find(
  (it) => (it.dataset.name || it.id) === name);
"""
CLICK_THEME = """
[...document.querySelectorAll('button.theme-toggle')].find((it) => it.getClientRects().length).click();
"""
IN_SIGHT = """
const place = document.getElementById(arguments[0]).getBoundingClientRect();
return place.top > -40 && place.top < window.innerHeight;
"""


def requests(driver):
    """What was asked for since the last look, and what could not be loaded."""
    asked, failed = {}, []
    for it in driver.get_log("performance"):
        message = json.loads(it["message"])["message"]
        if message["method"] == "Network.requestWillBeSent":
            asked[message["params"]["requestId"]] = message["params"]["request"]["url"]
        if message["method"] == "Network.loadingFailed":
            failed.append(message["params"]["requestId"])
    return [*asked.values()], [asked.get(it, it) for it in failed]


def contrast(one, other):
    """The contrast of two colours (WCAG 2), each of three numbers up to 255."""
    def luminance(colour):
        parts = [it / 255 / 12.92 if it <= 10 else ((it / 255 + 0.055) / 1.055) ** 2.4 for it in colour]
        return sum(it * weight for it, weight in zip(parts, (0.2126, 0.7152, 0.0722)))

    lesser, greater = sorted(map(luminance, (one, other)))
    return (greater + 0.05) / (lesser + 0.05)


def pages_of(folder):
    return sorted(os.path.relpath(os.path.join(at, it), folder)
                  for at, _, names in os.walk(folder) for it in names if it.endswith(".html"))


class Walk:
    """A walk through the pages of a folder, with what was wrong."""

    def __init__(self, driver, folder):
        self.driver, self.folder, self.saw, self.faults = driver, folder, {}, []

    def address(self, page):
        return f"file://{self.folder}/{page}"

    def place(self, address):
        """The page and the anchor of an address, or None if it is not in the folder."""
        parts = urlsplit(address)
        path = unquote(parts.path)
        if parts.scheme != "file" or not path.startswith(f"{self.folder}/"):
            return None
        return os.path.relpath(path, self.folder), unquote(parts.fragment)

    def report(self, what, faults, said):
        """Says how a look went, and lists what was wrong."""
        print(f"{'failed' if faults else 'held  '}  {what}: {said}")
        for it in faults[:MOST_LISTED]:
            print(f"        {it}")
        if len(faults) > MOST_LISTED:
            print(f"        and {len(faults) - MOST_LISTED} more")
        self.faults += faults

    def open_all(self):
        """Opens each page, on a phone's width."""
        set_size(self.driver, PHONE)
        number, away, faults = 0, 0, []
        for page in pages_of(self.folder):
            self.driver.get(self.address(page))
            self.saw[page] = self.driver.execute_script(LOOK)
            asked, failed = requests(self.driver)
            number += len(asked)
            elsewhere = [it for it in asked if not it.startswith(("file:", "data:"))]
            away += len(elsewhere)
            faults += [f"{page} asks for {it}" for it in elsewhere]
            faults += [f"{page} lacks {it}" for it in failed + self.saw[page]["missing"]]
        self.report("pages load with the network off", faults,
                    f"{len(self.saw)} pages, by {number} requests, {number - away} of them for files")

    def look_at_widths(self):
        wide = [f"{page}: {it} pixels wide" for page, saw in self.saw.items() for it in saw["wide"][:2]]
        tables = sum(saw["tables"] for saw in self.saw.values())
        self.report(f"no page scrolls sideways at {PHONE[0]} pixels", wide,
                    f"{len(self.saw)} pages, in which code and {tables} tables may scroll within themselves")

    def look_at_links(self):
        """Looks whether each link leads to a page and an anchor that are there."""
        anchors = {page: {*saw["anchors"]} for page, saw in self.saw.items()}
        faults, within, hosts = [], 0, collections.Counter()
        for page, saw in self.saw.items():
            for link in saw["links"]:
                place = self.place(link)
                if not place:
                    hosts[urlsplit(link).netloc or link] += 1
                    faults += [f"{page}: {link}"] if link.startswith("file:") else []
                    continue
                within += 1
                to, anchor = place
                is_there = to in anchors or os.path.isfile(f"{self.folder}/{to}")
                if not is_there or anchor and anchor not in anchors.get(to, ()):
                    faults.append(f"{page}: {to}#{anchor}")
        out = ", ".join(f"{number} to {host}" for host, number in hosts.most_common())
        self.report("no link is dead", faults, f"{within} links within the site; not followed: {out}")

    def search_all(self):
        set_size(self.driver, DESK)
        for it in SOUGHT.items():
            self.search(*it)

    def search(self, sought, found):
        """Searches, and follows what is found first."""
        self.driver.get(self.address("index.html"))
        self.driver.find_element(By.CSS_SELECTOR, "input[name=q]").send_keys(sought, Keys.ENTER)
        links = WebDriverWait(self.driver, 60).until(
            lambda driver: driver.find_elements(By.CSS_SELECTOR, "#search-results li a"))
        time.sleep(1)
        links = self.driver.find_elements(By.CSS_SELECTOR, "#search-results li a")
        texts = [it.text for it in links]
        passages = self.driver.find_elements(By.CSS_SELECTOR, "#search-results li > a + .passage")
        faults = [f"{len(texts)} results have {len(passages)} passages"] * (len(texts) != len(passages))
        faults += [f"{it.text} is no passage" for it in passages if len(it.text) < LEAST_PASSAGE]
        links[0].click()
        page, anchor = self.place(self.driver.current_url)
        is_right = page == found and anchor.replace("-", "_") == sought
        faults += [] if is_right else [f"it leads to {page}#{anchor}"]
        self.report(f"a search finds {sought}", faults, f"{len(texts)} results, first {'; '.join(texts[:3])}")

    def look_at_colours(self):
        """Chooses each scheme of colours by the button, and looks at the pictures in it."""
        faults, least = [], 21.0
        for size, (asked, themes) in itertools.product((PHONE, DESK), SCHEMES.items()):
            feature = {"name": "prefers-color-scheme", "value": asked}
            self.driver.execute_cdp_cmd("Emulation.setEmulatedMedia", {"features": [feature]})
            set_size(self.driver, size)
            self.driver.get(self.address(PICTURED))
            for theme in themes:
                saw = self.driver.execute_script(COLOURS)
                where = f"{PICTURED} at {size[0]} pixels, {asked}, {theme}"
                if saw["chosen"] != theme or saw["buttons"] != 1 or not saw["pictures"]:
                    faults.append(f"{where}: {saw}")
                    break
                least = min(least, *(self.contrast_of(it, saw["background"]) for it in saw["pictures"]))
                faults += [f"{where}: text has a contrast of {least:.1f}"] * (least < LEAST_CONTRAST)
                self.driver.execute_script(CLICK_THEME)
            self.driver.execute_script("localStorage.clear()")
        self.driver.execute_cdp_cmd("Emulation.setEmulatedMedia", {"features": []})
        self.report("a button chooses the colours, in which pictures can be read", faults,
                    f"text of pictures has a contrast of {least:.1f} at least")

    def contrast_of(self, address, background):
        """The contrast of the text of a picture with what it is shown on."""
        with open(f"{self.folder}/{self.place(address)[0]}", encoding="utf-8") as file:
            fill = re.findall(r"^ *text \{.*?fill: #(\w{6})", file.read(), re.M)[-1]
        return contrast(bytes.fromhex(fill), [int(it) for it in re.findall(r"\d+", background)[:3]])

    def way(self):
        """The shortest way of links in blocks from a clause of the function to the definition."""
        blocks = {(page, name): [self.place(it) for it in links]
                  for page, saw in self.saw.items() for name, links in saw["blocks"]}
        ways = {it: [it] for it in blocks if it[0] == FROM[0] and it[1].startswith(FROM[1])}
        waiting = [*ways]
        while waiting and TO not in ways:
            at = waiting.pop(0)
            for it in blocks.get(at, []):
                if it and it not in ways:
                    ways[it] = [*ways[at], it]
                    waiting.append(it)
        return ways.get(TO, [])

    def is_at(self, page, anchor):
        """Whether the browser shows an anchor of a page."""
        return self.place(self.driver.current_url) == (page, anchor) and self.driver.execute_script(IN_SIGHT, anchor)

    def click_through(self):
        """Goes that way by clicks alone."""
        way, faults = self.way(), []
        if way:
            self.driver.get(self.address(way[0][0]))
        for at, after in zip(way, way[1:]):
            block = self.driver.execute_script(BLOCK, at[1])
            links = block.find_elements(By.CSS_SELECTOR, "pre a.ref") if block else []
            link = next((it for it in links if self.place(it.get_property("href")) == after), None)
            if link is None:
                faults.append(f"{at[1]} has no link to {after[1]}")
                break
            self.driver.execute_script("arguments[0].scrollIntoView({block: 'center', behavior: 'instant'})", link)
            link.click()
            try:
                WebDriverWait(self.driver, 20).until(lambda driver, to=after: self.is_at(*to))
            except TimeoutException:
                faults.append(f"a click leads to {self.driver.current_url} and not to {after[1]}")
                break
        faults += [] if way else ["there is no way"]
        names = " > ".join(name for _, name in way)
        self.report(f"clicks lead from {FROM[1].rstrip('.')} to {TO[1]}", faults, f"{len(way) - 1} clicks, {names}")


def main(folder):
    begun = time.time()
    driver = browser()
    try:
        walk = Walk(driver, os.path.realpath(folder))
        for look in (walk.open_all, walk.look_at_widths, walk.look_at_links, walk.search_all, walk.click_through,
                     walk.look_at_colours):
            look()
    finally:
        driver.quit()
    print(f"walk: {len(walk.faults)} faults, in {time.time() - begun:.0f} seconds")
    return 1 if walk.faults else 0


if __name__ == "__main__":
    sys.exit(main(*sys.argv[1:]))
