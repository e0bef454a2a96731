"""Tries each control of the page in headless Chromium, from a folder and with no network: web_walk.py FOLDER

It makes the calls of bindings/web/tests too, and says what it saw. Texts to compare with are by Python's codecs.
Pictures at three widths in both schemes are kept in FOLDER/pictures. The status is 0 only if all held.
"""

import os
import queue
import subprocess
import sys
import tempfile
import time

sys.path.append(os.path.dirname(os.path.dirname(os.path.abspath(__file__))))
from selenium.common.exceptions import TimeoutException  # noqa: E402
from selenium.webdriver.common.action_chains import ActionChains  # noqa: E402
from selenium.webdriver.common.by import By  # noqa: E402
from selenium.webdriver.common.keys import Keys  # noqa: E402
from selenium.webdriver.support.ui import WebDriverWait  # noqa: E402

from browsers import CHROMIUM, DESK, PHONE, TABLET, browser, set_size  # noqa: E402
from common import TOP  # noqa: E402
from web_looks import CONTRAST, FRAMES, LOOK, WIDE, offered  # noqa: E402
from web_server import serving  # noqa: E402

KINDS = {"phone": PHONE, "tablet": TABLET, "desk": DESK}
# The longest that the page may keep a person waiting, in milliseconds.
MOST_MS = 100
# Files by their names: bytes, the encoding, words of how it is known, and lines.
BEFORE_META = "<!doctype html><meta charset=shift_jis>"
MAIL = 'Subject: x\r\nContent-Type: text/plain;\r\n charset="koi8-r"\r\n\r\nПривет'
XML = '<?xml version="1.0" encoding="euc-kr"?>'
COMMENT = "<!-- <meta charset=koi8-r> --><meta data-charset=koi8-r charset=utf-8>"
CONTENT = '<meta name=a content="charset=koi8-r"><meta http-equiv=Content-Type content="text/html; charset=big5">'
NOTED = "<meta charset=koi8-r> é"
KLINGON = '<meta charset="klingon">'
FILES = {
    "plain.txt": ("héllo\n日本\n".encode(), "UTF-8", "its start is UTF-8", ["héllo", "日本"]),
    "meta.html": (f"{BEFORE_META}日本語".encode("shift_jis"), "Shift_JIS", "a meta element as “shift_jis”",
                  [f"{BEFORE_META}日本語"]),
    "wide.html": (b"<meta charset=utf-16>\xc3\xa9", "UTF-8", "a meta element as “utf-16”", ["<meta charset=utf-16>é"]),
    "declared.xml": (f"{XML}\n한국어".encode("euc-kr"), "EUC-KR", "the XML declaration", [XML, "한국어"]),
    "mail.eml": (MAIL.encode("koi8-r"), "KOI8-R", "a mail header", MAIL.split("\r\n")),
    "marked.txt": (b"\xff\xfe" + "Текст\n".encode("utf-16-le"), "UTF-16LE", "by its byte order mark", ["Текст"]),
    "unknown.html": (KLINGON.encode() + b"caf\xe9", "windows-1252", "declares “klingon”", [f"{KLINGON}café"]),
    "comment.html": (f"{COMMENT}é".encode(), "UTF-8", "a meta element as “utf-8”", [f"{COMMENT}é"]),
    "content.html": (f"{CONTENT}語".encode("big5"), "Big5", "a meta element as “big5”", [f"{CONTENT}語"]),
    "notes.md": (f"# `{NOTED}`".encode(), "UTF-8", "nothing declares it", [f"# `{NOTED}`"]),
    "mac.txt": (b"one\rtwo\r\nthree\r", "UTF-8", "nothing declares it", ["one", "two", "three"]),
    "latin.txt": (b"caf\xe9\n", "windows-1252", "its start is not UTF-8", ["café"]),
    "empty.txt": (b"", "UTF-8", "nothing declares it", []),
}
# A page with malformed sequences in it, for pictures.
LETTER = """<!doctype html>
<html lang="ja">
<meta charset="shift_jis">
<title>文字化けの直し方</title>
<h1>文字化けの直し方</h1>
<p>このページは二十年前に書かれました。その頃、日本語のページの多くは Shift_JIS でした。
<p>転送の途中で、いくつかのバイトが@失われています。
<ul>
<li>一つ目は、一バイトだけ@残った文字です。
<li>二つ目は、あとに続くはずのバイトが#ない文字です。
<li>三つ目は、どの文字でもない%バイトの組です。
</ul>
<p>標準の規則では、どの壊れた並びも一つの U+FFFD になります。
<p>価格は ﾊﾝｶｸ ｶﾅ で、\\1,200 と書かれています。
<p>保存するときは、UTF-8 を選びましょう。
</html>
""".encode("shift_jis").replace(b"@", b"\xff").replace(b"#", b"\x83 ").replace(b"%", b"\x85\xa0")
BROKEN = b"one\ntwo \xff three\n\xe2\x82\nlast \xf0\x9f\x98"


def malformed(data):
    """The malformed sequences of UTF-8 by Python's decoder: offset, bytes in hexadecimal, and line."""
    found, at = [], 0
    while True:
        try:
            data[at:].decode()
            return found
        except UnicodeDecodeError as fault:
            start, end = at + fault.start, at + fault.end
            found.append((start, data[start:end].hex(" ").upper(), data.count(b"\n", 0, start) + 1))
            at = end


class Walk:
    """A walk through the page, with what was wrong."""

    def __init__(self, driver, folder, room):
        self.driver, self.folder, self.room, self.faults = driver, folder, room, []
        driver.execute_cdp_cmd("Browser.setDownloadBehavior", {"behavior": "allow", "downloadPath": f"{room}/saved"})
        set_size(driver, DESK)

    def report(self, what, faults, said=""):
        print(f"{'failed' if faults else 'held  '}  {what}{f': {said}' if said else ''}", flush=True)
        for it in faults:
            print(f"        {it}")
        self.faults += faults

    def compare(self, what, **pairs):
        """Reports which of some values are not what they should be."""
        self.report(what, [f"{name} is {seen!r}, and should be {wanted!r}"
                           for name, (seen, wanted) in pairs.items() if seen != wanted])

    def get(self, name):
        return self.driver.find_element(By.ID, name)

    def look(self):
        return self.driver.execute_script(LOOK)

    def until(self, holds, seconds=60):
        try:
            WebDriverWait(self.driver, seconds, 0.05).until(lambda _: holds())
            return True
        except TimeoutException:
            return False

    def load(self):
        self.driver.get(f"file://{self.folder}/index.html")

    def file(self, name, data):
        path = f"{self.room}/{name}"
        with open(path, "wb") as file:
            for it in [data] if isinstance(data, bytes) else data:
                file.write(it)
        return path

    def open(self, path, seconds=60):
        """Opens a file by the control for it, and waits until it is decoded."""
        self.get("file").send_keys(path)
        self.settle(os.path.basename(path), seconds)

    def settle(self, name, seconds=60):
        """Waits until a file of a name is decoded and shown."""
        self.until(lambda: self.look()["name"] == name and self.look()["isIdle"], seconds)
        time.sleep(0.3)

    def pick(self, field, *keys):
        """Types into a list of encodings, and waits until all is done."""
        self.get(field).click()
        self.get(field).send_keys(*keys)
        time.sleep(0.2)
        self.until(lambda: self.look()["isIdle"])
        time.sleep(0.3)

    def open_all(self):
        """Opens a file of each kind."""
        for name, (data, encoding, by, lines) in FILES.items():
            self.open(self.file(name, data))
            saw = self.look()
            self.compare(f"{name} is read as {encoding}", encoding=(saw["encoding"], encoding),
                         by=(by in saw["by"], True), lines=(saw["rows"], lines), malformed=(saw["malformed"], "0"),
                         size=(saw["size"], f"{len(data)} bytes"))

    def give_otherwise(self):
        """Drops a file, and pastes a file and a text."""
        for kind in ("drop", "paste"):
            self.driver.execute_script(offered(kind, f"{kind}ped.txt", "hé"))
            self.settle(f"{kind}ped.txt")
            self.compare(f"a file by {kind}", rows=(self.look()["rows"], ["hé"]), over=(self.look()["isOver"], False))
        self.driver.execute_script(offered("paste", None, "<meta charset=koi8-r>\nтекст"))
        self.settle("pasted.txt")
        self.compare("a text by paste", rows=(self.look()["rows"], ["<meta charset=koi8-r>", "текст"]))
        self.driver.execute_script("window.slice = Blob.prototype.slice; Blob.prototype.slice = () => null;")
        self.driver.execute_script(offered("drop", "refused.txt", "none"))
        self.until(lambda: "could not be read" in self.look()["status"], 5)
        self.driver.execute_script("Blob.prototype.slice = window.slice;")
        saw = self.look()
        self.compare("a file that can't be read", name=(saw["name"], "refused.txt"), rows=(saw["rows"], []),
                     can_save=(saw["canSave"], False), said=("refused.txt could not be read" in saw["status"], True))

    def choose(self):
        """Searches and chooses encodings by keys and by the pointer."""
        self.open(self.file("sjis.txt", "日本\n".encode("shift_jis")))
        self.pick("encoding", "x-sjis", Keys.ENTER)
        saw = self.look()
        self.compare("a label is searched", encoding=(saw["encoding"], "Shift_JIS"), rows=(saw["rows"], ["日本"]),
                     by=(saw["by"], "chosen"))
        self.pick("encoding", Keys.ARROW_DOWN, Keys.ARROW_DOWN, Keys.ARROW_UP, Keys.ENTER)
        self.compare("arrows go through the list", encoding=(self.look()["encoding"], "EUC-KR"))
        self.get("encoding").send_keys(Keys.CONTROL + "a" + Keys.NULL + "klingon")
        saw = self.look()
        self.compare("an unknown label", options=(saw["options"], []),
                     said=(saw["none_found"], "No encoding has such a label"))
        self.get("encoding").send_keys(Keys.ENTER, Keys.ESCAPE)
        saw = self.look()
        self.compare("Escape leaves the list", encoding=(saw["encoding"], "EUC-KR"), isOpen=(saw["isListOpen"], False))
        self.get("encoding").click()
        self.compare("the list has all encodings but replacement", options=(len(self.look()["options"]), 39))
        self.driver.find_element(By.CSS_SELECTOR, '#encodings [data-name="Big5"]').click()
        self.settle("sjis.txt")
        self.compare("a click chooses", encoding=(self.look()["encoding"], "Big5"))

    def find_faults(self):
        """Goes through the malformed sequences of a file."""
        self.open(self.file("broken.txt", BROKEN))
        self.pick("encoding", "utf-8", Keys.ENTER)
        wanted, saw = malformed(BROKEN), self.look()
        self.compare("malformed sequences are counted, listed and marked",
                     malformed=(saw["malformed"], f"{len(wanted)}"),
                     listed=(saw["faults"], [f"{it} at {at}, line {line}" for at, it, line in wanted]),
                     marks=(saw["marks"], [f"{len(it.split())} malformed byte{'s' * (len(it) > 2)} at offset {at}"
                                           for at, it, _ in wanted]))
        self.driver.find_elements(By.CSS_SELECTOR, "#faults .row")[1].click()
        self.until(lambda: self.look()["here"])
        status = f"Malformed sequence 2 of 3: offset {wanted[1][0]}, line {wanted[1][2]}"
        self.compare("a click goes to one", here=(self.look()["here"], ["\ufffd"]),
                     status=(self.look()["status"], status))
        for button, number in (("next", 3), ("next", 1), ("previous", 3)):
            self.get(button).click()
            self.until(lambda number=number: f"sequence {number} of" in self.look()["status"])
            is_there = f"sequence {number} of 3" in self.look()["status"]
            self.compare(f"{button} goes to {number}", status=(is_there, True))

    def find_far_faults(self):
        """Goes to malformed sequences far to the right, among many, and by the keyboard."""
        self.open(self.file("right.txt", b"a" * 400 + b"\xff" + b"b" * 90))
        self.pick("encoding", "utf-8", Keys.ENTER)
        self.get("next").click()
        self.until(lambda: self.look()["here"])
        is_there = self.driver.execute_script(IN_SIGHT)
        self.compare("a mark far to the right is brought into sight", is_there=(is_there, True))
        self.open(self.file("many.txt", b"\xff\n" * 300_000))
        self.pick("encoding", "utf-8", Keys.ENTER)
        begun = time.time()
        self.get("previous").click()
        self.until(lambda: "sequence 300000 of" in self.look()["status"], 20)
        took = time.time() - begun
        self.report("the last of 300,000 is gone to within a second", [] if took < 1 else [f"it took {took:.1f} s"])
        self.driver.find_elements(By.CSS_SELECTOR, "#faults .row")[2].send_keys(Keys.ENTER)
        time.sleep(0.5)
        self.compare("a row keeps the focus", focus=(self.look()["focus"].split()[0], "row"))

    def roll(self):
        """Rolls a list of more rows than a browser's pixels."""
        self.open(self.file("feeds.txt", b"\n" * 20_000_000))
        self.compare("20,000,000 lines", lines=(self.look()["lines"], ", 20,000,000 lines"))
        self.get("text").send_keys(*[Keys.PAGE_DOWN] * 5)
        time.sleep(0.3)
        far = self.look()["numbers"][0]
        self.driver.execute_script(ROLL, 60, -120)
        time.sleep(0.3)
        self.compare("the wheel reaches the first line", first=(self.look()["numbers"][0], "1"), far=(far != "1", True))
        self.get("text").send_keys(Keys.END)
        self.driver.execute_script(ROLL, 5, -120)
        self.driver.execute_script(ROLL, 20, 120)
        time.sleep(0.3)
        self.compare("and the last", last=(self.look()["numbers"][-1], "20000000"))

    def save(self, name, encoding, *buttons):
        """Saves in an encoding, by the buttons of the dialog, and returns what was saved, or None."""
        path = f"{self.room}/saved/{name}"
        if os.path.exists(path):
            os.remove(path)
        self.pick("target", encoding, Keys.ENTER)
        self.get("save").click()
        for it in buttons:
            self.until(lambda: self.look()["isDialog"])
            self.picture(f"dialog-{it}")
            self.get(it).click()
        self.until(lambda: "aved" in self.look()["status"])
        self.until(lambda: os.path.exists(path), 0.5 if "cancel" in buttons else 20)
        if not os.path.exists(path):
            return None
        with open(path, "rb") as file:
            return file.read()

    def save_all(self):
        """Saves in several encodings, with unmappable characters and without."""
        text = "日本 \u2603 café\n\u2603\n"
        self.open(self.file("text.txt", text.encode()))
        self.compare("saved as UTF-8", bytes=(self.save("text.txt", "utf-8"), text.encode()))
        self.compare("saved as gb18030", bytes=(self.save("text.txt", "gb18030"), text.encode("gb18030")))
        self.compare("cancelled", bytes=(self.save("text.txt", "shift_jis", "cancel"), None))
        wanted = text.encode("shift_jis", "xmlcharrefreplace")
        self.compare("saved as Shift_JIS with references",
                     bytes=(self.save("text.txt", "shift_jis", "with-references"), wanted),
                     listed=(self.look()["characters"], ["\u2603 U+2603 2 1", "é U+00E9 1 1"]))
        wanted = b"\x1b$BF|K\\\x1b(B &#9731; caf&#233;\n&#9731;\n"
        self.compare("saved as ISO-2022-JP", bytes=(self.save("text.txt", "csiso2022jp", "with-references"), wanted))
        self.open(self.file("declares.html", FILES["meta.html"][0] + b"\xff"))
        wanted = (FILES["meta.html"][3][0] + "\ufffd").encode()
        self.compare("a file that declares an encoding", bytes=(self.save("declares.html", "utf-8"), wanted))
        said = self.look()["status"]
        self.report("a note says so, and of U+FFFD", [] if "still declares “shift_jis”" in said and
                    "1 malformed sequence became U+FFFD" in said else [said])
        self.open(self.file("nothing.txt", b""))
        self.compare("an empty file is saved", bytes=(self.save("nothing.txt", "utf-8"), b""))

    def use_keys(self):
        """Goes through all controls by the tabulator, and through rows by keys."""
        lines = [f"line {it}" for it in range(1, 100_001)]
        self.open(self.file("lines.txt", "\n".join(lines).encode() + b"\xff"))
        self.pick("encoding", "utf-8", Keys.ENTER)
        self.driver.execute_script("document.activeElement.blur(); window.scrollTo(0, 0);")
        reached = []
        for _ in range(14):
            ActionChains(self.driver).send_keys(Keys.TAB).perform()
            reached.append(self.driver.execute_script(FOCUSED))
        wanted = ["a", "file", "encoding", "target", "save", "text", "previous", "next", "faults", "button", "summary"]
        self.compare("the tabulator reaches each control", reached=([it for it in wanted if it not in reached], []))
        for keys, first in ((Keys.ARROW_DOWN, "line 2"), (Keys.ARROW_UP, "line 1"), (Keys.END, None),
                            (Keys.HOME, "line 1")):
            self.get("text").send_keys(keys)
            self.until(lambda first=first: self.look()["rows"][:1] == [first], 2)
            rows = self.look()["rows"]
            self.compare(f"rows by {keys.encode('unicode_escape').decode()}", row=(
                first or rows[-1], rows[0] if first else "line 100000\ufffd"))

    def read_large(self, name, mib, block, faults_at, encoding):
        """Reads a large file: counts, the way to the last malformed sequence, and how long the page kept waiting."""
        blocks = [block] * mib
        for it in faults_at:
            blocks[it] = block[:-1] + b"\xff\n"
        path, begun = self.file(name, blocks), time.time()
        self.driver.execute_script(FRAMES)
        self.get("file").send_keys(path)
        self.until(lambda: self.look()["isIdle"] is False and self.look()["name"] == name)
        time.sleep(1)
        early = self.driver.execute_async_script(ANSWER, "text", "End")
        self.settle(name, 300)
        took = time.time() - begun
        if self.look()["encoding"] != encoding:
            self.pick("encoding", encoding, Keys.ENTER)
        keys = ("Home", "End", "PageUp", "PageDown")
        late = max(self.driver.execute_async_script(ANSWER, "text", key) for key in keys)
        saw, lines = self.look(), mib * block.count(b"\n")
        longest = self.driver.execute_script("return window.longest;")
        self.compare(f"{name} of {mib} MiB, read in {took:.0f} s", lines=(saw["lines"], f", {lines:,} lines"),
                     malformed=(saw["malformed"], f"{len(faults_at)}"))
        waits = {"while it is read": early, "after": late, "a task at most": longest}
        self.report(f"{name}: the page answers within {MOST_MS} ms",
                    [f"{what}: {it:.0f} ms" for what, it in waits.items() if it > MOST_MS],
                    ", ".join(f"{what} {it:.0f} ms" for what, it in waits.items()))
        if faults_at:
            self.get("previous").click()
            self.until(lambda: f"sequence {len(faults_at)} of" in self.look()["status"], 5)
            self.compare(f"{name}: the last malformed sequence is in sight", here=(self.look()["here"], ["\ufffd"]))
        os.remove(path)

    def stop(self):
        """Stops the reading of a large file, and reads a file that has gone meanwhile."""
        path = self.file("gone.txt", [b"0123456789\n" * 100_000] * 200)
        self.get("file").send_keys(path)
        self.until(lambda: not self.look()["isIdle"])
        time.sleep(0.3)
        self.get("stop").click()
        self.until(lambda: self.look()["isIdle"])
        self.report("reading is stopped", [] if " in the first " in self.look()["lines"] else [self.look()["lines"]])
        os.remove(path)
        self.pick("encoding", "koi8-r", Keys.ENTER)
        self.until(lambda: "could not be read" in self.look()["status"], 5)
        said = self.look()["status"]
        self.report("a file that is gone is an error", [] if "could not be read" in said else [said])
        path = self.file("going.txt", b"0123456789\n" * 1_000_000)
        self.open(path)
        os.remove(path)
        self.get("text").send_keys(Keys.END)
        self.until(lambda: "could not be read" in self.look()["status"], 5)
        said = self.look()["status"]
        self.report("so are rows of one that is gone", [] if "could not be read" in said else [said])
        self.open(self.file("after.txt", b"after it"))
        self.compare("another file is read then", rows=(self.look()["rows"], ["after it"]))

    def look_at_sizes(self):
        """Looks at the page at three widths in both schemes."""
        self.open(self.file("letter.html", LETTER))
        self.get("next").click()
        for scheme in ("light", "dark"):
            features = [{"name": "prefers-color-scheme", "value": scheme}]
            self.driver.execute_cdp_cmd("Emulation.setEmulatedMedia", {"features": features})
            for kind, size in KINDS.items():
                set_size(self.driver, size)
                time.sleep(0.5)
                self.picture(f"{kind}-{scheme}")
                self.report(f"{kind}, {scheme}: nothing is too wide, and texts have the contrast of WCAG AA",
                            self.driver.execute_script(WIDE) + self.driver.execute_script(CONTRAST))
        set_size(self.driver, DESK)

    def picture(self, name):
        os.makedirs(f"{self.folder}/pictures", exist_ok=True)
        self.driver.save_screenshot(f"{self.folder}/pictures/{name}.png")

    def ends(self):
        """Looks at the messages of the browser: of what it could not load, and of faults."""
        messages = [it["message"] for it in self.driver.get_log("browser") if it["level"] == "SEVERE"]
        self.report("nothing is asked of a network, and nothing is wrong in the console", messages)


# Whether the mark that was gone to is within its pane.
IN_SIGHT = """
const pane = document.getElementById('text').getBoundingClientRect();
const mark = document.querySelector('#text .chosen').getBoundingClientRect();
return mark.left >= pane.left && mark.right <= pane.right;
"""
ROLL = """
const [times, deltaY] = arguments;
for (let i = 0; i < times; i++) {
  document.getElementById('text').dispatchEvent(new WheelEvent('wheel', { deltaY, bubbles: true, cancelable: true }));
}
"""
FOCUSED = "const it = document.activeElement; return it.id || it.tagName.toLowerCase();"
# The time from a key until rows are painted, in milliseconds.
ANSWER = """
const [id, key, end] = arguments, list = document.getElementById(id), begun = performance.now();
const seen = new MutationObserver(() => {
  seen.disconnect();
  requestAnimationFrame(() => end(performance.now() - begun));
});
seen.observe(list.querySelector('.window'), { childList: true });
list.dispatchEvent(new KeyboardEvent('keydown', { key, bubbles: true }));
"""


def lines_of(line):
    """A MiB of lines: the last is longer, so that all have its size."""
    number = (1 << 20) // len(line)
    return line * (number - 1) + line[:-1].ljust((1 << 20) - (number - 1) * len(line) - 1, b".") + b"\n"


CALLS = """<!doctype html><link rel="icon" href="data:,"><script type="module">
import { load } from '/web/encoding.js';
import { calls } from '/tests/calls.js';
const answers = load().then(calls).catch((it) => [['the calls', it.stack, 'answers']]);
fetch('/', { method: 'POST', body: JSON.stringify(await answers) });
</script>"""
# Browsers without a window, and the folder of a profile.
BROWSERS = {
    "Chromium": [CHROMIUM, "--headless=new", "--no-sandbox", "--disable-gpu", "--user-data-dir={}"],
    "Firefox": ["firefox-esr", "--headless", "--no-remote", "--profile", "{}"],
}


def look_at_calls(walk, room):
    """Makes the calls of bindings/web/tests in a page that is served to each browser."""
    os.mkdir(f"{room}/calls")
    with open(f"{room}/calls/index.html", "w", encoding="utf-8") as file:
        file.write(CALLS)
    folders = {"/": f"{room}/calls", "/web": walk.folder, "/tests": f"{TOP}/bindings/web/tests"}
    for name, words in BROWSERS.items():
        found, profile = queue.Queue(), f"{room}/{name}"
        os.mkdir(profile)
        with serving(folders, answers=found) as address:
            command, quiet = [*(it.format(profile) for it in words), address], subprocess.DEVNULL
            with subprocess.Popen(command, stdout=quiet, stderr=quiet) as ran:
                answers = found.get(timeout=60)
                ran.kill()
        faults = [f"{what}: {seen!r}, and should be {wanted!r}" for what, seen, wanted in answers if seen != wanted]
        walk.report(f"calls of encoding.js in {name}", faults, f"{len(answers)} calls")


def without_memory64(folder):
    """Looks at the page in a browser that has no memory64."""
    driver = browser()
    try:
        without = {"source": "WebAssembly.validate = () => false;"}
        driver.execute_cdp_cmd("Page.addScriptToEvaluateOnNewDocument", without)
        driver.get(f"file://{folder}/index.html")
        time.sleep(1)
        return driver.execute_script(LOOK)
    finally:
        driver.quit()


def main(folder):
    begun = time.time()
    folder = os.path.realpath(folder)
    with tempfile.TemporaryDirectory(prefix="web-walk-", ignore_cleanup_errors=True) as room:
        driver = browser()
        try:
            walk = Walk(driver, folder, room)
            walk.load()
            for it in (walk.open_all, walk.give_otherwise, walk.choose, walk.find_faults, walk.find_far_faults,
                       walk.roll, walk.save_all, walk.use_keys, walk.stop, walk.look_at_sizes, walk.ends):
                it()
            walk.read_large("chinese.txt", 300, lines_of("中文 text 文字 0123456789\n".encode("gb18030")), (7, 150, 299),
                            "gb18030")
            walk.read_large("large.txt", 1024, lines_of(b"The quick brown fox jumps over the lazy dog.\n"), (), "UTF-8")
        finally:
            driver.quit()
        look_at_calls(walk, room)
        saw = without_memory64(folder)
        says_so = "memory64" in saw["status"] and saw["isClosed"]
        walk.report("without memory64 a line says so", [] if says_so else [saw["status"]])
    print(f"walk: {len(walk.faults)} faults, in {time.time() - begun:.0f} seconds")
    return 1 if walk.faults else 0


if __name__ == "__main__":
    sys.exit(main(*sys.argv[1:]))
