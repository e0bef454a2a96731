"""Runs a copy of web-platform-tests over bindings/web in Chromium, for scripts/web-platform-tests --page.

web_suite.py OUT PATTERN [COPY SUITE]..: OUT is the folder of encoding.js with its module, COPY has the release and the
version of a copy, and SUITE is its folder. Lines are as scripts/web-platform/main.js has them.
"""

import concurrent.futures
import os
import re
import sys

sys.path.append(os.path.dirname(os.path.dirname(os.path.abspath(__file__))))
from browsers import browser  # noqa: E402
from common import TOP  # noqa: E402
from web_server import serving  # noqa: E402

HARNESS = f"{TOP}/scripts/web-platform"
# Files that run at a time, each in a browser of its own.
LANES = min(4, os.cpu_count())
RUN = """
const [copy, file, end] = arguments;
window.runFile(copy, file).then(end, (fault) => end([['the page', `${fault}`, null]]));
"""


def test_files(suite):
    """The paths of all test files below `encoding`."""
    found = []
    for folder, _, names in os.walk(f"{suite}/encoding"):
        found += [f"{folder}/{it}" for it in names if is_test(f"{folder}/{it}")]
    return sorted(os.path.relpath(it, f"{suite}/encoding") for it in found)


def is_test(path):
    """Whether a file is a test, and not a part of one."""
    if re.search(r"\.(any|window)\.js$", path):
        return True
    if not path.endswith(".html") or "/resources/" in path:
        return False
    with open(path, encoding="latin-1") as file:
        return bool(re.search(r"testharness\.js|rel=match", file.read()))


class Lane:
    """A browser that runs one file after another."""

    def __init__(self, address, copy):
        self.driver, self.copy = browser(is_offline=False), copy
        self.driver.set_script_timeout(1000)
        self.driver.get(f"{address}harness/in_page.html")
        self.driver.execute_async_script(
            "const end = arguments[0], look = () => (window.isReady ? end() : setTimeout(look, 50)); look();")
        self.not_run = self.driver.execute_script("return window.notRun;")

    def run(self, file):
        """The subtests of a file."""
        return self.driver.execute_async_script(RUN, self.copy, file)


def report(file, subtests, sums):
    """Shows a file's lines, and adds up its counts."""
    failed = [it for it in subtests if it[1] is not None]
    print(f"{file}: {len(subtests) - len(failed)} passed, {len(failed)} failed", flush=True)
    for name, message, cause in failed:
        print(f"  failed: {name}: {message}: {cause or 'NOT EXPLAINED'}")
    for i, more in enumerate((len(subtests) - len(failed), len(failed), sum(it[2] is not None for it in failed))):
        sums[i] += more


def run_copy(origin, suite, out, pattern):
    """Runs a copy of the suite, shows its lines, and returns its counts."""
    copy, files, sums = origin.split(",")[0], [it for it in test_files(suite) if re.search(pattern, it)], [0, 0, 0]
    with serving({"/": suite, "/web": out, "/harness": HARNESS}) as address, \
            concurrent.futures.ThreadPoolExecutor(LANES) as pool:
        lanes = [*pool.map(lambda _: Lane(address, copy), range(min(LANES, len(files) or 1)))]
        version = lanes[0].driver.capabilities["browserVersion"]
        print(f"web-platform-tests of {origin}; Chromium {version}")

        def work(lane):
            while files:
                file = files.pop(0)
                if file in lane.not_run:
                    print(f"{file}: not run: about {lane.not_run[file]}")
                else:
                    report(file, lane.run(file), sums)

        try:
            [*pool.map(work, lanes)]
        finally:
            for it in lanes:
                it.driver.quit()
    print(f"{copy}: {sums[0]} passed, {sums[1]} failed, {sums[2]} of them explained", flush=True)
    return sums


def main(out, pattern, *copies):
    counts = [run_copy(origin, suite, out, pattern) for origin, suite in zip(copies[::2], copies[1::2])]
    passed, failed, explained = map(sum, zip(*counts))
    print(f"web-platform-tests: {passed} passed, {failed} failed, {explained} of them explained")
    return 0 if passed and failed == explained else 1


if __name__ == "__main__":
    sys.exit(main(*sys.argv[1:]))
