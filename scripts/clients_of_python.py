"""Clients of the Python package. For scripts/clients.

Each returns the numbers of what passed, of what differs and is explained in docs/DIFFERENCES.md, and of what differs.
The package is installed from its folder in an environment of its own, with no network.
"""

import os
import re
import sys
import tarfile

from common import TOP, run, run_quietly, write
from programs import unpacked

PACKAGE = f"{TOP}/bindings/python"
# Tests of webencodings that want what the standard does not say; docs/DIFFERENCES.md has why.
EXPLAINED = {"test_encode", "test_iter_encode"}
# Runs each test of webencodings by itself, over this package's module of the same interface.
RUN_TESTS = """
import sys, types
import encoding_rs, encoding_rs.webencodings as ours
sys.modules["webencodings"] = ours
ours.__path__ = [{folder!r}]
sys.modules["webencodings.labels"] = types.SimpleNamespace(LABELS=ours.LABELS)
import importlib
tests = importlib.import_module("webencodings.tests")
for name in dir(tests):
    if name.startswith("test_"):
        try:
            getattr(tests, name)()
            print(name, "ok")
        except Exception as error:
            print(name, "FAILED", type(error).__name__, str(error)[:200])
"""


def environment_of(room):
    """The Python of an environment in which the package is installed."""
    folder = room.path("python")
    if not os.path.exists(f"{folder}/bin/python"):
        run_quietly([sys.executable, "-m", "venv", folder])
        run_quietly([f"{folder}/bin/python", "-m", "pip", "install", "-q", "--no-index", PACKAGE],
                    env={**os.environ, "ENCODING_C_ARCHIVE": room.archive})
    return f"{folder}/bin/python"


def python(room):
    """The package's own tests."""
    said, status = run([environment_of(room), "-m", "unittest", "-v", "test_codecs"], cwd=f"{PACKAGE}/tests")
    passed, failed = len(re.findall(r"\.\.\. ok$", said, re.M)), len(re.findall(r"\.\.\. (?:FAIL|ERROR)$", said, re.M))
    if status:
        print(said[-3000:])
    return passed, 0, failed or int(status != 0)


def webencodings(room):
    """The tests of webencodings 0.5.1."""
    [folder] = unpacked("bookworm", "python3-webencodings")
    found = f"{folder}/usr/lib/python3/dist-packages/webencodings"
    said, status = run([environment_of(room), "-c", RUN_TESTS.format(folder=found)], cwd=room.folder)
    results = re.findall(r"^(test_\w+) (ok|FAILED.*)$", said, re.M)
    passed = [name for name, how in results if how == "ok"]
    explained = [name for name, how in results if how != "ok" and name in EXPLAINED]
    for name, how in results:
        if how != "ok":
            print(f"  {'differs as explained' if name in explained else 'fails'}: {name}: {how[7:]}")
    if status or not results:
        print(said[-2000:])
    return len(passed), len(explained), len(results) - len(passed) - len(explained) + int(status != 0 or not results)


# What pytest needs, as Debian packages it.
PYTEST = ("python3-pytest", "python3-iniconfig", "python3-packaging", "python3-pluggy", "python3-attr", "python3-six", "python3-pytest-expect",
          "python3-u-msgpack")
# Has html5lib's own copy of webencodings be this package's module.
EXCHANGED = """import encoding_rs.webencodings as ours
globals().update({name: it for name, it in vars(ours).items() if not name.startswith("__")})
"""
OUTCOME = re.compile(r"(\d+) (passed|failed|error)")


def html5lib(room):
    """The tests of html5lib over the package, and over its own copy of webencodings: one that fails there too is its own."""
    [folder] = unpacked("trixie", "html5lib", source=True)
    [archive] = (it.path for it in os.scandir(folder) if ".orig.tar" in it.name)
    python, results = environment_of(room), []
    packages = [f"{it}/usr/lib/python3/dist-packages" for it in unpacked("bookworm", *PYTEST)]
    for name in ("own", "ours"):
        at = room.path(f"html5lib-{name}")
        os.makedirs(at)
        with tarfile.open(archive) as file:
            file.extractall(at, filter="data")
        [top] = (it.path for it in os.scandir(at) if it.is_dir())
        if name == "ours":
            write(f"{top}/html5lib/contrib/webencodings/__init__.py", EXCHANGED)
        said, _ = run([python, "-m", "pytest", "-q", "-p", "no:cacheprovider", "--ignore-glob=*webencodings*", "html5lib/tests"],
                      cwd=top, env={**os.environ, "PYTHONPATH": ":".join(packages)})
        results.append({what: int(number) for number, what in OUTCOME.findall(said[said.rfind("=="):] or said)})
        results[-1]["names"] = set(re.findall(r"^(?:FAILED|ERROR) (\S+)", said, re.M))
    own, ours = results
    new = ours["names"] - own["names"]
    for it in sorted(new):
        print(f"  fails: {it}")
    if not ours.get("passed"):
        print(said[-2000:])
    return ours.get("passed", 0), 0, len(new) + int(not ours.get("passed"))
