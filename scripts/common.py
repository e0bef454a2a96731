"""What scripts share: the files of the repository, its crates, commands, and copies of crates in which they run."""

import argparse
import contextlib
import functools
import glob
import os
import re
import shutil
import subprocess
import sys
import tempfile
import textwrap

TOP = os.path.dirname(os.path.dirname(os.path.abspath(__file__)))
NAME = os.path.basename(sys.argv[0])
os.environ["PATH"] += ":/usr/local/bin"
# (scripts take modules of other folders too)
sys.path += [f"{TOP}/bench", f"{TOP}/scripts/reference_site", f"{TOP}/scripts/web_page"]
if sys.stdout:  # (which may be closed)
    sys.stdout.reconfigure(line_buffering=True)


def is_there(path):
    return os.path.exists(os.path.join(TOP, path))


def read(path):
    """The text of a file, by its path from the top."""
    return read_bytes(path).decode()


def read_bytes(path):
    with open(os.path.join(TOP, path), "rb") as file:
        return file.read()


def write(path, content):
    """Writes a file, of text or of bytes, and makes its folder."""
    path = os.path.join(TOP, path)
    os.makedirs(os.path.dirname(path), exist_ok=True)
    with open(path, "wb") as file:
        file.write(content if isinstance(content, bytes) else content.encode())


def paths(pattern):
    """The paths from the top that a pattern stands for, in order."""
    return sorted(glob.glob(pattern, root_dir=TOP, recursive=True))


def item(text, depth=0):
    """An item of a list in Markdown. No line begins within code, or with a sign."""
    kept = re.sub(r"`[^`]*`| (?=[-+*=] )", lambda it: it[0].replace(" ", "\0"), text)
    filled = textwrap.wrap(kept, 118 - 2 * depth, break_long_words=False, break_on_hyphens=False)
    return textwrap.indent("- " + "\n  ".join(filled), "  " * depth).replace("\0", " ") + "\n"


def differing(texts):
    """The paths of the files that are missing or have other texts than these, in order."""
    return sorted(path for path, text in texts.items() if not is_there(path) or read(path) != text)


@functools.cache
def crates():
    """The crates, lowest first, each with those that it may name."""
    return {name: words.split() for name, words in re.findall(r"^(\w+)(?: staticlib| wasm64)? *:(.*)$", read("crates.txt"), re.M)}


def parser():
    """What reads the words of a script. It answers --help by the text that heads the script, and refuses other words."""
    said = sys.modules["__main__"].__doc__
    return argparse.ArgumentParser(NAME, description=said, formatter_class=argparse.RawDescriptionHelpFormatter)


def lanes(gib):
    """How many processes of that many GiB can run side by side: one for each processor, as far as memory goes."""
    free = int(re.search(r"^MemAvailable: +(\d+)", read("/proc/meminfo"), re.M)[1]) >> 20
    return max(1, min(len(os.sched_getaffinity(0)), free // gib))


def give_up(text, status=2):
    """Ends the script with a line that says why."""
    print(f"{NAME}: {text}", file=sys.stderr)
    sys.exit(status)


def report(faults, said):
    """Says what is wrong, and in a last line how it went. The status."""
    for it in faults:
        print(f"{NAME}: {it}", file=sys.stderr)
    print(f"{NAME}: {said}")
    return 1 if faults else 0


def run(words, **options):
    """Runs a command on no input. What it writes, and its status."""
    how = {"stdin": subprocess.DEVNULL, "stdout": subprocess.PIPE, "stderr": subprocess.STDOUT, "errors": "replace"}
    ran = subprocess.run(words, check=False, **how | options)
    return ran.stdout, ran.returncode


def run_quietly(words, **options):
    """What a command writes. If there is no such command the script ends with 2, and if it fails with 3."""
    if not shutil.which(words[0]):
        give_up(f"{words[0]} is missing")
    said, status = run(words, **options)
    if status:
        sys.stderr.write(said[-4000:])
        give_up(f"failed: {' '.join(words)}", 3)
    return said


def link(file, to):
    """A second name of a file, or a copy of it on another file system."""
    try:
        os.link(file, to)
    except OSError:
        shutil.copy2(file, to)


def share(crate, to, parts, copy=link):
    """Has what runs left of a crate in another checkout too."""
    for part in parts:
        if os.path.isdir(f"{crate}/out/{part}"):
            shutil.rmtree(f"{to}/out/{part}", ignore_errors=True)
            shutil.copytree(f"{crate}/out/{part}", f"{to}/out/{part}", copy_function=copy)


def copy_crates(room, left):
    """Copies the crates to a room, without the entries of a crate that are left, and what `rt` wants beside them."""
    def ignored(at, names):
        return {*left}.intersection(names) if os.path.dirname(at) == f"{TOP}/crates" else set()

    shutil.copytree(f"{TOP}/crates", f"{room}/crates", ignore=ignored)
    for name in ("crates.txt", "HANDLES"):
        shutil.copy(f"{TOP}/{name}", room)
    os.mkdir(f"{room}/.git")


@contextlib.contextmanager
def copied(left):
    """The room of a copy of the crates, which is gone after its use."""
    with tempfile.TemporaryDirectory(prefix="copy-", ignore_cleanup_errors=True) as room:
        copy_crates(room, left)
        yield room
