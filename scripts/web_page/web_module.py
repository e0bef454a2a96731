"""The library for web pages, proved in a copy of the repository, and the page that has it."""

import glob
import hashlib
import os
import re
import shutil
import subprocess
import tempfile

from common import NAME, TOP, copy_crates, crates, give_up, read, read_bytes, run_quietly, share, write
from programs import install

WEB, CRATE = "bindings/web", "encoding_c"
OUT = f"{TOP}/{WEB}/out"
# The most seconds between two lines.
OFTEN = 30


def below(name):
    """A crate with all on which it stands."""
    return {name}.union(*(below(it) for it in crates()[name]))


def stamp(names):
    """A checksum of all that the module is made of: the sources, and the kit."""
    files = [it for name in sorted(names) for part in ("src", "specs", "proofs")
             for it in sorted(glob.glob(f"crates/{name}/{part}/**/*.*t", root_dir=TOP, recursive=True))]
    kit = os.path.dirname(os.path.dirname(os.path.realpath(shutil.which("rt") or give_up("rt is not on PATH", 1))))
    found = hashlib.sha256(read_bytes(f"{kit}/KIT-ID"))
    for it in files:
        found.update(it.encode() + read_bytes(it))
    return found.hexdigest()


def say(text):
    print(f"{NAME}: {text}", flush=True)


def patiently(doing, words, cwd):
    """Runs a command that takes long, with a line at least every half minute, and returns what it writes."""
    with tempfile.TemporaryFile("w+") as log, subprocess.Popen(words, cwd=cwd, stdin=subprocess.DEVNULL, stdout=log,
                                                               stderr=subprocess.STDOUT) as ran:
        waited = 0
        while ran.poll() is None:
            say(f"{doing}, for {waited // 60}:{waited % 60:02}")
            try:
                ran.wait(OFTEN)
            except subprocess.TimeoutExpired:
                waited += OFTEN
        log.seek(0)
        said = log.read()
    if ran.returncode:
        print(said[-4000:])
        give_up(f"failed: {' '.join(words)}", 3)
    return said


def prove_module():
    """Proves the libraries here and the exports in a copy, and keeps the module with its stamp."""
    names = below(CRATE)
    made_of = stamp(names)
    if os.path.exists(f"{OUT}/stamp") and read(f"{OUT}/stamp") == made_of:
        say("the module is proved and built already")
        return
    say("proving the libraries on which the module stands, by scripts/build")
    if subprocess.run([f"{TOP}/scripts/build", *crates()[CRATE]], stdin=subprocess.DEVNULL, check=False).returncode:
        give_up("a library was not proved", 3)
    with tempfile.TemporaryDirectory(prefix="web-", ignore_cleanup_errors=True) as room:
        copy_crates(room, ["out"])
        for it in names - {CRATE}:
            share(f"{TOP}/crates/{it}", f"{room}/crates/{it}", ["rlib"])
        rows = re.sub(rf"^{CRATE} staticlib:", f"{CRATE} wasm64:", read("crates.txt"), flags=re.M)
        write(f"{room}/crates.txt", rows)
        said = patiently(f"proving and linking {CRATE} for wasm64", ["rt", "lib"], f"{room}/crates/{CRATE}")
        shutil.copy(f"{room}/crates/{CRATE}/out/{CRATE}.wasm", f"{OUT}/encoding.wasm")
    say(f"{CRATE} is proved: {re.search('^logic=proved.*', said, re.M)[0]}")
    write(f"{OUT}/stamp", made_of)


def bundle():
    """Puts the page with the module into one file."""
    install("esbuild", "esbuild")
    with tempfile.TemporaryDirectory(prefix="page-") as room:
        words = ["--bundle", "--format=esm", "--charset=utf8", "--loader:.wasm=binary", "--log-level=warning"]
        run_quietly(["esbuild", f"{TOP}/{WEB}/page/entry.js", *words, f"--outfile={room}/page.js"])
        script = read(f"{room}/page.js")
    page = read(f"{WEB}/page/index.html")
    for mark, text in (("/* page.css */", read(f"{WEB}/page/page.css")), ("/* page.js */", script)):
        page = page.replace(mark, f"\n{text}")
    write(f"{OUT}/index.html", page)


def build(module=None):
    """Builds the module, or takes one that is built, and the page over it."""
    os.makedirs(OUT, exist_ok=True)
    if module:
        shutil.copy(module, f"{OUT}/encoding.wasm")
        write(f"{OUT}/stamp", "given")
    else:
        prove_module()
    for it in ("encoding.js", "encoding.d.ts"):
        shutil.copy(f"{TOP}/{WEB}/{it}", OUT)
    bundle()
    size = os.path.getsize(f"{OUT}/encoding.wasm")
    say(f"built {WEB}/out: encoding.wasm of {size} bytes, and index.html")
