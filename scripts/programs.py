"""The programs that scripts run: those of crates, and those over packages of Debian.

programs.py CRATE [NAMED]            prints the path of the crate's program, or of the one that is named
programs.py --peer SOURCES FOLDER    builds SOURCES over the Rust crate encoding_rs, and prints the folder of its
                                     programs and the crate's version
programs.py --install COMMAND PACKAGE    installs a package if the command is missing
"""

import os
import re
import shutil
import subprocess
import sys

from common import TOP, give_up, read, run, run_quietly

# The cache of corpora and peers.
CACHE = os.environ.get("BENCH_CACHE") or os.path.expanduser("~/.cache/recode-bench")
# The arguments with which a program that wants some runs on no input.
ARGUMENTS = {
    "recode": ["utf-8", "utf-8"], "recode_part": ["utf-8", "utf-8", "1"], "bench": ["calls", "to-utf8", "utf-8", "16", "80", "1"],
}
# The packages of the Rust crate and of its dependency.
CRATES = {"trixie": "librust-encoding-rs-dev", "bookworm": "librust-cfg-if-dev"}


def program(crate, named=None, top=TOP):
    """A program that is built already, or that of a crate, which is proved and built by a run on no input."""
    if not named:
        run_quietly(["rt", "run", "--", *ARGUMENTS.get(crate, [])], cwd=f"{top}/crates/{crate}")
    return os.path.abspath(named or f"{top}/crates/{crate}/out/{crate}")


def built(crate, named=None):
    """A program that is named, or that of a crate as `rt ci` has built it."""
    path = os.path.abspath(named or f"{TOP}/crates/{crate}/out/{crate}")
    if not os.access(path, os.X_OK):
        give_up(f"there is no program {path}: rt ci builds it", 1)
    return path


def recoded(recode, ends, data, stderr=None):
    """The status of recode from an encoding to another on some bytes, and what it writes."""
    ran = subprocess.run([recode, *ends], input=data, stdout=subprocess.PIPE, stderr=stderr, check=False)
    return ran.returncode, ran.stdout


def unpacked(suite, *names, source=False):
    """The folder of each package of a suite, or of its sources, by scripts/unpacked."""
    words = [f"{TOP}/scripts/unpacked", *["--source"] * source, suite, *names]
    ran = subprocess.run(words, capture_output=True, text=True, check=False)
    return give_up(ran.stderr.strip().split("\n")[-1]) if ran.returncode else ran.stdout.splitlines()


def field(folder, name):
    """A field of a package that is unpacked."""
    return re.search(f"^{name}: (.*)$", read(f"{folder}/control"), re.M)[1]


def lacking(modules, others):
    """The packages of modules of Debian's Python, and of files and commands, that are missing."""
    look = "import importlib.util as it, sys; print(*(name for name in sys.argv[1:] if not it.find_spec(name)))"
    python = "/usr/bin/python3"
    missing = run_quietly([python, "-c", look, *modules]).split() if os.access(python, os.X_OK) else [*modules]
    return [modules[it] for it in missing] + [
        others[it] for it in others if not (os.path.exists(it) if "/" in it else shutil.which(it))]


def install(command, package):
    """Installs what holds a command, if the command is missing."""
    install_all({}, {command: package})


def install_all(modules, others):
    """Installs Debian's packages, by sudo or as root, where a module, a file or a command is missing."""
    sudo = ["sudo", "-n"] if os.geteuid() and shutil.which("sudo") else []
    for updates in (False, True):
        if packages := lacking(modules, others):
            if updates:
                run([*sudo, "apt-get", "update"])
            run([*sudo, "apt-get", "install", "-y", "--no-install-recommends", *packages])
    if packages := lacking(modules, others):
        give_up(f"lacks {', '.join(packages)}, and apt-get could not install that")


def build_peer(sources, room, instead=None, env=None):
    """Builds programs over the Rust crate, or a package in its place, with no network and outside the repository."""
    install("cargo", "cargo")
    shutil.rmtree(f"{room}/crates", ignore_errors=True)
    os.makedirs(f"{room}/crates")
    for suite, package in CRATES.items():
        [folder] = unpacked(suite, package)
        for it in os.scandir(f"{folder}/usr/share/cargo/registry"):
            os.symlink(it.path, f"{room}/crates/{it.name}")
    shutil.copytree(f"{TOP}/{sources}", f"{room}/peer", dirs_exist_ok=True)
    settings = ['source.crates-io.replace-with="packaged"', f'source.packaged.directory="{room}/crates"']
    settings += [f'patch.crates-io.encoding_rs.path="{instead}"'] * bool(instead)
    run_quietly(
        ["cargo", "build", "--release", "--offline", "--target-dir", f"{room}/peer/target",
         *(word for it in settings for word in ("--config", it))], cwd=f"{room}/peer", env=env)
    version = re.search(r'name = "encoding_rs"\nversion = "([^"]*)"', read(f"{room}/peer/Cargo.lock"))[1]
    return f"{room}/peer/target/release", version


if __name__ == "__main__":
    how, *words = sys.argv[1:]
    if how == "--install":
        install(*words)
    elif how == "--peer":
        print(*build_peer(*words))
    else:
        print(program(how, *words))
