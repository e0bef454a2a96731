"""Programs and tests as `rt try` builds them, with no proof. For test, refused-growths and witnesses.py.

`rt try` removes what it has built and run. A kit of links keeps it: a folder with links to all of the kit, but with a
linker that copies each program to a file. It has no `rattle` either: `rt try` asks it for a hint on names, which takes
as much processor time as the build. What runs for long, as tests and rows, is optimised: rows run fourteen times as
fast, and their build takes a third longer. The checks of `rt try` stand in the code that is compiled, so they stay, but
it does not say any more at which one a run has ended.
"""

import os
import shutil

from common import give_up, write

# What a kit of links has of its own. `rt` finds its kit by its own path, so links to `rt` and its module won't do.
FOLDERS = ("bin", "toolchain", "toolchain/bin")
COPIED = ("bin/rt", "bin/rtlib.py")
RATTLE, LINKER, COMPILER = "bin/rattle", "toolchain/bin/ld.lld", "toolchain/bin/clang"
# (`rt try` gives them no environment)
LINK = '#!/bin/sh\n"{kit}/{linker}" "$@" && /bin/cp program "{to}"\n'
# clang goes by the name that it is called by. As llvm-nm it reads names of C code, and has no level of optimisation.
COMPILE = """#!/bin/sh
tool="{folder}/toolchain/bin/llvm-nm"
for word do
    shift
    [ "$word" != -O0 ] || {{ word={level}; tool="{kit}/{compiler}"; }}
    set -- "$@" "$word"
done
exec "$tool" "$@"
"""
# The seconds that `rt try` and these scripts give a test or a program.
SECONDS = 60


def write_script(path, text):
    write(path, text)
    os.chmod(path, 0o755)


def kit_of_links(folder, to, runs_long=False):
    """Makes a kit of links whose linker copies a program to a file, and returns the path of its `rt`."""
    found = shutil.which("rt") or give_up("rt is neither on PATH nor in /usr/local/bin")
    kit = os.path.dirname(os.path.dirname(os.path.realpath(found)))
    for part in ("", *FOLDERS):
        os.makedirs(f"{folder}/{part}")
        for name in os.listdir(f"{kit}/{part}"):
            if (path := os.path.join(part, name)) not in (*FOLDERS, *COPIED, RATTLE, LINKER, COMPILER):
                os.symlink(f"{kit}/{path}", f"{folder}/{path}")
    for path in COPIED:
        shutil.copy(f"{kit}/{path}", f"{folder}/{path}")
    os.symlink("/bin/true", f"{folder}/{RATTLE}")
    write_script(f"{folder}/{LINKER}", LINK.format(kit=kit, linker=LINKER, to=to))
    os.symlink(f"{kit}/{COMPILER}", f"{folder}/toolchain/bin/llvm-nm")
    level = "-O1" if runs_long else "-O0"
    write_script(f"{folder}/{COMPILER}", COMPILE.format(folder=folder, kit=kit, compiler=COMPILER, level=level))
    return f"{folder}/{COPIED[0]}"
