"""Shows by a program in C that wrong bodies of exports are wrong. For witnesses.py.

No run without a proof has exports, since `rt try` builds programs alone. So these functions lose what they promise in a
copy, and each has its wrong bodies beside its own, by the number of a switch as in witnesses.py. That is safe, so it is
proved in minutes, and makes an archive. The program is linked with it, and run for each number: it must fail for each,
and pass for none.
"""

import os
import re
import shutil
import subprocess

from common import TOP, copied, crates, paths, read, run, run_quietly, share, write
from edit_list import beside

# The crate of exports, and the files of other crates that its edits may change.
EXPORTS, HANDLES = "encoding_c", ("enc_handles/src/outcome.rt", "enc_handles/src/numbers.rt")
CLAUSE = re.compile(r"^ +ensures\*?[^{\n]*\{", re.M)
SECONDS = 60


def end_of_braces(text, at):
    """The place after the brace that closes the one at a place."""
    depth = 0
    for it in re.finditer(r"[{}]", text[at:]):
        depth += 1 if it[0] == "{" else -1
        if not depth:
            return at + it.end()
    raise ValueError("a brace is not closed")


def without_promises(text, of_all):
    """A source whose functions promise nothing: all of them, or those that are exports."""
    at = 0
    while clause := CLAUSE.search(text, at):
        begin, at = clause.start(), end_of_braces(text, clause.end() - 1)
        head = text[text.rindex("\n", 0, text.rindex("fn ", 0, begin)) : begin]
        if of_all or 'extern "C" fn ' in head.split("(")[0]:
            text, at = text[:begin] + text[at + 1 :], begin
    return text


def archive_of(room, allowed):
    """The archive of a copy, or what was said where there is none."""
    said, _ = run(["rt", "lib"], cwd=f"{room}/crates/{EXPORTS}", env={**os.environ, "RT_ALLOW_C": allowed})
    archive = f"{room}/crates/{EXPORTS}/out/lib{EXPORTS}.a"
    return (archive, "") if os.path.exists(archive) else ("", said)


def run_exports(numbered, switch, bodies_of, marks_of):
    """For each number whether the program of its witness passes, with 0 for none; or what was said if it did not run.

    `switch` has the name, the source and the C of the crate that holds the number.
    """
    name, source, of_c = switch
    with copied(("edits", "must-fail", "equal")) as room:
        for crate in crates():
            if crate not in (EXPORTS, "enc_handles"):
                share(f"{TOP}/crates/{crate}", f"{room}/crates/{crate}", ("rlib", "check"))
        write(f"{room}/crates/{name}/src/lib.rt", source)
        write(f"{room}/crates/{name}/c/{name}.c", of_c)
        lines = re.sub(rf"^({EXPORTS} staticlib|enc_handles):", rf"\1: {name}", read(f"{room}/crates.txt"), flags=re.M)
        write(f"{room}/crates.txt", f"{name}:\n{lines}")
        shutil.rmtree(f"{room}/crates/{EXPORTS}/proofs", ignore_errors=True)
        for path in [*paths(f"crates/{EXPORTS}/src/*.rt"), *(f"crates/{it}" for it in HANDLES)]:
            write(f"{room}/{path}", without_promises(read(path), EXPORTS not in path))
        for number, (edit, _) in numbered.items():
            for place, body in bodies_of(edit).items():
                path = f"{room}/crates/{edit.crate}/{place.file}"
                write(path, beside(read(path), place, f"{name}::is_on({number})", body, marks_of(number)))
        archive, said = archive_of(room, name)
        if not archive:
            return {number: said[-2000:] for number in (0, *numbered)}
        ended = {}
        for witness in {it[1] for it in numbered.values()}:
            program = f"{room}/program"
            run_quietly(["gcc", "-std=c11", f"-I{TOP}/bindings/c", "-o", program, f"{TOP}/{witness}",
                         f"{room}/crates/{name}/c/{name}.c", archive])
            those = [0, *(number for number, it in numbered.items() if it[1] == witness)]
            for number in those:
                ran = subprocess.run([program], env={**os.environ, name.upper(): str(number)}, timeout=SECONDS,
                                     capture_output=True, check=False)
                ended[number] = not ran.returncode
    return ended
