"""Shows by runs that wrong bodies are wrong, with no proof. For scripts/edits --run.

One build tries many edits. In a copy of the crates each edited function has its own body and each wrong one, and a
number says which counts:

    { if switch::is_on(17) { return { WRONG BODY }; } BODY }

The crate `switch` of the copy holds that number. Beside each test that an edit names stand functions that set the
number and run the test: one for each edit, which must fail, and one that sets none, the control, which must pass. Each
test runs in a process of its own. A program, and crates/conformance for a file of rows, is run for each number, which
it has from the variable SWITCH. It fails if it prints something else than its file `stdout`, or names a row, or is
stopped at a fault or after a minute of processor time.

Exports of the static library are run by a program in C (witnesses_in_c.py).

Not all changes are of bodies. One of a head, a constant or a program is built and run by itself. Ghost lines and
definitions do not run, so of an edit that changes them too only the rest is made. An edit whose wrong body can't stand
beside the right one (a value is moved or lent in both, say) is tried by itself too.
"""

import os
import re
import subprocess
from concurrent.futures import ThreadPoolExecutor

from common import TOP, copied, is_there, lanes, paths, read, read_bytes, write
from edit_list import apply, beside, edits_of, ends_of, equal_of, fault_of, file_of_test, is_of_c, is_program, is_rows
from unproved import SECONDS, kit_of_links
from witnesses_in_c import run_exports

# Runs side by side. One takes 2 GB, and that of a large crate of tests 4.
LANES = min(3, lanes(4))
# What a copy lacks of a crate.
LEFT = ("out", "proofs", "edits", "must-fail", "equal", "args", "status", "data")
SWITCH = "switch"
SWITCH_SOURCE = """//! A number that says which body counts.
#![tactic(auto)]

unsafe extern "C" {
    fn switch_number() -> u64;
    fn switch_set(number: u64);
}

/// Whether the body of a number counts.
pub fn is_on(number: u64) -> bool {
    unsafe { switch_number() == number }
}

/// Has the body of a number count.
pub fn set(number: u64) {
    unsafe { switch_set(number) }
}
"""
SWITCH_C = """#include <stdint.h>
#include <stdlib.h>

static uint64_t number;
static int is_set;

void switch_set(uint64_t it) { number = it; is_set = 1; }

uint64_t switch_number(void) {
    if (!is_set) {
        const char *said = getenv("SWITCH");
        switch_set(said ? strtoull(said, 0, 10) : 0);
    }
    return number;
}
"""
# The program that runs rows.
RUNS_ROWS = "conformance"
# The tests of a copy that set a number.
PREFIX = "counts_for_edit_"

RAN = re.compile(rf"^test (?:\S+::)?{PREFIX}(\d+)(?:_(\d+))? \.\.\. (\w+)", re.M)
ERROR = re.compile(r"^(\S+\.rt):(\d+):\d+: error", re.M)
TESTS = re.compile(
    r"^(?:(?:///|#\[)[^\n]*\n)*#\[test\]\nfn (?P<name>\w+)(?P<head>\([^\n]*\n)(?P<body>.*?)^\}\n", re.M | re.S)
# The last line of a build that made nothing.
NO_BUILD = re.compile(r"^run=none ", re.M)
BEGINS, ENDS = "// the body of edit", "// the end of edit"


def marks_of(number):
    """The marks around the wrong bodies of a number."""
    return f"{BEGINS} {number}", f"{ENDS} {number}"


def is_ghost(pair):
    """Whether a pair changes nothing that runs."""
    return pair.file.startswith("specs/") or pair.old.lstrip().startswith("ghost ")


def bodies_of(edit):
    """The bodies that an edit changes, by place: each with the text that takes its place; nothing where it changes more."""
    pairs = [it for it in edit.pairs if not is_ghost(it)]
    files = {it.file for it in pairs}
    if not pairs or any(not file.endswith(".rt") for file in files):
        return None
    bodies, made, after = {}, {it: read(f"crates/{edit.crate}/{it}") for it in files}, apply(edit.crate, pairs)
    for place in edit.places:
        if place.file in files and place.name:
            old, new = ends_of(made[place.file], place), ends_of(after[place.file], place)
            if "const fn" in place.head or not old or not new:
                return None
            bodies[place] = after[place.file][new[2] : new[3]]
            made[place.file] = made[place.file][: old[2]] + bodies[place] + made[place.file][old[3] :]
    return bodies if made == after else None


def place_of_test(test):
    return file_of_test(test), test.split("::")[-1]


def program_of(witness):
    """The crate of the program that a witness is, or that runs the rows of a witness; nothing for a test."""
    return RUNS_ROWS if is_rows(witness) else witness if is_program(witness) else ""


class Copy:
    """A copy of the sources of the crates, in a room."""

    # (whether there are many runs of each program)
    runs_long = False

    def __init__(self, room):
        self.room = room

    def replace_tests(self, crate, by):
        """Has a text in place of each test of a crate, by its place, or none: a build of few is quick."""
        for path in paths(f"crates/{crate}/src/**/*.rt"):
            file = f"{self.room}/{path}"
            write(file, TESTS.sub(lambda it: by((path, it["name"]), it), read(file)))

    def run(self, crate, *words):
        """What `rt try` says of a crate. Its program is kept."""
        rt = kit_of_links(f"{self.room}/kits/{crate}", self.program(crate), self.runs_long or crate == RUNS_ROWS)
        how = {"stdin": subprocess.DEVNULL, "stdout": subprocess.PIPE, "stderr": subprocess.STDOUT, "errors": "replace"}
        env = {**os.environ, "RT_ALLOW_C": SWITCH, "TMPDIR": self.room}
        ran = subprocess.run([rt, "try", *words], cwd=f"{self.room}/crates/{crate}", env=env, check=False, **how)
        return ran.stdout

    def program(self, crate):
        """Where the program of a crate is kept."""
        return f"{self.room}/{crate}-program"

    def run_tests(self, crate, name):
        """What the tests of a crate say whose names have this."""
        return self.run(crate, "--test", "--seconds", str(SECONDS), "--", name)

    def build(self, crate):
        """What is said of the program of a crate."""
        return self.run(crate, "--steps", "1")

    def words_of(self, crate, number):
        """What runs the program of a crate, for a minute of a processor at most, and has the body of a number count."""
        return ["env", f"{SWITCH.upper()}={number}", "prlimit", f"--cpu={SECONDS}", self.program(crate)]

    def passes(self, witness, number=0):
        """Whether the program of a witness ends as it must if the body of a number counts, or what it says if that is
        neither. It is there."""
        if is_rows(witness):
            return self.has_rows_that_hold(witness, number)
        at = f"crates/{witness}"
        words = read(f"{at}/args").splitlines() if is_there(f"{at}/args") else []
        given = read_bytes(f"{at}/stdin") if is_there(f"{at}/stdin") else b""
        where = f"{TOP}/{at}/data" if is_there(f"{at}/data") else TOP
        ran = subprocess.run(
            [*self.words_of(witness, number), *words], cwd=where, input=given, capture_output=True, check=False)
        status = int(read(f"{at}/status")) if is_there(f"{at}/status") else 0
        return (ran.stdout, ran.returncode) == (read_bytes(f"{at}/stdout"), status)

    def has_rows_that_hold(self, path, number):
        """The same of a file of rows. The first row that is named ends the run, and so does a fault."""
        how = {"stdin": subprocess.DEVNULL, "stdout": subprocess.PIPE, "stderr": subprocess.STDOUT, "errors": "replace"}
        with subprocess.Popen([*self.words_of(RUNS_ROWS, number), path], cwd=TOP, **how) as ran:
            line = ""
            for line in ran.stdout:
                if re.match(rf"{re.escape(path)}:\d+: ", line) or "AddressSanitizer" in line:
                    ran.kill()
                    return False
        return f"status {ran.returncode}, and no row: {line.strip()}" if ran.returncode > 0 else not ran.returncode


class Switched(Copy):
    """A copy in which numbers say which bodies count. Tests that set them stand beside those that are named, and
    programs are given them."""

    runs_long = True

    def __init__(self, room, numbered, others):
        super().__init__(room)
        # what edits name, each with the numbers of these, and what other edits name, which gets a control alone
        witnesses = {it: [] for it in others}
        for number, (_, witness) in numbered.items():
            witnesses.setdefault(witness, []).append(number)
        self.tests = {it: numbers for it, numbers in witnesses.items() if not program_of(it)}
        self.places = [place_of_test(it) for it in self.tests]
        self.crates = sorted({test.split("::")[0] for test in self.tests})
        # the runs of programs, and the programs
        self.runs = [(it, at) for it, numbers in witnesses.items() if program_of(it) for at in (0, *numbers)]
        self.programs = sorted({program_of(it) for it, _ in self.runs})
        write(f"{room}/crates/{SWITCH}/src/lib.rt", SWITCH_SOURCE)
        write(f"{room}/crates/{SWITCH}/c/switch.c", SWITCH_C)
        lines = re.sub(r"^(\w+) *:", rf"\1: {SWITCH}", read(f"{room}/crates.txt"), flags=re.M)
        write(f"{room}/crates.txt", f"{SWITCH}:\n{lines}")
        for number, (edit, _) in numbered.items():
            self.switch(edit, number)
        for crate in self.crates:
            self.replace_tests(crate, self.wrappers)

    def switch(self, edit, number):
        """Has the bodies of an edit stand before those that are there."""
        for place, body in bodies_of(edit).items():
            path = f"{self.room}/crates/{edit.crate}/{place.file}"
            write(path, beside(read(path), place, f"{SWITCH}::is_on({number})", body, marks_of(number)))

    def wrappers(self, place, test):
        """The tests that set a number, in place of a test: one for each number, and one for none. No function may call a
        test, so each has its body."""
        those = [it for it, own in zip(enumerate(self.tests.values()), self.places) if own == place]
        named = [(number, "") for _, numbers in those for number in numbers] + [(0, f"_{at}") for at, _ in those]
        return "".join(
            f"#[test]\nfn {PREFIX}{number}{of}{test['head']}{SWITCH}::set({number});\n{test['body']}}}\n\n"
            for number, of in named)

    def edits_at(self, crate, said):
        """The numbers of the edits at whose bodies a build had errors."""
        found = set()
        for path, line in ERROR.findall(said):
            file = os.path.join(f"{self.room}/crates/{crate}", path)
            before = read(file).split("\n")[: int(line)] if os.path.isfile(file) else []
            marks = [it for it in before if BEGINS in it or ENDS in it]
            if marks and BEGINS in marks[-1]:
                found.add(int(marks[-1].split()[-1]))
        return found


def first_error(said):
    """The first error of a build that made nothing, or its last line."""
    lines = said.strip().split("\n")
    return next((it for it in lines if "error" in it), lines[-1])


def run_singly(edit, witness):
    """Whether a witness passes in a copy with an edit alone, or with none, or what is said if it didn't run."""
    with copied(LEFT) as room:
        copy = Copy(room)
        for file, text in apply(edit.crate, [it for it in edit.pairs if not is_ghost(it)]).items() if edit else ():
            write(f"{room}/crates/{edit.crate}/{file}", text)
        if crate := program_of(witness):
            said = copy.build(crate)
            return copy.passes(witness) if os.path.exists(copy.program(crate)) else first_error(said)
        crate, name = witness.split("::", 1)
        place = place_of_test(witness)
        copy.replace_tests(crate, lambda at, it: it[0] if at == place else "")
        said = copy.run_tests(crate, name)
    how = re.search(rf"^test {name} \.\.\. (\w+)", said, re.M)
    return how[1] == "ok" if how else first_error(said)


class Runs:
    """The runs of edits and of changes that mean the same, each with its witness: by the edit, whether that passed, or
    why it did not run; and by the witness, the control: whether it passes with nothing changed."""

    def __init__(self, edits):
        self.ended, self.controls = {}, {}
        in_c = [it for it in edits if is_of_c(it[1])]
        together = [it for it in edits if bodies_of(it[0]) and it not in in_c]
        apart = [it for it in edits if it not in together and it not in in_c]
        others = dict.fromkeys(it for _, it in apart)
        self.run_apart(apart + self.run_together(dict(enumerate(together, 1)), others))
        self.run_in_c(dict(enumerate(in_c, 1)))

    def run_in_c(self, numbered):
        """Runs the program in C for each of these edits of exports, in one archive."""
        if not numbered:
            return
        ended = run_exports(numbered, (SWITCH, SWITCH_SOURCE, SWITCH_C), bodies_of, marks_of)
        self.ended |= {edit: ended[number] for number, (edit, _) in numbered.items()}
        self.controls |= {witness: ended[0] is True for _, witness in numbered.values()}

    def run_together(self, numbered, others):
        """Runs numbered edits in one copy, with other controls too. Returns those that can't stand there."""
        if not numbered:
            return []
        with copied(LEFT) as room, ThreadPoolExecutor(LANES) as pool:
            copy = Switched(room, numbered, others)
            built = [*((it, copy.run_tests, PREFIX) for it in copy.crates), *((it, copy.build) for it in copy.programs)]
            said = list(pool.map(lambda it: it[1](it[0], *it[2:]), built))
            bad, tests = set().union(*map(copy.edits_at, [it[0] for it in built], said)), list(copy.tests)
            runs = [it for it in copy.runs if os.path.exists(copy.program(program_of(it[0])))] if not bad else []
            ended = dict(zip(runs, pool.map(lambda it: copy.passes(*it), runs)))
        if bad:
            left = {number: it for number, it in numbered.items() if number not in bad}
            return [numbered[it] for it in bad] + self.run_together(left, others)
        ran = [it for text in said for it in RAN.findall(text)]
        passed = {int(number): how == "ok" for number, of, how in ran if not of}
        passed |= {number: how for (_, number), how in ended.items() if number}
        self.controls = {tests[int(of)]: how == "ok" for _, of, how in ran if of}
        self.controls |= {witness: how is True for (witness, number), how in ended.items() if not number}
        lost = "; ".join(first_error(it) for it in said if NO_BUILD.search(it)) or "its test did not run"
        self.ended = {edit: passed.get(number, lost) for number, (edit, _) in numbered.items()}
        return []

    def run_apart(self, edits):
        """Runs each of these by itself, and each witness that has no control yet with nothing changed."""
        bare = [(None, it) for it in dict.fromkeys(witness for _, witness in edits) if it not in self.controls]
        tries = [*edits, *bare]
        with ThreadPoolExecutor(LANES) as pool:
            ended = list(pool.map(lambda it: run_singly(*it), tries))
        self.ended |= {edit: how for (edit, _), how in zip(tries, ended) if edit}
        self.controls |= {witness: how is True for (edit, witness), how in zip(tries, ended) if not edit}

    def fault_of(self, edit, witness, wanted):
        """Why a run does not show what is wanted of an edit: that its witness passes, or that it does not. Nothing where it does."""
        ended = self.ended[edit]
        if isinstance(ended, str):
            return f"NOT RUN: {ended}"
        if not self.controls.get(witness):
            return f"NOT SHOWN: {witness} does not pass with nothing changed"
        if ended != wanted:
            return f"NOT SHOWN: {witness} passes" if ended else f"NOT THE SAME: {witness} does not pass"
        return ""


def run_all(names):
    """Runs the witnesses of the edits of these crates, and says of each how it went. The status."""
    edits, same = [it for name in names for it in edits_of(name)], [it for name in names for it in equal_of(name)]
    faults = {it: fault for it in [*edits, *same] if (fault := fault_of(it))}
    # each edit that runs, with its witness, and whether that has to pass
    wanted = [(it, it.shown, False) for it in edits if it.shown] + [(it, it.same, True) for it in same]
    wanted = [it for it in wanted if it[0] not in faults]
    runs = Runs([it[:2] for it in wanted])
    faults |= {it[0]: why for it in wanted if (why := runs.fault_of(*it))}
    for it in [*edits, *same]:
        how = f"the same by {it.same}" if it.same else f"shown by {it.shown}" if it.shown else f"not shown: {it.reason}"
        print(f"{it.label}: {faults.get(it, how)}")
    shown, reasoned = (sum(it not in faults and bool(it.shown) == by for it in edits) for by in (True, False))
    without = len(edits) - shown - reasoned
    print(f"{shown} shown, {reasoned} not shown for a reason, {without} without either")
    return 1 if faults else 0
