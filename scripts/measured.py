"""The runs of data/measured.txt, and their tables in docs/MEASURED.md. For scripts/documents and scripts/release."""

import datetime

from common import TOP, item, read, run, write

LIST, PAGE = "data/measured.txt", "docs/MEASURED.md"
HEADS = ("What ran", "What it said", "Status", "Date", "Machine", "Commit", "Processor time", "Time")


def lines(kind):
    """The lines of a table, each as the list of its fields."""
    every = (it.split(" | ") for it in read(LIST).splitlines() if not it.startswith("#"))
    return [fields for of, *fields in every if of == kind]


def put(kind, what, said):
    """Puts what a run of today said in place of the line that a table has of it, or last, and writes the page."""
    every, new = read(LIST).splitlines(), [kind, what, said, "-", str(datetime.date.today()), "-", "-", "-", "-"]
    at = next((at for at, it in enumerate(every) if it.startswith(f"{kind} | {what} | ")), len(every))
    every[at : at + 1] = [" | ".join(new)]
    write(LIST, "\n".join(every) + "\n")
    run([f"{TOP}/scripts/documents"])


def table(kind):
    """A table of runs, with the columns in which a line has something."""
    rows = lines(kind)
    heads = [at for at, _ in enumerate(HEADS) if any(row[at] != "-" for row in rows)]
    cells = [["" if row[at] == "-" else row[at] for at in heads] for row in rows]
    return "".join(f"| {' | '.join(it)} |\n" for it in ([HEADS[at] for at in heads], ["---"] * len(heads), *cells))


def release():
    """The table of the release, and the SHA-256 of each program as `sha256sum --check` takes it."""
    sums = "".join(f"{number}  {path}\n" for number, path in lines("sum"))
    return f"{table('release')}\n```text\n{sums}```\n"


def written():
    """The lists of the page, in its order."""
    machines = "".join(item(f"{letter}: {said}") for letter, said in lines("machine"))
    return machines, table("gate"), table("edits"), release(), table("over"), table("clients")
