"""The library for other languages, for scripts/bench: programs over bindings/rust beside the same over the crate.

Whole texts are recoded by bench/peer, and short pieces by its twin of `bench calls`. ripgrep counts the lines of a text
that have a word. Both programs do the same, and differ in the library alone. The processor time of each counts.
"""

import os
import resource
import subprocess
import types

import calls
import corpora
from clients_of_rust import PACKAGE, environment, ripgreps
from programs import CACHE, build_peer

# The word that ripgrep looks for: it is in the text of each language, and ASCII.
WORD = "Debian"
KINDS = {"decode": ("to-utf8", "to-utf16"), "encode": ("from-utf8", "from-utf16")}
PROGRAMS = ("encoding_rs", "package")


def built(archive):
    """The folders of the programs over the crate and over the package, ripgrep over both, and the crate's version."""
    room = types.SimpleNamespace(archive=os.path.abspath(archive), path=lambda name: f"{CACHE}/interface/{name}")
    crate, version = build_peer("bench/peer", CACHE)
    package, _ = build_peer("bench/peer", room.path("package"), PACKAGE, environment(room))
    if not os.path.exists(room.path("rg-crate")):
        ripgreps(room)
    return dict(zip(PROGRAMS, (crate, package))), dict(zip(PROGRAMS, (room.path("rg-crate"), room.path("rg-package")))), version


class Whole:
    """A command of both programs on a file, and the best time of each."""

    def __init__(self, commands, source):
        self.commands, self.source, self.best = commands, source, {}
        if len({hash(self.run(name, subprocess.PIPE)[1]) for name in commands}) != 1:
            raise SystemExit(f"bench: outputs differ: {commands['package']}")

    def run(self, name, stdout=subprocess.DEVNULL):
        """The processor time of a run, and what it writes if that is kept."""
        before = resource.getrusage(resource.RUSAGE_CHILDREN)
        with open(self.source, "rb") as file:
            ran = subprocess.run(self.commands[name], stdin=file, stdout=stdout, check=False)
        after = resource.getrusage(resource.RUSAGE_CHILDREN)
        return after.ru_utime - before.ru_utime + after.ru_stime - before.ru_stime, ran.stdout

    def measure(self):
        for name in self.commands:
            taken, _ = self.run(name)
            self.best[name] = min(taken, self.best.get(name, taken))

    def ratio(self):
        return self.best["encoding_rs"] / self.best["package"]


class Row:
    """The measurements of a corpus: pieces by kind and length, the whole text, and ripgrep on a text to decode."""

    def __init__(self, corpus, peers, searches, mib):
        source = corpora.path(CACHE, corpus, mib)
        read = "utf-8" if corpus.way == "encode" else corpus.codec
        text = " ".join(corpora.block(corpus)[:4 * calls.LENGTH].decode(read, "ignore").split())
        kinds = [(kind, None, "") for kind in KINDS[corpus.way]]
        self.title = corpus.title.removesuffix(f", {corpora.RUNNING}")
        self.cells = [it for group in calls.cells(kinds, text, corpus.codec, corpus.label) for it in group]
        self.programs = {name: [f"{folder}/calls"] for name, folder in peers.items()}
        for it in self.cells:
            it.prepare(self.programs)
        ends = corpus.ends(corpus.label)
        self.wholes = [Whole({name: [f"{folder}/peer", *ends] for name, folder in peers.items()}, source)]
        if corpus.way == "decode":
            words = ["-c", "-E", corpus.label, WORD, "-"]
            self.wholes.append(Whole({name: [path, *words] for name, path in searches.items()}, source))

    def measure(self):
        for it in self.cells:
            it.measure(self.programs)
        for it in self.wholes:
            it.measure()

    def written(self):
        ratios = [it.ratio("package") for it in self.cells] + [it.ratio() for it in self.wholes]
        return f"| {self.title} | {' | '.join(f'{it:.2f}' for it in ratios)} |"


def measured(archive, rounds, mib):
    """The tables of both directions, and the crate's version."""
    peers, searches, version = built(archive)
    chosen = [it for it in corpora.CORPORA if it.kind == corpora.RUNNING and it.languages and it.way in KINDS]
    chosen = [it for it in chosen if it.way == "decode" or it.languages != ["en"]]
    rows = {it: Row(it, peers, searches, mib) for it in chosen}
    for number in range(rounds):
        for row in rows.values():
            row.measure()
        print(f"round {number + 1} of {rounds}", flush=True)
    tables = []
    for way, title, heads in (("decode", "Decoding", ("to UTF-8", "to UTF-16")), ("encode", "Encoding", ("from UTF-8", "from UTF-16"))):
        columns = [f"{head}, {length}" for head in heads for length in calls.LENGTHS]
        columns += ["whole text"] + ["ripgrep"] * (way == "decode")
        lines = [row.written() for it, row in rows.items() if it.way == way]
        tables.append("\n".join([f"| {title} | {' | '.join(columns)} |", "|---" + "|--:" * len(columns) + "|", *lines]))
    return "\n\n".join(tables), version
