"""Whole programs on texts, for scripts/bench: recode, and beside it the crate, iconv, uconv and cat."""

import filecmp
import os
import subprocess
import time

from programs import CACHE



def commands(corpus, programs):
    """The command of each program on a corpus. Random bytes are for those alone that replace malformed sequences."""
    made = {name: [program, *corpus.ends(corpus.label)] for name, program in programs.items()}
    if corpus.languages:
        for tool, label in (("iconv", corpus.iconv), ("uconv", corpus.uconv)):
            source, target = corpus.ends(label)
            made[tool] = [tool, "-f", source, "-t", target]
    if corpus.languages and corpus.way == "decode":
        made["cat"] = ["cat"]
    return made


def run(command, source, target):
    """The time that a command takes, in seconds. It may end with 1, for malformed input."""
    with open(source, "rb") as stdin, open(target, "wb") as stdout:
        begin = time.perf_counter()
        status = subprocess.run(command, stdin=stdin, stdout=stdout, stderr=subprocess.DEVNULL).returncode
        taken = time.perf_counter() - begin
    return taken, status


def agreeing(corpus, source, made):
    """The commands that write what the crate does. `cat`, which decodes nothing, is always one."""
    want, text = f"{CACHE}/want", f"{CACHE}/text"
    run(made["encoding_rs"], source, want)
    kept = {}
    for name, command in made.items():
        _, status = run(command, source, text)
        if name == "cat" or (status in (0, 1) and filecmp.cmp(want, text, shallow=False)):
            kept[name] = command
        elif name == "recode":
            raise SystemExit(f"bench: {command[0]} writes another text than the crate of {corpus.name}: {source}")
        else:
            print(f"{name} writes another text of {corpus.name}: left out")
    os.remove(want)
    os.remove(text)
    return kept


def measure(chosen, rounds):
    """The best time of each program on each corpus."""
    best = [{} for _ in chosen]
    for number in range(rounds):
        for (_, source, made), times in zip(chosen, best):
            for name, command in made.items():
                taken, _ = run(command, source, os.devnull)
                times[name] = min(taken, times.get(name, taken))
        print(f"round {number + 1} of {rounds}")
    return best
