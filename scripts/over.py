"""Rows of conformance over other implementations: how each is asked, and what it answers. For scripts/conformance.

An implementation answers each row with `holds`, with `skip` if it has no interface for it, or with `fails` and what it
gives, by names: `part` says what is wrong, `stage` with which cuts and rooms, `of` in which encoding.
"""

import os
import subprocess
import sys
from typing import NamedTuple

import over_python
from common import TOP, run_quietly
from lists import encodings
from programs import CACHE, build_peer
from rows import CALLS, STATEFUL, Row

# Fields that are a word by themselves, and no text.
PLAIN = ("result", "of", "encoding", "output", "lends")


class Outcome(NamedTuple):
    """What an implementation answers to a row: `holds`, `skip`, `after` for a call after one that does not hold, or
    `fails` with what it gives."""
    row: Row
    how: str
    given: dict


class Peer(NamedTuple):
    """An implementation: its name and version in words, and what answers the lines of rows."""
    title: str
    answers: object


def part_of(value):
    if isinstance(value, tuple):
        return "+".join(map(str, value))
    return "none" if value is None else str(value)


def word_of(name, value):
    """A field as a word: bytes and texts in hexadecimal, code units too, and a dash for nothing."""
    if isinstance(value, bool):
        return "yes" if value else "no"
    if value is None or isinstance(value, int):
        return part_of(value)
    if name in PLAIN:
        return value
    if isinstance(value, (bytes, str)):
        return (value.encode() if isinstance(value, str) else value).hex().upper() or "-"
    parts = [f"{it:X}" for it in value] if isinstance(value, tuple) and name == "src" else map(part_of, value)
    return ",".join(parts) or "-"


def line_of(row):
    """A row as a line: its name and its fields."""
    if row.name:
        return " ".join([row.name, *(word_of(*it) for it in row.fields.items())])
    head, (names, ways) = row.head, (",".join(it) or "-" for it in (row.head.names, row.head.ways))
    if head.kind == "decoder":
        return f"decoder {names} {head.marks} {head.mode} {ways}"
    return f"encoder {names} {head.mode} {ways} {word_of('barred', head.barred)}"


def said(program, lines):
    """What a program says to lines."""
    text = "".join(f"{it}\n" for it in lines)
    return subprocess.run(program, input=text, stdout=subprocess.PIPE, check=True, text=True).stdout.splitlines()


def given_of(answer):
    """What an answer `fails NAME=VALUE ..` gives."""
    return dict(it.split("=", 1) for it in answer.split(" ")[1:])


def outcomes(peer, rows):
    """The outcome of each row but the heads."""
    found, failed = [], None
    for row, answer in zip(rows, peer.answers([line_of(it) for it in rows]), strict=True):
        if not row.name:
            continue
        how, given = answer.split(" ")[0], given_of(answer)
        section = row.kind and (row.path, row.head.number)
        if row.name in STATEFUL and how != "skip" and section == failed:
            how, given = "after", {}
        if how == "fails" and row.name in CALLS:
            failed = section
        found.append(Outcome(row, how, given))
    return found


def crate():
    """The Rust crate encoding_rs."""
    folder, version = build_peer("scripts/peer", f"{CACHE}/conformance")
    return Peer(f"encoding_rs {version}", lambda lines: said([f"{folder}/rows"], lines))


def python():
    """Python's incremental codecs."""
    version = ".".join(map(str, sys.version_info[:3]))
    properties = {it.name: it.properties for it in encodings()}
    outputs = {name: "UTF-8" if "writes-utf-8" in it else name for name, it in properties.items()}
    return Peer(f"Python {version}", over_python.Rows(outputs).answers)


def node():
    """Node's TextDecoder and TextEncoder."""
    version = run_quietly(["node", "--version"]).strip().removeprefix("v")
    icu = run_quietly(["node", "-p", "process.versions.icu"]).strip()
    return Peer(f"Node {version} with ICU {icu}", lambda lines: said(["node", f"{TOP}/scripts/over_node.js"], lines))


PEERS = {"crate": crate, "python": python, "node": node}
os.environ["LC_ALL"] = "C"
