"""The instructions that a program executes, for scripts/bench and scripts/count-instructions.

cachegrind counts them: the same each time for one program and input, whatever else a machine does.
"""

import re
import subprocess

from programs import install

COUNT = ["valgrind", "--tool=cachegrind", "--cache-sim=no", "--cachegrind-out-file=/dev/null"]
BRANCHES = "--branch-sim=yes"
COUNTED = {"instructions": r"I\s+refs:\s+([\d,]+)", "mispredicted": r"Mispredicts:\s+([\d,]+)"}


def prepare():
    """Installs valgrind where it is missing."""
    install("valgrind", "valgrind")


def counts(command, data):
    """The instructions that a program executes on some bytes, and the branches that a model of a processor mispredicts."""
    said = counted([*COUNT, BRANCHES, *command], data)
    return [number(it, said) for it in COUNTED]


def instructions(command, data):
    """The instructions that a program executes on some bytes."""
    return number("instructions", counted([*COUNT, *command], data))


def counted(command, data):
    """What cachegrind says of a run."""
    ran = subprocess.run(command, input=data, stdout=subprocess.DEVNULL, stderr=subprocess.PIPE, check=False)
    return ran.stderr.decode()


def number(name, said):
    return int(re.search(COUNTED[name], said)[1].replace(",", ""))
