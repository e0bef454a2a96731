"""Whether each command answers --help, and refuses a word that it doesn't take. For scripts/documents."""

import os
import subprocess
from concurrent.futures import ThreadPoolExecutor

from common import TOP, paths

# The seconds that a command has for it, on a machine with other work. It takes less than one.
SECONDS = 30
REFUSED = "--no-such-word"


def commands():
    """The files that people run."""
    files = [it for it in paths(".ci/*") + paths("scripts/*") if os.path.isfile(f"{TOP}/{it}")]
    return [it for it in files if os.access(f"{TOP}/{it}", os.X_OK)]


def ended(path, word):
    """What a command writes, and its status: none where it goes on."""
    try:
        ran = subprocess.run([f"{TOP}/{path}", word], capture_output=True, check=False, stdin=subprocess.DEVNULL,
                             timeout=SECONDS)
    except subprocess.TimeoutExpired:
        return b"", b"", None
    return ran.stdout, ran.stderr, ran.returncode


def faults_of(path):
    """What is wrong with the answers of a command."""
    said, _, status = ended(path, "--help")
    if not said or status != 0:
        yield f"{path}: it doesn't answer --help"
    said, refusal, status = ended(path, REFUSED)
    if said or not refusal or status != 2:
        yield f"{path}: it doesn't refuse {REFUSED} by a line and the status 2"


def unanswered():
    """What is wrong with the answers of all commands."""
    with ThreadPoolExecutor(len(os.sched_getaffinity(0))) as pool:
        return [it for those in pool.map(lambda it: [*faults_of(it)], commands()) for it in those]
