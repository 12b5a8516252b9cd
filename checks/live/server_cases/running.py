"""An l4d of its own for each case, and what it says."""

import subprocess
import sys

from kit import ROOT
from serving import Server

PROGRAM = sys.argv[1]
# What ./l4d and an installed l4d run the program by.
BLOCKED = f"{ROOT}/packaging/blocked"


def served(*words, **more):
    """l4d with these words, in a folder of its own."""
    return Server(PROGRAM, *words, **more)


def run(*words, **more):
    """Status, standard output and standard error of a run that ends by itself."""
    told = subprocess.run([PROGRAM, *words], capture_output=True, text=True, timeout=20, stdin=subprocess.DEVNULL, **more)
    return told.returncode, told.stdout, told.stderr


def has(text, *parts):
    for part in parts:
        assert part in text, (part, text)
