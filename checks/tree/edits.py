#!/usr/bin/env python3
"""Looks whether each text that an edit of must-fail/ or wrong/ changes stands exactly once in its file, and whether no two edits of a crate are the same.

A later pair of an edit applies to what the earlier ones made. It prints what is wrong, and how many edits there are; status 1 where something is."""

import glob
import os
import sys

sys.path.insert(1, f"{sys.path[0]}/../lib")

from kit import ROOT
from wrong_bodies import Edit


def faults(path, changes):
    """What is wrong with the texts of an edit."""
    folder = os.path.join(*path.split("/")[:2])
    texts = {}
    if not changes:
        yield "it changes nothing"
    for file, old, new in changes:
        if not os.path.isfile(f"{folder}/{file}"):
            yield f"{file} is not there"
            continue
        text = texts.get(file) or open(f"{folder}/{file}").read()
        if not old or text.count(old) != 1:
            yield f"its text stands {text.count(old) if old else 'any number of'} times in {file}: {old}"
        texts[file] = text.replace(old, new)


def main():
    os.chdir(ROOT)
    known, wrong = {}, 0
    paths = sorted(glob.glob("crates/*/must-fail/*.edit") + glob.glob("crates/*/wrong/**/*.edit", recursive=True))
    for path in paths:
        changes = tuple(Edit.read(open(path).read().split("\n")))
        told = list(faults(path, changes))
        same = known.setdefault((path.split("/")[1], changes), path)
        if same != path:
            told.append(f"it is the same as {same}")
        wrong += len(told)
        for fault in told:
            print(f"{path}: {fault}")
    print(f"{len(paths)} edits, {wrong} faults")
    return 1 if wrong else 0


if __name__ == "__main__":
    sys.exit(main())
