#!/usr/bin/env python3
"""Looks whether each name that the documents put in backticks is in the tree.

A name is a word of letters, digits and `_`, perhaps with `::`, that has a capital or an underscore in it. It has to stand in a source, a spec, a
proof, a script or a file's name. A path has to be there; a link has to lead to a file. It prints what is missing; status 1 where something is."""

import glob
import os
import re
import sys

sys.path.insert(1, f"{sys.path[0]}/../lib")

from kit import ROOT

NAME = re.compile(r"[A-Za-z][A-Za-z0-9_]*(?:::[A-Za-z][A-Za-z0-9_]*)*(?:\(\))?")
ENDINGS = (".rt", ".antt", ".edit", ".py", ".c", ".h", ".l4", ".txt", ".service", ".conf", ".toml", "")
# Words of the manual, of the toolchain, of files' contents and of the protocol.
OUTSIDE = set(open(os.path.join(os.path.dirname(os.path.abspath(__file__)), "outside_names.txt")).read().split())


def words_of_the_tree():
    words = set()
    for folder, folders, files in os.walk("."):
        folders[:] = [it for it in folders if it not in (".git", "out", "__pycache__", "docs")]
        for name in files:
            words.update(re.findall(r"\w+", name))
            if name.endswith(ENDINGS) and not name.endswith(".md"):
                words.update(re.findall(r"\w+", open(f"{folder}/{name}", errors="replace").read()))
    return words


def documents():
    return sorted([*glob.glob("*.md"), *glob.glob("docs/*.md"), *glob.glob("*/README.md"), *glob.glob("crates/*/README.md"),
                   *glob.glob("clients/*/README.md"), *glob.glob("clients/*/*/README.md")])


def missing(path, words):
    text = open(path).read()
    plain = re.sub(r"```.*?```", "", text, flags=re.S)
    for quoted in re.findall(r"`([^`\n]+)`", plain):
        # (of the names of the manual's C interface `checks/live/clients_c.py` says which are there)
        is_name = NAME.fullmatch(quoted) and (re.search(r"[A-Z_]", quoted[1:]) or "::" in quoted) and not quoted.startswith("L4_")
        if is_name and any(part not in words and part not in OUTSIDE for part in re.findall(r"\w+", quoted)):
            yield quoted
        is_path = re.fullmatch(r"(?:\./)?(?:crates|docs|checks|bench|examples|clients|packaging|protocol|tutorial)/[\w./-]+", quoted)
        # (NAME and X stand for any name)
        if is_path and not glob.glob(re.sub(r"\b(?:NAME|X)\b", "*", quoted)):
            yield quoted
    for link in re.findall(r"\]\(([^)#:]+)(?:#[^)]*)?\)", plain):
        if not os.path.exists(os.path.join(os.path.dirname(path), link)):
            yield f"({link})"


def main():
    os.chdir(ROOT)
    words = words_of_the_tree()
    found = [(path, name) for path in documents() for name in missing(path, words)]
    for path, name in found:
        print(f"{path}: {name} is not in the tree")
    print(f"{len(documents())} documents, {len(found)} names missing")
    return 1 if found else 0


if __name__ == "__main__":
    sys.exit(main())
