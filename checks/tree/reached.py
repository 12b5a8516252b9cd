#!/usr/bin/env python3
"""Checks that each function of the crates is needed: by a program, or by a test.

It reads the sources alone, without contracts and comments. A function is reached from each `main`
and each test, and from each reached function whose body names it. Where two functions share a name,
both count as reached. What an `impl` of a trait defines is reached, since the trait's users are not
seen. A law, which is a function of a file laws.rt or one with an empty body, needs no caller.
`reached.py --programs` counts no tests, and lists what tests alone need.
"""

import os
import re
import sys

sys.path.insert(1, f"{sys.path[0]}/../lib")

from kit import ROOT

NAME = re.compile(r"[A-Za-z_][A-Za-z_0-9]*")
FUNCTION = re.compile(r"\bfn\s+([a-z_][a-z_0-9]*)")


def plain(text):
    """The text without comments, and with empty strings and characters."""
    out, at = [], 0
    for found in re.finditer(r'//[^\n]*|b?"(?:\\.|[^"\\])*"|b?\'(?:\\.|[^\'\\\n])\'', text):
        out += [text[at:found.start()], "" if found[0].startswith("//") else '""']
        at = found.end()
    return "".join(out) + text[at:]


def closing(text, at):
    """The place behind the brace that closes the one at this place."""
    depth = 0
    for place in range(at, len(text)):
        depth += {"{": 1, "}": -1}.get(text[place], 0)
        if depth == 0:
            return place + 1
    return len(text)


def without_clauses(text):
    """The text without the clauses of contracts and ghost items."""
    out, at = [], 0
    for found in re.finditer(r"\b(?:ensures|requires|ghost)\b", text):
        if found.start() < at:
            continue
        out.append(text[at:found.start()])
        brace, end = text.find("{", found.end()), text.find(";", found.end())
        if found[0] == "ghost" and (re.match(r"\s+use\b", text[found.end():]) or 0 <= end < brace):
            at = end + 1
        else:
            at = closing(text, brace) if brace >= 0 else len(text)
    return "".join(out) + text[at:]


class Function:
    """A function: what its body names, and what is known of it."""

    def __init__(self, crate, name, path, names, **known):
        self.crate, self.name, self.path, self.names = crate, name, path, names
        self.is_test, self.is_of_trait = known["is_test"], known["is_of_trait"]
        self.is_public, self.is_law = known["is_public"], known["is_law"]


def trait_ranges(text):
    """The ranges of `impl Trait for ..` and of traits."""
    ranges = []
    for found in re.finditer(r"\b(?:impl\b[^{;]*\bfor\b[^{;]*|trait\b[^{;]*)\{", text):
        ranges.append((found.start(), closing(text, found.end() - 1)))
    return ranges


def functions_of(crate, path):
    text = without_clauses(plain(open(path, encoding="utf-8").read()))
    ranges = trait_ranges(text)
    for found in FUNCTION.finditer(text):
        brace, end = text.find("{", found.end()), text.find(";", found.end())
        if brace < 0 or 0 <= end < brace and not re.search(r"\[[^\]]*$", text[found.end():end]):
            continue
        body = text[found.end():closing(text, brace)]
        is_law = path.endswith("/laws.rt") or not text[brace:closing(text, brace)].strip("{} \n")
        head = text[max(0, found.start() - 60):found.start()].split("\n")
        is_test = "#[test]" in "".join(head[-2:])
        is_of_trait = any(low <= found.start() < high for low, high in ranges)
        yield Function(crate, found[1], path, set(NAME.findall(body)), is_test=is_test,
                       is_of_trait=is_of_trait, is_public="pub" in head[-1], is_law=is_law)


def all_functions():
    for crate in sorted(os.listdir(f"{ROOT}/crates")):
        for folder, _, files in os.walk(f"{ROOT}/crates/{crate}/src"):
            for file in sorted(files):
                if file.endswith(".rt"):
                    yield from functions_of(crate, f"{folder}/{file}")


def reached(functions, with_tests):
    by_name = {}
    for it in functions:
        by_name.setdefault(it.name, []).append(it)
    left = [it for it in functions if it.name == "main" or it.is_of_trait or with_tests and it.is_test]
    seen = set(left)
    while left:
        for name in left.pop().names:
            new = [it for it in by_name.get(name, []) if it not in seen]
            seen.update(new)
            left += new
    return seen


def main():
    functions = list(all_functions())
    seen = reached(functions, "--programs" not in sys.argv)
    left = [it for it in functions if it not in seen and not (it.is_test or it.is_law or it.crate.startswith("tests_"))]
    whom = "no program" if "--programs" in sys.argv else "no program and no test"
    for it in left:
        print(f"{os.path.relpath(it.path, ROOT)}: {'pub ' if it.is_public else ''}{it.name} is called by {whom}")
    print(f"{len(functions)} functions, {len(left)} that nothing needs")
    return 1 if left else 0


if __name__ == "__main__":
    sys.exit(main())
