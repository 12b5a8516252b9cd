#!/usr/bin/env python3
"""Runs the built l4sh wire over scripts whose pieces of bytes are cut otherwise, and looks at what comes of it.

    checks/sweeps/wire_cuts.py [--every N] [SCRIPT..]

Without a script it takes those of checks/scripts/wire. With --every N it takes each N-th place of a cut in two, of each script others.
Each `feed C HEXBYTES` is given again as pieces of one byte, of 7 bytes, and in two at each place, on its own and in all lines at once.
Of more than 1,000 bytes only the first and the last 500 places are tried.
The bytes that go out on each connection, the connections that end, in their order, and the answers of `connect` have to be the same.
Scripts that end in a bad line are left out. It builds l4sh first."""
import collections
import subprocess
import sys

sys.path.insert(1, f"{sys.path[0]}/../lib")

from refuse_memory import scripts_of
from kit import built, program
from runs import stored

PROGRAM = program("l4sh")
# Of a piece of more bytes than twice that the middle is not cut.
ENDS = 500


def run(lines):
    ran = subprocess.run([PROGRAM, "wire"], input="\n".join(lines).encode() + b"\n", capture_output=True)
    bytes_out, ended, answers = collections.defaultdict(str), [], []
    for line in ran.stdout.decode().splitlines():
        words = line.split(" ")
        if words[0] == "out":
            bytes_out[words[1]] += words[2]
        elif words[0] == "ended":
            ended.append(words[1])
        else:
            answers.append(line)
    return ran.returncode, dict(bytes_out), ended, answers


def pieces(line, size, first=None):
    """The line as lines of pieces of so many bytes, or of the first bytes and the rest."""
    word, connection, text = line.split(" ")
    if first is not None:
        parts = [text[: 2 * first], text[2 * first :]]
    else:
        parts = [text[i : i + 2 * size] for i in range(0, len(text), 2 * size)]
    return [f"{word} {connection} {part}" for part in parts]


def places(count):
    """Where so many bytes are cut in two: at each place, or of many bytes at the first and the last ones."""
    return [*range(1, count)] if count <= 2 * ENDS else [*range(1, ENDS), *range(count - ENDS, count)]


def cuts(lines, begin, every):
    """The same script, cut otherwise; each with a name. Of the cuts in two it takes each so many, from there on."""
    for size in (1, 7):
        yield f"pieces of {size}", [part for line in lines for part in (pieces(line, size) if is_feed(line) else [line])]
    for number, line in enumerate(lines):
        if is_feed(line):
            for first in places(len(line.split(" ")[2]) // 2)[begin::every]:
                yield f"line {number + 1} in two at {first}", lines[:number] + pieces(line, 0, first) + lines[number + 1 :]


def is_feed(line):
    return line.startswith("feed ")


def main(scripts, every):
    built("l4sh")
    runs = failed = 0
    for number, script in enumerate(scripts):
        lines = [line for line in stored(script).decode().split("\n") if line]
        want = run(lines)
        if want[0] != 0:
            continue
        for name, cut in cuts(lines, number % every, every):
            runs += 1
            got = run(cut)
            if got != want:
                failed += 1
                print(f"{script}: {name}\n  got  {got}\n  want {want}")
    print(f"{runs} runs, {failed} failed")
    return 1 if failed or not runs else 0


if __name__ == "__main__":
    sys.exit(main(*scripts_of("wire", sys.argv[1:])))
