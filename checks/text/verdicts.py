#!/usr/bin/env python3
"""Runs the built l4sh over scripts, and judges what they print as traces.

    checks/text/verdicts.py examples/*.l4

The entry lines that a script prints, without its answer lines, are a trace of which `l4sh check` says `yes`. With one output line left
out that is not the last line, it says `no N EXPECTED`, where N is the place of that line and EXPECTED the line itself. With the last
newline left out, it says `torn` behind its verdict on the lines before. All this holds of both versions of the trace, in version 2 with the
first line counted; where a number above 255 is opened, which version 1 has not, it is of version 2 alone. Anything else is told, and the status is then 1."""
import os
import sys
import tempfile

sys.path.insert(1, f"{sys.path[0]}/../lib")

from kit import built, program
from runs import ended, trace_of, version_line

PROGRAM = program("l4sh")
VERSION_2 = b"l4trace 2\n"
OUTPUTS = (b"began ", b"turned ", b"ended ", b"overflowed ", b"aborted ", b"failed ")


def verdict(lines, room, header=b""):
    """The exit status of a check of these lines behind a header, and what it prints."""
    path = os.path.join(room, "trace")
    with open(path, "wb") as file:
        file.write(header + b"".join(lines))
    printed, status, _ = ended([PROGRAM, "check", path])
    return status, printed


def wrongs_of(lines, room, header=b""):
    """How many verdicts on these lines behind a header were looked at, and what is wrong with them."""
    wrongs = []
    if verdict(lines, room, header) != (0, b"yes\n"):
        wrongs.append("the trace is not judged yes")
    if verdict(lines[:-1] + [lines[-1][:-1]], room, header)[1] != verdict(lines[:-1], room, header)[1] + b"torn\n":
        wrongs.append("a torn last line is not told, or changes the verdict")
    places = [place for place, line in enumerate(lines[:-1]) if line.startswith(OUTPUTS)]
    for place in places:
        number = place + 1 + header.count(b"\n")
        wanted = (3, b"no %d %s" % (number, lines[place]))
        if verdict(lines[:place] + lines[place + 1 :], room, header) != wanted:
            wrongs.append(f"line {number} is left out, and not expected")
    return len(places) + 2, wrongs


def main():
    count = failed = 0
    built("l4sh")
    with tempfile.TemporaryDirectory() as room:
        for path in sys.argv[1:]:
            with open(path, "rb") as file:
                lines = trace_of(ended([PROGRAM, "run"], file.read())[0]).splitlines(keepends=True)
            if not lines:
                continue
            for header in sorted({version_line(b"".join(lines)), VERSION_2}):
                more, wrongs = wrongs_of(lines, room, header)
                count += more
                failed += len(wrongs)
                for wrong in wrongs:
                    print(f"{path}: {header.decode()}{wrong}")
    print(f"{count} verdicts, {failed} wrong")
    return 1 if failed or not count else 0


sys.exit(main())
