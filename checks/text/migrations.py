#!/usr/bin/env python3
"""checks/text/migrations.py [L4SH]: traces of version 1, and what `l4sh migrate` makes of them.

The traces are those that lie in checks/scripts for the commands that read one, those of the scripts in checks/scripts/run and of the examples, and some that
were made up here. Each is migrated. Where it has a bad line no new file may be there, and one that was there is as it was. Else the new one is the line of version
2 and the whole lines of the old one; migrated once more it is the same, and so it is where both are one file. Each command that reads a trace says of the new one what it says of
the old one, with each number of a line one greater.

And what becomes of files that cannot be read or written, and with which mode a new one is made. The last line is `N passed, M failed`."""

import glob
import os
import re
import stat
import subprocess
import sys
import tempfile

sys.path.insert(1, f"{sys.path[0]}/../lib")

from kit import ROOT
from runs import OF_A_FILE, ended, stored, trace_of

HERE = f"{ROOT}/checks"
HEADER = b"l4trace 2\n"
READERS = (["check"], ["state"], ["state", "--at", "3"], ["script"], ["count"], ["count", "--json"], ["follow"], ["chart", "--text"],
           ["chart", "--text", "--to", "3"], ["chart", "--text", "--from", "1000"])
# the places where a line of a trace is numbered: a verdict, a bad line, a line that does not follow
NUMBERED = re.compile(rb"^(no |l4sh: bad line |l4sh: line )(\d+)", re.M)
MADE = {
    "a number above 255": b"opened 1.1 1\nopened 256.1 1\n",
    "the greatest number of version 1": b"opened 255.1 1\n",
    "ids that name no thread": b"opened any 1\n",
    "an illegal trace": b"opened 1.1 1\nbroke 9.1\n",
    "a version line further down": b"opened 1.1 1\nl4trace 2\n",
    "a torn version line": b"l4trace 2",
    "a torn line of another version": b"l4trace 3",
    "an empty line": b"opened 1.1 1\n\n",
}
OTHER_VERSIONS = (b"l4trace 1\n", b"l4trace 3\nopened 1.1 1\n", b"l4tracer\n", b"l4trace\n", b"l4trace 2 \nopened 1.1 1\n", b"l4trace 2\r\n")


def written(path, content):
    with open(path, "wb") as file:
        file.write(content)


def content_of(path):
    with open(path, "rb") as file:
        return file.read()


def migrated(l4sh, room, trace, before=None):
    """How a migration of these bytes ends, and what stands in the new file afterwards; None where there is none."""
    old, new = f"{room}/old", f"{room}/new"
    written(old, trace)
    if os.path.exists(new):
        os.remove(new)
    if before is not None:
        written(new, before)
    there = ended([l4sh, "migrate", old, new])
    return there, content_of(new) if os.path.exists(new) else None


def moved(told):
    """The same words, with each number of a line one greater."""
    return NUMBERED.sub(lambda found: found[1] + b"%d" % (int(found[2]) + 1), told)


def as_one_more(there):
    printed, status, told = there
    return moved(printed), status, moved(told)


def faults_of_trace(l4sh, room, trace):
    """What is wrong with the migration of a trace of version 1."""
    checked = ended([l4sh, "check", "-"], trace)
    there, new = migrated(l4sh, room, trace)
    if checked[1] == 2:
        if there != checked or new is not None:
            yield f"it ends so: {there}, and a new file is {new}"
        if migrated(l4sh, room, trace, b"as it was")[1] != b"as it was":
            yield "a new file that was there is changed"
        return
    whole, _, torn = trace.rpartition(b"\n")
    lines = HEADER + (whole + b"\n" if whole else b"")
    if there != (b"torn\n" if torn else b"", 0, b"") or new != lines:
        yield f"it ends so: {there}, and the new trace is {new[:400]}"
        return
    if migrated(l4sh, room, trace, b"as it was\n" * 1000)[1] != lines:
        yield "what was there before is not gone"
    if migrated(l4sh, room, lines) != ((b"", 0, b""), lines):
        yield "migrated once more it is another one"
    one = f"{room}/one"
    written(one, trace)
    if ended([l4sh, "migrate", one, one]) != there or content_of(one) != lines:
        yield "migrated into its own file it is another one"
    if ended([l4sh, "migrate", "-", one], trace) != there or content_of(one) != lines:
        yield "from standard input it is another one"
    for words in READERS:
        old = ended([l4sh, *words, "-"], trace[: len(trace) - len(torn)])
        if ended([l4sh, *words, "-"], lines) != as_one_more(old):
            yield f"{' '.join(words)} says {ended([l4sh, *words, '-'], lines)} of it, and of the old one {old}"


def faults_of_version(l4sh, room, trace):
    """What is wrong with what is said of a trace of another version."""
    wanted = (b"", 2, b"l4sh: unknown version\n")
    if migrated(l4sh, room, trace) != (wanted, None):
        yield f"it is migrated: {migrated(l4sh, room, trace)}"
    for words in READERS:
        if ended([l4sh, *words, "-"], trace) != wanted:
            yield f"{' '.join(words)} ends so: {ended([l4sh, *words, '-'], trace)}"


def faults_of_files(l4sh, room, _):
    """What is wrong where a file cannot be read or written."""
    old, none = f"{room}/old", f"{room}/none/new"
    written(old, b"opened 1.1 1\n")
    failed = b"l4sh: device failed\n"
    for place, told in ((none, f"{none}: No such file".encode()), (room, f"{room}: Is a directory".encode())):
        printed, status, said = ended([l4sh, "migrate", old, place])
        if (printed, status) != (b"", 1) or not said.startswith(failed + told):
            yield f"into {place} it ends so: {printed, status, said}"
    for place in (f"{room}/missing", room):
        printed, status, said = ended([l4sh, "migrate", place, f"{room}/made"])
        if (printed, status) != (b"", 1) or not said.startswith(failed + place.encode()) or os.path.exists(f"{room}/made"):
            yield f"of {place} it ends so: {printed, status, said}"
    full = failed + b"/dev/full: No space left on device (os error 28)\n"
    if os.path.exists("/dev/full") and ended([l4sh, "migrate", old, "/dev/full"]) != (b"", 1, full):
        yield f"into a full device it ends so: {ended([l4sh, 'migrate', old, '/dev/full'])}"
    there = subprocess.run([l4sh, "migrate", old, "-"], cwd=room, capture_output=True)
    told = b"l4sh: bad word\nNEW: wanted is a file, which is written; not -, and ./- names one of that name\n"
    if (there.returncode, there.stdout, there.stderr) != (2, b"", told) or os.path.exists(f"{room}/-"):
        yield f"into - it ends so: {there}"
    if subprocess.run([l4sh, "migrate", old, "./-"], cwd=room).returncode or not os.path.exists(f"{room}/-"):
        yield "into ./- it does not go"
    mask = os.umask(0)
    try:
        ended([l4sh, "migrate", old, f"{room}/made"])
    finally:
        os.umask(mask)
    if stat.S_IMODE(os.stat(f"{room}/made").st_mode) != 0o600:
        yield "a new file is not its owner's alone"


def traces(l4sh):
    """Traces of version 1, each with a name."""
    for command in OF_A_FILE:
        for path in sorted(glob.glob(f"{HERE}/scripts/{command}/*.in")):
            trace = stored(path)
            if not trace.startswith(b"l4trace"):
                yield path.removeprefix(f"{HERE}/"), trace
    for path in sorted(glob.glob(f"{HERE}/scripts/run/*.in") + glob.glob(f"{ROOT}/examples/*.l4")):
        yield os.path.basename(path), trace_of(ended([l4sh, "run"], stored(path))[0])
    yield from MADE.items()


def main():
    l4sh = os.path.abspath(sys.argv[1]) if len(sys.argv) > 1 else f"{ROOT}/l4sh"
    looks = [(name, faults_of_trace, trace) for name, trace in traces(l4sh)]
    found = sum(name.startswith("scripts/") for name, _, _ in looks)
    looks += [(repr(trace), faults_of_version, trace) for trace in OTHER_VERSIONS]
    looks += [("files", faults_of_files, None)]
    failed = 0
    for name, faults_of, trace in looks:
        with tempfile.TemporaryDirectory() as room:
            faults = list(faults_of(l4sh, room, trace))
        failed += bool(faults)
        for fault in faults:
            print(f"{name}: {fault}"[:900])
    print(f"{len(looks) - failed} passed, {failed} failed")
    return 1 if failed or not found else 0


if __name__ == "__main__":
    sys.exit(main())
