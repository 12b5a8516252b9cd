#!/usr/bin/env python3
"""checks/text/parts.py [L4SH]: histories that stand in several files, made right and made wrong.

The histories are those of the scripts in checks/scripts/run and of the examples, cut into two and three files: `l4sh part` writes where each further one
begins, with the outcomes taken or not. Of the files of one history `l4sh check` has to say `yes`. Then one line at a time of a base, or of what is kept, is
changed, left out or put twice; the files come in another order, one comes twice, one is empty, torn, or no part; and an entry does not follow. Each time the
file and the line have to be told that are at fault, and for an entry what the whole trace is told. For nearly all parts that stand alone a history is found that ends
as they say. Then `state` and `follow` tell of such a part what they tell of the whole trace there, and `l4sh part` writes behind it what it writes
behind the files of the whole.

Of the files of one history `state`, `count`, `chart`, `follow` and `script` print what they print of the trace in one file; of files that are no history
nothing, and the words of `check`. The last line is `N passed, M failed`."""

import glob
import os
import re
import sys
import tempfile

sys.path.insert(1, f"{sys.path[0]}/../lib")

from kit import ROOT
from runs import ended, stored, trace_of, version_line

HERE = f"{ROOT}/checks"
NUMBERED = re.compile(rb"\d+")
COUNT = re.compile(rb"no 1 \d+ (number|over) ")
READERS = (["state"], ["state", "--at", "5"], ["count"], ["count", "--json"], ["chart", "--text"], ["chart", "--from", "3", "--html"], ["follow"],
           ["follow", "--failures"], ["script"])
# of how many parts that stand alone a history has to be found, at least
FOUND = 0.999
# how many of the histories are cut at each of their places, and how many places of the others are tried
PLACES = 12


class Files:
    """The files of one history, in a folder of their own."""

    def __init__(self, l4sh, room):
        self.l4sh, self.room = l4sh, room

    def put(self, contents):
        """Writes these, oldest first, and says their names."""
        names = [f"{self.room}/{place}" for place in range(len(contents))]
        for name, content in zip(names, contents):
            with open(name, "wb") as file:
                file.write(content)
        return names

    def check(self, *contents):
        """What `check` prints of these, with each name as its place; its status; and what it says on standard error."""
        printed, status, told = ended([self.l4sh, "check", *self.put(contents)])
        return printed.replace(self.room.encode() + b"/", b""), status, told

    def read(self, words, *contents):
        """The same of another command."""
        printed, status, told = ended([self.l4sh, *words, *self.put(contents)])
        return printed, status, told.replace(self.room.encode() + b"/", b"")

    def part(self, *contents, untaken=False):
        """The part that begins behind these; None where none does."""
        printed, status, _ = ended([self.l4sh, "part", *(["--untaken"] if untaken else []), *self.put(contents)])
        return printed if status == 0 else None


def histories(l4sh):
    """Legal histories, each as its header and its lines."""
    scripts = sorted(glob.glob(f"{HERE}/scripts/run/*.in") + glob.glob(f"{ROOT}/examples/*.l4"))
    for script in scripts:
        trace = trace_of(ended([l4sh, "run"], stored(script))[0])
        header = version_line(trace)
        if ended([l4sh, "check", "-"], header + trace)[0] == b"yes\n":
            yield os.path.basename(script), header, trace.splitlines(keepends=True)


def places_of(count):
    """Some places from 0 to that of the end."""
    step = max(1, count // PLACES)
    return sorted({*range(0, count + 1, step), count})


def faults_of_cuts(files, header, lines):
    """What is wrong with this history in two files and in three."""
    whole = len(lines)
    for place in places_of(whole):
        first = header + b"".join(lines[:place])
        for untaken in (False, True):
            begun = files.part(first, untaken=untaken)
            if begun is None:
                continue
            second = begun + b"".join(lines[place:])
            there = files.check(first, second)
            if there != (b"yes\n", 0, b""):
                yield f"cut at {place}, {'untaken' if untaken else 'taken'}: {there}"
            later = (place + whole) // 2
            between = begun + b"".join(lines[place:later])
            more = files.part(first, between)
            if more is not None:
                there = files.check(first, between, more + b"".join(lines[later:]))
                if there != (b"yes\n", 0, b""):
                    yield f"cut at {place} and {later}: {there}"


def faults_of_parts_alone(files, header, lines):
    """What is wrong with the parts that begin at the places of this history, where they stand alone; behind it whether a history was found each time."""
    for place in places_of(len(lines)):
        for untaken in (False, True):
            begun = files.part(header + b"".join(lines[:place]), untaken=untaken)
            if begun is None:
                continue
            printed, status, told = files.check(begun + b"".join(lines[place:]))
            found = (printed, status, told) == (b"yes from 0\n", 0, b"")
            if not found and ((printed, status) != (b"", 6) or b"no history was found" not in told):
                yield False, f"alone from {place}: {(printed, status, told)}"
            yield found, ""
            if found:
                yield from ((True, f"alone from {place}: {it}") for it in faults_of_begun(files, header, lines, place, begun))


def faults_of_begun(files, header, lines, place, begun):
    """What the readers tell of a part that stands alone, where that is something else than they tell of the whole trace."""
    whole, alone = header + b"".join(lines), begun + b"".join(lines[place:])
    wanted, told = files.read(["state"], whole), files.read(["state"], alone)
    # (what was dropped before a part is not told by it)
    if wanted != told and b"dropped" not in wanted[0]:
        yield f"state tells {told}, wanted is {wanted}"
    wanted, told = files.read(["follow"], whole), files.read(["follow"], alone)
    behind = [(int(number) - place, text) for number, _, text in (it.partition(b"  ") for it in wanted[0].splitlines()) if int(number) > place]
    if told[1:] != (0, b"") or [(int(number), text) for number, _, text in (it.partition(b"  ") for it in told[0].splitlines())] != behind:
        yield f"follow tells {told}, wanted is {behind}"
    wanted, told = files.part(header + b"".join(lines[:place]), alone), files.part(alone)
    if wanted != told:
        yield f"the part behind it is {told}, wanted is {wanted}"


def with_greater(line):
    """The line with its last number one greater."""
    found = list(NUMBERED.finditer(line))[-1]
    return line[: found.start()] + b"%d" % (int(found[0]) + 1) + line[found.end() :]


def faults_of_bases(files, first, begun, rest):
    """What is told of a base of which one line is another."""
    lines = begun.splitlines(keepends=True)
    kept = lines.index(b"kept\n")
    for place in range(1, len(lines) - 1):
        line = lines[place]
        changes = []
        if place < kept and NUMBERED.search(line):
            changes.append(("a greater number", lines[:place] + [with_greater(line)] + lines[place + 1 :]))
        if place > 3 and line != b"kept\n":
            changes.append(("left out", lines[:place] + lines[place + 1 :]))
        if place > kept:
            changes.append(("twice", lines[:place] + [line] + lines[place:]))
        for what, changed in changes:
            printed, status, told = files.check(first, b"".join(changed) + rest)
            wanted = b"no 1 %d " % (place + (2 if what == "twice" else 1))
            as_wanted = status == 3 and printed.startswith(wanted)
            # a line that has no place there is bad, or a count that no rule asks for
            if what == "a greater number" and line.startswith(b"number "):
                as_wanted = status in (2, 3)
            # which outcomes are still to be taken is read off what is kept, so without it a count before it may be the first that does not agree
            if what == "left out" and place > kept:
                as_wanted = as_wanted or status == 3 and bool(COUNT.match(printed))
            if not as_wanted:
                yield f"line {place + 1} {what}: {(printed, status, told)}, wanted is {wanted}"


def faults_of_entries(files, header, lines, place, begun, first):
    """What is told where an entry of the second file is left out."""
    for gone in range(place, len(lines) - 1):
        left = lines[:gone] + lines[gone + 1 :]
        printed, status, _ = ended([files.l4sh, "check", "-"], header + b"".join(left))
        before = len(begun.splitlines()) - place - len(header.splitlines())
        if status == 3:
            number = int(printed.split()[1])
            printed = b"no 1 %d %b" % (number + before, printed.split(b" ", 2)[2])
        there = files.check(first, begun + b"".join(left[place:]))
        if there[:2] != (printed, status):
            yield f"entry {gone + 1} left out: {there}, wanted is {(printed, status)}"


def faults_of_orders(files, first, second):
    """What is told of files in another order, and of what is no part."""
    rows = [
        ("the other order", (second, first), b"", 2, b"bad line 1"),
        ("a part and then no part", (second, b"hello\n"), b"", 2, b"it is no part"),
        ("a part alone with another moment", (second.replace(b"moment ", b"moment 1", 1),), b"", 6, b"no history was found that ends as"),
        ("the trace twice", (first, first), b"", 2, b"it is no part"),
        ("an empty file", (first, b""), b"", 2, b"ends before the line since"),
        ("an empty trace before a part", (b"", second), b"no 1 ", 3, b""),
        ("a file that is no trace", (b"hello\n", second), b"", 2, b"bad line 1"),
        ("an unfinished part", (first, second[: second.index(b"since")]), b"", 2, b"ends before the line since"),
        ("a torn file before another", (first + b"o", second), b"", 5, b"torn"),
        ("a torn last file", (first, second + b"o"), b"yes\ntorn\n", 0, b""),
        ("a part twice", (first, second, second), b"no 2 ", 3, b""),
        ("another version of a part", (first, second.replace(b"l4part 1", b"l4part 2", 1)), b"", 2, b"bad line 1"),
        ("a line that is none", (first, second.replace(b"kept\n", b"kept\nhello\n", 1)), b"", 2, b"bad line"),
    ]
    for name, contents, printed, status, told in rows:
        there = files.check(*contents)
        if there[1] != status or not there[0].startswith(printed) or (not printed and there[0]) or told not in there[2]:
            yield f"{name}: {there}"


def faults_of_readers(files, whole, contents):
    """What another command tells of these files, and not of the trace that is whole."""
    for words in READERS:
        alone, there = files.read(words, whole), files.read(words, *contents)
        if there != alone:
            yield f"{words}: {there}, wanted is {alone}"


def faults_of_bad_files(files, first, second):
    """What another command tells of files that are no history, or torn."""
    verdict = files.check(first, second, second)[0].rstrip(b"\n")
    last = second.count(b"\n")
    for words in READERS:
        whole = files.read(words, first, second)
        if whole[1] != 0:
            # an option that asks for more entries than there are
            continue
        rows = [
            ("a part twice", (first, second, second), (b"", 3, b"l4sh: " + verdict + b"\n")),
            ("a torn last file", (first, second + b"o"), (whole[0], 5, b"l4sh: torn: what came after line %d of 1 is not here\n" % last)),
            ("a torn file before another", (first + b"o", second), (b"", 5, b"l4sh: torn: the file before 1 ends with a line that lacks its newline\n")),
        ]
        for name, contents, wanted in rows:
            there = files.read(words, *contents)
            if there != wanted:
                yield f"{words}: {name}: {there}, wanted is {wanted}"
        printed, status, told = files.read(words, second)
        # (what these tell of a part that stands alone: faults_of_begun)
        is_told = status == 0 and not told or (printed, status) == (b"", 6) and b"no history was found" in told
        is_refused = (printed, status) == (b"", 2) and b"name the files before it" in told and b"still take it" in told
        if not (is_told if words[0] in ("state", "follow") else is_refused):
            yield f"{words}: a part alone: {(printed, status, told)}"


# a string whose receiving call is over, and not kept, while a thread beside the receiver is free
MOVED = (b"l4trace 2\nopened 1.1 1\nopened 2.1 1\nopened 3.1 1\n"
         b"called 1 2.1 nil any 0x0 0x0 nil - - 16@0x1000\n"
         b"called 2 1.1 2.1 2.1 0x0 0x80 nil - x61626364 -\nbegan 2 1\n"
         b"moved 2 4\nended 2 1\n"
         b"called 3 2.1 1.1 any 0x0 0x0 nil - - 16@0x1000\nbegan 3 2\nended 3 2\n")


def faults_of_moved(files):
    """What is wrong with the part that begins behind that string, where it stands alone."""
    begun = files.part(MOVED)
    told = begun and files.check(begun)
    if told != (b"yes from 0\n", 0, b""):
        yield f"alone behind a string: {told}"


# entries whose threads stand in one space, and behind them a message whose p is permitted
SPACES = (b"l4trace 2\nopened 1.1 1\nopened 2.1 1\nopened 3.1 1\n"
          b"called 1 3.1 nil any 0x0 0x0 nil - - -\ncalled 2 1.1 nil 2.1 0x0 0x0 nil - - -\n")
SHOWN = b"called 3 2.1 3.1 nil 0x0 0x1000 1.1 - - -\nbegan 3 1\nturned 2 3.1\nended 3 1\n"


def faults_of_shown(files):
    """What state tells of such a message behind a part alone, where that is something else than it tells of the whole trace."""
    begun = files.part(SPACES)
    wanted, told = files.read(["state"], SPACES + SHOWN), begun and files.read(["state"], begun + SHOWN)
    if not begun or wanted != told or b"dropped" in wanted[0]:
        yield f"state of a message whose p is permitted: {told}, wanted is {wanted}"


# what each script leaves when it ends, and whether its outcomes count as untaken there
IDLE = (
    ("a client that was answered twice, and then calls nobody", False, """
        open 1 1; open 2 1; wait 1; ask 2 1; answer 1 2; ask 2 1; answer 1 2; call 2.1 9.1 nil 0x0 0x0 nil - - -"""),
    ("a client that was there before its server waited", False, "open 1 1; open 2 1; ask 2 1; wait 1; answer 1 2; take 2.1"),
    ("a message that the call before the last one received", True, """
        open 1 1; open 2 1; open 3 1; wait 1; ask 3 1; answer 1 3; ask 2 1; answer 1 2; call 2.1 9.1 nil 0x0 0x0 nil - - -"""),
    ("a client that was answered between two others", True, """
        open 1 1; open 2 1; open 3 1; open 4 1; wait 1; ask 2 1; ask 3 1; ask 4 1; answer 1 2; answer 1 3; answer 1 4; call 3.1 9.1 nil 0x0 0x0 nil - - -"""),
    ("a call that was too late for a thread that has ended since", True, "open 1 1; open 2 1; call 1.1 2.1 nil 0x4000000 0x0 nil - - -; broke 2.1"),
    ("a call that was passed on, and whose two servers wait again", False, """
        open 1 1; open 2 1; open 3 1; wait 2; wait 3; ask 1 2; call 2.1 3.1 nil 0x0 0x1000 1.1 - - -; wait 3; wait 2"""),
    ("a call that was passed on twice", False, """
        open 1 1; open 2 1; open 3 1; open 4 1; wait 2; wait 3; wait 4; ask 1 2; call 2.1 3.1 nil 0x0 0x1000 1.1 - - -;
        call 3.1 4.1 nil 0x0 0x1000 1.1 - - -; wait 4; wait 3; wait 2"""),
    ("a call that failed, since its partner had ended, which had made calls", True, """
        open 1 1; open 2 1; call 2.1 9.1 nil 0x0 0x0 nil - - -; broke 2.1; call 1.1 nil 2.1 0x0 0x0 nil - - -"""),
    ("a message whose p was dropped, since its originator had ended, which had made calls", True, """
        open 1 1; open 2 1; open 3 1; call 3.1 9.1 nil 0x0 0x0 nil - - -; broke 3.1; wait 1; call 2.1 1.1 nil 0x0 0x1000 3.1 - - -"""),
)


def commands_of(script):
    """The commands of such a script: whoever calls takes its outcome before."""
    for words in (it.split() for it in script.split(";")):
        me, partner = f"{words[1]}.1", f"{words[-1]}.1"
        calls = {"wait": (me, "nil", "any"), "ask": (me, partner, partner), "answer": (me, partner, "any")}
        if words[0] in calls:
            yield f"take {me}"
            words = ["call", *calls[words[0]], "0x4000000" if words[0] == "answer" else "0x0", "0x0", "nil", "-", "-", "-"]
        elif words[0] == "call":
            yield f"take {words[1]}"
        yield " ".join(words)


def faults_of_idle(files):
    """What is wrong with the part that begins behind such a script, where it stands alone."""
    for name, untaken, script in IDLE:
        trace = trace_of(ended([files.l4sh, "run"], "".join(f"{it}\n" for it in commands_of(script)).encode())[0])
        begun = files.part(trace, untaken=untaken)
        told = begun and files.check(begun)
        if told != (b"yes from 0\n", 0, b""):
            yield f"alone behind {name}: {told}"


def main():
    l4sh = sys.argv[1] if len(sys.argv) > 1 else f"{ROOT}/l4sh"
    passed = failed = alone = found = 0
    with tempfile.TemporaryDirectory() as room:
        files = Files(l4sh, room)
        for name, header, lines in histories(l4sh):
            faults = list(faults_of_cuts(files, header, lines))
            place = len(lines) // 2
            first = header + b"".join(lines[:place])
            begun = files.part(first, untaken=True)
            if begun is not None and len(lines) < 60:
                rest = b"".join(lines[place:])
                faults += faults_of_readers(files, header + b"".join(lines), (first, begun + rest))
                faults += faults_of_bases(files, first, begun, rest)
                faults += faults_of_entries(files, header, lines, place, begun, first)
                if b"number" in begun and rest:
                    faults += faults_of_orders(files, first, begun + rest)
                    faults += faults_of_bad_files(files, first, begun + rest)
            for is_found, fault in faults_of_parts_alone(files, header, lines):
                faults += [fault] if fault else []
                alone, found = alone + 1, found + is_found
            for fault in faults[:5]:
                print(f"{name}: {fault}")
            passed, failed = (passed, failed + 1) if faults else (passed + 1, failed)
        for fault in [*faults_of_moved(files), *faults_of_shown(files), *faults_of_idle(files)]:
            print(fault)
            failed += 1
    if found < FOUND * alone:
        failed += 1
    print(f"of {alone} parts that stand alone a history was found for {found}")
    print(f"{passed} passed, {failed} failed")
    return 1 if failed else 0


if __name__ == "__main__":
    sys.exit(main())
