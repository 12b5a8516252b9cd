#!/usr/bin/env python3
"""Made traces, judged by the built l4sh and by the rules of rules.py.

    checks/text/made_traces.py [--seed N] SCRIPT..

Takes the traces of the scripts and of scripts made at random, of which both say `yes`. Of each it makes others: an entry
is left out, doubled, moved to another place, or changed in one field. They are written in both versions in turn, and in version 2 alone where a number above
255 is opened. Of each `l4sh check` has to say what the rules say: `yes`, or the first line that does not follow and what was expected
there. It builds l4sh first; the seed makes it repeat a run."""
import os
import random
import sys
import tempfile

sys.path.insert(1, f"{sys.path[0]}/../lib")

import rules
from kit import built, program
from protocol_tables import ENTRIES
from runs import ended, trace_of, version_line

PROGRAM = program("l4sh")
# so many scripts are made, of so many commands
SCRIPTS, COMMANDS = 120, 40
# so many traces are made of each, of each kind
MADE = 14
NUMBERS, SPACES = 4, 2
# so many kinds of entries there are, each of which some trace has
KINDS = len(ENTRIES)
PERIODS = [0, 0, 0, 0, 0, 0x400, 0x5, 0x14, 0x7FFF]
SIZES = [0, 1, 5, 5, 300, 65536, 65537, 131073]
ROOMS = ["1@0x10", "5@0x20", "3@0x0+2@0x40", "65537@0x0", "131073@0x7", "70000@0x0+70000@0x100000", "200000@0x0"]


class Threads:
    """The threads of a script that is made: the last version of each number, and which are live."""

    def __init__(self, some):
        self.some, self.versions, self.live = some, {}, set()

    def any(self):
        """Mostly the thread that a number has now, sometimes another version."""
        number = self.some.randint(1, NUMBERS)
        version = self.versions.get(number, 1)
        return f"{number}.{version if self.some.random() < 0.96 else version + 1}"

    def open(self):
        number = self.some.randint(1, NUMBERS)
        if number not in self.live:
            self.live.add(number)
            self.versions[number] = self.versions.get(number, 0) + 1
        return f"open {number} {self.some.randint(1, SPACES)}"

    def end(self):
        number = self.some.randint(1, NUMBERS)
        self.live.discard(number)
        return f"broke {number}.{self.versions.get(number, 1)}"


def made_call(some, threads):
    """The fields of a call that a thread might make: a receive, a send, or both."""
    sends, receives = some.choice([(False, True), (False, True), (True, False), (True, True), (True, True)])
    if some.random() < 0.02:
        sends = receives = False
    thread, partner = threads.any(), threads.any()
    if partner == thread:
        partner = threads.any()
    to = some.choice([partner] * 40 + ["any", "local", "7.1", "0x40"]) if sends else "nil"
    source = some.choice([threads.any()] * 2 + ["any"] * 3 + ["local"]) if receives else "nil"
    send = some.choice(PERIODS) if sends else 0
    receive = some.choice(PERIODS) if receives else 0
    words = [f"{some.randrange(1 << 16):#x}" for _ in range(some.choice([0, 1, 1, 3]))] if sends else []
    strings = [some.choice(SIZES) for _ in range(some.choice([0, 0, 1, 2]))] if sends else []
    is_propagated = sends and some.random() < 0.3
    tag = len(words) | 2 * len(strings) << 6 | is_propagated << 12 | (some.randrange(9) << 16 if sends else 0)
    rooms = ",".join(some.choice(ROOMS) for _ in range(some.choice([1, 2, 3])))
    texts = ["x" + f"{some.randrange(256):02x}" * size for size in strings]
    return " ".join(
        [
            thread,
            to,
            source,
            f"{send << 16 | receive:#x}",
            f"{tag:#x}",
            threads.any() if is_propagated else "nil",
            ",".join(words) or "-",
            ",".join(texts) or "-",
            some.choice(["-", "s", rooms, rooms, rooms, rooms]) if receives else "-",
        ]
    )


def forwarded(some, threads):
    """A call that its server hands on to another one in the caller's name."""
    client, server, other = some.sample([f"{number}.{version}" for number, version in threads.versions.items()], 3)
    return [
        f"call {server} nil any 0x0 0x0 nil - - -",
        f"call {client} {server} {server} 0x0 0x1 nil 0x7 - -",
        f"take {server}",
        f"call {other} nil any 0x0 0x0 nil - - -",
        f"call {server} {other} nil 0x0 0x1001 {client} 0x8 - -",
        f"call {other} {client} nil 0x0 0x1 nil 0x9 - -",
    ]


def stopped(some, threads):
    """A transfer that another thread stops, or one of the two breaks."""
    sender, receiver, other = some.sample([f"{number}.{version}" for number, version in threads.versions.items()], 3)
    end = some.choice([f"exreg {other} {sender} 0x4", f"exreg {other} {receiver} 0x2", f"broke {sender}", f"broke {receiver}"])
    if end.startswith("broke"):
        threads.live.discard(int(end[6:].split(".")[0]))
    return [
        f"call {receiver} nil any 0x0 0x0 nil - - 131073@0x0",
        f"call {sender} {receiver} nil 0x0 0x80 nil - x{'07' * 131073} -",
        *["advance"] * some.choice([0, 1, 2]),
        end,
    ]


def made_script(some):
    threads = Threads(some)
    lines = [threads.open() for _ in range(2 * NUMBERS)]
    moment = 0
    for _ in range(COMMANDS):
        chance = some.random()
        if chance < 0.04 and len(threads.versions) > 2:
            lines.extend(some.choice([forwarded, stopped])(some, threads))
        elif chance < 0.70:
            lines.append("call " + made_call(some, threads))
        elif chance < 0.76:
            lines.append(f"exreg {threads.any()} {threads.any()} {some.choice([2, 4, 6, 0]):#x}")
        elif chance < 0.81:
            moment += some.choice([1, 5, 20])
            lines.append(f"at {moment}")
        elif chance < 0.92:
            lines.extend(["advance"] * some.choice([1, 1, 4]))
        elif chance < 0.95:
            lines.append(threads.end())
        else:
            lines.append(threads.open())
        lines.extend(f"take {number}.{version}" for number, version in threads.versions.items())
    return "\n".join(lines).encode()


def changed(some, line, lines):
    """The line with another value in one field, still well formed; None where there is none."""
    fields = line.split(" ")
    places = range(1, 6) if fields[0] == "called" else range(1, len(fields))
    place = some.choice(places)
    others = {other.split(" ")[place] for other in lines if other.split(" ")[0] == fields[0]} | nearby(some, fields, place)
    others = sorted(other for other in others if other != fields[place] and is_kept(fields, place, other))
    if not others:
        return None
    fields[place] = some.choice(others)
    return " ".join(fields)


def nearby(some, fields, place):
    """Values beside the one of a field."""
    old, kind = fields[place], fields[0]
    if old.isdecimal():
        return {str(int(old) + 1), str(max(0, int(old) - 1)), str(int(old) + 65536)}
    if kind == "failed":
        return {f"{code:#x}" for code in (2, 3, 4, 5, 6, 7, 0xE, 0xF, 0x10000E, int(old, 16) ^ 1)}
    if kind == "exreg" and place == 3:
        return {"0x0", "0x2", "0x4", "0x6"}
    if kind == "called" and place == 5:
        return {f"{some.choice(PERIODS) << 16 | some.choice(PERIODS):#x}"}
    return {f"{some.randint(1, NUMBERS)}.{some.randint(1, 3)}", "7.1", "256.1"} | ({"any", "local"} if kind == "called" else set())


def is_kept(fields, place, other):
    """Whether a call with this value stays in normal form: its phases are the same, and an absent one has no timeout. Any
    other entry may have any value of its kind; in a trace of version 1, as these are, an opened thread's number is at most 255."""
    if fields[0] == "opened" and place == 1:
        return "." in other and int(other.split(".")[0]) <= 255
    if fields[0] != "called":
        return True
    if place in (3, 4):
        return fields[place] != "nil" and other != "nil"
    if place == 5:
        timeouts = int(other, 16)
        return (fields[3] != "nil" or timeouts >> 16 == 0) and (fields[4] != "nil" or timeouts & 0xFFFF == 0)
    return True


def made_traces(some, lines):
    """Traces that differ from a good one in one entry: each with the kind, and how many of its lines are as they were."""
    for _ in range(MADE):
        place = some.randrange(len(lines))
        yield "dropped", place, lines[:place] + lines[place + 1 :]
        yield "doubled", place + 1, lines[: place + 1] + lines[place:]
        target = some.randrange(len(lines))
        rest = lines[:place] + lines[place + 1 :]
        yield "moved", min(place, target), rest[:target] + [lines[place]] + rest[target:]
        other = changed(some, lines[place], lines)
        if other is not None:
            yield "changed", place, lines[:place] + [other] + lines[place + 1 :]


def told(header, lines, path):
    """What l4sh check prints of these lines behind a header, and its status."""
    with open(path, "w") as file:
        file.write("".join(line + "\n" for line in header + lines))
    printed, status, _ = ended([PROGRAM, "check", path])
    return status, printed.decode()


def wanted(header, lines, good):
    """What it has to print: of the lines behind the header the first so many are known to be good."""
    found = rules.verdict(lines, good)
    if found is None:
        return 0, "yes\n"
    number, expected = found
    return 3, f"no {number + len(header)} {expected}\n"


def main(words):
    seed = int(words[1]) if words[:1] == ["--seed"] else random.randrange(1 << 32)
    scripts = words[2:] if words[:1] == ["--seed"] else words
    built("l4sh")
    some = random.Random(seed)
    kinds = dict.fromkeys(["whole", "dropped", "doubled", "moved", "changed"], 0)
    yes = failed = 0
    outputs = {}
    with tempfile.TemporaryDirectory() as room:
        path = os.path.join(room, "trace")
        given = [open(script, "rb").read() for script in scripts] + [made_script(some) for _ in range(SCRIPTS)]
        for script in given:
            lines = trace_of(ended([PROGRAM, "run"], script)[0]).decode().splitlines()
            if not lines:
                continue
            for line in lines:
                outputs[line.split(" ")[0]] = outputs.get(line.split(" ")[0], 0) + 1
            for kind, good, made in [("whole", 0, lines), *made_traces(some, lines)]:
                kinds[kind] += 1
                needs_2 = version_line("".join(f"{line}\n" for line in made).encode())
                header = ["l4trace 2"] if needs_2 or sum(kinds.values()) % 2 else []
                said, right = told(header, made, path), wanted(header, made, good)
                yes += right[0] == 0
                if said != right or kind == "whole" and right[0] != 0:
                    failed += 1
                    print(f"{kind} at line {good + 1}: said {said}, and the rules {right}")
    print(", ".join(f"{count} {kind}" for kind, count in kinds.items()) + f"; {yes} of them legal, {failed} wrong; seed {seed}")
    print("entries of the good traces: " + ", ".join(f"{count} {kind}" for kind, count in sorted(outputs.items())))
    return 1 if failed or len(outputs) < KINDS else 0


sys.exit(main(sys.argv[1:]))
