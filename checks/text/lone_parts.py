#!/usr/bin/env python3
"""checks/text/lone_parts.py [L4SH] [--histories N] [--seed N]: parts that stand alone, of random histories of servers and their clients.

Clients call servers, which answer, pass requests on, take their time and end; clients give up, are cancelled and end, too. Messages have words and strings, and
all timeouts of the manual. Each history is cut at some places, `l4sh part` writes the part that begins there, and for nearly all of these parts `l4sh check`
has to find a history that ends as they say: of a part that l4d wrote there is one. Of the kinds that are told one by one a history is always found.
The last line is `N parts, M without a history found`; the exit status is 1 where one of the known kinds is among these, or too many are.
"""

import argparse
import random
import sys
import tempfile

sys.path.insert(1, f"{sys.path[0]}/../lib")

from kit import ROOT
from runs import ended, trace_of

# of how many parts a history has to be found, at least
FOUND = 0.998
# How often a history is cut.
CUTS = 5
TIMEOUTS = ["0x0", "0x3e8", "0x3663", "0x2710000", "0x400", "0x4000000", "0x3e80000", "0x3e803e8", "0x4003663"]
ANSWER = "0x4000000"  # a send timeout of zero
PROPAGATED = 0x1000

# Parts of which none was found once: a client's timeout runs from when it is received, not from when it calls;
TIMED = """
open 1 1; open 2 1; open 3 1; call 1.1 nil any 0x0 0x0 nil - - -; at 1009; call 2.1 1.1 1.1 0x0 0x1 nil 0x2 - -; call 3.1 1.1 1.1 0x3e8 0x1 nil 0x2 - -
at 1505; take 1.1; call 1.1 2.1 any 0x4000000 0x1 nil 0x5 - -; at 2149; take 1.1; call 1.1 3.1 any 0x4000000 0x1 nil 0x5 - -
"""
# of all transfers the one of the earliest call goes on;
COPIED = """
open 1 1; open 2 1; open 3 1; open 5 1; open 6 1; call 3.1 2.1 2.1 0x0 0x80 nil - x61 8@0x0; call 2.1 nil any 0x0 0x0 nil - - 8@0x0; advance; take 2.1
call 6.1 2.1 2.1 0x0 0x80 nil - x62 8@0x0; call 5.1 1.1 1.1 0x0 0x80 nil - x63 8@0x0; call 1.1 nil any 0x0 0x0 nil - - 8@0x0; advance; take 1.1
call 2.1 3.1 any 0x4000000 0x80 nil - x65 8@0x0; advance; advance; take 3.1; take 2.1; call 2.1 6.1 any 0x4000000 0x80 nil - x68 8@0x0; advance; take 6.1
"""
# and a request with a string is passed on to who waits already.
PASSED_ON = """
open 1 1; open 2 1; open 3 1; open 4 1; open 5 1; call 1.1 nil any 0x0 0x0 nil - - 8@0x0; call 3.1 nil any 0x0 0x0 nil - - 8@0x0; at 1350
call 5.1 3.1 3.1 0x0 0x10080 nil - x616161 8@0x0; advance; call 4.1 3.1 3.1 0x0 0x30080 nil - x616161 8@0x0; take 3.1
call 3.1 1.1 any 0x0 0x1080 5.1 - x61 8@0x0; advance; advance
"""
KNOWN = {"timed": TIMED, "copied": COPIED, "passed on": PASSED_ON}


class Course:
    """The commands of a random history: threads 1 to `servers` answer, and the others ask. What cannot be done is refused, and leaves no entry."""

    def __init__(self, seed):
        self.random = random.Random(seed)
        self.threads = self.random.randint(4, 9)
        self.servers = range(1, 1 + self.random.randint(1, min(3, self.threads - 2)))
        self.clients = range(self.servers.stop, self.threads + 1)
        self.versions = dict.fromkeys(range(1, self.threads + 1), 1)
        self.requests = {server: [] for server in self.servers}
        self.moment = 0
        may = lambda part: self.random.random() < part
        self.has_strings, self.is_timed, self.has_ends, self.passes_on, self.cancels = may(0.6), may(0.7), may(0.5), may(0.3), may(0.4)
        self.buffers = "8@0x0" if self.has_strings else "-"

    def commands(self):
        yield from (f"open {number} 1" for number in self.versions)
        yield from (self.waits(server) for server in self.servers)
        for _ in range(self.random.choice([10, 20, 40, 80, 200])):
            yield from self.random.choices([self.time, self.ask, self.answer, self.end, self.cancel, self.take], [30, 25, 30, 4, 2, 9])[0]()
            if self.has_strings and self.random.random() < 0.7:
                yield "advance"

    def name(self, number):
        return f"{number}.{self.versions[number]}"

    def times(self, usual):
        return self.random.choice(TIMEOUTS) if self.is_timed and self.random.random() < 0.5 else usual

    def message(self, label, originator=None):
        flag, name = (PROPAGATED, originator) if originator else (0, "nil")
        if self.has_strings and self.random.random() < 0.5:
            return f"{label << 16 | flag | 0x80:#x} {name} - x{'61' * self.random.choice([1, 3])} {self.buffers}"
        words = [hex(self.random.randint(0, 9)) for _ in range(self.random.randint(0, 2))]
        return f"{label << 16 | flag | len(words):#x} {name} {','.join(words) or '-'} - {self.buffers}"

    def waits(self, server):
        return f"call {self.name(server)} nil any {self.times('0x0')} 0x0 nil - - {self.buffers}"

    def time(self):
        self.moment += self.random.randint(1, 700)
        yield f"at {self.moment}"

    def take(self):
        yield f"take {self.name(self.random.randint(1, self.threads))}"

    def ask(self):
        client, server = self.random.choice(self.clients), self.random.choice(self.servers)
        self.requests[server].append(client)
        awaited = self.name(server) if self.random.random() < 0.85 else self.random.choice(["any", "nil", self.name(self.random.choice(self.clients))])
        yield f"take {self.name(client)}"
        yield f"call {self.name(client)} {self.name(server)} {awaited} {self.times('0x0')} {self.message(self.random.randint(0, 3))}"

    def answer(self):
        server = self.random.choice(self.servers)
        client = self.requests[server].pop(0) if self.requests[server] else self.random.choice(self.clients)
        others = [it for it in self.servers if it != server]
        yield f"take {self.name(server)}"
        if self.passes_on and others and self.random.random() < 0.2:
            other = self.random.choice(others)
            self.requests[other].append(client)
            yield f"call {self.name(server)} {self.name(other)} any {self.times('0x0')} {self.message(0, self.name(client))}"
        else:
            yield f"call {self.name(server)} {self.name(client)} any {self.times(ANSWER)} {self.message(0)}"

    def end(self):
        if self.has_ends:
            number = self.random.randint(1, self.threads)
            yield f"broke {self.name(number)}"
            self.versions[number] += 1
            yield f"open {number} 1"
            if number in self.servers:
                yield self.waits(number)

    def cancel(self):
        if self.cancels:
            thread, other = self.random.sample(range(1, self.threads + 1), 2)
            yield f"exreg {self.name(thread)} {self.name(other)} 0x6"


def found_of(l4sh, file, lines):
    """Whether a history is found that ends as the part does which begins behind these lines; None where no part begins there."""
    begun, status, _ = ended([l4sh, "part", file("trace", b"".join(lines))])
    if status:
        return None
    printed, status, told = ended([l4sh, "check", file("part", begun)])
    assert printed.startswith(b"yes from ") or status == 6, (printed, status, told)
    return status != 6


def main():
    parser = argparse.ArgumentParser(description=__doc__.split("\n", 1)[0])
    parser.add_argument("l4sh", nargs="?", default=f"{ROOT}/l4sh")
    parser.add_argument("--histories", type=int, default=200)
    parser.add_argument("--seed", type=int, default=1)
    asked = parser.parse_args()
    with tempfile.TemporaryDirectory() as room:

        def file(name, contents):
            with open(f"{room}/{name}", "wb") as written:
                written.write(contents)
            return written.name

        def lines_of(commands):
            return trace_of(ended([asked.l4sh, "run"], "".join(f"{it}\n" for it in commands).encode())[0]).splitlines(keepends=True)

        faults = 0
        for name, text in KNOWN.items():
            if found_of(asked.l4sh, file, lines_of(it.strip() for it in text.replace("\n", ";").split(";") if it.strip())) is not True:
                faults += 1
                print(f"{name}: no history is found")
        parts = lost = 0
        for seed in range(asked.seed, asked.seed + asked.histories):
            lines = lines_of(Course(seed).commands())
            places = random.Random(seed).sample(range(len(lines)), min(CUTS - 1, len(lines)))
            for place in (len(lines), *places):
                found = found_of(asked.l4sh, file, lines[:place])
                if found is False:
                    lost += 1
                    print(f"seed {seed}, behind {place} lines: no history is found")
                parts += found is not None
    print(f"{parts} parts, {lost} without a history found")
    return 1 if faults or not parts or lost > (1 - FOUND) * parts else 0


if __name__ == "__main__":
    sys.exit(main())
