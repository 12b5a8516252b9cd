#!/usr/bin/env python3
"""Runs the built l4sh wire over scripts with each of its growths of memory refused in turn, and looks at what comes of it.

    checks/sweeps/refuse_wire.py [--every N] [SCRIPT..]

Without a script it takes those of checks/scripts/wire. With --every N it refuses each N-th growth, of each script others.
With one growth refused, a run may
- print the same, where the program can do without;
- end with `l4sh: no memory` and status 1, and what it printed is then a front of what it prints otherwise;
- refuse a connection with `! F14`, which then uses up no number;
- put out REFUSED K4 in an answer's place: what was printed before is as otherwise;
- put out FAULT F14 as the last frame of a connection, which ends by that command; what was printed before is as otherwise.
Behind one of the last three the dialogue is another one, so it is looked at for whole frames and nothing more. But an IPC behind
a HELLO that was refused is FAULT S1, which a dialogue of its own shows, with each two of its growths refused. Anything else is
told, and the status is then 1. It needs a C compiler (cc), and builds l4sh first."""
import sys
import tempfile

sys.path.insert(1, f"{sys.path[0]}/../lib")

from frames import hello, ipc, whole_in
from kit import built
from refuse_memory import growths_of, refuse_each, run, scripts_of
from shims import built_shim

REFUSED_K4, FAULT_F14, FAULT_S1 = bytes.fromhex("000000028404"), bytes.fromhex("0000000385460e"), bytes.fromhex("00000003855301")

# So many connections say HELLO, and then each sends: a HELLO takes memory now and then.
CONNECTIONS = 40


def frames(text):
    """The frames that a line's bytes are, or None where they end inside one."""
    whole, rest = whole_in(bytes.fromhex(text))
    return None if rest else whole


def has_whole_frames(lines):
    return all(frames(line.split()[2]) is not None for line in lines if line.startswith("out "))


def kind_of(line, after):
    """What a line says that stands where another one stood, and was not there otherwise; None for what may not be."""
    if line == "! F14":
        return "no connection"
    if not line.startswith("out "):
        return None
    _, connection, text = line.split()
    whole = frames(text)
    if REFUSED_K4 in whole:
        return "refused"
    return "faults" if whole[-1] == FAULT_F14 and f"ended {connection}" in after else None


def what_is_wrong(script, shim, usual, refused):
    """The kind of the run, and what is wrong with it, if anything is."""
    status, output, told = run(script, shim, refused, word="wire")
    if (status, output, told) == usual:
        return "same", None
    if (status, told) == (1, b"l4sh: no memory\n"):
        return "ended", None if usual[1].startswith(output) else "what is printed is no front of the usual"
    lines, known = output.decode().splitlines(), usual[1].decode().splitlines()
    place = next((n for n, (a, b) in enumerate(zip(lines, known)) if a != b), min(len(lines), len(known)))
    if place == len(lines) or status not in (0, 2) or not has_whole_frames(lines):
        return "wrong", f"status {status}, {told.decode().strip()!r}, differs at line {place + 1}"
    kind = kind_of(lines[place], lines[place + 1 :])
    return (kind, None) if kind else ("wrong", f"line {place + 1}: {lines[place][:80]}")


def behind_a_refused_hello():
    """Whether an IPC behind a HELLO that was refused K4 is FAULT S1; tells how often, and answers the status."""
    numbers = range(1, CONNECTIONS + 1)
    sent = ipc(200 << 32 | 1, 0, [7]).hex()
    hellos = "".join(f"connect 1\nfeed {it} {hello(it).hex()}\n" for it in numbers)
    script = (hellos + "".join(f"feed {it} {sent}\n" for it in numbers)).encode()
    refused = faults = 0
    built("l4sh")
    with tempfile.TemporaryDirectory() as room:
        shim = built_shim(room, "refuse_memory")
        _, growths = growths_of(script, shim, room, "wire")
        for growth in range(1, growths + 1):
            # (one that is refused is asked for once more, for less room)
            status, output, told = run(script, shim, growth, word="wire", times=2)
            lines = output.decode().splitlines()
            for number in numbers:
                came = [line for line in lines if line.split()[1:2] == [str(number)] and line[0] in "oe"]
                if came[:1] == [f"out {number} {REFUSED_K4.hex()}"]:
                    refused += 1
                    if (status, told, came[1:]) != (0, b"", [f"out {number} {FAULT_S1.hex()}", f"ended {number}"]):
                        faults += 1
                        print(f"an IPC behind a refused HELLO, growth {growth}: status {status}, {came}, {told}")
    print(f"an IPC behind a HELLO that was refused K4: {refused} of {growths} pairs of growths refuse one, {faults} wrong")
    return 1 if faults or not refused else 0


if __name__ == "__main__":
    kinds = ("same", "ended", "no connection", "refused", "faults", "wrong")
    behind = behind_a_refused_hello()
    sys.exit(refuse_each("wire", *scripts_of("wire", sys.argv[1:]), kinds, what_is_wrong) or behind)
