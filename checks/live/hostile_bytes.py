#!/usr/bin/env python3
"""The table of hostile bytes: each fault of docs/FORMATS.md, over l4sh wire and over the sockets of l4d.

    checks/live/hostile_bytes.py L4D L4SH

Each row has bytes of a client, what is answered, and behind how many of the bytes. Where a fault shows, it is told as soon as
these bytes are there and not before, however they are cut. The connection ends with it. Of what comes behind it nothing is told,
which is F13 to the one who asks the decoder again. `l4sh wire` gets each row whole, byte by byte and in pieces of 7, as the first
bytes of a connection and behind a WELCOME. `l4d` gets it whole and byte by byte, with more bytes behind, beside a pair of clients
whose messages have to go on.

Then come frames that have no place (S1), also behind a HELLO that was refused, a call while one is open (K7), and each front of
the frames of FORMATS, after which the input ends (F9). F10, F11 and F14 are of devices and of memory: `failing_devices.py`,
`refuse_wire.py` and `refuse_server.py` have them. The last line is `N rows, M failed`.
"""

import subprocess
import sys

sys.path.insert(1, f"{sys.path[0]}/../lib")

from arguments import programs_of
from counting import told_rows
from frames import ANY, BYE, HEAD_BYTES, TOO_LONG, exreg, exregr, fault, frame, frame_of, head_of, hello, ipc, ipcr, refused, size_of, welcome, words_bytes
from protocol_tables import BYE as BYE_KIND
from protocol_tables import EXREG, FRAMES, HELLO, MAX_BODY_BYTES, MAX_BUFFER_WORDS, MAX_MESSAGE_WORDS, MAX_STRING_BYTES, VERSIONS, WELCOME
from serving import Client, Server, opened, pair_works

# An IPC without words, and how many bytes of the stream show its fields.
LEAST, SHOWN = FRAMES["IPC"].body, HEAD_BYTES + size_of("IPC")
ONE, TWO = 1 << 32 | 1, 2 << 32 | 1
NEVER_LIVE = 77 << 32 | 1
SIXTEENTH = MAX_STRING_BYTES // 16
# What stands behind each fault: it would be answered if it were read.
BEHIND = hello(9) + exreg(ONE, 0) + BYE + b"\0" * 9


def head(length, tag=1, buffers=0, timeouts=0, acceptor=0, to=NEVER_LIVE):
    """An IPC frame up to its words, whatever its length says."""
    return frame_of("IPC", to, 0, timeouts, 0, tag, acceptor, buffers, length=length)


def strings(*words, payload=b"abchello"):
    return ipc(NEVER_LIVE, 0, words, tag=len(words) << 6, payload=payload)


def buffers(*words):
    return ipc(0, ANY, timeouts=0x400, buffers=words)


def fault_rows():
    """Each fault that bytes show: what it is, the bytes, its number, and behind how many of them it is told."""
    rows = [
        ("a body that is too long", TOO_LONG, 1, 4),
        ("the longest length", bytes.fromhex("ffffffff"), 1, 4),
        ("GET / HTTP/1.1", b"GET / HTTP/1.1\r\n\r\n", 1, 4),
        ("a body of no bytes", bytes(4), 3, 4),
        ("an unknown kind in a body of the greatest length", head_of(MAX_BODY_BYTES, 5), 2, 5),
        ("an IPC body that is one byte short", head(LEAST - 1), 3, 5),
        ("an IPC body of 1 byte", head(1), 3, 5),
        ("an IPC body that lacks its word", head(LEAST), 3, SHOWN),
        ("an IPC body that lacks a buffer word", head(LEAST + 8, buffers=1), 3, SHOWN),
        ("an IPC body of all words, one byte short", head(LEAST + 8 * MAX_MESSAGE_WORDS - 1, tag=MAX_MESSAGE_WORDS), 3, SHOWN),
        ("64 words", head(LEAST, tag=0x7F), 4, SHOWN),
        ("64 words in a body that has room for them", head(LEAST + 8 * 64, tag=0x7F), 4, SHOWN),
        ("one buffer word too many", head(LEAST, tag=0, buffers=MAX_BUFFER_WORDS + 1), 4, SHOWN),
        ("255 buffer words", head(LEAST + 8 * 255, tag=0, buffers=255), 4, SHOWN),
        ("too many words of both", head(LEAST, tag=0x7F, buffers=MAX_BUFFER_WORDS + 1), 4, SHOWN),
    ]
    answers = sorted(it.kind for it in FRAMES.values() if it.to == "client")
    rows += [(f"kind {kind:#04x}", frame(kind), 2, 5) for kind in (0, 5, 6, 0x7F, 0x80, *answers, 0xFF)]
    for name, kind, wrong in (("HELLO", HELLO, (1, 2, 4, 6)), ("EXREG", EXREG, (1, 16, 18)), ("BYE", BYE_KIND, (2, 3))):
        rows += [(f"{name} of length {length}", head_of(length, kind), 3, 5) for length in (*wrong, MAX_BODY_BYTES)]
    whole = [
        ("a send timeout that is a time point", ipc(NEVER_LIVE, 0, [7], timeouts=0x8000 << 16), 12),
        ("a receive timeout that is a time point", ipc(0, ANY, [], timeouts=0x8001), 12),
        ("a string item that runs past its words", strings(0xC00), 5),
        ("an item of two pointers that runs past its words", strings(0xC10, 0x0), 5),
        ("an item that says it goes on, and does not", strings(0xE00, 0x0), 5),
        ("a second item that runs past its words", strings(0xC00, 0x0, 0xC00), 5),
        ("a reserved bit of a string item", strings(0x8, 0x0), 6),
        ("a reserved bit of an item that also runs past its words", strings(0x18, 0x0), 6),
        ("a range outside the payload", strings(0x1400, 0x4), 7),
        ("a range outside an empty payload", strings(0x400, 0x0, payload=b""), 7),
        ("an empty range behind the payload", strings(0x0, 0x9), 7),
        ("a pointer that wraps round", strings(0x1400, 0xFFFF_FFFF_FFFF_FFFF), 7),
        ("a length of all bits", strings(0xFFFF_FFFF_FFFF_FC00, 0x0), 7),
        ("a buffer item that runs past its words", buffers(0x1000), 5),
        ("a buffer item that says it goes on, and does not", buffers(0x1200, 0x1000), 5),
        ("a reserved bit of a buffer item", buffers(0x1008, 0x1000), 6),
        ("17 strings of a sixteenth of the limit", strings(*([SIXTEENTH << 10, 0x0] * 17), payload=bytes(SIXTEENTH)), 8),
        ("one string that is one byte too long", strings((MAX_STRING_BYTES + 1) << 10, 0x0, payload=bytes(MAX_STRING_BYTES + 1)), 8),
    ]
    rows += [(name, data, number, len(data)) for name, data, number in whole]
    return rows + [(f"HELLO of version {version}", frame_of("HELLO_2", 9, version), 15, 9) for version in (0, 1, max(VERSIONS) + 1, 258, 512, 0xFFFF)]


def placed_rows():
    """Frames that have no place, and frames that have one: what it is, dialogues as (bytes, answer), and whether the connection ends."""
    word = ipc(NEVER_LIVE, 0, [7])
    no_partner = lambda error: ipcr(error=error)
    failed = no_partner(4)
    first = lambda number: welcome(number << 32 | 1)
    return [
        ("IPC before HELLO", [(word, fault("S", 1))], True),
        ("EXREG before HELLO", [(exreg(ONE, 2), fault("S", 1))], True),
        ("BYE before HELLO", [(BYE, b"")], True),
        ("HELLO behind WELCOME", [(hello(9), first(9)), (hello(10), fault("S", 1))], True),
        ("HELLO of version 2 behind WELCOME", [(hello(9), first(9)), (hello(9, 2), fault("S", 1))], True),
        ("HELLO of version 1 behind WELCOME of version 2", [(hello(9, 2), first(9)), (hello(9), fault("S", 1))], True),
        ("HELLO of version 2, refused, comes again as one of version 1",
         [(hello(0, 2), refused(1)), (hello(1, 2), refused(2)), (hello(9), first(9)), (word, failed)], False),
        ("the same HELLO behind WELCOME", [(hello(9), first(9)), (hello(9), fault("S", 1))], True),
        ("an IPC behind HELLO 0", [(hello(0), refused(1)), (word, fault("S", 1))], True),
        ("an IPC behind HELLO of a number that is too large", [(hello(0xFFFF), refused(1)), (word, fault("S", 1))], True),
        ("an EXREG behind a HELLO that was refused", [(hello(0), refused(1)), (exreg(ONE, 2), fault("S", 1))], True),
        ("an IPC behind HELLO of a live number", [(hello(1), refused(2)), (word, fault("S", 1))], True),
        ("HELLO, refused twice, comes again",
         [(hello(0), refused(1)), (hello(1), refused(2)), (hello(9), first(9)), (word, failed)], False),
        ("a call while one is open", [(hello(9), first(9)), (ipc(0, ONE), b""), (word, fault("K", 7))], True),
        ("an EXREG while a call is open", [(hello(9), first(9)), (ipc(0, ONE), b""), (exreg(ONE, 0), fault("K", 7))], True),
        ("a buffer word that no acceptor asks for",
         [(hello(9), first(9)), (head(LEAST + 16, buffers=1) + words_bytes((7, 8)), failed)], False),
        ("63 words", [(hello(9), first(9)), (ipc(NEVER_LIVE, 0, range(63)), failed)], False),
        ("16 strings of a sixteenth of the limit, of one payload",
         [(hello(9), first(9)), (strings(*([SIXTEENTH << 10, 0x0] * 16), payload=bytes(SIXTEENTH)), failed)], False),
        ("strings where there is no send phase",
         [(hello(9), first(9)), (ipc(0, NEVER_LIVE, [0x8, 0x8], tag=0x80), no_partner(5))], False),
        ("an EXREG of a thread that never was",
         [(hello(9), first(9)), (exreg(NEVER_LIVE, 6), exregr(0, 0, 2))], False),
    ]


# The frames of FORMATS whose fronts are cut.
WHOLE_FRAMES = [("HELLO", hello(9)), ("HELLO of version 2", hello(9, 2)), ("IPC with a word", ipc(ONE, 0, [7])), ("EXREG", exreg(ONE, 4)), ("BYE", BYE),
          ("IPC with a buffer", ipc(0, ANY, buffers=[0x1000, 0x1000])), ("IPC with a string", strings(0xC00, 0x0, payload=b"abc"))]


def wire(l4sh, lines):
    """The lines that a script prints."""
    ran = subprocess.run([l4sh, "wire"], input="\n".join(lines).encode() + b"\n", capture_output=True, check=False, timeout=60)
    assert (ran.returncode, ran.stderr) == (0, b""), (ran.returncode, ran.stderr[:200])
    return ran.stdout.decode().splitlines()


def cuts(data):
    """The bytes in pieces; the last cut has one byte in each piece, but of a long payload."""
    yield "whole", [data]
    yield "in pieces of 7", [data[n : n + 7] for n in range(0, min(len(data), 700), 7)] + ([data[700:]] if len(data) > 700 else [])
    yield "byte by byte", [data[n : n + 1] for n in range(min(len(data), 600))] + ([data[600:-1], data[-1:]] if len(data) > 600 else [])


def over_wire(l4sh, before, data, wanted, told_at):
    """What is wrong with a row on a connection that got `before` first, cut in three ways."""
    for name, pieces in cuts(data):
        script, marks, count = ["connect 1"] + [f"feed 1 {it.hex()}" for it in before], [], 0
        for piece in pieces:
            # another connection comes between pieces, so that the place of an answer is seen
            script.append(f"feed 1 {piece.hex()}")
            count += len(piece)
            script.append("connect 1")
            marks.append(count)
        script += [f"feed 1 {BEHIND.hex()}", "end 1"]
        lines = wire(l4sh, script)
        # all that connection 1 was told, each with the number of bytes that were there; each `connect` answers with its number
        told, seen = [], 0
        for line in lines:
            if line.startswith("= "):
                seen = int(line[2:]) - 1
            elif line.startswith(("out 1 ", "ended 1")):
                told.append((line, seen))
        # each frame before gave one answer
        rest = told[len(before) :]
        place = next(n for n, mark in enumerate(marks) if mark >= told_at)
        if rest != [(f"out 1 {wanted.hex()}", place), ("ended 1", place)]:
            yield f"over wire, {name}, behind {len(before)} frames: wanted {wanted.hex()} behind {marks[place]} bytes, came {rest}"


class Service:
    """A server with a pair beside, whose messages go on, and hostile connections."""

    def __init__(self, l4d):
        self.server = Server(l4d)
        # thread 1 is the one that rows name: it is idle between round trips
        self.pair = Client(self.server.path, 1), Client(self.server.path, 2)

    def __enter__(self):
        return self

    def __exit__(self, *all_):
        self.server.__exit__(*all_)

    def free_number(self, number):
        """Waits until a number is free again: its thread ends soon behind its connection."""
        opened(self.server.path, number).bye()

    def fault(self, greets, data, wanted, by_byte):
        """What is wrong with a fault on a connection of its own, with more bytes behind it."""
        client = opened(self.server.path, 9) if greets else Client(self.server.path)
        try:
            for piece in ([data[n : n + 1] for n in range(len(data))] if by_byte else [data]) + [BEHIND]:
                client.line.sendall(piece)
        except (BrokenPipeError, ConnectionResetError):
            # it has ended already
            pass
        try:
            came = client.to_the_end()
        except TimeoutError:
            return "the connection does not end"
        client.line.close()
        return None if came == wanted else f"wanted {wanted.hex()}, came {came.hex()}"


def exactly_now(client, wanted):
    came = b""
    while len(came) < len(wanted):
        more = client.line.recv(len(wanted) - len(came))
        if not more:
            break
        came += more
    return came


def placed_over_sockets(service, dialogue, ends):
    client = Client(service.server.path)
    greeted = False
    for data, wanted in dialogue:
        client.line.sendall(data)
        came = exactly_now(client, wanted)
        # of a WELCOME the version is another one each time
        is_welcome = wanted[4:5] == bytes([WELCOME])
        same = 9 if is_welcome else len(wanted)
        greeted = greeted or came[4:5] == bytes([WELCOME])
        if came[:same] != wanted[:same] or len(came) != len(wanted):
            return f"wanted {wanted.hex()}, came {came.hex()}"
    if not ends:
        client.line.sendall(BYE)
    came = client.to_the_end()
    client.line.close()
    if greeted:
        service.free_number(9)
    return f"behind it came {came.hex()}" if came else None


def placed_over_wire(l4sh, dialogue, ends):
    script = ["connect 1", "connect 1", f"feed 1 {hello(1).hex()}"]
    lines = len(wire(l4sh, script))
    wanted = b"".join(it for _, it in dialogue)
    for data, _ in dialogue:
        script.append(f"feed 2 {data.hex()}")
    if not ends:
        script.append(f"feed 2 {BYE.hex()}")
    told = wire(l4sh, script)[lines:]
    out = b"".join(bytes.fromhex(line.split()[2]) for line in told if line.startswith("out 2 "))
    if out != wanted or told.count("ended 2") != 1 or any(line.startswith(("out 1", "ended 1")) for line in told):
        return f"over wire: wanted {wanted.hex()}, came {told}"
    return None


def fronts_over_wire(l4sh):
    """Each front of each frame, and then the end: F9. Nothing is told of no bytes."""
    for name, data in WHOLE_FRAMES:
        for before in ([], [hello(9)]):
            count = len(before)
            script = []
            for cut in range(len(data)):
                # each on a connection of its own, one after the other
                script += ["connect 1"] + [f"feed {cut + 1} {it.hex()}" for it in before]
                script += ([f"feed {cut + 1} {data[:cut].hex()}"] if cut else []) + [f"end {cut + 1}"]
            told = wire(l4sh, script)
            for cut in range(len(data)):
                came = [line for line in told if line.startswith(("out ", "ended ")) and line.split()[1] == str(cut + 1)][count:]
                wanted = ([f"out {cut + 1} {fault('F', 9).hex()}"] if cut else []) + [f"ended {cut + 1}"]
                yield f"{name}, the front of {cut} bytes", None if came == wanted else f"over wire: wanted {wanted}, came {came}"


def front_over_sockets(service, data, cut, greets):
    client = opened(service.server.path, 9) if greets else Client(service.server.path)
    client.line.sendall(data[:cut])
    client.line.shutdown(1)
    came = client.to_the_end()
    client.line.close()
    wanted = fault("F", 9) if cut else b""
    return None if came == wanted else f"over sockets: wanted {wanted.hex()}, came {came.hex()}"


def all_rows(l4d, l4sh):
    """The name of each row that was looked at, and what is wrong, if anything is."""
    with Service(l4d) as service:
        for name, data, number, told_at in fault_rows():
            wanted = fault("F", number)
            wrongs = [it for before in ([], [hello(9)]) for it in over_wire(l4sh, before, data, wanted, told_at)]
            for greets in (False, True):
                for by_byte in (False, True) if len(data) < 1000 else (False,):
                    # what stands behind the place of the fault is left out once, and is there once
                    wrong = service.fault(greets, data if by_byte else data[:told_at], wanted, by_byte)
                    wrongs += [f"over sockets: {wrong}"] if wrong else []
            pair_works(service.pair)
            yield name, "; ".join(wrongs) or None
        for name, dialogue, ends in placed_rows():
            wrong = placed_over_wire(l4sh, dialogue, ends) or placed_over_sockets(service, dialogue, ends)
            pair_works(service.pair)
            yield name, wrong
        yield from fronts_over_wire(l4sh)
        for name, data in WHOLE_FRAMES:
            for cut in range(len(data)):
                wrong = front_over_sockets(service, data, cut, cut % 2)
                yield f"{name}, the front of {cut} bytes over sockets", wrong
        pair_works(service.pair)


def main(words):
    return told_rows(all_rows(*programs_of(words, __doc__, 2)))


if __name__ == "__main__":
    sys.exit(main(sys.argv[1:]))
