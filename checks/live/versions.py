#!/usr/bin/env python3
"""Both versions of the frames over the sockets of l4d, in raw bytes.

    checks/live/versions.py L4D L4SH

Connections say HELLO in each order: of version 2 at once, behind one of version 1 that was refused, and the other way round; of a version that there is
not (F15), and of a length that no HELLO has (F3), cut at each byte. Connections of both versions call each other, with words and strings, and each hears
in its own version. Calls fail in each way. examples/echo.py, which speaks version 1, is called by a connection of version 2, and calls one.

The server writes a trace meanwhile. What version 2 told of each call, its number and the moment at which it was over, and of each ExchangeRegisters, its
moment, has to be what the trace says; `l4sh check` judges the trace. And `l4sh wire` gives the same bytes as docs/FORMATS.md has them. The last line is
`N checked, M failed`.
"""

import os
import subprocess
import sys
import tempfile
import time
import traceback

sys.path.insert(1, f"{sys.path[0]}/../lib")

from arguments import programs_of
from counting import Tally
from frames import ANY, exreg, fields_in, frame_of, head_of, hello, ipc
from kit import ROOT
from page_text import dialogues
from protocol_tables import EXREGR, EXREGR_2, FAULT, FRAMES, HELLO, IPCR, IPCR_2, MAX_THREAD_NUMBER, REFUSED, WELCOME
from serving import Client, Server, is_legal, settled
from traces import entries_in

SECONDS = 20
NOBODY = 900 << 32 | 1
ZERO_SEND, ZERO_RECEIVE = 0x400 << 16, 0x400
STOP_SEND = 4


class Book(Tally):
    """What was checked, and what the connections of version 2 were told."""

    def __init__(self):
        super().__init__()
        # of each outcome its thread, the number of the call and the moment; of each ExchangeRegisters its thread and the moment
        self.outcomes, self.exchanges = [], []

    def note(self, client, outcome):
        """Writes down what an outcome tells; in version 1 that is nothing."""
        told = outcome.call is not None, outcome.moment is not None
        self.same(f"whether version {client.version} tells number and moment", told, (client.version == 2,) * 2)
        if client.version == 2:
            self.outcomes.append((client.thread, outcome.call, outcome.moment))
        return outcome


def ended(client):
    """Whether nothing more comes, and the connection has ended."""
    return client.to_the_end() == b""


def hellos(path, book):
    """HELLO in each order; what is told in version 1 and in version 2 is told by the kinds of the answers."""
    taken = Client(path, 9, SECONDS)
    rows = [
        ("version 2 at once", [], 2), ("version 1 at once", [], 1),
        ("version 2 behind refusals of version 1", [(hello(0), 1), (hello(9), 2), (hello(MAX_THREAD_NUMBER + 1), 1)], 2),
        ("version 1 behind refusals of version 2", [(hello(0, 2), 1), (hello(9, 2), 2), (hello(MAX_THREAD_NUMBER + 1, 2), 1)], 1),
        ("version 2 behind refusals of both", [(hello(0, 2), 1), (hello(9), 2), (hello(9, 2), 2)], 2),
    ]
    for place, (name, before, version) in enumerate(rows):
        client = Client(path, seconds=SECONDS)
        for sent, refusal in before:
            book.same(f"{name}: a HELLO that is refused", client.ask(sent), (REFUSED, bytes([refusal])))
        kind, body = client.ask(hello(10 + place, version))
        book.same(f"{name}: WELCOME", (kind, body.hex()), (WELCOME, f"{10 + place:08x}00000001"))
        client.version, client.thread = version, (10 + place) << 32 | 1
        kind, body = client.ask(ipc(NOBODY, 0, [7]))
        book.same(f"{name}: the kind and the length of an outcome", (kind, len(body)), ((IPCR, FRAMES["IPCR"].body - 1), (IPCR_2, FRAMES["IPCR_2"].body - 1))[version - 1])
        book.same(f"{name}: what an outcome ends with", body[-33:].hex(), "0000000000008000" + "0" * 32 + "0000000000000004" + "00")
        if version == 2:
            told = fields_in("IPCR_2", body)
            book.outcomes.append((client.thread, told.call, told.moment))
        kind, body = client.ask(exreg(client.thread, 0))
        book.same(f"{name}: the kind and the length of what EXREG is answered", (kind, len(body)), ((EXREGR, FRAMES["EXREGR"].body - 1), (EXREGR_2, FRAMES["EXREGR_2"].body - 1))[version - 1])
        book.same(f"{name}: what it ends with", body[-24:].hex(), f"{client.thread:016x}" + "0" * 32)
        if version == 2:
            book.exchanges.append((client.thread, fields_in("EXREGR_2", body).moment))
        # a thread has one HELLO, of whichever version
        again = hello(10 + place, 3 - version)
        book.same(f"{name}: another HELLO", (client.ask(again), ended(client)), ((FAULT, b"S\1"), True))
    taken.bye()


def wrong_hellos(path, book):
    """Versions that there are not, and lengths that no HELLO has: the fault comes with the byte that shows it, and not before."""
    rows = [(f"HELLO of version {version}", frame_of("HELLO_2", 20, version), 9, b"F\x0f")
            for version in (0, 1, 3, 4, 0x0200, 0x0202, 65535)]
    rows += [(f"HELLO of length {length}", head_of(length, HELLO) + b"\0\2\0\2\0"[: length - 1], 5, b"F\3") for length in (1, 2, 4, 6)]
    for name, sent, shows, wanted in rows:
        for before in ([], [hello(0)], [hello(0, 2)]):
            client = Client(path, seconds=SECONDS)
            for refused in before:
                book.same(f"{name}: a HELLO before it", client.ask(refused), (REFUSED, b"\1"))
            client.line.sendall(sent[: shows - 1])
            book.same(f"{name}: told before its byte {shows}", told_early(client), b"")
            client.line.sendall(sent[shows - 1 :])
            book.same(name, (client.hear(), ended(client)), ((FAULT, wanted), True))
    client = Client(path, seconds=SECONDS)
    for byte in hello(20, 2):
        client.line.sendall(bytes([byte]))
    book.same("HELLO of version 2 byte by byte", client.hear()[0], WELCOME)
    client.bye()


def told_early(client):
    """What comes within a moment."""
    client.line.settimeout(0.02)
    try:
        return client.line.recv(100)
    except TimeoutError:
        return b""
    finally:
        client.line.settimeout(SECONDS)


def talks(path, book):
    """Two connections of each pair of versions call each other; each hears in its own version, and both of the same moment."""
    for place, (mine, yours) in enumerate(((1, 1), (1, 2), (2, 1), (2, 2))):
        one, two = Client(path, 30 + 2 * place, SECONDS, mine), Client(path, 31 + 2 * place, SECONDS, yours)
        name = f"versions {mine} and {yours}"
        # a call and its reply
        two.line.sendall(ipc(0, ANY, buffers=[4 << 10, 0x1000]))
        one.line.sendall(ipc(two.thread, two.thread, [5, 3 << 10, 0], tag=0x20081, payload=b"abc"))
        asked = book.note(two, two.outcome())
        book.same(f"{name}: what is asked", (asked.tag, asked.sender, asked.words, asked.pieces),
                  (0x20081, one.thread, (5, 3 << 10, 0x1000), [(0x1000, b"abc")]))
        replied = book.note(two, two.call(one.thread, 0, [6], timeouts=ZERO_SEND))
        answer = book.note(one, one.outcome())
        book.same(f"{name}: the reply", (replied.tag, answer.tag, answer.sender, answer.words), (0, 1, two.thread, (6,)))
        if mine == yours == 2:
            book.same(f"{name}: both sides of a message", (replied.moment, replied.call > answer.call), (answer.moment, True))
        # a send waits, is stopped by the other one, and the moment of both is the same
        one.line.sendall(ipc(two.thread, 0, [1]))
        moment, *stopped = stopped_send(book, two, one.thread)
        failed = book.note(one, one.outcome())
        book.same(f"{name}: a send that is stopped", (stopped, failed.tag, failed.error), ([one.thread, STOP_SEND, 0], 0x8000, 6))
        if mine == yours == 2:
            book.same(f"{name}: the moment of what is stopped", failed.moment, moment)
        overflows(book, name, one, two)
        one.bye()
        left = book.note(two, two.call(0, one.thread))
        book.same(f"{name}: a partner that has ended", (left.tag, left.error), (0x8000, 5))
        two.bye()


def stopped_send(book, other, thread):
    """What the ExchangeRegisters is answered that stops the send of a thread; one that comes too early stops nothing."""
    while True:
        answer = other.exreg(thread, STOP_SEND)
        book.same(f"whether version {other.version} tells a moment", answer[0] is not None, other.version == 2)
        if other.version == 2:
            book.exchanges.append((other.thread, answer[0]))
        if answer[2]:
            return answer
        time.sleep(0.005)


def overflows(book, name, one, two):
    """A string that does not fit fails both sides, at one moment."""
    two.line.sendall(ipc(0, one.thread, buffers=[2 << 10, 0x1000]))
    sent = book.note(one, one.call(two.thread, 0, [3 << 10, 0], tag=0x80, payload=b"abc"))
    got = book.note(two, two.outcome())
    book.same(f"{name}: a string that does not fit", (sent.error, got.error), (8, 9))
    if one.version == two.version == 2:
        book.same(f"{name}: both sides of an overflow", sent.moment, got.moment)


def timeouts(path, book):
    """A timeout is told with the moment at which it was due, or a later one; zero time with that of the call."""
    client = Client(path, 40, SECONDS, 2)
    start = book.note(client, client.call(0, ANY, timeouts=ZERO_RECEIVE))
    book.same("a receive with zero time", start.error, 3)
    # 200 microseconds are e = 2, m = 50
    late = book.note(client, client.call(0, ANY, timeouts=0x832))
    book.same("a receive of 200 microseconds", (late.error, late.moment >= start.moment + 200, late.call), (3, True, start.call + 1))
    nothing = book.note(client, client.call(0, 0))
    book.same("a call with neither phase", (nothing.tag, nothing.moment >= late.moment), (0, True))
    client.bye()


def old_server(path, book):
    """examples/echo.py, which knows version 1 alone, answers a connection of version 2."""
    client = Client(path, 50, SECONDS, 2)
    with subprocess.Popen([sys.executable, f"{ROOT}/examples/echo.py", os.path.dirname(path), "serve"]) as serving:
        try:
            limit = time.monotonic() + SECONDS
            while time.monotonic() < limit:
                got = book.note(client, client.call(1 << 32 | 1, 1 << 32 | 1, [41]))
                if not got.has_failed:
                    break
                time.sleep(0.01)
            book.same("echo.py answers a connection of version 2", (got.tag, got.words), (1, (42,)))
        finally:
            serving.kill()
    client.bye()


def old_client(l4d, book):
    """It asks a connection of version 2. It calls 1.1, so that is on a server of its own."""
    with Server(l4d) as server:
        client = Client(server.path, 1, SECONDS, 2)
        client.line.sendall(ipc(0, ANY))
        with subprocess.Popen([sys.executable, f"{ROOT}/examples/echo.py", server.folder, "ask", "7"], stdout=subprocess.PIPE, text=True) as asking:
            got = client.outcome()
            sent = client.call(got.sender, 0, [got.words[0] + 1], timeouts=ZERO_SEND)
            said = asking.communicate(timeout=SECONDS)[0]
        book.same("echo.py is answered by a connection of version 2", (said, sent.tag, got.call, sent.call), ("8\n", 0, 1, 3))


def in_trace(path):
    """Of each call of a trace its thread, its number and the moment at which it was over; of each exchange its thread and the moment."""
    now, calls, over, exchanges = 0, {}, {}, []
    word = lambda text: int(text.split(".")[0]) << 32 | int(text.split(".")[1])
    with open(path, encoding="ascii") as file:
        for kind, fields in entries_in(file):
            if kind == "at":
                now = int(fields[0])
            elif kind == "exreg":
                exchanges.append((word(fields[0]), now))
            elif kind == "called":
                number, thread, to, source = int(fields[0]), word(fields[1]), fields[2], fields[3]
                calls[number] = thread, source != "nil"
                if to == source == "nil":
                    over[number] = now
            elif kind == "failed":
                over[int(fields[0])] = now
            elif kind in ("ended", "overflowed", "aborted"):
                for number in map(int, fields[:2]):
                    # a send that is done leaves the receive phase of its call
                    if kind != "ended" or number == int(fields[1]) or not calls[number][1]:
                        over[number] = now
    return {(calls[number][0], number, moment) for number, moment in over.items()}, exchanges


def trace_says(trace, l4sh, book):
    """The trace is legal, and says what was told."""
    settled(trace)
    book.check("l4sh check", *is_legal(l4sh, trace))
    outcomes, exchanges = in_trace(trace)
    book.same("outcomes that the trace does not have", [it for it in book.outcomes if it not in outcomes], [])
    book.same("exchanges that the trace does not have", [it for it in book.exchanges if it not in exchanges], [])
    # (each call of a thread once, and moments that never go back)
    book.same("outcomes that were told twice", len(book.outcomes) - len(set(book.outcomes)), 0)
    return len(book.outcomes), len(book.exchanges)


def documented(l4sh, book):
    """The scripts of docs/FORMATS.md that speak version 2: what stands behind `prints` is what l4sh wire prints."""
    of_version_2 = [(script, printed) for script, printed in dialogues() if "feed 1 00000005" in script]
    book.same("scripts of version 2 in FORMATS", len(of_version_2), 1)
    for script, printed in of_version_2:
        ran = subprocess.run([l4sh, "wire"], input=script, capture_output=True, text=True, check=False)
        book.same("a script of FORMATS", ran.stdout, printed)


def main(words):
    l4d, l4sh = programs_of(words, __doc__, 2)
    book, folder, told = Book(), tempfile.mkdtemp(), (0, 0)
    with Server(l4d, "--trace", f"{folder}/trace", folder=folder) as server:
        for look, *given in ((hellos, server.path), (wrong_hellos, server.path), (talks, server.path), (timeouts, server.path),
                             (old_server, server.path), (old_client, l4d)):
            try:
                look(*given, book)
            except Exception:
                book.same(look.__name__, traceback.format_exc(), "no exception")
        told = trace_says(f"{folder}/trace", l4sh, book)
    documented(l4sh, book)
    print(f"{told[0]} outcomes and {told[1]} exchanges of version 2 are as the trace has them")
    return book.end() or int(not min(told))


if __name__ == "__main__":
    sys.exit(main(sys.argv[1:]))
