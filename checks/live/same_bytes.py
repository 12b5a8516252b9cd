#!/usr/bin/env python3
"""The same bytes in give the same bytes out: over the sockets of l4d, and in one process by l4sh wire.

    checks/live/same_bytes.py L4D L4SH

Each dialogue is a list of events: a connection comes, bytes come on it, or its input ends. `l4sh wire` says what goes out on each
connection after each event. Then l4d gets the same bytes through sockets, whole, byte by byte and in pieces of 7, each event after what
the ones before it gave has come. What goes out on each connection, and which connections end, has to be the same. Times are not
compared, so no dialogue waits for a timeout. No dialogue sends a frame before the answer to the one before: over sockets that frame may
meet K7, and a fault in it may end the thread before its last outcome was written.
"""

import select
import socket
import subprocess
import sys
import tempfile
import time

sys.path.insert(1, f"{sys.path[0]}/../lib")

from arguments import programs_of
from frames import ANY, BYE, TOO_LONG, exreg, hello, ipc

ONE, TWO, THREE = (number << 32 | 1 for number in (1, 2, 3))
ZERO_SEND = 0x400 << 16
ZERO_RECEIVE = 0x400
SECONDS = 10

# (what it shows, its events: the number of a connection and its bytes, None for its end)
DIALOGUES = [
    ("a word is received", [(1, hello(1)), (2, hello(2)), (1, ipc(0, ANY)), (2, ipc(ONE, 0, [7])), (1, BYE), (2, BYE)]),
    ("a send waits", [(1, hello(1)), (2, hello(2)), (2, ipc(ONE, 0, [7, 8])), (1, ipc(0, TWO)), (2, None), (1, None)]),
    ("a call and its reply", [(1, hello(1)), (2, hello(2)), (1, ipc(0, ANY)), (2, ipc(ONE, ONE, [1])), (1, ipc(TWO, ANY, [2], ZERO_SEND)), (2, BYE), (1, BYE)]),
    ("nobody is there in no time", [(1, hello(1)), (2, hello(2)), (1, ipc(TWO, 0, [1], ZERO_SEND)), (1, ipc(0, ANY, (), ZERO_RECEIVE)), (1, BYE), (2, BYE)]),
    ("a partner that is not live", [(1, hello(1)), (1, ipc(THREE, 0, [1])), (1, ipc(0, THREE)), (1, BYE)]),
    ("a partner that ends", [(1, hello(1)), (2, hello(2)), (1, ipc(0, TWO)), (2, BYE), (1, BYE)]),
    ("HELLO is refused, and said again", [(1, hello(1)), (2, hello(1)), (2, hello(1024)), (2, hello(0)), (2, hello(2)), (2, BYE), (1, BYE)]),
    ("ExchangeRegisters stops a receive and a send", [
        (1, hello(1)), (2, hello(2)), (1, ipc(0, ANY)), (2, exreg(ONE, 2)), (1, ipc(TWO, 0, [1])), (2, exreg(ONE, 4)),
        (2, exreg(THREE, 6)), (1, BYE), (2, BYE)]),
    ("strings", [
        (1, hello(1)), (2, hello(2)), (1, ipc(0, TWO, buffers=[0x1000, 0x1000, 0x2000, 0x2000])),
        (2, ipc(ONE, 0, [0xC00, 0x0, 0x1400, 0x3], tag=0x100, payload=b"abchello")), (1, BYE), (2, BYE)]),
    ("a string that is longer than the buffers of a connection", [
        (1, hello(1)), (2, hello(2)), (1, ipc(0, TWO, buffers=[70_000 << 10, 0x1000])),
        (2, ipc(ONE, 0, [70_000 << 10, 0x0], tag=0x80, payload=bytes(n % 251 for n in range(70_000)))), (1, BYE), (2, BYE)]),
    ("a string that does not fit", [
        (1, hello(1)), (2, hello(2)), (1, ipc(0, TWO, buffers=[0x800, 0x1000])),
        (2, ipc(ONE, 0, [0xC00, 0x0], tag=0x80, payload=b"abc")), (1, BYE), (2, BYE)]),
    ("a propagated message", [
        (1, hello(1)), (2, hello(2)), (3, hello(3)), (3, ipc(0, ANY)), (1, ipc(TWO, TWO, [5], ZERO_SEND)), (1, ipc(0, TWO)),
        (2, ipc(THREE, 0, [6], sender=ONE, tag=0x1001)), (3, ipc(ONE, 0, [9], ZERO_SEND)), (1, BYE), (2, BYE), (3, BYE)]),
    ("a frame and a fault behind it in one piece", [(1, hello(1) + bytes.fromhex("0000000981"))]),
    ("a call while one is open", [(1, hello(1)), (2, hello(2)), (2, ipc(0, ONE)), (1, ipc(0, ANY)), (1, ipc(0, ANY)), (2, BYE)]),
    ("IPC before HELLO", [(1, ipc(0, ANY))]),
    ("HELLO after WELCOME", [(1, hello(1)), (1, hello(2))]),
    ("a body that is too long", [(1, hello(1)), (1, TOO_LONG)]),
    ("the end inside a frame", [(1, hello(1)), (1, ipc(0, ANY)[:-1]), (1, None)]),
    ("the end before HELLO", [(1, None)]),
    ("a time point", [(1, hello(1)), (1, ipc(0, ANY, (), 0x8001))]),
    ("more words than a message has", [(1, hello(1)), (1, ipc(0, ANY, range(64), tag=0x40 | 0x3F, sender=0)[:60])]),
]


def by_wire(l4sh, events, count):
    """What goes out on each of so many connections, and which of them end."""
    lines = ["connect 1"] * count
    for connection, data in events:
        lines.append(f"end {connection}" if data is None else f"feed {connection} {data.hex()}")
        # a transfer is copied at once, as the server's mover does
        lines += ["advance"] * 2
    ran = subprocess.run([l4sh, "wire"], input="\n".join(lines).encode() + b"\n", capture_output=True, check=False)
    if ran.returncode:
        raise SystemExit(f"same_bytes: l4sh wire ended with {ran.returncode}: {ran.stderr.decode()}")
    return totals(ran.stdout.decode(), count)


def totals(text, count):
    out, ended = {number: b"" for number in range(1, count + 1)}, set()
    for line in text.splitlines():
        words = line.split(" ")
        if words[0] == "out":
            out[int(words[1])] += bytes.fromhex(words[2])
        elif words[0] == "ended":
            ended.add(int(words[1]))
    return out, ended


class Line:
    """A socket, what came on it, and whether it ended."""

    def __init__(self, path):
        self.socket = socket.socket(socket.AF_UNIX)
        self.socket.connect(path)
        self.came = b""
        self.has_ended = False

    def read(self, wanted, end_wanted):
        """Reads until so many bytes came, and the end where it is wanted."""
        limit = time.monotonic() + SECONDS
        while (len(self.came) < wanted or end_wanted and not self.has_ended) and time.monotonic() < limit:
            if not select.select([self.socket], [], [], 0.2)[0]:
                continue
            try:
                more = self.socket.recv(65536)
            except ConnectionResetError:
                more = b""
            if not more:
                self.has_ended = True
                return
            self.came += more

    def send(self, data, size):
        for start in range(0, len(data), size):
            try:
                self.socket.sendall(data[start : start + size])
            except (BrokenPipeError, ConnectionResetError):
                return


def by_sockets(l4d, l4sh, events, size):
    count = max(connection for connection, _ in events)
    with tempfile.TemporaryDirectory() as room:
        words = [l4d, "--dir", room, "--spaces", "1", "--connections", str(count)]
        with subprocess.Popen(words, stdout=subprocess.PIPE, stderr=subprocess.STDOUT, text=True) as server:
            if server.stdout.readline() != "listening 1\n":
                raise SystemExit("same_bytes: the server does not listen")
            lines = {number: Line(f"{room}/space1") for number in range(1, count + 1)}
            for at, (connection, data) in enumerate(events):
                line = lines[connection]
                if data is None:
                    line.socket.shutdown(socket.SHUT_WR)
                else:
                    line.send(data, size)
                out, ended = by_wire(l4sh, events[: at + 1], count)
                for number in out:
                    lines[number].read(len(out[number]), number in ended)
                # an event that gives nothing has to have been served, too
                time.sleep(0.02)
            # a little longer, for bytes that should not come
            time.sleep(0.02)
            for number, line in lines.items():
                line.socket.setblocking(False)
                try:
                    line.came += line.socket.recv(65536)
                except (BlockingIOError, ConnectionResetError):
                    pass
                line.socket.close()
            said = server.stdout.read()
            status = server.wait(SECONDS)
        if (said, status) != ("closed\n", 0):
            raise SystemExit(f"same_bytes: the server ended with {status} and said {said!r}")
        return {number: line.came for number, line in lines.items()}, {number for number, line in lines.items() if line.has_ended}


def main(words):
    l4d, l4sh = programs_of(words, __doc__, 2)
    failed = 0
    for name, events in DIALOGUES:
        wanted = by_wire(l4sh, events, max(connection for connection, _ in events))
        for size in (1 << 20, 1, 7):
            out, ended = by_sockets(l4d, l4sh, events, size)
            if (out, ended) != wanted:
                failed += 1
                print(f"{name}, pieces of {size}:")
                for number in wanted[0]:
                    print(f"  {number}: wanted {wanted[0][number].hex()}{' end' * (number in wanted[1])}")
                    print(f"  {number}: came   {out[number].hex()}{' end' * (number in ended)}")
    print(f"{len(DIALOGUES)} dialogues, each cut in three ways: {failed} failed")
    return 1 if failed else 0


if __name__ == "__main__":
    sys.exit(main(sys.argv[1:]))
