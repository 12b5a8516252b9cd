#!/usr/bin/env python3
"""A pair of clients beside hostile ones: it goes on, and the server keeps nothing of them.

    checks/live/hostile.py L4D

Beside a pair that makes round trips there are in turn: ten readers that never read while each is sent messages of 1 MiB; 180
connections that stop inside a frame, say nothing or never read; twenty processes that flood, half of them by connecting and
sending a fault, half by frames whose answers they never read; and processes that are killed in midst of messages of 1 MiB. Round
trips alone and beside are measured in turn, and the middle of them is told. Who does nothing may slow the pair by no more than a
factor that a loaded machine explains too; who floods takes processor time, so there no round trip may stand still. Then the same
under a limit of 64 descriptors. At the end threads and files are as before, and memory has not grown by more than a bound. The
last line is `hostile: N passed, M failed`.
"""

import os
import resource
import signal
import statistics
import sys
import threading
import time

sys.path.insert(1, f"{sys.path[0]}/../lib")

from arguments import programs_of
from counting import told_looks
from frames import ANY, exreg, ipc
from processes import figures
from protocol_tables import FAULT, MAX_STRING_BYTES
from serving import Client, Server, opened, pair_works

BIG = MAX_STRING_BYTES
# How long each slice of round trips is, how many there are of each kind, and how long one round trip may take, in seconds.
SLICE, SLICES, STANDSTILL = 0.5, 5, 60
# How many times slower the middle round trip may be beside those who do nothing: a machine that does other work is a reason, too.
SLOWER = 3
# How much memory the server may have more at the end, in KiB: stacks and buffers that the allocator keeps are among it.
MORE = 128 * 1024
READERS, STOPPED, FLOODS, KILLED = 10, 180, 20, 40
DESCRIPTORS = 64


class Pair:
    """Two clients whose round trips are measured."""

    def __init__(self, path):
        self.clients = opened(path, 1), opened(path, 2)

    def slice(self):
        """The times of round trips for a while, in seconds."""
        times, end = [], time.monotonic() + SLICE
        while time.monotonic() < end:
            begin = time.monotonic()
            pair_works(self.clients)
            times.append(time.monotonic() - begin)
        return times

    def bye(self):
        for client in self.clients:
            client.bye()


class Loops:
    """Processes that do one thing again and again, until they are killed."""

    def __init__(self, work, count):
        self.children = [self.started(work, number) for number in range(count)]

    @staticmethod
    def started(work, number):
        child = os.fork()
        if child:
            return child
        os.setpgid(0, 0)
        while True:
            try:
                work(number)
            except (AssertionError, EOFError, OSError):
                pass

    def kill(self):
        for child in self.children:
            os.kill(child, signal.SIGKILL)
        for child in self.children:
            os.waitpid(child, 0)


class Silent:
    """Connections that stop inside a frame, say nothing, or never read."""

    def __init__(self, path):
        self.clients = []
        for number in range(STOPPED):
            client = opened(path, 40 + number) if number % 3 else Client(path, seconds=STANDSTILL)
            client.line.sendall(ipc(0, ANY, [1, 2, 3])[: 5 + number % 60] if number % 3 < 2 else ipc(0, ANY, timeouts=0x400))
            self.clients.append(client)

    def kill(self):
        for client in self.clients:
            client.line.close()


class NeverRead:
    """Readers that never read: each waits for a long message, gets it, and waits for the next one, without reading a byte."""

    def __init__(self, path):
        self.clients, self.sent = [], 0
        for number in range(READERS):
            reader, sender = opened(path, 40 + number), opened(path, 80 + number)
            wait = ipc(0, sender.thread, buffers=(BIG << 10, 0))
            # the second receive stands behind the first one's outcome, which nobody reads: it may be K7, and the reader ends
            reader.line.sendall(wait)
            got = sender.call(reader.thread, 0, (BIG << 10, 0), tag=0x80, payload=bytes(BIG))
            assert not got.has_failed, hex(got.error)
            self.sent += 1
            reader.line.sendall(wait)
            sender.line.sendall(ipc(reader.thread, 0, (BIG << 10, 0), tag=0x80, payload=bytes(BIG)))
            self.clients += [reader, sender]

    def kill(self):
        for client in self.clients:
            client.line.close()


def sends_a_fault(path, number):
    """Connects and sends what is no frame."""
    client = Client(path, seconds=STANDSTILL)
    client.line.sendall(b"GET / HTTP/1.1\r\n\r\n")
    assert client.hear()[0] == FAULT
    client.line.close()


def never_reads_answers(path, number):
    """Sends many frames in one piece and reads nothing."""
    client = Client(path, 40 + number, STANDSTILL)
    client.line.settimeout(0.2)
    client.line.sendall((exreg(1 << 32 | 1, 0) + ipc(0, ANY, timeouts=0x400)) * 500)
    client.line.close()


def flood(path):
    return Loops(lambda number: (sends_a_fault if number % 2 else never_reads_answers)(path, number), FLOODS)


def sends_long(path, number):
    """One of a pair of numbers sends messages of 1 MiB to the other, until it is killed."""
    # (they meet by their numbers: the receiver takes what comes from anythread)
    receiver, sender = Client(path, 100 + 2 * number, STANDSTILL), Client(path, 101 + 2 * number, STANDSTILL)
    while True:
        receiver.line.sendall(ipc(0, sender.thread, buffers=(BIG << 10, 0)))
        sender.call(receiver.thread, 0, (BIG << 10, 0), tag=0x80, payload=bytes(BIG))
        receiver.outcome()


class Kills:
    """Pairs that send long messages, of which one is killed and started anew again and again."""

    def __init__(self, path):
        self.path, self.is_over, self.kills = path, False, 0
        self.loops = Loops(lambda number: sends_long(path, number), 4)
        self.thread = threading.Thread(target=self.run)
        self.thread.start()

    def run(self):
        while not self.is_over:
            place = self.kills % len(self.loops.children)
            time.sleep(0.03)
            os.kill(self.loops.children[place], signal.SIGKILL)
            os.waitpid(self.loops.children[place], 0)
            self.loops.children[place] = Loops.started(lambda number: sends_long(self.path, number), place)
            self.kills += 1

    def kill(self):
        self.is_over = True
        self.thread.join()
        self.loops.kill()


def milliseconds(times):
    return 1000 * statistics.median(times), 1000 * sorted(times)[int(len(times) * 0.99)]


def beside(server, hostile, is_quiet):
    """Round trips alone and beside, in turn; what is said of them."""
    pair = Pair(server.path)
    alone, with_them = [], []
    for _ in range(SLICES):
        alone += pair.slice()
        there = hostile(server.path)
        try:
            time.sleep(0.1)
            with_them += pair.slice()
        finally:
            there.kill()
        # their ends are served before the next slice
        time.sleep(0.2)
    pair.bye()
    (middle, late), (beside_middle, beside_late) = milliseconds(alone), milliseconds(with_them)
    said = (f"{len(alone)} round trips alone, {middle:.2f} ms, of a hundred 99 within {late:.1f}; "
            f"{len(with_them)} beside, {beside_middle:.2f} ms, {beside_late:.1f}, longest {1000 * max(with_them):.0f} ms")
    assert max(with_them) < STANDSTILL, said
    assert not is_quiet or beside_middle < SLOWER * middle, said
    return said


def keeps_nothing(server, before):
    """Threads and files are as before in the end, and memory within its bound."""
    limit = time.monotonic() + STANDSTILL
    while figures(server.process.pid)[:2] != before[:2] and time.monotonic() < limit:
        time.sleep(0.1)
    after = figures(server.process.pid)
    said = f"threads {before[0]} and {after[0]}, files {before[1]} and {after[1]}, resident KiB {before[2]} and {after[2]}"
    assert after[:2] == before[:2] and after[2] < before[2] + MORE, said
    return said


def few_descriptors(l4d):
    """The floods under a limit of descriptors: the pair works on, and a new client is served when they are gone."""
    few = lambda: resource.setrlimit(resource.RLIMIT_NOFILE, (DESCRIPTORS, DESCRIPTORS))
    with Server(l4d, "--keep-open", "--hello-within", "1", preexec_fn=few) as server:
        pair = Pair(server.path)
        floods = flood(server.path)
        try:
            times = [it for _ in range(4) for it in pair.slice()]
            files = figures(server.process.pid)[1]
        finally:
            floods.kill()
        new = opened(server.path, 3)
        pair_works((pair.clients[0], new))
        assert files <= DESCRIPTORS and len(times) > 4 and max(times) < STANDSTILL, (files, len(times), max(times))
        return f"{len(times)} round trips, the longest {1000 * max(times):.0f} ms, {files} files; a new client is served"


def main(words):
    (l4d,) = programs_of(words, __doc__, 1)
    # those who flood make more connections than a path takes by default
    with Server(l4d, "--keep-open") as server:
        Client(server.path, 1).bye()
        time.sleep(0.3)
        before = figures(server.process.pid)
        looks = [("180 that stop, say nothing or never read", lambda: beside(server, Silent, True)),
                 ("ten that never read 1 MiB", lambda: beside(server, NeverRead, True)),
                 ("twenty that flood", lambda: beside(server, flood, False)),
                 ("kills in midst of messages of 1 MiB", lambda: beside(server, Kills, False)),
                 ("what is kept", lambda: keeps_nothing(server, before)),
                 ("the floods with 64 descriptors", lambda: few_descriptors(l4d))]
        return told_looks("hostile", looks)


if __name__ == "__main__":
    sys.exit(main(sys.argv[1:]))
