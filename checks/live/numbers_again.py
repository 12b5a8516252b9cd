#!/usr/bin/env python3
"""Numbers that are opened again at once after an end: no client waits in vain, and each is told what is its own.

    checks/live/numbers_again.py L4D [--rounds N]

Workers open a number, call an echo server by it, end the connection in one of several ways, and open the same number again at
once, on a new connection: by BYE, by closing with the answer unread, by closing in midst of a call, by ending the input alone, by
leaving a message of 1 MiB unread on the old connection while the new one is used, and by a kill of the process. A HELLO may be
refused with K2 as long as the thread before has not ended. Then it has a later version, its calls are answered on the new
connection with its own words, and the old id is not live. At the end all numbers are free, and the server has as many threads and
files as before. The last line is `N rounds, M failed`.
"""

import os
import random
import signal
import socket
import struct
import sys
import threading
import time
import traceback

sys.path.insert(1, f"{sys.path[0]}/../lib")

from arguments import number_of, programs_of
from frames import ANY, BYE, ipc
from processes import figures
from protocol_tables import MAX_STRING_BYTES
from serving import Client, Server, opened

# How many workers there are, how many rounds of each in the gate, and how long anything may take, in seconds.
WORKERS, ROUNDS, SECONDS = 6, 400, 120
ECHO = 1
BIG = MAX_STRING_BYTES


class Echo(threading.Thread):
    """Answers each word with one more, until its connection ends."""

    def __init__(self, path):
        super().__init__(daemon=True)
        self.client = Client(path, ECHO, SECONDS)
        self.client.line.settimeout(None)
        self.thread = self.client.thread
        self.start()

    def run(self):
        try:
            got = self.client.call(0, ANY)
            while True:
                # a caller that has ended is not answered
                got = self.client.call(0, ANY) if got.has_failed else self.client.call(got.sender, ANY, [got.words[0] + 1], 0x400 << 16)
        except (EOFError, OSError):
            pass


def asks(client, echo, some):
    word = some.getrandbits(60)
    got = client.call(echo, echo, [word])
    assert not got.has_failed and got.sender == echo and got.words == (word + 1,), (hex(got.tag), hex(got.error), got.words)


def ends_by_bye(client, echo, some):
    client.bye()


def ends_with_its_answer_unread(client, echo, some):
    client.line.sendall(ipc(echo, echo, [some.getrandbits(60)]))
    time.sleep(some.choice((0, 0, 0.0005)))
    client.line.close()


def ends_in_midst_of_a_frame(client, echo, some):
    client.line.sendall(ipc(echo, echo, [1])[: some.randrange(1, 53)])
    client.line.close()


def ends_its_input_alone(client, echo, some):
    """The answer that still comes is the one asked for, or none, and then the input ends."""
    client.line.sendall(ipc(0, echo))
    client.line.shutdown(socket.SHUT_WR)
    assert client.to_the_end() == b""
    client.line.close()


def ends_behind_a_bye_at_once(client, echo, some):
    client.line.sendall(BYE)
    client.line.close()


WAYS = [ends_by_bye, ends_with_its_answer_unread, ends_in_midst_of_a_frame, ends_its_input_alone, ends_behind_a_bye_at_once]


class Worker(threading.Thread):
    """Opens one number again and again."""

    def __init__(self, path, number, echo, rounds):
        super().__init__(daemon=True)
        self.path, self.number, self.echo, self.rounds, self.done, self.wrongs = path, number, echo, rounds, 0, []

    def run(self):
        some, version = random.Random(self.number), 0
        while self.done < self.rounds and not self.wrongs:
            way = some.choice(WAYS)
            try:
                client = opened(self.path, self.number, version)
                version = client.thread & 0xFFFFFFFF
                for _ in range(some.choice((0, 1, 1, 2))):
                    asks(client, self.echo, some)
                way(client, self.echo, some)
            except Exception:
                self.wrongs.append(f"number {self.number}, round {self.done}, {way.__name__}: {traceback.format_exc()}")
            self.done += 1


def unread(path, echo, rounds):
    """The old connection of a number keeps a message of 1 MiB that nobody reads, while its input has ended and the new one is used."""
    some, version = random.Random(9), 0
    kept = []
    for _ in range(rounds):
        old, sender = opened(path, 200, version), opened(path, 201, 0)
        old.line.sendall(ipc(0, sender.thread, buffers=(BIG << 10, 0)))
        got = sender.call(old.thread, 0, (BIG << 10, 0), tag=0x80, payload=bytes(BIG))
        assert not got.has_failed, hex(got.error)
        old.line.shutdown(socket.SHUT_WR)
        new = opened(path, 200, old.thread & 0xFFFFFFFF)
        for _ in range(3):
            asks(new, echo, some)
        # the old id is not live, and a call to the new one is told to the new connection
        assert sender.call(old.thread, 0, [1]).error == 4
        new.line.sendall(ipc(0, sender.thread))
        assert not sender.call(new.thread, 0, [5]).has_failed
        assert new.outcome().words == (5,)
        version = new.thread & 0xFFFFFFFF
        new.bye()
        sender.bye()
        kept.append(old)
    for old in kept:
        old.line.close()
    return rounds


def killed(path, echo, rounds):
    """A process that calls in a loop is killed, and its number opened again at once."""
    some, version = random.Random(11), 0
    for _ in range(rounds):
        ready, tell = os.pipe()
        child = os.fork()
        if child == 0:
            try:
                client = opened(path, 210, version)
                os.write(tell, struct.pack(">Q", client.thread))
                while True:
                    asks(client, echo, some)
            finally:
                os._exit(1)
        version = struct.unpack(">Q", os.read(ready, 8))[0] & 0xFFFFFFFF
        time.sleep(some.random() / 500)
        os.kill(child, signal.SIGKILL)
        client = opened(path, 210, version)
        version = client.thread & 0xFFFFFFFF
        asks(client, echo, some)
        client.bye()
        os.waitpid(child, 0)
        os.close(ready)
        os.close(tell)
    return rounds


def counted(pid):
    """Its threads and descriptors."""
    return figures(pid)[:2]


def settled(pid, before):
    """What the server has, once it has as much as before or the time is over."""
    limit = time.monotonic() + SECONDS
    while counted(pid) != before and time.monotonic() < limit:
        time.sleep(0.05)
    return counted(pid)


def all_rounds(l4d, rounds):
    """How many rounds there were, and what was wrong."""
    wrongs = []
    with Server(l4d) as server:
        echo = Echo(server.path)
        Client(server.path, 255, SECONDS).bye()
        time.sleep(0.3)
        before = counted(server.process.pid)
        done = 0
        for look, some_rounds in ((killed, rounds // 5), (unread, rounds // 20)):
            try:
                done += look(server.path, echo.thread, some_rounds)
            except Exception:
                wrongs.append(f"{look.__name__}: {traceback.format_exc()}")
        workers = [Worker(server.path, 10 + number, echo.thread, rounds) for number in range(WORKERS)]
        for worker in workers:
            worker.start()
        for worker in workers:
            worker.join()
            done += worker.done
            wrongs += worker.wrongs
        for number in (*range(10, 10 + WORKERS), 200, 201, 210):
            opened(server.path, number, 0).bye()
        after = settled(server.process.pid, before)
        if after != before:
            wrongs.append(f"threads and files: {before} before, {after} at the end")
        if server.process.poll() is not None:
            wrongs.append(f"the server ended: {server.end()}")
    return done, wrongs


def main(words):
    rounds = number_of(words, "--rounds", ROUNDS)
    done, wrongs = all_rounds(*programs_of(words, __doc__, 1), rounds)
    for wrong in wrongs:
        print(wrong[:1500], flush=True)
    print(f"{done} rounds, {len(wrongs)} failed")
    return 1 if wrongs or not done else 0


if __name__ == "__main__":
    sys.exit(main(sys.argv[1:]))
