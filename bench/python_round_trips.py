#!/usr/bin/env python3
"""python_round_trips.py L4D [COUNT]: how long a call of one word and its answer take by the Python client, beside a bare socket loop.

Both are two Python processes, a server and a client of it, over the same `l4d`. The bare ones send frames that were made beforehand and read answers of a
known length: the same bytes, and nothing is looked at. Rounds of the two take turns, and the best of each is told, in microseconds.
"""

import os
import socket
import subprocess
import sys
import time

sys.path[1:1] = [f"{sys.path[0]}/../checks/lib", f"{sys.path[0]}/../clients/python/src"]

from frames import ANY, hello, ipc, ipcr
from l4ipc import Message, Thread, ThreadId
from serving import Server

ROUNDS = 7
ZERO_SEND_TIMEOUT = 0x400 << 16
ANSWER_BYTES = len(ipcr(words=[7]))


def bare(folder, number):
    line = socket.socket(socket.AF_UNIX)
    line.connect(f"{folder}/space1")
    line.sendall(hello(number))
    line.recv(64)
    return line


def exchange(line, frame):
    line.sendall(frame)
    data = line.recv(4096)
    while len(data) < ANSWER_BYTES:
        data += line.recv(4096)


def bare_server(folder):
    line = bare(folder, 1)
    exchange(line, ipc(0, ANY))
    answer = ipc(ThreadId.of(2, 1), ANY, [7], ZERO_SEND_TIMEOUT)
    while True:
        exchange(line, answer)


def bare_client(folder, count):
    line = bare(folder, 2)
    request = ipc(ThreadId.of(1, 1), ThreadId.of(1, 1), [7])
    line.sendall(request)
    while len(line.recv(4096)) != ANSWER_BYTES:  # the server is not there yet
        time.sleep(0.01)
        line.sendall(request)
    began = time.perf_counter()
    for _ in range(count):
        exchange(line, request)
    return time.perf_counter() - began


def client_server(folder):
    with Thread(folder, 1) as thread:
        thread.serve(lambda request: Message(0, request.words))


def client_client(folder, count):
    with Thread(folder, 2) as thread:
        server = ThreadId.of(1, 1)
        thread.call(server, Message(0, [7]), wait_for=10)
        began = time.perf_counter()
        for _ in range(count):
            thread.call(server, Message(0, [7]))
        return time.perf_counter() - began


SERVERS = {"bare": bare_server, "client": client_server}
CLIENTS = {"bare": bare_client, "client": client_client}


def round_of(l4d, kind, count):
    """Microseconds of a round trip."""
    with Server(l4d) as server:
        process = subprocess.Popen([sys.executable, __file__, "--serve", kind, server.folder], stderr=subprocess.DEVNULL)
        try:
            return CLIENTS[kind](server.folder, count) / count * 1e6
        finally:
            process.kill()
            process.wait()


def main():
    if sys.argv[1] == "--serve":
        return SERVERS[sys.argv[2]](sys.argv[3])
    l4d, count = os.path.abspath(sys.argv[1]), int(sys.argv[2]) if len(sys.argv) > 2 else 5000
    best = {kind: min(times) for kind, times in zip(SERVERS, zip(*([round_of(l4d, kind, count) for kind in SERVERS] for _ in range(ROUNDS))))}
    print(f"bare socket loop: {best['bare']:.1f} us; client: {best['client']:.1f} us; {best['client'] / best['bare']:.2f} times as long")


if __name__ == "__main__":
    main()
