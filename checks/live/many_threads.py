#!/usr/bin/env python3
"""many_threads.py L4D: one Python process with 200 threads of a live `l4d`, by asyncio and by threads of the system, and calls that are cancelled.

A hundred servers and a hundred clients are in one process; each client calls each tenth server. Then a server waits by coroutines that are cancelled all the
time, and ended by ExchangeRegisters: it keeps its thread, and no request of its clients is lost.

Its last line is `N checked, M failed`; the status is 0 where M is 0.
"""

import asyncio
import random
import sys
import threading
import time

sys.path[1:1] = [f"{sys.path[0]}/../lib", f"{sys.path[0]}/../../clients/python/src"]

from arguments import programs_of
from counting import Tally
from l4ipc import Message, Thread, ThreadId, aio
from serving import Server

PAIRS = 100
EVERY = 10
REQUESTS = 150

tally = Tally()
check = tally.check


def partners(client):
    """The servers that a client calls: by their ids."""
    return [ThreadId.of(1 + server, 1) for server in range(client % EVERY, PAIRS, EVERY)]


def quiet(*_):
    """Nobody is told."""


async def by_coroutines(folder):
    """200 threads of one event loop: the answers of all clients."""
    threads = [aio.Thread(folder, number, connect_timeout=60) for number in range(1, 2 * PAIRS + 1)]
    await asyncio.gather(*(thread.connect() for thread in threads))

    async def serves(thread):
        await thread.serve(lambda request: Message(0, [request.words[0] + thread.id.number]), tell=quiet)

    async def asks(thread, client):
        return [(await thread.call(to, Message(0, [client]))).words[0] - to.number for to in partners(client)]

    serving = [asyncio.ensure_future(serves(thread)) for thread in threads[:PAIRS]]
    answers = await asyncio.gather(*(asks(thread, client) for client, thread in enumerate(threads[PAIRS:])))
    for task in serving:
        task.cancel()
    await asyncio.gather(*serving, return_exceptions=True)
    for thread in threads:
        thread.close()
    return answers


def by_threads(folder):
    """The same with a thread of the system for each."""
    threads = [Thread(folder, number, connect_timeout=60) for number in range(1, 2 * PAIRS + 1)]
    answers = [None] * PAIRS

    def serves(thread):
        thread.serve(lambda request: Message(0, [request.words[0] + thread.id.number]), tell=quiet)

    def asks(thread, client):
        answers[client] = [thread.call(to, Message(0, [client])).words[0] - to.number for to in partners(client)]

    for thread in threads[:PAIRS]:
        threading.Thread(target=serves, args=(thread,), daemon=True).start()
    asking = [threading.Thread(target=asks, args=(thread, client), daemon=True) for client, thread in enumerate(threads[PAIRS:])]
    for worker in asking:
        worker.start()
    for worker in asking:
        worker.join(120)
    for thread in threads[PAIRS:]:
        thread.close()
    return answers


async def cancelled_waits(folder):
    """A server whose waits are cancelled after random times; how many were, and the answers of its clients."""
    async with aio.Thread(folder, 301) as canceller, aio.Thread(folder, 300, canceller=canceller) as server:
        clients = [await aio.Thread(folder, 310 + place, connect_timeout=60).connect() for place in range(3)]
        ended = 0

        async def serves():
            nonlocal ended
            while True:
                try:
                    request = await asyncio.wait_for(server.wait(), random.random() * 0.01)
                except asyncio.TimeoutError:
                    ended += 1
                    continue
                await server.send(request.sender, Message(0, [request.words[0] + 1]), 0)

        async def asks(client):
            answers = []
            for number in range(REQUESTS):
                answers.append((await client.call(server.id, Message(0, [number]), 60, 60)).words[0])
                await asyncio.sleep(random.random() * 0.01)
            return answers

        serving = asyncio.ensure_future(serves())
        answers = await asyncio.gather(*(asks(client) for client in clients))
        is_live = not server.is_closed
        serving.cancel()
        await asyncio.gather(serving, return_exceptions=True)
        for client in clients:
            client.close()
        return ended, answers, is_live


def main():
    (l4d,) = programs_of(sys.argv[1:], __doc__, 1)
    wanted = [[client] * (PAIRS // EVERY) for client in range(PAIRS)]
    for name, does in (("coroutines", lambda folder: asyncio.run(by_coroutines(folder))), ("threads", by_threads)):
        with Server(l4d, "--connections", "400") as server:
            began = time.monotonic()
            answers = does(server.folder)
            check(f"{2 * PAIRS} threads in one process, by {name}", answers == wanted, answers[:3])
            print(f"{2 * PAIRS} threads by {name}: {PAIRS * PAIRS // EVERY} calls in {time.monotonic() - began:.1f} s", flush=True)
    with Server(l4d) as server:
        ended, answers, is_live = asyncio.run(cancelled_waits(server.folder))
        check("waits were cancelled", ended > 20, ended)
        check("each request was answered", answers == [list(range(1, REQUESTS + 1))] * 3, answers)
        check("the thread goes on", is_live)
        print(f"{ended} waits were cancelled, and {3 * REQUESTS} calls answered", flush=True)
    return tally.end()


if __name__ == "__main__":
    sys.exit(main())
