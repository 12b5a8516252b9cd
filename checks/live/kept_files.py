#!/usr/bin/env python3
"""kept_files.py L4D L4SH: what is left of a trace whose first files `--trace-keep` removed is checked.

While pairs call each other, clients call one server, which answers and waits in one call, threads end and others come of their numbers, strings are sent, calls time
out and are cancelled, the trace is written to files of a few thousand bytes, of which three are kept. Each begins with a part then. `l4sh check` finds a history that
ends as the oldest of them says, and says `yes from` it; so it does of the two newest, and of the newest alone. Of a few it may find none, and says so.

Of files in the wrong order, of a base with another moment and of one without an entry it says no yes. The last line is `N checked, M failed`.
"""

import os
import subprocess
import sys
import tempfile
import threading

sys.path.insert(1, f"{sys.path[0]}/../lib")

from counting import Tally
from frames import ANY, ipc
from serving import Client, Server, opened, pair_works, settled

SECONDS = 120
SIZE = 6_000
# A thread that nobody is.
NOBODY = 77 << 32 | 1
# A period of 5 microseconds, as a receive timeout; zero time as a send timeout.
SHORT, ZERO_SEND = 0x5, 0x400_0000

tally = Tally()


def lines_of(path):
    with open(path, encoding="ascii") as file:
        return file.read().splitlines(keepends=True)


def checked(l4sh, files):
    """The status of `check` of these files, and what it printed, with the names of the files alone."""
    ran = subprocess.run([l4sh, "check", *files], capture_output=True, text=True, timeout=SECONDS, check=False)
    return ran.returncode, (ran.stdout + ran.stderr).replace(f"{os.path.dirname(files[0])}/", "")


def pairs(path, trips):
    """Two threads send to each other; some calls fail, some time out, and a third thread comes and goes."""
    pair = Client(path, 1), Client(path, 2)
    for trip in range(trips):
        pair_works(pair)
        if trip % 5 == 0:
            pair[1].call(NOBODY, 0, [7])
            pair[0].call(0, ANY, timeouts=SHORT)
        if trip % 7 == 0:
            Client(path, 3).bye()
    return pair


def star(path, trips, clients=5, text=b""):
    """Clients call one server, which answers and waits for the next in one call; strings go with the calls where there is a text."""
    server = Client(path, 1)
    head, tag = ([len(text) << 10, 0], 2 << 6) if text else ([7], 1)
    room = [len(text) << 10, 0x1000] if text else []

    def serve():
        got = server.call(0, ANY, buffers=room)
        for _ in range(trips * clients - 1):
            got = server.call(got.sender, ANY, [8], timeouts=ZERO_SEND, buffers=room)
        server.call(got.sender, 0, [8], timeouts=ZERO_SEND)

    def ask(number):
        client = Client(path, number)
        for _ in range(trips):
            answer = client.call(server.thread, server.thread, head, tag=tag, payload=text)
            assert not answer.has_failed, hex(answer.error)
        return client

    kept = [server]
    workers = [threading.Thread(target=serve), *(threading.Thread(target=lambda at=at: kept.append(ask(at))) for at in range(2, 2 + clients))]
    for worker in workers:
        worker.start()
    for worker in workers:
        worker.join()
    tally.same("all clients have worked", len(kept), 1 + clients)
    return kept


def comings(path, trips):
    """Threads end in the middle of a call, and others of their numbers take their place; the waiting of some is cancelled."""
    stays, waits = Client(path, 1), Client(path, 2)
    comes = None
    for trip in range(trips):
        comes = opened(path, 3, trip)
        comes.line.sendall(ipc(waits.thread, waits.thread, [7]))
        got = waits.call(0, ANY)
        assert got.words == (7,) and got.sender == comes.thread, got.words
        comes.line.close()
        waits.line.sendall(ipc(0, stays.thread))
        while stays.exreg(waits.thread, 0x2)[2] != 0x2:
            pass
        assert waits.outcome().error == 0x7
    return stays, waits, comes


LOADS = {
    "pairs": lambda path: pairs(path, 400),
    "a star": lambda path: star(path, 80),
    "strings": lambda path: star(path, 16, 3, b"x" * 700),
    "comings": lambda path: comings(path, 160),
}


# Of each chain of files whether a history was found that ends as its first one says.
found = []


def is_not_found(status, said):
    """Whether no history was found, which may be so of a few."""
    return status == 6 and said.startswith("l4sh: no history was found")


def check_files(l4d, l4sh, name, load):
    """The files that are left of this load."""
    with Server(l4d, "--trace-size", str(SIZE), "--trace-keep", "2", "--connections", "400", trace=True) as server:
        there = load(server.path)
        files = [f"{server.trace}.2", f"{server.trace}.1", server.trace]
        settled(server.trace)
        server.process.terminate()
        server.process.wait(SECONDS)
        # a worker that lags writes fewer files, so that the first one may be there still
        files = [file for file in files if lines_of(file)[0] == "l4part 1\n"]
        tally.check(f"{name}: files begin with a part", len(files) > 0, files)
        for count in range(len(files), 0, -1):
            left = files[-count:]
            first = os.path.basename(left[0])
            status, said = checked(l4sh, left)
            found.append(status == 0)
            tally.check(f"{name}: the newest {count}", (status, said) == (0, f"yes from {first}\n") or is_not_found(status, said), (status, said))
        if len(files) == 3:
            check_wrong(l4sh, name, files)
        del there


def check_wrong(l4sh, name, files):
    """Files that are no history."""
    status, said = checked(l4sh, [files[1], files[0], files[2]])
    tally.check(f"{name}: the wrong order", status == 3 and said.startswith("no trace.2 ") or is_not_found(status, said), (status, said))
    lines = lines_of(files[1])
    since = lines.index("since\n")
    ended = next(place for place in range(since, len(lines)) if lines[place].startswith("ended "))
    with tempfile.TemporaryDirectory() as room:
        path = f"{room}/changed"
        for what, changed, wanted in (
            ("another moment", [lines[0], f"moment {int(lines[1].split()[1]) + 1}\n", *lines[2:]], (6, "l4sh: no history was found")),
            ("an entry is left out", lines[:ended] + lines[ended + 1 :], (3, f"no changed {ended + 1} {lines[ended]}")),
        ):
            with open(path, "w", encoding="ascii") as file:
                file.writelines(changed)
            status, said = checked(l4sh, [path])
            tally.check(f"{name}: {what}", status == wanted[0] and said.startswith(wanted[1]) or is_not_found(status, said), (status, said))


def main(arguments):
    l4d, l4sh = (os.path.abspath(it) for it in arguments)
    for name, load in LOADS.items():
        check_files(l4d, l4sh, name, load)
    tally.check("of nearly all a history is found", sum(found) >= 0.6 * len(found), found)
    return tally.end()


if __name__ == "__main__":
    sys.exit(main(sys.argv[1:]))
