#!/usr/bin/env python3
"""following.py L4D L4SH: `trace follow` of the path `control`, and `l4sh follow DIR`.

While pairs call each other, somebody asks for the trace and each further entry. What he gets is a part, and behind it each entry that comes: with the entries
before, which the file of the trace has, that is one history by `l4sh check`, also where the trace goes on in further files meanwhile. `l4sh follow DIR` tells these
entries in the words of `l4sh follow FILE`, and ends with the service. Who does not read holds up nobody, is cut off, and costs no more memory than is said; who leaves
makes room. Of a server without a trace, and of one whose trace has stopped, that is said.

Its last line is `N checked, M failed`; the status is 0 where M is 0.
"""

import os
import resource
import signal
import socket
import subprocess
import sys
import tempfile
import threading
import time

sys.path.insert(1, f"{sys.path[0]}/../lib")

from counting import Tally
from frames import ANY, ipc
from serving import Client, Server, pair_works, rest_of, settled

SECONDS = 60
TRIPS = 300
# A thread that nobody is, and the bytes of a long string.
NOBODY, BIG = 99 << 32 | 1, 64 << 10
# How many follow at one time, and how much memory one may cost.
FOLLOWERS, FOLLOWER_BYTES = 4, 32 << 20
BLOCKED = "import signal, os, sys; signal.pthread_sigmask(signal.SIG_BLOCK, [signal.SIGTERM]); os.execv(sys.argv[1], sys.argv[1:])"

PART, SLOW = b"l4part 1\n", b"the trace is slow: ask again\n"

tally = Tally()
check = tally.check


def served(l4d, *words, trace=True, **more):
    """A server that SIGTERM ends as it does a service."""
    return Server(l4d, "--keep-open", *words, trace=trace, before=(sys.executable, "-c", BLOCKED), **more)


def asker(server, word="trace follow"):
    """A connection to the path `control` that has asked this."""
    line = socket.socket(socket.AF_UNIX)
    line.settimeout(SECONDS)
    line.connect(f"{server.folder}/control")
    line.sendall(word.encode() + b"\n")
    return line


def answer_to(server, word):
    with asker(server, word) as line:
        return rest_of(line)


def begun(server):
    """A connection that follows, and the first bytes that it got. Where the trace is slow, as on a busy machine, it asks again."""
    while True:
        line = asker(server)
        first = line.recv(len(PART), socket.MSG_WAITALL)
        if first != SLOW[:len(PART)]:
            return line, first
        line.close()


class Following(threading.Thread):
    """Somebody who follows a server, and reads all."""

    def __init__(self, server):
        super().__init__(daemon=True)
        self.line, self.text = begun(server)
        self.has_begun = threading.Event()
        self.start()
        check("a part comes", self.has_begun.wait(SECONDS), self.text[:200])

    def run(self):
        try:
            while piece := self.line.recv(65_536):
                self.text += piece
                if b"\nsince\n" in self.text:
                    self.has_begun.set()
        except OSError:
            pass

    def lines(self):
        """The lines of the part, and those of the entries behind it."""
        lines = self.text.decode().splitlines()
        since = lines.index("since") + 1
        return lines[:since], lines[since:]


def ended(server):
    """Ends the service."""
    server.process.send_signal(signal.SIGTERM)
    return server.process.wait(SECONDS)


def chain(path):
    """The files of a trace, the oldest first."""
    older = []
    while os.path.exists(f"{path}.{len(older) + 1}"):
        older.append(f"{path}.{len(older) + 1}")
    return [*reversed(older), path]


def entries_of(path):
    """The lines of the entries of a trace, file by file."""
    lines = []
    for file in chain(path):
        with open(file, encoding="ascii") as text:
            told = text.read().splitlines()
        lines += told[told.index("since") + 1 :] if told[0] == "l4part 1" else told[1:]
    return lines


def checked(l4sh, room, before, text):
    """What `l4sh check` says of the entries before a part, and of a part with what comes behind it."""
    paths = [f"{room}/first", f"{room}/second"]
    for path, lines in zip(paths, (["l4trace 2", *before], text)):
        with open(path, "w", encoding="ascii") as file:
            file.write("".join(f"{line}\n" for line in lines))
    ran = subprocess.run([l4sh, "check", *paths], stdin=subprocess.DEVNULL, capture_output=True, text=True)
    return ran.returncode, ran.stdout + ran.stderr


def work(one, two, trips=TRIPS):
    for _ in range(trips):
        pair_works((one, two))


def check_exact(l4d, l4sh, *words):
    """Two who ask at different times, while calls go on, get each entry that comes."""
    with served(l4d, *words) as server, tempfile.TemporaryDirectory() as room:
        one, two = (Client(server.path, number) for number in (1, 2))
        work(one, two)
        loads = [threading.Thread(target=work, args=[Client(server.path, number) for number in (2 * it + 3, 2 * it + 4)]) for it in range(3)]
        for load in loads:
            load.start()
        time.sleep(0.02)
        first = Following(server)
        work(one, two, 50)
        second = Following(server)
        # (the others may have ended by then)
        work(one, two, 50)
        for load in loads:
            load.join()
        one.bye()
        third = Client(server.path, 1)
        pair_works((third, two))
        settled(server.trace)
        tally.same(f"{words}: it ends well", ended(server), 0)
        entries = entries_of(server.trace)
        for name, one in (("the first", first), ("the second", second)):
            one.join(SECONDS)
            part, behind = one.lines()
            check(f"{words} {name}: the connection ends with the service", not one.is_alive())
            check(f"{words} {name}: entries came", len(behind) > 100, len(behind))
            tally.same(f"{words} {name}: they are the last of the trace", behind, entries[-len(behind) :])
            before = entries[: -len(behind)]
            tally.same(f"{words} {name}: one history", checked(l4sh, room, before, part + behind), (0, "yes\n"))


def followed(l4sh, server, *words):
    """An `l4sh follow` of this server that has begun."""
    told = subprocess.Popen([l4sh, "follow", server.folder, *words], stdin=subprocess.DEVNULL, stdout=subprocess.PIPE, stderr=subprocess.PIPE, text=True)
    end = time.monotonic() + SECONDS
    while time.monotonic() < end and b"\nsince\n" not in peek(server):
        time.sleep(0.05)
    time.sleep(1)
    return told


def peek(server):
    """What one more who follows gets at once."""
    with asker(server) as line:
        text = b""
        while b"\nsince\n" not in text and (piece := line.recv(65_536)):
            text += piece
        return text


def words_of(line):
    """What a line says behind its number and its moment."""
    return line.split(" µs  ", 1)[-1]


def check_words(l4d, l4sh):
    """`l4sh follow DIR` tells what `l4sh follow FILE` does, and takes its options."""
    with served(l4d) as server:
        one, two = (Client(server.path, number) for number in (1, 2))
        pair_works((one, two))
        one.line.sendall(ipc(0, ANY))
        tools = {words: followed(l4sh, server, *words) for words in ((), ("--failures",), ("--threads", "3.1", "--label", "9"))}
        # it waits since before
        sent = two.call(one.thread, 0, [7])
        check("a call that waited gets its message", not sent.has_failed, hex(sent.error))
        one.outcome()
        two.call(NOBODY, 0, [7])
        three = Client(server.path, 3)
        three.call(NOBODY, 0, [7], tag=9 << 16 | 1)
        settled(server.trace)
        told = subprocess.run([l4sh, "follow", server.trace], stdin=subprocess.DEVNULL, capture_output=True, text=True).stdout.splitlines()
        ended(server)
        ends = {words: tool.communicate(timeout=SECONDS) + (tool.returncode,) for words, tool in tools.items()}
        for words, (_, error, status) in ends.items():
            tally.same(f"follow {words}: ends with the service", (error, status), ("", 0))
        # the connections that end are told, too
        live = [words_of(line) for line in ends[()][0].splitlines()]
        of_file = [words_of(line) for line in told]
        begins = next((place for place, line in enumerate(of_file) if line.startswith("2.1 sends to 1.1") and place > 6), None)
        check("it begins with what comes", begins is not None and live[: len(of_file) - begins] == of_file[begins:], (live[:4], of_file))
        check("who is gone is told", live[-3:] and all(line.endswith("is gone") for line in live[-3:]), live[-3:])
        failures = ends[("--failures",)][0].splitlines()
        check("failures alone", len(failures) == 2 and all("FAILED" in line for line in failures), failures)
        chosen = ends[("--threads", "3.1", "--label", "9")][0].splitlines()
        check("of a thread and a label", len(chosen) == 2 and all("3.1" in line for line in chosen), chosen)


def resident(server):
    """How many bytes of memory the server holds."""
    with open(f"/proc/{server.process.pid}/statm", encoding="ascii") as file:
        return int(file.read().split()[1]) * os.sysconf("SC_PAGESIZE")


def load(server, one, two):
    """Calls with long strings, of more bytes than one who follows may lag, as the trace takes them; how long the longest round took."""
    size, longest = os.path.getsize(server.trace), 0
    for _ in range(FOLLOWER_BYTES // BIG):
        began = time.monotonic()
        two.call(NOBODY, 0, (BIG << 10, 0), tag=0x80, payload=bytes(BIG))
        pair_works((one, two))
        longest = max(longest, time.monotonic() - began)
        size += 2 * BIG
        while os.path.getsize(server.trace) < size:
            time.sleep(0.001)
    settled(server.trace, 1)
    return longest


def check_slow(l4d, l4sh):
    """Those who do not read are cut off, and hold up nobody."""
    with served(l4d) as server:
        one, two = (Client(server.path, number) for number in (1, 2))
        load(server, one, two)
        dead = []
        told = followed(l4sh, server)
        told.send_signal(signal.SIGSTOP)
        for _ in range(FOLLOWERS - 1):
            line, first = begun(server)
            tally.same("a part comes first", first, PART)
            dead.append(line)
        time.sleep(0.5)
        tally.same("more do not follow at one time", answer_to(server, "trace follow"), "full: 4 follow already\n")
        check("but others ask", answer_to(server, "state").startswith("moment "))
        before = resident(server)
        longest = load(server, one, two)
        check("nobody is held up", longest < 2, longest)
        more = resident(server) - before
        check("they cost no more than is said", more < FOLLOWERS * FOLLOWER_BYTES + (8 << 20), more)
        end = time.monotonic() + SECONDS
        while time.monotonic() < end and answer_to_begin(server).startswith("full"):
            time.sleep(0.1)
        check("they are cut off", time.monotonic() < end)
        for line in dead:
            text = rest_of(line)
            check("and have got less than all", 0 < len(text) < os.path.getsize(server.trace), len(text))
            line.close()
        told.send_signal(signal.SIGCONT)
        _, error = told.communicate(timeout=SECONDS)
        why = "cut off, and entries are missing: they were read too slowly, or this l4d was started anew; follow again"
        tally.same("l4sh follow says so", (told.returncode, error), (4, f"l4sh: {server.folder}/control: {why}\n"))
        tally.same("it ends well", ended(server), 0)


def answer_to_begin(server):
    """The first bytes that one who follows gets."""
    with asker(server) as line:
        return line.recv(64).decode()


def check_leaving(l4d):
    """Who leaves makes room, also of a server where nothing happens."""
    with served(l4d) as server, Client(server.path, 1).line:
        for _ in range(3):
            lines = [asker(server) for _ in range(FOLLOWERS)]
            tally.same("each gets a part", [line.recv(9) for line in lines], [b"l4part 1\n"] * FOLLOWERS)
            for line in lines:
                line.close()
            end = time.monotonic() + SECONDS
            while time.monotonic() < end and answer_to_begin(server).startswith("full"):
                time.sleep(0.1)
            check("they are let go", time.monotonic() < end)
            time.sleep(0.5)
        began = time.monotonic()
        line = asker(server)
        line.recv(9)
        tally.same("it ends well", ended(server), 0)
        check("who follows does not keep a server that ends", time.monotonic() - began < 10, time.monotonic() - began)
        line.close()


def on_a_small_disk():
    """No file gets longer than a few entries."""
    signal.signal(signal.SIGXFSZ, signal.SIG_IGN)
    resource.setrlimit(resource.RLIMIT_FSIZE, (4_096, 4_096))


def check_told(l4sh, server, said):
    """Who asks to follow is told this."""
    tally.same("who follows is told", answer_to(server, "trace follow"), said)
    ran = subprocess.run([l4sh, "follow", server.folder], stdin=subprocess.DEVNULL, capture_output=True, text=True, timeout=SECONDS)
    tally.same("l4sh says so", (ran.returncode, ran.stdout, ran.stderr), (4, "", f"l4sh: {server.folder}/control: {said}"))


def check_stopped(l4d, l4sh):
    """Who follows is told that the trace has stopped, and why; and so is who comes later."""
    stopped = "the trace has stopped (TR1): its file cannot be written: File too large (os error 27)"
    with served(l4d, preexec_fn=on_a_small_disk) as server:
        follower = Following(server)
        work(*(Client(server.path, number) for number in (1, 2)), 60)
        follower.join(SECONDS)
        check("the connection ends with the trace", not follower.is_alive())
        tally.same("that is said", follower.lines()[1][-1:], [stopped])
        check_told(l4sh, server, f"{stopped}\n")


def check_untraced(l4d, l4sh):
    """Of a server without a trace, and of one whose trace has stopped."""
    with served(l4d, trace=False) as server:
        check_told(l4sh, server, "no trace: start l4d with --trace, as --trace /dev/null\n")
    with served(l4d, "--trace", "/dev/full", trace=False) as server:
        check_told(l4sh, server, "the trace has stopped (TR1): its file cannot be written: No space left on device (os error 28)\n")
    with served(l4d, "--trace", "/dev/null", trace=False) as server:
        follower = Following(server)
        one, two = (Client(server.path, number) for number in (1, 2))
        work(one, two, 5)
        ended(server)
        follower.join(SECONDS)
        check("a trace to nowhere is followed", len(follower.lines()[1]) > 20, follower.text[-200:])
    ran = subprocess.run([l4sh, "follow", server.folder], stdin=subprocess.DEVNULL, capture_output=True, text=True, timeout=SECONDS)
    check("a folder without a server", ran.returncode != 0 and ran.stdout == "", (ran.returncode, ran.stderr))


def main(arguments):
    if len(arguments) != 2:
        sys.exit(__doc__)
    l4d, l4sh = (os.path.abspath(word) for word in arguments)
    check_exact(l4d, l4sh)
    check_exact(l4d, l4sh, "--trace-size", "20K")
    check_words(l4d, l4sh)
    check_slow(l4d, l4sh)
    check_leaving(l4d)
    check_stopped(l4d, l4sh)
    check_untraced(l4d, l4sh)
    return tally.end()


if __name__ == "__main__":
    sys.exit(main(sys.argv[1:]))
