#!/usr/bin/env python3
"""rotation.py L4D L4SH: the trace of `l4d` goes on in further files, and who asks gets the part of a trace that begins now.

While pairs call each other, strings are sent, calls fail, threads end and some wait all the while, the trace is written to files of a few thousand bytes. The
entries of all files, one behind the other, are a legal history: none is lost and none doubled. The first file is a trace, and each further one a part. Its base says
the moment, the calls and the versions of the entries before it; its kept entries are among them, in their order, and each thread that lives and each call
that is open is there.

Then how many older files are kept, also from the start before; that somebody asks for a further file, or for a part, of a server with a trace and of one without, and
of one whose file was moved away; that a second server leaves the trace of one that runs alone; that who reads slowly holds up nobody; and what is told of a folder
that has gone, of a full disk, and of bad words.

Its last line is `N checked, M failed`; the status is 0 where M is 0.
"""

import functools
import os
import resource
import shutil
import signal
import socket
import stat
import subprocess
import sys
import tempfile
import threading
import time

sys.path.insert(1, f"{sys.path[0]}/../lib")

from counting import Tally
from frames import ANY, ipc
from processes import figures
from protocol_tables import MAX_STRING_BYTES
from serving import Client, Server, is_legal, pair_works, rest_of
from traces import entries_in

SECONDS = 60
SIZE = 3_000
TRIPS = 400
ASKERS, LOADED = 3, 4
# Beside its size a file has at most twice what may wait for the trace, and a command of each client, in hexadecimal. Bytes; what the server holds, KiB.
MOST_OF_A_FILE, MOST_RESIDENT = (1 << 20) + 2 * 2 * (8 + 4 << 20), 150_000
# A thread that nobody is.
NOBODY = 77 << 32 | 1

tally = Tally()
check = tally.check


def lines_of(path):
    with open(path, encoding="ascii") as file:
        text = file.read()
    check(f"{os.path.basename(path)} ends with a line", text.endswith("\n"), text[-80:])
    return text.splitlines()


def chain(path):
    """The files of a trace, the oldest first."""
    older = []
    while os.path.exists(f"{path}.{len(older) + 1}"):
        older.append(f"{path}.{len(older) + 1}")
    return [*reversed(older), path]


class Part:
    """A part of a trace: its base, its kept entries and those behind them."""

    def __init__(self, lines):
        assert lines[0] == "l4part 1", lines[0]
        kept, since = lines.index("kept"), lines.index("since")
        self.base = [line.split(" ") for line in lines[1:kept]]
        self.kept, self.entries = lines[kept + 1 : since], lines[since + 1 :]

    def number(self, word):
        (value,) = (int(fields[1]) for fields in self.base if fields[0] == word)
        return value

    def versions(self):
        return {fields[1]: fields[2] for fields in self.base if fields[0] == "number"}


class Past:
    """What the entries before a part say: the moment, how many calls, the last version of each number, who lives, and which calls are open."""

    def __init__(self, lines):
        self.lines, self.moment, self.calls, self.versions, self.live, self.open = lines, 0, 0, {}, set(), {}
        for line, (word, fields) in zip(lines, entries_in(lines)):
            getattr(self, word, lambda *_: None)(line, *fields)

    def at(self, _, moment):
        self.moment = int(moment)

    def opened(self, line, thread, _):
        number, version = thread.split(".")
        self.versions[number] = version
        self.live.add(line)

    def broke(self, _, thread):
        self.live = {line for line in self.live if line.split(" ")[1] != thread}

    def called(self, line, number, *_):
        self.calls += 1
        self.open[number] = line

    def failed(self, _, number, *__):
        self.open.pop(number, None)

    def ended(self, _, sender, receiver):
        # who sends may receive next: only the receiver is over for sure
        self.open.pop(receiver, None)


def is_among(lines, others):
    """Whether these lines are among the others, in their order."""
    rest = iter(others)
    return all(any(line == other for other in rest) for line in lines)


def check_part(what, part, past):
    """A part follows these entries."""
    tally.same(f"{what}: the moment", part.number("moment"), past.moment)
    tally.same(f"{what}: the calls", part.number("calls"), past.calls)
    tally.same(f"{what}: the versions", part.versions(), past.versions)
    check(f"{what}: the kept entries are of the past", is_among(part.kept, past.lines), part.kept[:3])
    check(f"{what}: who lives is kept", past.live <= set(part.kept), past.live - set(part.kept))


def check_chain(l4sh, path, room):
    """The files are one history; answers its entries."""
    first, *parts = chain(path)
    lines = lines_of(first)
    tally.same("the first file is a trace", lines[0], "l4trace 2")
    entries = lines[1:]
    for number, file in enumerate(parts, 1):
        part = Part(lines_of(file))
        check_part(f"file {number + 1} of {len(parts) + 1}", part, Past(entries))
        entries += part.entries
    whole = f"{room}/whole"
    with open(whole, "w", encoding="ascii") as file:
        file.write("".join(f"{line}\n" for line in ["l4trace 2", *entries]))
    check("all files are one legal history", *is_legal(l4sh, whole))
    return entries


def work(path, first, trips):
    """Two threads of these numbers call each other; some calls fail, and a third thread comes and goes."""
    pair = Client(path, first), Client(path, first + 1)
    for trip in range(trips):
        pair_works(pair)
        if trip % 7 == 0:
            pair[1].call(NOBODY, 0, [7])
        if trip % 11 == 0:
            Client(path, first + 2).bye()
    return pair


def count_of(entries, word):
    return sum(1 for line in entries if line.split(" ")[0] == word)


def check_rotation(l4d, l4sh):
    """Files of a few thousand bytes, under load, with threads that wait all the while and parts that are asked for."""
    with Server(l4d, "--trace-size", str(SIZE), "--log", trace=True) as server, tempfile.TemporaryDirectory() as room:
        waits = [Client(server.path, 60 + number) for number in range(5)]
        for client in waits[1:]:
            client.line.sendall(ipc(0, waits[0].thread, []))
        pairs = []
        workers = [threading.Thread(target=lambda at=at: pairs.append(work(server.path, 1 + 3 * at, TRIPS))) for at in range(LOADED)]
        for worker in workers:
            worker.start()
        told = []
        while any(worker.is_alive() for worker in workers):
            told.append(ask(server, b"trace\n"))
            time.sleep(0.05)
        for worker in workers:
            worker.join()
        tally.same("all pairs have worked", len(pairs), LOADED)
        parts = [Part(text.splitlines()) for text in told if text.startswith("l4part 1\n")]
        check("who asks meanwhile gets parts", len(parts) >= len(told) - 1 and len(parts) > 1, [text[:60] for text in told][:3])
        moments = [part.number("moment") for part in parts]
        check("each of its own moment", moments == sorted(moments) and len(set(moments)) > 1, moments[:5])
        for client in (client for pair in pairs for client in pair):
            client.bye()
        for client in waits:
            client.line.close()
        server.process.terminate()
        # what it still writes may end further files
        server.process.wait(SECONDS)
        files = chain(server.trace)
        check("there are many files", len(files) > 10, len(files))
        sizes = [os.path.getsize(file) for file in files[:-1]]
        check("each has its size", min(sizes) >= SIZE, min(sizes))
        modes = {os.stat(file).st_mode & 0o777 for file in files}
        tally.same("all are their owner's alone", modes, {0o600})
        entries = check_chain(l4sh, server.trace, room)
        tally.same("no message is lost", count_of(entries, "ended"), LOADED * TRIPS)
        for part in parts:
            check_told(part, entries)


def check_told(part, entries):
    """A part that somebody was told is one of this history."""
    calls, moment = part.number("calls"), part.number("moment")
    ends = [place for place, before in enumerate(counts_of(tuple(entries))) if before == (calls, moment)]
    check("a part is of a place of the history", ends, part.base[:3])
    check("it has no further entries", not part.entries, part.entries[:3])
    check("it keeps entries of the history", ends and is_among(part.kept, entries[: ends[-1]]), part.kept[:3])


@functools.lru_cache(maxsize=1)
def counts_of(entries):
    """For each place how many calls stand before it, and the moment."""
    counts = [(0, 0)]
    for line in entries:
        calls, moment = counts[-1]
        word, *fields = line.split(" ")
        counts.append((calls + (word == "called"), int(fields[0]) if word == "at" else moment))
    return counts


def ask(server, word):
    """What is answered to a word at `control`."""
    with asker_of(server) as asker:
        asker.sendall(word)
        return rest_of(asker)


def asker_of(server):
    asker = socket.socket(socket.AF_UNIX)
    asker.settimeout(SECONDS)
    asker.connect(f"{server.folder}/control")
    return asker


def check_asked(l4d, l4sh):
    """A part of a server without a trace, and of one whose trace has put all."""
    for words in ({}, {"trace": True}):
        what = "with a trace" if words else "without a trace"
        with Server(l4d, "--connections", "3", **words) as server, tempfile.TemporaryDirectory() as room:
            one, two, three = (Client(server.path, number) for number in (1, 2, 3))
            for _ in range(20):
                pair_works((one, two))
            three.line.sendall(ipc(0, one.thread, []))
            time.sleep(0.3)
            part = Part(ask(server, b"trace\n").splitlines())
            tally.same(f"{what}: the calls", part.number("calls"), 41)
            tally.same(f"{what}: the outcomes that were taken", part.number("takes"), 40)
            tally.same(f"{what}: the versions", part.versions(), {"1": "1", "2": "1", "3": "1"})
            check(f"{what}: the open call is kept", any(line.startswith("called 41 3.1 ") for line in part.kept), part.kept)
            tally.same(f"{what}: nothing comes behind it", part.entries, [])
            pair_works((one, two))
            later = Part(ask(server, b"trace\n").splitlines())
            check(f"{what}: it goes on", later.number("calls") == 43 and later.number("moment") > part.number("moment"), later.base)
            if words:
                entries = server.entries()[1:]
                check_part("the part of a server with a trace", later, Past(entries))
                check("the trace stays one", *is_legal(l4sh, server.trace))
            three.line.close()
            for client in (one, two):
                client.bye()
            tally.same(f"{what}: it ends well", server.end()[:2], (0, "closed\n"))
            del room


def check_slow(l4d):
    """Who asks for a part with long strings, and does not read it, holds up nobody."""
    with Server(l4d) as server:
        one, two, many = Client(server.path, 1), Client(server.path, 2), [Client(server.path, 10 + at) for at in range(4)]
        text = b"x" * 1_000_000
        for client in many:
            # a simple string item: its length in the first word, any pointer in the second
            head = [len(text) << 10, 0]
            client.line.sendall(ipc(one.thread, 0, head, tag=2 << 6, payload=text))
        time.sleep(0.5)
        slow = [asker_of(server) for _ in range(ASKERS)]
        for asker in slow:
            asker.sendall(b"trace\n")
        began = time.monotonic()
        for _ in range(50):
            two.call(NOBODY, 0, [7])
        check("who does not read holds up no call", time.monotonic() - began < 2, time.monotonic() - began)
        check("and nobody else who asks", "entries " in ask(server, b"counters\n"), "")
        part = ask(server, b"trace\n")
        check("who reads gets the strings", part.startswith("l4part 1\n") and len(part) > 4 * 2 * len(text), len(part))
        for asker in slow:
            asker.close()


def work_slowly(server):
    """A pair calls each other so slowly that the trace goes on in several files of 1 KiB, and leaves."""
    pair = Client(server.path, 1), Client(server.path, 2)
    for _ in range(60):
        pair_works(pair)
        time.sleep(0.003)
    for client in pair:
        client.bye()


def check_kept(l4d, l4sh):
    """How many older files are kept, and what becomes of the one that is there at the start."""
    folder = tempfile.mkdtemp(prefix="l4d-")
    with Server(l4d, "--trace-size", "1K", "--trace-keep", "2", "--connections", "2", folder=folder, trace=True) as server, tempfile.TemporaryDirectory() as room:
        work_slowly(server)
        tally.same("it ends well", server.end()[:2], (0, "closed\n"))
        tally.same("two older files are kept", sorted(it for it in os.listdir(folder) if it.startswith("trace")),
                   sorted(f"trace{place}{beside}" for place in ("", ".1", ".2") for beside in ("", ".began")))
        tally.same("each is a part", [lines_of(file)[0] for file in chain(server.trace)], 3 * ["l4part 1"])
        shutil.copytree(folder, f"{room}/before")
        again = Server(l4d, "--trace-keep", "3", "--connections", "2", folder=folder, trace=True)
        pair = Client(again.path, 1), Client(again.path, 2)
        pair_works(pair)
        for client in pair:
            client.bye()
        tally.same("it ends well again", again.end()[:2], (0, "closed\n"))
        for number, before in ((1, "trace"), (2, "trace.1"), (3, "trace.2")):
            with open(f"{server.trace}.{number}", "rb") as now, open(f"{room}/before/{before}", "rb") as then:
                check(f"{before} of the start before is trace.{number}", now.read() == then.read(), "")
        check("the new file is a trace of its own", *is_legal(l4sh, server.trace))
        plain = Server(l4d, "--connections", "2", "--probe", folder=folder, trace=True)
        tally.same("it ends well without older ones", plain.end()[:2], (0, "probe 0x7\nclosed\n"))
        tally.same("without --trace-keep the file is emptied", len([it for it in os.listdir(folder) if it.startswith("trace") and not it.endswith(".began")]), 4)


def files_in(folder):
    """The files of a trace in a folder, and what stands in them."""
    files = {}
    for name in sorted(os.listdir(folder)):
        if name.startswith("trace"):
            with open(f"{folder}/{name}", "rb") as file:
                files[name] = file.read()
    return files


def check_refused(l4d, folder, name, *words):
    """A second server may not write the trace of one that runs: it says so, serves on without it, and leaves all files as they are."""
    before, path = files_in(folder), f"{folder}/{name}"
    with Server(l4d, "--trace", path, "--connections", "2", "--probe", *words) as second:
        told = f"l4d: trace TR1\n  {os.path.realpath(path)} cannot be opened: another server writes it\n"
        # (it may be ended before its own client has been told anything)
        status, out, said = second.end()
        tally.same(f"a second server: {name} {words}", (status, out.removeprefix("probe 0x7\n"), said), (1, "closed\n", told))
    tally.same(f"what stands behind a second server: {name} {words}", files_in(folder), before)


def check_second(l4d, l4sh):
    """A second server leaves the trace of one that runs alone, by whatever name, and behind a further file. Once that one has ended, or was killed, it does not."""
    keeps = (), ("--trace-keep", "2"), ("--trace-keep", "1", "--trace-size", "1K")
    with Server(l4d, "--connections", "2", trace=True) as server, tempfile.TemporaryDirectory() as room:
        pair = Client(server.path, 1), Client(server.path, 2)
        pair_works(pair)
        os.link(server.trace, f"{server.folder}/trace-linked")
        os.symlink("trace", f"{server.folder}/trace-pointed")
        server.entries()
        for words in keeps:
            for name in ("trace", "trace-linked", "trace-pointed"):
                check_refused(l4d, server.folder, name, *words)
        required = subprocess.run([l4d, "--dir", room, "--spaces", "1", "--trace", server.trace, "--trace-required", "--connections", "2", "--probe"],
                                  capture_output=True, text=True, timeout=SECONDS)
        told = f"l4d: trace TR1\n  {server.trace} cannot be opened: another server writes it\nl4d: ended, since --trace-required was given\n"
        tally.same("a second server that must write it", (required.returncode, required.stdout, required.stderr), (1, "", told))
        rotated(l4sh, server)
        pair_works(pair)
        time.sleep(0.3)
        server.entries()
        for words in keeps:
            check_refused(l4d, server.folder, "trace", *words)
        pair_works(pair)
        ends_with_three(l4sh, server, pair, room)
        tally.same("there is one older file", [os.path.basename(file) for file in chain(server.trace)], ["trace.1", "trace"])
        for words in keeps[::-1]:
            later = Server(l4d, "--connections", "2", "--probe", *words, folder=server.folder, trace=True)
            # (it may be ended before its own client has been told anything)
            status, out, told = later.end()
            tally.same(f"a server behind the other: {words}", (status, out.removeprefix("probe 0x7\n"), told), (0, "closed\n", ""))
        killed = Server(l4d, folder=server.folder, trace=True)
        killed.kill()
        later = Server(l4d, "--connections", "2", "--probe", "--replace", folder=server.folder, trace=True)
        tally.same("a server behind one that was killed", later.end(), (0, "probe 0x7\nclosed\n", ""))
    with Server(l4d, "--trace", "/dev/null") as first, Server(l4d, "--trace", "/dev/null", "--connections", "2", "--probe") as second:
        tally.same("no device is locked", second.end(), (0, "probe 0x7\nclosed\n", ""))
        del first


def rotated(l4sh, server):
    """How `l4sh rotate` of the server's folder ends."""
    ran = subprocess.run([l4sh, "rotate", server.folder], stdin=subprocess.DEVNULL, capture_output=True, text=True, timeout=SECONDS)
    return ran.returncode, ran.stdout, ran.stderr


def check_asked_for(l4d, l4sh):
    """Who says `rotate` has the trace go on in a further file."""
    with Server(l4d, "--connections", "2", trace=True) as server, tempfile.TemporaryDirectory() as room:
        pair = Client(server.path, 1), Client(server.path, 2)
        pair_works(pair)
        tally.same("a further file is promised", ask(server, b"rotate\n"), "the next entries end the file\n")
        pair_works(pair)
        time.sleep(0.3)
        tally.same("there is one older file", [os.path.basename(file) for file in chain(server.trace)], ["trace.1", "trace"])
        tally.same("l4sh rotate", rotated(l4sh, server), (0, "the next entries end the file\n", ""))
        pair_works(pair)
        ends_with_three(l4sh, server, pair, room)
        tally.same("there are two older files", [os.path.basename(file) for file in chain(server.trace)], ["trace.2", "trace.1", "trace"])
    with Server(l4d) as server:
        check_not_rotated("without a trace", l4sh, server, "no trace: start l4d with --trace FILE\n")


def ends_with_three(l4sh, server, pair, room):
    """Both clients say BYE, the server ends, and its files have the three messages that were sent."""
    for client in pair:
        client.bye()
    tally.same("it ends well", server.end()[:2], (0, "closed\n"))
    entries = check_chain(l4sh, server.trace, room)
    tally.same("all messages are there", count_of(entries, "ended"), 3)


def check_not_rotated(what, l4sh, server, said):
    """Who says `rotate` is told why there is no further file."""
    tally.same(f"rotate {what}", ask(server, b"rotate\n"), said)
    tally.same(f"l4sh rotate {what}", rotated(l4sh, server), (4, "", f"l4sh: {server.folder}/control: {said}"))


def check_stopped(what, l4sh, server, why):
    """Who says `rotate` is told that the trace has stopped, and why; so do the counters."""
    end = time.monotonic() + SECONDS
    while "trace_stopped 1\n" not in ask(server, b"counters\n") and time.monotonic() < end:
        time.sleep(0.01)
    check(f"{what} is counted", "trace_stopped 1\n" in ask(server, b"counters\n"), ask(server, b"counters\n"))
    check_not_rotated(f"of {what}", l4sh, server, f"the trace has stopped (TR1): its file {why}\n")


def check_moved(l4d, l4sh):
    """Where somebody has moved the file away the trace goes on in a new one, and both are one history."""
    with Server(l4d, "--connections", "2", trace=True) as server, tempfile.TemporaryDirectory() as room:
        pair = Client(server.path, 1), Client(server.path, 2)
        pair_works(pair)
        time.sleep(0.3)
        os.rename(server.trace, f"{server.trace}.1")
        tally.same("l4sh rotate of a file that was moved", rotated(l4sh, server), (0, "the next entries end the file\n", ""))
        pair_works(pair)
        time.sleep(0.3)
        pair_works(pair)
        ends_with_three(l4sh, server, pair, room)
        tally.same("there is one older file", [os.path.basename(file) for file in chain(server.trace)], ["trace.1", "trace"])


def check_linked(l4d, l4sh):
    """Of a trace that is named by a link the older files stand beside its target, which is made where nothing is there, and the link stays."""
    for is_there in (True, False):
        with tempfile.TemporaryDirectory() as links, tempfile.TemporaryDirectory() as room:
            target, link = f"{room}/trace", f"{links}/trace"
            if is_there:
                open(target, "wb").close()
            os.symlink(target, link)
            what = f"a link to what is {'' if is_there else 'not '}there"
            with Server(l4d, "--trace", link, "--trace-size", "1K", "--trace-keep", "2", "--connections", "2") as server:
                work_slowly(server)
                tally.same(f"{what}: the server ends well", server.end()[:2], (0, "closed\n"))
            tally.same(f"{what}: it stays one", (os.path.islink(link), os.listdir(links)), (True, ["trace"]))
            tally.same(f"{what}: the older files", [os.path.basename(file) for file in chain(target)], ["trace.2", "trace.1", "trace"])
            timed = subprocess.run([l4sh, "state", "--time", link], capture_output=True, text=True, timeout=SECONDS, check=False)
            tally.same(f"{what}: its times", (timed.returncode, timed.stderr), (0, ""))


def check_renamed(l4d, l4sh):
    """Where the trace goes on in a further file while files are judged, what then stands at a name is not taken for the file that stood there."""
    with Server(l4d, "--connections", "2", trace=True) as server, tempfile.TemporaryDirectory() as room:
        pair = Client(server.path, 1), Client(server.path, 2)
        pair_works(pair)
        for _ in range(2):
            rotated(l4sh, server)
            pair_works(pair)
            time.sleep(0.3)
        first = f"{room}/first"
        os.mkfifo(first)
        for command in ("check", "state"):
            judging = subprocess.Popen([l4sh, command, first, f"{server.trace}.1", server.trace], stdout=subprocess.PIPE, stderr=subprocess.PIPE, text=True)
            time.sleep(0.3)
            rotated(l4sh, server)
            pair_works(pair)
            time.sleep(0.3)
            with open(chain(server.trace)[0], "rb") as file, open(first, "wb") as pipe:
                pipe.write(file.read())
            out, err = judging.communicate(timeout=SECONDS)
            told = f"l4sh: {server.trace}.1: another file stands there now than at the start, as where l4d goes on in a further one: ask again\n"
            tally.same(f"{command} of files that are renamed meanwhile", (judging.returncode, out, err), (1, "", told))
        for client in pair:
            client.bye()
        tally.same("it ends well", server.end()[:2], (0, "closed\n"))
        check_chain(l4sh, server.trace, room)


def check_pipe(l4d, l4sh):
    """A pipe is one file to its end: no size and no `l4sh rotate` ends it, and a reader finds one trace."""
    folder = tempfile.mkdtemp(prefix="l4d-")
    pipe, lines, is_over = f"{folder}/trace", [], threading.Event()
    os.mkfifo(pipe)

    def read():
        while not is_over.is_set():
            with open(pipe, encoding="ascii") as file:
                lines.extend(file.read().splitlines())

    threading.Thread(target=read, daemon=True).start()
    with Server(l4d, "--trace-keep", "2", "--trace-size", "100", "--connections", "2", folder=folder, trace=True) as server:
        pair = Client(server.path, 1), Client(server.path, 2)
        pair_works(pair)
        why = f"l4sh: {folder}/control: the trace is a pipe, which is one file to its end\n"
        tally.same("l4sh rotate of a pipe", rotated(l4sh, server), (4, "", why))
        pair_works(pair)
        time.sleep(0.3)
        pair_works(pair)
        is_over.set()
        for client in pair:
            client.bye()
        tally.same("it ends well", server.end()[:2], (0, "closed\n"))
        time.sleep(0.3)
        check("the pipe is there", stat.S_ISFIFO(os.stat(pipe).st_mode), oct(os.stat(pipe).st_mode))
        tally.same("and nothing beside it", [it for it in os.listdir(folder) if it.startswith("trace.")], [])
        tally.same("one trace", [line for line in lines if line.startswith(("l4trace", "l4part"))], ["l4trace 2"])


def long_strings(path, number, seconds):
    """Two threads of a process of its own: one sends the other strings for so many seconds, as fast as it can."""
    child = os.fork()
    if child:
        return child
    status = 1
    try:
        (one, two), end = (Client(path, number), Client(path, number + 1)), time.monotonic() + seconds
        item, string = (MAX_STRING_BYTES << 10, 0), bytes(MAX_STRING_BYTES)
        while time.monotonic() < end:
            one.line.sendall(ipc(0, ANY, buffers=item))
            sent = two.call(one.thread, 0, item, tag=2 << 6, payload=string)
            assert not sent.has_failed and not one.outcome().has_failed, hex(sent.error)
        status = 0
    finally:
        os._exit(status)


def check_long_strings(l4d, l4sh):
    """However fast long strings come, each file is little longer than its size, and the server holds few of them: who asks waits for the trace."""
    with Server(l4d, "--trace-size", "1M", "--trace-keep", "100", trace=True) as server:
        callers, most, end = [long_strings(server.path, number, 0.7) for number in range(1, 9, 2)], 0, time.monotonic() + 1
        while time.monotonic() < end:
            most = max(most, figures(server.process.pid)[2])
            time.sleep(0.05)
        tally.same("each string comes", [os.waitpid(caller, 0)[1] for caller in callers], [0] * len(callers))
        server.process.terminate()
        server.process.wait(SECONDS)
        sizes = [os.path.getsize(file) for file in chain(server.trace)]
        check("there are strings of many megabytes", sum(sizes) > 20 << 20, sum(sizes))
        check("each file is little longer than its size", max(sizes) < MOST_OF_A_FILE, max(sizes))
        check("the server holds few of them", most < MOST_RESIDENT, most)
        judged = subprocess.run([l4sh, "check", *chain(server.trace)], capture_output=True, text=True, timeout=SECONDS, check=False)
        tally.same("nothing is lost", (judged.returncode, judged.stdout), (0, "yes\n"))


def check_migrated(l4d, l4sh):
    """A trace that a server writes is left alone by `l4sh migrate`; once the server has ended it is written anew."""
    with Server(l4d, "--connections", "2", trace=True) as server:
        pair = Client(server.path, 1), Client(server.path, 2)
        pair_works(pair)
        server.entries()

        def migrated():
            ran = subprocess.run([l4sh, "migrate", server.trace, server.trace], capture_output=True, text=True, timeout=SECONDS, check=False)
            return ran.returncode, ran.stdout, ran.stderr

        why = "a server writes it: l4sh rotate makes an older file of it"
        tally.same("migrate a trace that is written", migrated(), (1, "", f"l4sh: device failed\n{server.trace}: {why}\n"))
        for _ in range(20):
            pair_works(pair)
        for client in pair:
            client.bye()
        tally.same("it ends well", server.end()[:2], (0, "closed\n"))
        check("nothing is lost", *is_legal(l4sh, server.trace))
        lines = lines_of(server.trace)
        tally.same("migrate a trace that is whole", migrated()[:2], (0, ""))
        tally.same("it has the same lines", lines_of(server.trace), lines)


def little_room():
    """A file has no more room than this, and a write past it fails."""
    signal.signal(signal.SIGXFSZ, signal.SIG_IGN)
    resource.setrlimit(resource.RLIMIT_FSIZE, (4_096, 4_096))


def check_failures(l4d, l4sh):
    """What is told of a file that cannot be renamed, written or opened; the server goes on."""
    for what, spoil, told in (("a folder that has gone", lambda room: shutil.rmtree(room), "cannot be opened: No such file or directory (os error 2)"),
                              ("a folder in place of the older file", lambda room: os.makedirs(f"{room}/trace.1/full"), "cannot be renamed: Is a directory (os error 21)")):
        room = tempfile.mkdtemp(prefix="l4trace-")
        with Server(l4d, "--trace", f"{room}/trace", "--trace-size", "1K", "--trace-keep", "1", "--connections", "2") as server:
            pair = Client(server.path, 1), Client(server.path, 2)
            pair_works(pair)
            spoil(room)
            for _ in range(60):
                pair_works(pair)
                time.sleep(0.003)
            check_stopped(what, l4sh, server, told)
            for client in pair:
                client.bye()
            status, out, error = server.end()
            check(what, (status, out) == (1, "closed\n") and error.startswith("l4d: trace TR1\n") and told in error and error.count("TR1") == 1, (status, out, error))
        shutil.rmtree(room, ignore_errors=True)
    with Server(l4d, "--connections", "2", trace=True, preexec_fn=little_room) as server:
        pair = Client(server.path, 1), Client(server.path, 2)
        for _ in range(60):
            pair_works(pair)
        check_stopped("a file that is full", l4sh, server, "cannot be written: File too large (os error 27)")
        for client in pair:
            client.bye()
        status, _, error = server.end()
        check("a file that is full", status == 1 and f"l4d: trace TR1\n  {server.trace} cannot be written: File too large" in error, (status, error))
    told = subprocess.run([l4d, "--dir", tempfile.gettempdir(), "--spaces", "1", "--trace", "/dev/full", "--trace-required", "--replace"],
                          capture_output=True, text=True, timeout=SECONDS)
    check("a full disk", told.returncode == 1 and "/dev/full cannot be written: No space left on device" in told.stderr, told.stderr)


def check_words(l4d):
    """Bad words."""
    for words, told in ((["--trace-size", "0"], "--trace-size: bytes, 1 or more, as 64M, got 0"), (["--trace-size", "12X"], "got 12X"), (["--trace-size", "K"], "got K"),
                        (["--trace-size", "-1"], ""), (["--trace-size", "99999999999G"], "got 99999999999G"), (["--trace-keep", "0"], "--trace-keep: a number, 1 to 65535, got 0"),
                        (["--trace-keep", "65536"], "got 65536"), (["--trace-keep", "1K"], "got 1K")):
        ran = subprocess.run([l4d, "--dir", ".", "--spaces", "1", "--trace", "t", *words], capture_output=True, text=True, timeout=SECONDS)
        check(f"{words}", ran.returncode == 2 and told in ran.stderr, ran.stderr)
    for words in (["--trace-size", "64M"], ["--trace-keep", "3"]):
        ran = subprocess.run([l4d, "--dir", ".", "--spaces", "1", *words], capture_output=True, text=True, timeout=SECONDS)
        check(f"{words} without a trace", ran.returncode == 2 and f"{words[0]}: --trace FILE beside it, got none" in ran.stderr, ran.stderr)


def main(arguments):
    l4d, l4sh = (os.path.abspath(it) for it in arguments)
    check_rotation(l4d, l4sh)
    check_asked(l4d, l4sh)
    check_slow(l4d)
    check_kept(l4d, l4sh)
    check_asked_for(l4d, l4sh)
    check_moved(l4d, l4sh)
    check_linked(l4d, l4sh)
    check_renamed(l4d, l4sh)
    check_second(l4d, l4sh)
    check_pipe(l4d, l4sh)
    check_long_strings(l4d, l4sh)
    check_migrated(l4d, l4sh)
    check_failures(l4d, l4sh)
    check_words(l4d)
    return tally.end()


if __name__ == "__main__":
    sys.exit(main(sys.argv[1:]))
