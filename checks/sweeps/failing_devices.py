#!/usr/bin/env python3
"""Lets each read, write and open of l4sh and of l4d's trace fail in turn, and looks at what comes of it.

    checks/sweeps/failing_devices.py L4SH [L4D] [--every N]

The commands read what lies in the tree: `run` the scripts of checks/scripts/run and of examples/, `wire` and `talk` those of
checks/scripts/wire and checks/scripts/talk, and `check`, `state`, `script`, `count`, `follow` and `chart` the traces of the examples.
With --every N only each N-th script of `run` and `wire` is taken.

- Where read, write or open number k fails, the status is 1, standard error says `l4sh: device failed`, and in a second line which
  device it was, and the reason, and what was printed is a front of the usual output. No verdict or answer is printed that is
  not the usual one.
- A write that takes nothing counts as failed.
- Where each call moves one byte, and where 999 calls in a row are interrupted, all is as usual. 1,000 count as a failed device.
- Where each call moves one byte and one fails, exactly the bytes before it are printed, and the answers of exactly the lines that were read whole.
- Where the line `torn` of a migration cannot be written, the new trace is whole.

For the trace of `l4d` the same is so of its writes and of its open: `l4d: trace TR1` is told once, the server serves on and ends
with status 1, and what stands in the file is a front of a legal history. Where l4d cannot write to standard output it ends with
`l4d: device failed` and the reason, or `l4d: probe failed` where the line of the probe is lost.

A talk with a server ends as `l4sh: device failed` where its standard input or output fails. And what a server tells its clients goes out whole and once,
also where its sockets take one byte at a time, and none for a while. Where one fails, exactly the bytes before it have come, and the connection ends.
Anything else is told, and the status is then 1.
It needs a C compiler (cc). The last line is `N runs, M failed`.
"""

import errno
import glob
import os
import subprocess
import sys
import tempfile

sys.path.insert(1, f"{sys.path[0]}/../lib")

from arguments import number_of, programs_of
from counting import told_rows
from frames import ANY, BYE, exreg, exregr, hello, ipc, ipcr, thread_id, welcome
from kit import ROOT
from runs import trace_of
from serving import Client, Server
from shims import built_shim, count_in

FAILED = b"l4sh: device failed\n"
TORN = b"l4d: trace TR1\n"
# So many interrupted calls in a row count as a failed device.
MANY = 1000
# So many places of a long run are tried, at its begin and at its end each.
PLACES = 24
SECONDS = 120


class Shim:
    """The library that lets calls fail, built in a room of its own."""

    def __init__(self, room):
        self.room, self.path = room, built_shim(room, "failing_calls")

    def env(self, **wishes):
        """The environment of a run with calls that fail as `wishes` says."""
        return {**os.environ, "LD_PRELOAD": self.path, **{name.upper(): str(value) for name, value in wishes.items()}}

    def run(self, words, given=b"", **wishes):
        """Status, standard output and standard error of such a run."""
        ran = subprocess.run(words, input=given, capture_output=True, env=self.env(**wishes), check=False, timeout=SECONDS)
        return ran.returncode, ran.stdout, ran.stderr

    def count(self, words, given, **wishes):
        """How many calls of a kind the run makes."""
        self.run(words, given, count_to=f"{self.room}/count", **wishes)
        return count_in(f"{self.room}/count")


def places(count):
    """All places of a run of so many calls, or the first and the last ones."""
    return range(1, count + 1) if count <= 2 * PLACES else [*range(1, PLACES + 1), *range(count - PLACES + 1, count + 1)]


def failed(device, number):
    """What is told where this device failed with an error of this number; 0: it took nothing."""
    reason = f"{os.strerror(number)} (os error {number})" if number else "it takes nothing"
    return FAILED + f"{device}: {reason}\n".encode()


def is_as_failed(ran, usual, wanted):
    """What is wrong with a run whose device failed, of which this is told."""
    status, out, told = ran
    if (status, told) != (1, wanted):
        return f"status {status}, {told[:200]!r}"
    if not usual[1].startswith(out):
        return "what is printed is no front of the usual output"
    return None


def wrongs_of(shim, words, given, path=None):
    """What was tried of one command, and what is wrong with it."""
    usual = shim.run(words, given)
    devices = {"read": path or "standard input", "write": "standard output", "open": path}
    for kind in ("read", "write", "open"):
        count = shim.count(words, given, fail_kind=kind)
        for place in places(count):
            for number in (errno.EIO,) if kind != "write" else (errno.EIO, errno.ENOSPC, 0):
                ran = shim.run(words, given, fail_kind=kind, fail_at=place, fail_errno=number)
                yield f"{kind} {place} of {count} fails with {number}", is_as_failed(ran, usual, failed(devices[kind], number))
        if kind == "open":
            continue
        for place in sorted({1, (count + 1) // 2, count} & set(range(1, count + 1))):
            ran = shim.run(words, given, fail_kind=kind, fail_at=place, fail_errno=errno.EINTR, fail_times=MANY - 1)
            yield f"{kind} {place} of {count} is interrupted {MANY - 1} times", None if ran == usual else f"it is not as usual: {ran}"
            ran = shim.run(words, given, fail_kind=kind, fail_at=place, fail_errno=errno.EINTR, fail_times=MANY)
            yield f"{kind} {place} of {count} is interrupted {MANY} times", is_as_failed(ran, usual, failed(devices[kind], errno.EINTR))
        ran = shim.run(words, given, fail_kind=kind, one_byte=1)
        yield f"each {kind} moves one byte", None if ran == usual else f"it is not as usual: {ran}"


def bytewise_wrongs(shim, l4sh, trace):
    """What was tried of a script of two lines and of a legal trace whose calls move one byte each, and what is wrong with it."""
    script, answers = b"open 1 1\nopen 2 1\n", (b"opened 1.1 1\n= 1.1\n", b"opened 2.1 1\n= 2.1\n")
    for place in range(1, len(script) + 2):
        ran = shim.run([l4sh, "run"], script, fail_kind="read", one_byte=1, fail_at=place)
        printed = b"".join(answers[: script[: place - 1].count(b"\n")])
        yield f"read {place} fails", None if ran == (1, printed, failed("standard input", errno.EIO)) else f"{ran}"
    for words, given, whole in (([l4sh, "run"], script, b"".join(answers)), ([l4sh, "check", trace], b"", b"yes\n")):
        for place in range(1, len(whole) + 1):
            for wishes in ({}, {"fail_errno": errno.EINTR, "fail_times": MANY}):
                told = failed("standard output", wishes.get("fail_errno", errno.EIO))
                ran = shim.run(words, given, fail_kind="write", one_byte=1, fail_at=place, **wishes)
                yield f"write {place} of {words[1]} fails {wishes}", None if ran == (1, whole[: place - 1], told) else f"{ran}"


def is_front_of_legal(l4sh, file):
    """What is wrong with the trace in a file, which may end inside a line."""
    if not os.path.exists(file):
        return None
    ran = subprocess.run([l4sh, "check", file], capture_output=True, check=False, timeout=SECONDS)
    return None if (ran.returncode, ran.stderr) == (0, b"") and ran.stdout.startswith(b"yes\n") else f"the trace: {ran}"


def trace_wrongs(shim, l4sh, l4d):
    """What was tried of the trace and of the standard output of a server whose own client sends one message."""

    def serve(trace=True, **wishes):
        with tempfile.TemporaryDirectory() as folder:
            words = [l4d, "--dir", folder, "--spaces", "1", "--connections", "2", "--probe"]
            ran = shim.run(words + (["--trace", f"{folder}/trace"] if trace else []), **wishes)
            wrong = is_front_of_legal(l4sh, f"{folder}/trace")
            size = os.path.getsize(f"{folder}/trace") if os.path.exists(f"{folder}/trace") else 0
            left = os.path.exists(f"{folder}/space1")
        return ran, wrong or ("the path is left" if left else None), size

    good = (0, b"listening 1\nprobe 0x7\nclosed\n", b"")
    ran, wrong, whole = serve()
    yield "nothing fails", wrong or (None if ran == good and whole else f"{ran}, a trace of {whole} bytes")

    def is_told(ran, wrong):
        status, out, told = ran
        is_so = (status, out) == (1, good[1]) and told.startswith(TORN) and told.count(b"TR1") == 1
        return wrong or (None if is_so else f"{ran}")

    on = {"fail_kind": "write", "fail_on": "file"}
    # the first write is that of trace.began, which stops no trace; how many come behind it depends on the moments at which the trace's worker
    # looks; one comes at least
    for number in (errno.EIO, errno.ENOSPC, 0):
        ran, wrong, size = serve(fail_at=1, fail_errno=number, **on)
        yield f"the write of trace.began fails with {number}", wrong or (None if ran == good and size else f"{ran}, a trace of {size} bytes")
        for place in (1, 2, 3):
            ran, wrong, size = serve(fail_at=1 + place, fail_errno=number, **on)
            # where so many writes did not come the trace is whole
            yield f"write {place} of the trace fails with {number}", wrong if place > 1 and ran == good else is_told(ran, wrong)
    ran, wrong, size = serve(one_byte=1, **on)
    yield "each write of the trace moves one byte", wrong or (None if ran == good and size else f"{ran}")
    # between the trace and its file is a buffer of std, which tries again however often it is interrupted
    for times in (MANY - 1, 2 * MANY):
        ran, wrong, size = serve(fail_at=2, fail_errno=errno.EINTR, fail_times=times, **on)
        yield f"a write of the trace is interrupted {times} times", wrong or (None if ran == good and size else f"{ran}")
    for place in (1, 2, 3):
        (status, out, told), wrong, size = serve(trace=False, fail_kind="write", fail_on=1, fail_at=place)
        # the second line is that of the probe
        why = f"l4d: device failed\n  standard output: {os.strerror(errno.EIO)} (os error {errno.EIO})\n"
        said = b"l4d: probe failed\n" if place == 2 else why.encode()
        is_so = (status, told) == (1, said) and good[1].startswith(out)
        yield f"line {place} of standard output fails", wrong or (None if is_so else f"{status}, {out}, {told}")


def talk_wrongs(shim, l4sh, l4d):
    """What was tried of talks with a server, each of a thread of its own, and what is wrong with them."""
    with Server(l4d) as server:
        numbers = iter(range(1, 1000))

        def talk(number, **wishes):
            return shim.run([l4sh, "talk", server.folder, "--thread", str(number)], b"send 1023 7\nexreg 1023 both\n", **wishes)

        usual = talk(next(numbers))
        yield "nothing fails", None if usual[0] == 0 and usual[1].count(b"\n") == 3 else f"{usual}"
        # (why standard input failed is not told)
        for kind, on, told in (("read", 0, FAILED), ("write", 1, failed("standard output", errno.EIO))):
            wishes = {"fail_kind": kind, "fail_on": on, "one_byte": int(kind == "read")}
            talk(next(numbers), count_to=f"{shim.room}/count", **wishes)
            with open(f"{shim.room}/count", encoding="ascii") as file:
                count = int(file.read())
            for place in range(1, count + 1):
                number = next(numbers)
                expected = (usual[0], usual[1].replace(b"= 1.1 ", f"= {number}.1 ".encode()), usual[2])
                yield f"{kind} {place} of {count} fails", is_as_failed(talk(number, fail_at=place, **wishes), expected, told)


NEVER_LIVE = 77 << 32 | 1
# What a server tells 1.1 and 2.1, of which 1.1 gets a string of 20,000 bytes.
SIZE = 20_000
LONG = bytes(n % 251 for n in range(SIZE))
WELCOMES = [welcome(thread_id(number)) for number in (1, 2)]
GOT = ipcr(0x80, thread_id(2), words=(SIZE << 10, 0x1000), pieces=[(0x1000, LONG)])
SENT = ipcr()
STOPPED = exregr(0, 0, 2)


def told_to_clients(server):
    """All bytes that a server tells two clients that meet, and then ask for a thread that is not there."""
    one, two = Client(server.path), Client(server.path)
    came = {one: b"", two: b""}

    def hears(client, count):
        while count and (piece := client.line.recv(count)):
            came[client] += piece
            count -= len(piece)

    for client, sent, wanted in ((one, hello(1), WELCOMES[0]), (two, hello(2), WELCOMES[1]), (one, ipc(0, ANY, buffers=(SIZE << 10, 0x1000)), b""),
                                 (two, ipc(1 << 32 | 1, 0, (SIZE << 10, 0), tag=0x80, payload=LONG), SENT), (one, b"", GOT), (one, exreg(NEVER_LIVE, 6), STOPPED),
                                 (two, exreg(NEVER_LIVE, 6), STOPPED), (one, BYE, b""), (two, BYE, b"")):
        try:
            client.line.sendall(sent)
        except OSError:
            pass  # its connection has ended
        hears(client, len(wanted))
    for client in came:
        came[client] += client.to_the_end()
        client.line.close()
    return came[one], came[two]


def socket_wrongs(shim, l4d):
    """What was tried of the sockets of a server, and what is wrong with what its clients were told."""

    def serve(**wishes):
        with Server(l4d, env=shim.env(fail_kind="write", fail_on="socket", **wishes)) as server:
            return told_to_clients(server)

    whole = WELCOMES[0] + GOT + STOPPED, WELCOMES[1] + SENT + STOPPED
    yield "nothing fails", None if serve() == whole else "other bytes came"
    yield "each write of a socket moves one byte", None if serve(one_byte=1) == whole else "other bytes came"
    for place in (1, 2, 13, 14, 100, 1500):
        for times in (1, 7):
            wishes = {"one_byte": 1, "fail_at": place, "fail_errno": errno.EAGAIN, "fail_times": times}
            yield f"from byte {place} on there is {times} times no room", None if serve(**wishes) == whole else "other bytes came"
    told = WELCOMES[0] + STOPPED
    for place in (1, 2, 12, 13, 14, 15, len(told)):
        with Server(l4d, env=shim.env(fail_kind="write", fail_on="socket", one_byte=1, fail_at=place)) as server:
            client = Client(server.path)
            client.line.sendall(hello(1))
            came = b""
            while len(came) < len(WELCOMES[0]) and (piece := client.line.recv(1)):
                came += piece
            if came == WELCOMES[0]:
                client.line.sendall(exreg(NEVER_LIVE, 6))
            came += client.to_the_end()
            beside = Client(server.path, 2).exreg(NEVER_LIVE, 6)
            is_so = came == told[: place - 1] and beside == (None, 0, 0, 2)
            yield f"byte {place} of a socket fails", None if is_so else f"{came.hex()}, and beside it {beside}"


def migration_wrongs(shim, l4sh, trace, new):
    """What was tried of the migration of a torn trace, and what is wrong with it or with the new trace."""
    words = [l4sh, "migrate", trace, new]

    def migrate(**wishes):
        if os.path.exists(new):
            os.remove(new)
        ran = shim.run(words, **wishes)
        if not os.path.exists(new):
            return ran, b""
        with open(new, "rb") as file:
            return ran, file.read()

    # (the first write is one of the new trace, the other one of what is printed)
    at_fault = {"read": {}, "write": {1: new, 2: "standard output"}, "open": {2: new}}
    usual, whole = migrate()
    yield "nothing fails", None if usual == (0, b"torn\n", b"") and whole.startswith(b"l4trace 2\n") else f"{usual}, {whole[:100]}"
    for kind in ("read", "write", "open"):
        count = shim.count(words, b"", fail_kind=kind)
        for place in places(count):
            ran, made = migrate(fail_kind=kind, fail_at=place, fail_errno=errno.EIO)
            wrong = is_as_failed(ran, usual, failed(at_fault[kind].get(place, trace), errno.EIO))
            yield f"{kind} {place} of {count} fails", wrong or (None if whole.startswith(made) else "the new trace is no front of the usual one")
        if kind != "open":
            ran = migrate(fail_kind=kind, one_byte=1)
            yield f"each {kind} moves one byte", None if ran == (usual, whole) else f"it is not as usual: {ran}"
    ran, made = migrate(fail_kind="write", fail_on=1, fail_at=1)
    yield "the line torn fails", is_as_failed(ran, usual, failed("standard output", errno.EIO)) or (None if made == whole else "the new trace is not whole")


def legal_trace(room):
    """The file of a legal trace of one entry."""
    path = f"{room}/legal.trace"
    with open(path, "wb") as file:
        file.write(b"opened 1.1 1\n")
    return path


def torn_trace(l4sh, room):
    """The file of a trace whose last line lacks its newline."""
    path = f"{room}/torn.trace"
    with open(f"{ROOT}/examples/rendezvous.l4", "rb") as file:
        printed = subprocess.run([l4sh, "run"], stdin=file, capture_output=True, check=True).stdout
    with open(path, "wb") as file:
        file.write(trace_of(printed) + b"opened")
    return path


def commands(l4sh, every, room):
    """The name of each command that is looked at, its words, what it reads, and the file that it opens."""
    examples = sorted(glob.glob(f"{ROOT}/examples/*.l4"))
    scripts = [(path, "run") for path in examples + sorted(glob.glob(f"{ROOT}/checks/scripts/run/*.in"))]
    scripts += [(path, "wire") for path in sorted(glob.glob(f"{ROOT}/checks/scripts/wire/*.in"))]
    for path, command in scripts[::every] + [(path, "talk") for path in sorted(glob.glob(f"{ROOT}/checks/scripts/talk/*.in"))]:
        with open(path, "rb") as file:
            text = file.read()
        # (a stored run of one byte stands for many, and a mistake has an end of its own)
        if b"{" not in text and not os.path.exists(f"{path[:-3]}.end"):
            yield f"{command} {os.path.relpath(path, ROOT)}", [l4sh, command], text, None
    for path in examples[:: max(1, every // 4)]:
        with open(path, "rb") as file:
            printed = subprocess.run([l4sh, "run"], stdin=file, capture_output=True, check=True).stdout
        trace = f"{room}/{os.path.basename(path)}.trace"
        with open(trace, "wb") as file:
            file.write(trace_of(printed))
        for command in ("check", "state", "script", "count", "follow", "chart"):
            yield f"{command} of {os.path.basename(path)}", [l4sh, command, trace], b"", trace


def main(words):
    every = number_of(words, "--every")
    l4sh, *others = programs_of(words, __doc__, 1, 2)
    with tempfile.TemporaryDirectory() as room:
        shim = Shim(room)
        looks = [(name, wrongs_of(shim, *more)) for name, *more in commands(l4sh, every, room)]
        looks += [("byte by byte", bytewise_wrongs(shim, l4sh, legal_trace(room)))]
        looks += [("migrate", migration_wrongs(shim, l4sh, torn_trace(l4sh, room), f"{room}/new"))]
        for l4d in others:
            looks += [("l4d", trace_wrongs(shim, l4sh, l4d)), ("talk DIR", talk_wrongs(shim, l4sh, l4d)), ("sockets of l4d", socket_wrongs(shim, l4d))]
        return told_rows(((f"{name}: {what}", wrong) for name, tried in looks for what, wrong in tried), "runs")


if __name__ == "__main__":
    sys.exit(main(sys.argv[1:]))
