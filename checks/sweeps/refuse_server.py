#!/usr/bin/env python3
"""Runs l4d with each of its growths of memory refused in turn, and with calls on its sockets that fail, while ten clients talk.

    checks/sweeps/refuse_server.py L4D [--every N]

The clients are five pairs. Each says HELLO, and sends words, a reply, strings, an ExchangeRegisters, a message to nobody and BYE;
each byte that comes is looked at. With one growth refused the server may
- end with `l4d: no memory` or `l4d: no worker can be started` and status 1: what each client was told before is as usual;
- serve on, and disturb one pair at most: REFUSED K4, where the same frame is then served when it comes again; FAULT F14 and the
  end; or the end before any answer, of a connection that gets no post box or no worker, which may be told as l4d's lack. The partner
  is then told that it is gone, and all else is as usual.
With --trace it may tell `l4d: trace TR5` besides. With --every N each N-th growth is refused.

Of calls on sockets one is interrupted, 999 in a row are, or one answers ECONNRESET or EMFILE. An interrupted call changes
nothing. A read or write that fails ends its connection alone. An accept that fails changes nothing, and is told where it is no
passing error. Nothing may ever hang. Anything else is told, and the status is then 1. It needs a C compiler (cc). The last line
is `N runs, M failed`.
"""

import collections
import errno
import os
import re
import select
import socket
import subprocess
import sys
import tempfile
import threading
import time

sys.path.insert(1, f"{sys.path[0]}/../lib")

from arguments import number_of, programs_of
from frames import ANY, BYE, FAILED, HEAD_BYTES, LENGTH_BYTES, exreg, exregr, fault, fields_in, hello, ipc, ipcr, refused, welcome
from protocol_tables import F_NO_MEMORY, IPC, IPCR, K_NO_MEMORY
from shims import built_shim, count_in

PAIRS = 5
# How long a client waits for an answer, and a run for the end of its server, in seconds.
SECONDS = 120
REFUSED_K4, FAULT_F14 = refused(K_NO_MEMORY), fault("F", F_NO_MEMORY)
# The codes of a call whose partner is gone: by the low four bits.
GONE = (0x4, 0x5, 0xE, 0xF)
SHORT, LONG = bytes(n % 251 for n in range(300)), bytes(n % 241 for n in range(70_000))
NOBODY = 77 << 32 | 1
# What l4d says of a connection that it closes, since something is lacking.
LACK = re.compile(r"l4d: a connection of space 1 is closed, since there is no (memory|worker) for it[;:]")


def kind_of(whole):
    return whole[LENGTH_BYTES]


def error_of(got):
    """The ErrorCode of an IPCR that failed, else None."""
    if kind_of(got) != IPCR:
        return None
    fields = fields_in("IPCR", got[HEAD_BYTES:])
    return fields.error if fields.tag & FAILED else None


class Over(Exception):
    """A connection has ended in midst of its dialogue."""


class Wrong(Exception):
    """What may not be."""


class Side:
    """One client of a pair."""

    def __init__(self, path, number):
        self.number, self.thread = number, number << 32 | 1
        self.line = socket.socket(socket.AF_UNIX)
        self.line.settimeout(SECONDS)
        self.line.connect(path)
        self.came = b""
        self.is_welcome = self.is_calling = self.waits_for_any = self.has_ended = False

    def send(self, data):
        self.last = data
        self.waits_for_any = kind_of(data) == IPC and fields_in("IPC", data[HEAD_BYTES:]).from_specifier == ANY
        try:
            self.line.sendall(data)
        except (BrokenPipeError, ConnectionResetError):
            # what it was told before is still read
            pass
        self.is_calling = self.is_calling or kind_of(data) == IPC

    def read(self):
        """Reads what is there."""
        try:
            more = self.line.recv(1 << 20)
        except ConnectionResetError:
            more = b""
        self.came += more
        self.has_ended = self.has_ended or not more

    def whole(self):
        """The first frame of what came, where it is whole."""
        size = LENGTH_BYTES + int.from_bytes(self.came[:LENGTH_BYTES], "big") if len(self.came) >= LENGTH_BYTES else None
        if size is None or len(self.came) < size:
            return None
        got, self.came = self.came[:size], self.came[size:]
        self.is_calling = self.is_calling and kind_of(got) != IPCR
        return got


class Pair:
    """Two clients, and what became of their dialogue."""

    def __init__(self, path, number):
        self.kind, self.wrong, self.path, self.number = "usual", None, path, number
        self.sides = []

    def run(self):
        try:
            # a server that ends has no path any more
            self.sides = [Side(self.path, 2 * self.number + 1), Side(self.path, 2 * self.number + 2)]
        except OSError:
            self.kind = "cut"
            return
        try:
            self.talk(*self.sides)
        except Over as over:
            try:
                self.partner_is_told(over.args[0])
            except Wrong as wrong:
                self.wrong = str(wrong)
        except Wrong as wrong:
            self.wrong = str(wrong)
        for side in self.sides:
            side.line.close()

    def talk(self, one, two):
        """The dialogue: who sends what, and who is then told what."""
        a, b = one.thread, two.thread
        for side in self.sides:
            self.step(side, hello(side.number), {side: welcome(side.thread)})
            side.is_welcome = True
        self.step(one, ipc(0, ANY), {})
        self.step(two, ipc(a, a, [1]), {one: ipcr(sender=b, words=[1])})
        wait = ipc(b, ANY, [2, 3], buffers=(4096 << 10, 0x5000))
        self.step(one, wait, {two: ipcr(sender=a, words=[2, 3])})
        text = ipc(a, a, [len(SHORT) << 10, 0], tag=0x80, payload=SHORT, buffers=(len(LONG) << 10, 0x1000))
        self.step(two, text, {one: ipcr(0x80, b, words=[len(SHORT) << 10, 0x5000], pieces=[(0x5000, SHORT)])})
        answer = ipc(b, 0, [len(LONG) << 10, 0], tag=0x80, payload=LONG)
        self.step(one, answer, {one: ipcr(), two: ipcr(0x80, a, words=[len(LONG) << 10, 0x1000], pieces=[(0x1000, LONG)])})
        self.step(two, ipc(0, a), {})
        self.stop(one, two)
        self.step(one, ipc(NOBODY, 0, [9]), {one: ipcr(error=4)})
        self.step(two, BYE, {})
        self.ends(two)
        self.step(one, ipc(0, b), {one: ipcr(error=5)})
        self.step(one, BYE, {})
        self.ends(one)

    def stop(self, one, two):
        """One stops the receive of two, which may not have come yet: then control is 0, and it is asked again."""
        limit = time.monotonic() + SECONDS
        stood, early, gone = exregr(two.thread, 2), exregr(two.thread), exregr(0, 0, 2)
        while time.monotonic() < limit:
            got = self.step(one, exreg(two.thread, 2), {one: (stood, early, gone)}, {two: ipcr(error=7)})
            if got[one] == gone:
                raise Over(two)
            if got[one] == stood:
                if two not in got:
                    self.step(None, b"", {two: ipcr(error=7)})
                return
            time.sleep(0.001)
        raise Wrong("the receive never came")

    def next(self):
        """The next frame of either side."""
        limit = time.monotonic() + SECONDS
        while time.monotonic() < limit:
            for side in self.sides:
                got = side.whole()
                if got is not None:
                    return side, got
            for side in self.sides:
                if side.has_ended:
                    raise Over(side)
            for line in select.select([it.line for it in self.sides], [], [], 1)[0]:
                next(it for it in self.sides if it.line is line).read()
        raise Wrong(f"no answer within {SECONDS} seconds")

    def step(self, sender, sent, wanted, perhaps=()):
        """Sends a frame, and hears what is wanted, a frame or one of several, in either order. K4 has it sent again."""
        wanted, perhaps, came = dict(wanted), dict(perhaps), {}
        if sender:
            sender.send(sent)
        # a frame that nobody answers at once may be refused all the same, which is seen in the next step
        while wanted:
            side, got = self.next()
            if got == REFUSED_K4 and self.kind == "usual":
                self.kind = "refused"
                side.send(side.last)
            elif got == FAULT_F14 and self.kind == "usual":
                self.kind = "faulted"
            elif side in wanted and (got == wanted[side] or isinstance(wanted[side], tuple) and got in wanted[side]):
                came[side] = got
                del wanted[side]
            elif perhaps.get(side) == got:
                came[side] = perhaps.pop(side)
            elif error_of(got) is not None and error_of(got) & 0xF in GONE:
                raise Over(next(it for it in self.sides if it is not side))
            else:
                raise Wrong(f"{side.number} was told {got.hex()[:120]}")
        return came

    def ends(self, side):
        """Its input ends, and no byte comes before."""
        limit = time.monotonic() + SECONDS
        while not side.has_ended and time.monotonic() < limit:
            if select.select([side.line], [], [], 1)[0]:
                side.read()
        if not side.has_ended or side.came:
            raise Wrong(f"{side.number} was not ended, or told {side.came.hex()[:120]}")
        # the other one goes on alone
        self.sides = [it for it in self.sides if it is not side]

    def partner_is_told(self, ended):
        """One connection has ended: how, and that the other one is told so where it waits, and may say BYE."""
        limit = time.monotonic() + SECONDS
        while not ended.has_ended and time.monotonic() < limit:
            if select.select([ended.line], [], [], 1)[0]:
                ended.read()
        if not ended.has_ended:
            raise Wrong(f"{ended.number} is gone to its partner, and its connection goes on")
        rest = ended.whole()
        if rest == FAULT_F14 and self.kind == "usual":
            self.kind = "faulted"
        elif rest is not None:
            raise Wrong(f"{ended.number} was told {rest.hex()[:120]} at last")
        if self.kind != "faulted":
            self.kind = "cut" if ended.is_welcome else "unserved"
        for side in self.sides:
            # who waits for anyone is not told that one is gone
            if side is ended or side.waits_for_any:
                continue
            while side.is_calling and not side.has_ended and time.monotonic() < limit:
                got = side.whole()
                if got is None and select.select([side.line], [], [], 1)[0]:
                    side.read()
                elif got is not None and error_of(got) is not None and error_of(got) & 0xF not in (*GONE, 7):
                    # (7: the one that ended had stopped it before)
                    raise Wrong(f"{side.number} was told {got.hex()[:120]}")
            if side.is_calling and not side.has_ended:
                raise Wrong(f"{side.number} is not told that {ended.number} is gone: {side.last.hex()[:120]}, {ended.last.hex()[:120]}")
        for side in self.sides:
            side.send(BYE)


class Run:
    """A server, its clients, and what became of them."""

    def __init__(self, l4d, words=(), env=()):
        with tempfile.TemporaryDirectory() as folder:
            self.trace = f"{folder}/trace"
            path = f"{folder}/space1"
            words = [it.replace("@", self.trace) for it in words]
            started = [l4d, "--dir", folder, "--spaces", "1", "--no-control", "--connections", str(2 * PAIRS), *words]
            server = subprocess.Popen(started, stdin=subprocess.DEVNULL, stdout=subprocess.PIPE, stderr=subprocess.PIPE,
                                      env={**os.environ, **dict(env)})
            try:
                first = server.stdout.readline().decode()
                self.pairs = [Pair(path, number) for number in range(PAIRS)]
                if first:
                    talks = [threading.Thread(target=pair.run, daemon=True) for pair in self.pairs]
                    for talk in talks:
                        talk.start()
                    for talk in talks:
                        talk.join()
                try:
                    out, err = server.communicate(timeout=SECONDS)
                except subprocess.TimeoutExpired:
                    server.kill()
                    out, err = server.communicate()
                    err += b"(it does not end)"
            finally:
                if server.poll() is None:
                    server.kill()
                    server.wait()
            self.status, self.out, self.err = server.returncode, first + out.decode(), err.decode()
            self.kinds = collections.Counter(pair.kind for pair in self.pairs if pair.kind != "usual")
            self.wrongs = [pair.wrong for pair in self.pairs if pair.wrong]
            self.left = os.path.exists(path)

    def is_usual(self):
        ended_well = (self.status, self.out, self.err) == (0, "listening 1\nclosed\n", "")
        return ended_well and not self.kinds and not self.wrongs and not self.left

    def said(self):
        return f"status {self.status}, {self.out!r}, {self.err!r}, {dict(self.kinds)}, {self.wrongs}"


def kind_of_memory(run):
    """What became of a run with one growth refused; None where it is wrong."""
    lines = [line for line in run.err.splitlines() if not line.startswith("  ")]
    if run.wrongs or run.left:
        return None
    is_ended = lines == ["l4d: no memory"] or len(lines) == 1 and lines[0].startswith("l4d: no worker can be started")
    if run.status == 1 and is_ended:
        return "ended" if "listening 1\nclosed\n".startswith(run.out) and set(run.kinds) <= {"cut", "unserved"} else None
    torn = lines == ["l4d: trace TR5"]
    lack = LACK.match(lines[0]) if len(lines) == 1 else None
    if run.status != (1 if torn else 0) or run.out != "listening 1\nclosed\n" or lines and not torn and not lack:
        return None
    if sum(run.kinds.values()) > 1 or not set(run.kinds) <= {"refused", "faulted", "unserved"}:
        return None
    # what is told of a lack is so of the connection that was closed
    if lack and set(run.kinds) != {"unserved"}:
        return None
    return "no trace" if torn else f"no {lack[1]}" if lack else next(iter(run.kinds), "usual")


def refuse_memory(l4d, room, every):
    """Each growth refused, with and without a trace: what was tried, what became of it, and what is wrong."""
    shim = built_shim(room, "refuse_memory")
    for words in ((), ("--trace", "@")):
        ran = Run(l4d, words, {"LD_PRELOAD": shim, "COUNT_TO": f"{room}/count"})
        yield "nothing is refused", "usual" if ran.is_usual() else None, ran.said()
        growths = count_in(f"{room}/count")
        for refused in range(1, growths + 1, every):
            ran = Run(l4d, words, {"LD_PRELOAD": shim, "FAIL_AT": str(refused)})
            yield f"growth {refused} of {growths} {' '.join(words)}", kind_of_memory(ran), ran.said()


def kind_of_device(run, kind, number, times):
    """What became of a run in which calls on sockets failed; None where it is wrong."""
    told = run.err.splitlines()
    if run.wrongs or run.left or run.status or run.out != "listening 1\nclosed\n":
        return None
    if kind == "accept" and number in (errno.EMFILE, errno.ENFILE, errno.ENOMEM):
        is_told = len(told) == 1 and told[0].startswith("l4d: no connection can be accepted: ")
        return "told" if is_told and not run.kinds else None
    if told:
        return None
    if kind == "accept" or number == errno.EINTR and times < 1000:
        return "usual" if not run.kinds else None
    # a failed call ends its connection, perhaps before it is a thread
    if sum(run.kinds.values()) > 1 or not set(run.kinds) <= {"cut", "unserved"}:
        return None
    return next(iter(run.kinds), "usual")


def fail_devices(l4d, room, every):
    """Calls on sockets that fail: what was tried, what became of it, and what is wrong."""
    shim = built_shim(room, "failing_calls")
    for kind in ("accept", "read", "write"):
        env = {"LD_PRELOAD": shim, "FAIL_KIND": kind, "FAIL_ON": "socket"}
        ran = Run(l4d, (), {**env, "COUNT_TO": f"{room}/count"})
        yield f"no {kind} fails", "usual" if ran.is_usual() else None, ran.said()
        count = count_in(f"{room}/count")
        if kind == "accept":
            # the last one asks a path that is closed already whether anybody waits there
            count -= 1
        passing = [(errno.EINTR, 1), (errno.EINTR, 999)]
        others = [(errno.ECONNABORTED, 1), (errno.EMFILE, 1)] if kind == "accept" else [(errno.ECONNRESET, 1), (errno.EMFILE, 1)]
        for number, times in passing + others:
            step = max(1, every // 4) * (1 if times == 1 else 8)
            for place in range(1, count + 1, step):
                ran = Run(l4d, (), {**env, "FAIL_AT": str(place), "FAIL_ERRNO": str(number), "FAIL_TIMES": str(times)})
                name = f"{kind} {place} of {count} answers {errno.errorcode[number]}, {times} in a row"
                yield name, kind_of_device(ran, kind, number, times), ran.said()


def main(words):
    every = number_of(words, "--every")
    (l4d,) = programs_of(words, __doc__, 1)
    runs = failed = 0
    kinds = collections.Counter()
    with tempfile.TemporaryDirectory() as room:
        for look in (refuse_memory, fail_devices):
            for name, kind, said in look(l4d, room, every):
                runs += 1
                kinds[kind] += 1
                if kind is None:
                    failed += 1
                    print(f"{name}: {said}"[:600], flush=True)
    told = ", ".join(f"{count} {kind}" for kind, count in kinds.items() if kind)
    print(f"{told}; {runs} runs, {failed} failed")
    return 1 if failed or not runs else 0


if __name__ == "__main__":
    sys.exit(main(sys.argv[1:]))
