"""Threads of the Python client whose calls are written down, and an l4d and processes beside them."""

import importlib
import os
import subprocess
import sys
import threading
import time
from collections import defaultdict

from counting import Tally
from kit import ROOT
from protocol_tables import K_NUMBER_TAKEN
from serving import Server as PlainServer, ended

CLIENT = f"{ROOT}/clients/python"

l4ipc = importlib.import_module("l4ipc")
aio = importlib.import_module("l4ipc.aio")
frames = importlib.import_module("l4ipc.frames")
words = importlib.import_module("l4ipc.words")
names = importlib.import_module("l4ipc.names")
BufferStrings, Encoded = (getattr(importlib.import_module("l4ipc.message"), name) for name in ("BufferStrings", "Encoded"))
Message, ThreadId = l4ipc.Message, l4ipc.ThreadId

tally = Tally()
check, same = tally.check, tally.same


def raised(does):
    """What a call raises, or what it answers."""
    try:
        return does()
    except (l4ipc.L4Error, ValueError, TypeError) as error:
        return error


def told(what, does, kind, **parts):
    """A call that raises an exception of this kind with these parts."""
    error = raised(does)
    seen = {part: getattr(error, part, None) for part in parts}
    check(what, type(error) is kind and seen == parts, f"{error!r}, {seen}")


# What is written down of each call: by the thread, the line of its CALL, what came of it, and what version 2 of the wire tells: (its number,
# its moment), else None. The same of each ExchangeRegisters: its moment.
seen = defaultdict(list)
seen_exchanges = defaultdict(list)


def times_of(thread, told):
    """What was told of a call by the thread and by what came of it; it has to be one and the same, and only in version 2."""
    times = thread.last_call, thread.last_moment
    same(f"call and moment of {thread}", (told.call, told.moment) if told else times, times)
    if thread.version == 1:
        same(f"call and moment of {thread} in version 1", times, (None, None))
        return None
    return times


class Seen(l4ipc.Thread):
    """A thread whose calls are written down."""

    def _ipc(self, to, from_specifier, message, times, buffers=(), same_life=False):
        line = call_text(self.id, to, from_specifier, message, times, buffers)
        try:
            received = super()._ipc(to, from_specifier, message, times, buffers, same_life)
        except l4ipc.IpcError as error:
            seen[str(self.id)].append((line, ("failed", error.code), times_of(self, error)))
            raise
        seen[str(self.id)].append((line, received and outcome_text(received), times_of(self, received)))
        return received

    def exchange_registers(self, dest, send=False, receive=False):
        answer = super().exchange_registers(dest, send, receive)
        seen_exchanges[str(self.id)].append(None if self.version == 1 else self.last_moment)
        return answer


def id_text(thread):
    return {0: "nil", words.WORD_LIMIT - 1: "any", words.WORD_LIMIT - 64: "local"}.get(int(thread), str(ThreadId(thread)))


def list_text(items):
    return ",".join(items) or "-"


def call_text(own, to, from_specifier, message, times, buffers):
    """The nine fields of a call, as a trace has them."""
    if not to:
        message, times = Message(), times & 0xFFFF
    if not from_specifier:
        buffers, times = (), times & ~0xFFFF
    parts = BufferStrings(buffers).strings
    return " ".join((
        id_text(own), id_text(to), id_text(from_specifier), hex(times), hex(message.tag()),
        id_text(message.originator or 0), list_text(map(hex, message.words)), list_text("x" + bytes(it).hex() for it in message.strings),
        list_text("+".join(f"{length}@{pointer:#x}" for pointer, length, _ in substrings) for substrings in parts),
    ))


def outcome_text(received):
    """What was received: shown sender, actual sender, label, words and strings."""
    actual = received.actual_sender
    return (
        "received", str(received.sender), None if actual is None else str(actual), received.label, tuple(received.words),
        tuple(bytes(it) for it in received.strings),
    )


servers = []


class Server(PlainServer):
    """l4d in a folder of its own, and the programs that were started beside it."""

    def __init__(self, l4d, spaces=1, trace=True):
        super().__init__(l4d, spaces=spaces, trace=trace)
        self.started = []
        servers.append(self)

    def start(self, command):
        env = {**os.environ, "PYTHONPATH": f"{CLIENT}/src", "PYTHONUNBUFFERED": "1"}
        process = subprocess.Popen(command, stdin=subprocess.DEVNULL, stdout=subprocess.PIPE, stderr=subprocess.STDOUT, text=True, env=env)
        self.started.append(process)
        return process

    def example(self, name, *said):
        return self.start([sys.executable, f"{CLIENT}/examples/{name}.py", self.folder, *map(str, said)])

    def thread(self, number, space=1):
        return Seen(self.folder, number, space, version=1 + number % 2)

    def next_thread(self, number):
        """A thread of a number whose last thread has just ended, which the server sees a moment after its connection."""
        for _ in range(500):
            try:
                return self.thread(number)
            except l4ipc.Refused as error:
                if error.number != K_NUMBER_TAKEN:
                    raise
                time.sleep(0.002)
        return self.thread(number)

    def stop(self):
        for process in reversed(self.started):
            end(process)
        servers.remove(self)
        self.__exit__()


def end(process):
    ended(process)
    process.wait()
    process.stdout.close()


def output(process, seconds=30):
    """What a process prints to its end, and its status."""
    try:
        text, _ = process.communicate(timeout=seconds)
    except subprocess.TimeoutExpired:
        process.kill()
        text, _ = process.communicate()
        return f"{text}(it did not end)", None
    return text, process.returncode


def beside(does):
    """Runs something in a thread of this process; the answer waits for it."""
    box = []
    worker = threading.Thread(target=lambda: box.append(raised(does)), daemon=True)
    worker.start()

    def joined(seconds=20):
        worker.join(seconds)
        return box[0] if box else TimeoutError("it did not end")

    return joined
