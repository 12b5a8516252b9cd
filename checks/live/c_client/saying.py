"""Calls that the program say makes against an l4d, and what the trace of the server says of them."""

import subprocess
import tempfile
import time

from frames import ANY, FAILED, LOCAL, NIL, PROPAGATED, thread_id
from serving import Server as PlainServer, is_legal
from traces import entries_in

SECONDS = 60


class Server(PlainServer):
    """l4d with a trace, in a folder of its own."""

    def __init__(self, l4d, room, *words, folder=None, spaces=1, trace=True):
        super().__init__(l4d, *words, folder=folder or tempfile.mkdtemp(dir=room), spaces=spaces, trace=trace)
        self.dir = self.folder

    def is_legal(self, l4sh):
        """The lines of its trace, which has to be legal."""
        lines = self.entries()
        is_so, said = is_legal(l4sh, self.trace)
        assert is_so, said
        return lines


class Say:
    """The program say, which makes the calls that it is told."""

    def __init__(self, program, dir, number=None, space=1):
        self.process = subprocess.Popen([program], stdin=subprocess.PIPE, stdout=subprocess.PIPE, text=True)
        self.dir, self.thread, self.version = dir, None, None
        # what each Ipc that the server was asked brought, and what version 2 told of it: (its number, its moment), None in version 1
        self.outcomes, self.times = [], []
        # the moment of each ExchangeRegisters, in version 2
        self.exchanges = []
        if number is not None:
            self.connect(number, space)

    def connect(self, number, space=1, version=None):
        """Threads of odd numbers speak version 2, the others version 1, unless another one is asked for."""
        version = 1 + number % 2 if version is None else version
        result, errno, text = self.ask(f"connect {self.dir} {space} {number} {version}")
        status, thread = result.split()
        self.thread = int(thread, 16) or None
        if status == "0":
            self.outcomes, self.times, self.exchanges, self.version = [], [], [], version
        return int(status), errno, text

    def tell(self, line):
        self.process.stdin.write(line + "\n")
        self.process.stdin.flush()

    def hear(self):
        line = self.process.stdout.readline()
        assert line, "say ended"
        result, errno, text = line.rstrip("\n").split(" | ", 2)
        return result.strip(), int(errno), text

    def ask(self, line):
        self.tell(line)
        return self.hear()

    def tell_ipc(self, to=NIL, source=NIL, snd=0, rcv=0, label=0, virtual=None, words=(), strings=(), buffers=None):
        """strings: lists of pieces of bytes; buffers: lists of lengths, None for no strings accepted."""
        word_list = ",".join(f"{word:x}" for word in words) or "-"
        string_list = ",".join("+".join("x" + piece.hex() for piece in string) for string in strings) or "-"
        buffer_list = "-" if buffers is None else ",".join("+".join(map(str, buffer)) for buffer in buffers) or "s"
        shown = "-" if virtual is None else f"{virtual:x}"
        self.tell(f"ipc {to:x} {source:x} {snd << 16 | rcv:x} {label:x} {shown} {word_list} {string_list} {buffer_list}")

    def hear_ipc(self):
        """tag, sender, ActualSender, ErrorCode as words, and the text."""
        result, _, text = self.hear()
        tag, sender, actual, code, words, strings, times = result.split()
        # with e = 0 no outcome came: the call was refused, or was not made
        is_outcome = int(code, 16) == 0 or int(code, 16) >> 1 & 7
        assert (times != "-") == (bool(is_outcome) and self.version == 2), result
        if is_outcome:
            self.outcomes.append((int(tag, 16), int(sender, 16), int(actual, 16), int(code, 16), words, strings))
            self.times.append(None if times == "-" else tuple(int(word, 16) for word in times.split(",")))
        return int(tag, 16), int(sender, 16), int(actual, 16), int(code, 16), words, strings, text

    def ipc(self, **parts):
        self.tell_ipc(**parts)
        return self.hear_ipc()

    def code(self, **parts):
        return self.ipc(**parts)[3]

    def exreg(self, target, control):
        result, errno, text = self.ask(f"exreg {target:x} {control:x}")
        *words, times = result.split()
        if times != "-":
            self.exchanges.append(int(times.split(",")[1], 16))
        return tuple(int(word, 16) for word in words)

    def end(self):
        if self.process.poll() is None:
            self.process.stdin.close()
            assert self.process.wait(SECONDS) == 0, "say did not end well"

    def kill(self):
        self.process.kill()
        self.process.wait()


def word_of_id(text):
    named = {"nil": NIL, "any": ANY, "local": LOCAL}
    if text in named:
        return named[text]
    return int(text, 16) if text.startswith("0x") else thread_id(*map(int, text.split(".")))


class Past:
    """What a trace says that each thread was told: its outcomes in the order of its calls."""

    def __init__(self, lines):
        self.calls, self.space, self.live, self.told = {}, {}, set(), {}
        # threads in the order in which they made calls: thread, number
        self.made = {}
        # the moment, when each call was over, and the moments of the exchanges of registers by their threads
        self.now, self.over, self.exchanges = 0, {}, {}
        for word, fields in entries_in(lines):
            getattr(self, word, lambda *_: None)(*fields)

    def at(self, moment):
        self.now = int(moment)

    def exreg(self, thread, *_):
        self.exchanges.setdefault(word_of_id(thread), []).append(self.now)

    def tells(self, number, outcome):
        self.told[number], self.over[number] = outcome, self.now

    def opened(self, thread, space):
        thread = word_of_id(thread)
        self.space[thread] = int(space)
        self.live.add(thread)
        self.made[thread] = []

    def broke(self, thread):
        self.live.discard(word_of_id(thread))

    def called(self, number, thread, to, source, _, tag, virtual, words, strings, buffers):
        thread, to, source, tag, virtual = word_of_id(thread), word_of_id(to), word_of_id(source), int(tag, 16), word_of_id(virtual)
        is_shown = bool(tag & PROPAGATED) and virtual in self.live and self.space[virtual] == self.space[thread]
        self.calls[number] = dict(thread=thread, tag=tag, shown=virtual if is_shown else None, words=words, strings=strings, receives=source != NIL)
        self.made[thread].append(number)
        if to == NIL and source == NIL:
            self.tells(number, (0, NIL, NIL, 0, "-", "-"))

    def ended(self, n, m):
        call = self.calls[n]
        strings = 0 if call["strings"] == "-" else len(call["strings"].split(","))
        shown = call["shown"]
        tag = call["tag"] & ~0xFFFF | call["tag"] & 63 | strings * 2 << 6 | (PROPAGATED if shown is not None else 0)
        words = call["words"].replace("0x", "")
        sender, actual = (call["thread"], NIL) if shown is None else (shown, call["thread"])
        self.tells(m, (tag, sender, actual, 0, words, call["strings"]))
        if not call["receives"]:
            self.tells(n, (0, NIL, NIL, 0, "-", "-"))

    def fails(self, number, code):
        self.tells(number, (FAILED, NIL, NIL, code, "-", "-"))

    def failed(self, number, code):
        self.fails(number, int(code, 16))

    def overflowed(self, n, m, offset):
        self.fails(n, 0x8 + 16 * int(offset))
        self.fails(m, 0x9 + 16 * int(offset))

    def aborted(self, n, m, count):
        self.fails(n, 0xE + 16 * int(count))
        self.fails(m, 0xF + 16 * int(count))

    def outcomes(self, thread):
        return [self.told[number] for number in self.made.get(thread, []) if number in self.told]

    def times(self, thread):
        """The number and the moment of each outcome."""
        return [(int(number), self.over[number]) for number in self.made.get(thread, []) if number in self.told]


def told_to(*sayers):
    """What each of them was told, by its thread."""
    return [(sayer.thread, sayer.outcomes, sayer.times, sayer.exchanges if sayer.version == 2 else None) for sayer in sayers]


def compare(server, l4sh, told):
    """What each sayer was told is what the trace says. How many outcomes that were."""
    past, count = Past(server.is_legal(l4sh)), 0
    for thread, outcomes, times, exchanges in told:
        wanted = past.outcomes(thread)
        assert exchanges in (None, past.exchanges.get(thread, [])), f"exchanges of {thread:x}: {exchanges} in place of {past.exchanges.get(thread)}"
        for k, (got, want) in enumerate(zip(times, past.times(thread))):
            assert got in (None, want), f"outcome {k} of thread {thread:x} was number and moment {got} in place of {want}"
        assert len(outcomes) == len(wanted), (hex(thread), len(outcomes), len(wanted))
        for k, (got, want) in enumerate(zip(outcomes, wanted)):
            assert got == want, f"outcome {k} of thread {thread:x}: {got} in place of {want}"
        count += len(wanted)
    return count


NEVER, ZERO = 0x0, 0x400


def wait_until_waiting(other, thread, bit):
    """Until ExchangeRegisters without a bit says that the thread is in this phase."""
    while not other.exreg(thread, 0)[1] & bit:
        time.sleep(0.002)


def wait_until_gone(other, thread):
    """Until ExchangeRegisters says that no such thread is live."""
    while other.exreg(thread, 0)[2] != 2:
        time.sleep(0.002)
