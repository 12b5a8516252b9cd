#!/usr/bin/env python3
"""page_programs.py L4D [--times N]: each Python program of the pages and the examples, beside a client that does the worst.

The programs are taken from the pages as they stand there. Each one that serves is started beside an `l4d` and a name server of this check. A client then
sends what it does not expect: strings, two in a row, strings of 100,000 bytes, flags and labels, messages of which the sender ends while it is answered,
cancellations. After each of these the program is asked once more, properly, and has to give its answer. At the end `l4d` is stopped, and the program has to
end within seconds. Each program that asks has to print what its page says. A program of a page that stands in no row of this check is a failure.

README's block is run as one, as somebody pastes it: as the words of a shell, as its input, and at a terminal, as keys and as a paste, and as
keys in zsh, where these shells are there. It has to print its answer each time. With --times N it is run so many times in each of these forms, and nothing else is looked at.

Its last line is `N checked, M failed`; the status is 0 where M is 0.
"""

import os
import re
import signal
import socket
import subprocess
import sys
import tempfile
import time
from dataclasses import dataclass, field

sys.path[1:1] = [f"{sys.path[0]}/../lib", f"{sys.path[0]}/../../clients/python/src"]

import pasting
from counting import Tally
from frames import ANY, ipc
from kit import ROOT
from l4ipc import Closed, IpcError, Message, Thread, ThreadId
from l4ipc.names import Names
from l4ipc.words import MAX_LABEL, MAX_STRING_BYTES, timeouts
from name_server import NameServer
from page_text import blocks_of, text_of
from protocol_tables import K_NUMBER_TAKEN
from serving import Client, Server, ended

PAGES = ["README.md", "clients/python/README.md", "docs/TUTORIAL.md", "docs/NAMES.md"]
EXAMPLES = ["examples/echo.py", *(f"clients/python/examples/{name}.py" for name in ("cancel", "driver", "gateway", "pager", "pingpong", "string_copy"))]
ENVIRONMENT = {**os.environ, "PYTHONPATH": f"{ROOT}/clients/python/src", "PYTHONUNBUFFERED": "1"}
SECONDS_TO_END = 15
TIMES = 5
PAGE_FAULT = -2 << 4 & MAX_LABEL
WORST, ASKER, OTHER = 900, 901, 902
QUICK = timeouts(1, 0.2)

tally = Tally()
check = tally.check


@dataclass
class Serving:
    """A program that serves: its thread number, its words behind the folder, what it is asked, and what it answers; None where it answers nothing."""

    number: int
    asked: Message
    answers: object
    words: tuple = ()
    beside: tuple = ()


@dataclass
class Asking:
    """A program that asks: the program that it needs, and what it prints."""

    beside: tuple
    prints: str
    words: tuple = ()


def words_are(*wanted):
    return lambda answer: answer.words == wanted


DEVICE = "DEVICE"
DRIVE = ("clients/python/README.md", 6)
PINGPONG = ("clients/python/examples/pingpong.py", "serve")
SILENT = ("clients/python/examples/cancel.py", "silent")
# Each program by its page, and by its file there or its place.
SERVES = {
    ("README.md", "server.py"): Serving(1, Message(0, [40, 2]), words_are(42)),
    ("clients/python/README.md", 1): Serving(1, Message(0, [40, 2]), words_are(42)),
    DRIVE: Serving(60, Message(1), lambda answer: bytes(answer.strings[0]) == b"a line", (DEVICE,)),
    ("docs/TUTORIAL.md", 1): Serving(1, Message(0, [41]), words_are(42)),
    ("docs/NAMES.md", 1): Serving(1, Message(0, [42]), words_are(42)),
    ("examples/echo.py", "serve"): Serving(1, Message(0, [41]), words_are(42), ("serve",)),
    PINGPONG: Serving(10, Message(5, [7]), lambda answer: (answer.label, answer.words) == (5, (7,)), ("serve",)),
    ("clients/python/examples/pager.py", "serve"): Serving(20, Message(PAGE_FAULT | 4, [0x1234, 0]), lambda answer: answer.words[0] == 0x1000, ("serve",)),
    ("clients/python/examples/string_copy.py", "serve"): Serving(30, Message(0, [], [b"abc"]), words_are(3), ("serve",)),
    ("clients/python/examples/gateway.py", "serve"): Serving(
        40, Message(5, [7]), lambda answer: (answer.sender.number, answer.words) == (10, (7,)), ("serve",), (PINGPONG,)),
    ("clients/python/examples/driver.py", "serve"): Serving(60, Message(1), lambda answer: bytes(answer.strings[0]) == b"a line", ("serve", DEVICE)),
    SILENT: Serving(50, Message(0, [7]), None, ("silent",)),
}
ASKS = {
    ("README.md", "client.py"): Asking((("README.md", "server.py"),), "42\n"),
    ("clients/python/README.md", 2): Asking((("clients/python/README.md", 1),), "42\n"),
    ("clients/python/README.md", 7): Asking((("clients/python/README.md", 1),), "42\n"),
    ("docs/NAMES.md", 2): Asking((("docs/NAMES.md", 1),), "42\n"),
}
# A piece of a program on a page, and what stands around it where it is run.
PIECES = {DRIVE: """
import os, sys
from l4ipc import L4Error, Message, Thread

{block}

def main(directory, path):
    device = os.fdopen(os.open(path, os.O_RDWR), "rb", 0)
    with Thread(directory, 60) as thread, Thread(directory, 61) as answers:
        lines, clients = [], []

        def give():
            while lines and clients:
                answers.send(clients.pop(), Message(0, [], [lines[-1]], originator=thread.id), 0)
                lines.clear()

        def take_request(request):
            clients.append(request.sender)
            give()

        def take_data(device):
            lines.extend(os.read(device.fileno(), 4096).splitlines())
            give()

        drive(thread, device, take_request, take_data)

try:
    main(*sys.argv[1:])
except L4Error as end:
    sys.exit(f"drive: {{end}}")
"""}
# These wait for a server, and end with l4d, too.
WAITS = {("clients/python/examples/cancel.py", "call"): Asking((SILENT,), "", ("call",))}


def programs_of(page):
    """The programs and the pieces of programs of a page."""
    found = dict(re.findall(r"^cat > (\S+\.py) <<'END'\n(.*?)^END$", text_of(page), re.S | re.M))
    return {**found, **dict(enumerate(blocks_of(page, "python"), 1))}


def is_program(block):
    return "sys.argv" in block


def all_programs(folder):
    """Each program of a page or an example by its key: the command that runs it."""
    programs = {}
    for page in PAGES:
        blocks = programs_of(page)
        for place, block in blocks.items():
            compile(block, f"{page} {place}", "exec")
            key = page, place
            if key in PIECES:
                block = PIECES[key].format(block=block)
            if is_program(block):
                check(f"{page} {place} stands in a row of this check", key in SERVES or key in ASKS, block)
                programs[key] = f"{folder}/{len(programs)}.py"
                with open(programs[key], "w", encoding="utf-8") as file:
                    file.write(block)
    for key in [*SERVES, *WAITS]:
        if key[0] in EXAMPLES:
            programs[key] = f"{ROOT}/{key[0]}"
    for key in [*SERVES, *ASKS]:
        check(f"{key} is there", key in programs)
    for path in EXAMPLES:
        roles = re.findall(rf"^    {os.path.basename(path)} DIR (serve|silent)", text_of(path), re.M)
        check(f"the roles of {path} that serve", roles and all((path, role) in SERVES for role in roles), roles)
    return programs


@dataclass
class Running:
    """An l4d with a name server, and programs beside it."""

    l4d: str
    programs: dict
    started: list = field(default_factory=list)

    def __enter__(self):
        self.server = Server(self.l4d)
        self.names = NameServer(self.server.path)
        return self

    def __exit__(self, *_):
        for process in self.started:
            ended(process)
            process.stdout.close()
        if hasattr(self, "lines"):
            os.close(self.lines)
        self.server.__exit__()

    def start(self, key, row):
        """Starts what a program needs, and then itself, once that one serves."""
        for other in row.beside:
            self.start(other, SERVES[other])
            self.until_it_serves(SERVES[other])
        words = [self.device() if word == DEVICE else word for word in row.words]
        process = subprocess.Popen(
            [sys.executable, self.programs[key], self.server.folder, *words], stdin=subprocess.DEVNULL, stdout=subprocess.PIPE, stderr=subprocess.STDOUT,
            text=True, errors="replace", env=ENVIRONMENT, preexec_fn=lambda: signal.signal(signal.SIGINT, signal.SIG_DFL))
        self.started.append(process)
        return process

    def device(self):
        """A pipe, whose lines are what a driver gives."""
        os.mkfifo(f"{self.server.folder}/device")
        self.lines = os.open(f"{self.server.folder}/device", os.O_RDWR)
        return f"{self.server.folder}/device"

    def until_it_serves(self, row):
        """Until a program gives its answer for the first time."""
        said = "nobody"
        limit = time.monotonic() + 20
        while said and time.monotonic() < limit:
            time.sleep(0.02)
            said = self.asked(row)
        return said

    def asked(self, row):
        """Asks a program properly; answers what is wrong, or nothing."""
        try:
            if DEVICE in row.words:
                os.write(self.lines, b"a line\n")
            with thread(self.server.folder, ASKER) as asks:
                to = ThreadId.of(row.number, 1)
                if row.answers is None:
                    return asks.send(to, row.asked, 5)
                answer = asks.call(to, row.asked, 5, 5, [64])
        except (IpcError, Closed) as error:
            return repr(error)
        return "" if row.answers(answer) else repr(answer)


def thread(folder, number):
    """A thread of a number whose last thread may have ended just now."""
    for _ in range(500):
        try:
            return Thread(folder, number)
        except Exception as error:
            if getattr(error, "number", None) != K_NUMBER_TAKEN:
                raise
            time.sleep(0.002)
    return Thread(folder, number)


# What the worst client does to a server: to = its id.


def strings_of(*sizes):
    def does(worst, folder, to):
        for size in sizes:
            message = Message(0, [], [b"x" * size])
            failing(lambda: worst.call(to, message, 1, 0.2))
    return does


def failing(does):
    """A call whose error is nobody's business."""
    try:
        does()
    except IpcError:
        pass


def two_strings_at_once(worst, folder, to):
    """Two senders wait with a string, so that the second one comes right behind the failure of the first."""
    with thread(folder, OTHER) as other:
        for client in (worst, other):
            client._connection.sendall(ipc(to, 0, (1 << 10, 0), QUICK, tag=0x80, payload=b"x"))
        for client in (worst, other):
            client._exchange(b"")


def many_strings(worst, folder, to):
    for count in (2, 16, 31):
        failing(lambda: worst.call(to, Message(1, [], [b"x"] * count), 1, 0.2))


def labels_and_words(worst, folder, to):
    for label in (0, 1, 2, 3, 5, PAGE_FAULT, PAGE_FAULT | 4, MAX_LABEL):
        for words in ((), (0,), (2**64 - 1,) * 2, (2**64 - 1,) * 63):
            failing(lambda: worst.call(to, Message(label, words), 1, 0.05))


def names_of_others(worst, folder, to):
    with thread(folder, OTHER) as other:
        for originator in (worst.id, other.id, to, ThreadId.of(99, 1), ThreadId(0), ThreadId(2**64 - 1)):
            for words in ((), (1, 2)):
                failing(lambda: worst.call(to, Message(0, words, originator=originator), 1, 0.05))
                failing(lambda: worst.send(to, Message(0, words, [b"x"], originator), 1))


def nobody_waits_for_the_answer(worst, folder, to):
    for _ in range(20):
        failing(lambda: worst.send(to, Message(0, [1]), 1))
        failing(lambda: worst.call(to, Message(0, [1]), 1, 0))


def senders_that_end(worst, folder, to):
    """The client ends while its message is served, and while its answer comes."""
    for turn in range(40):
        client = thread(folder, OTHER)
        payload = b"x" * MAX_STRING_BYTES if turn % 4 == 3 else b""
        items = (len(payload) << 10, 0) if payload else (1, 2)
        client._connection.sendall(ipc(to, to, items, QUICK, tag=0x80 if payload else 2, payload=payload))
        time.sleep(turn % 8 * 0.0003)
        client._connection.close()


def cancellations(worst, folder, to):
    for turn in range(60):
        worst.exchange_registers(to, send=turn % 3 != 0, receive=turn % 3 != 1)
        time.sleep(turn % 5 * 0.0005)


def garbage(worst, folder, to):
    """Bytes that are no frames, and frames whose tags are no tags: each ends its own connection alone."""
    for data in (b"\0" * 4, b"\xff" * 64, ipc(to, to, (1,) * 3, tag=0xFFFF_FFFF_FFFF_FFFF), ipc(to, ANY, (), tag=0x40), ipc(to, to, (8, 0), tag=0x80),
                 ipc(to, to, (1,), tag=0x1001, sender=2**64 - 1), ipc(to, to, (1,), tag=0x8E001)):
        with thread(folder, OTHER) as client:
            try:
                client._connection.sendall(data + ipc(0, 0, ()))
                client._exchange(b"")
            except (OSError, EOFError):
                pass
    with_no_hello = Client(f"{folder}/space1")
    with_no_hello.line.sendall(os.urandom(4096))
    with_no_hello.line.close()


DEEDS = {
    "a string of a byte": strings_of(1), "a string of 100,000 bytes": strings_of(100_000), "an empty string": strings_of(0),
    "strings in a row": strings_of(1, 1, 100_000, 1), "two strings at once": two_strings_at_once, "many strings": many_strings,
    "labels and words": labels_and_words, "names of others": names_of_others, "no wait for the answer": nobody_waits_for_the_answer,
    "senders that end": senders_that_end, "cancellations": cancellations, "garbage": garbage,
}


def survives(l4d, programs, key):
    """A program that serves: it gives its answer after each deed, and ends with l4d."""
    row, name = SERVES[key], " ".join(map(str, key))
    with Running(l4d, programs) as running:
        process = running.start(key, row)
        said = running.until_it_serves(row)
        check(f"{name} serves", not said, said)
        for deed, does in DEEDS.items():
            with thread(running.server.folder, WORST) as worst:
                does(worst, running.server.folder, ThreadId.of(row.number, 1))
            said = running.asked(row)
            # (one more try: what the worst client left behind may be the first that comes)
            said = said and running.asked(row)
            if said or process.poll() is not None:
                check(f"{name} after {deed}", False, f"{said}; status {process.poll()}; {text_at_the_end(process)}")
                return
            check(f"{name} after {deed}", True)
        ends_with_l4d(running, name, process)


def ends_by_ctrl_c(l4d, programs, key):
    """An example that serves: Ctrl-C ends it without a word."""
    row, name = SERVES[key], " ".join(map(str, key))
    with Running(l4d, programs) as running:
        process = running.start(key, row)
        said = running.until_it_serves(row)
        process.send_signal(signal.SIGINT)
        try:
            text, _ = process.communicate(timeout=SECONDS_TO_END)
            check(f"{name} ends by Ctrl-C", not said and process.returncode == 130 and "Traceback" not in text, f"{said} {process.returncode} {text}")
        except subprocess.TimeoutExpired:
            check(f"{name} ends by Ctrl-C", False, said)


def ends_with_l4d(running, name, process):
    running.server.process.kill()
    try:
        text, _ = process.communicate(timeout=SECONDS_TO_END)
        check(f"{name} ends by itself as l4d ends", process.returncode >= 0, process.returncode)
        check(f"{name} tells it", text.strip(), "nothing")
    except subprocess.TimeoutExpired:
        with open(f"/proc/{process.pid}/stat") as file:
            ticks = sum(map(int, file.read().rsplit(")", 1)[1].split()[11:13]))
        check(f"{name} ends within {SECONDS_TO_END} seconds of l4d", False, f"it used {ticks} ticks")


def text_at_the_end(process):
    if process.poll() is None:
        process.kill()
    return process.communicate()[0][-2000:]


def prints(l4d, programs, key):
    """A program that asks prints what its page says, and ends."""
    row, name = ASKS[key], " ".join(map(str, key))
    with Running(l4d, programs) as running:
        process = running.start(key, row)
        try:
            text, _ = process.communicate(timeout=20)
            check(f"{name} prints", (process.returncode, text) == (0, row.prints), f"{process.returncode} {text}")
        except subprocess.TimeoutExpired:
            check(f"{name} ends", False, "")


def waits(l4d, programs, key):
    """A program that waits in a call, with nobody who answers, ends with l4d."""
    row, name = WAITS[key], " ".join(map(str, key))
    with Running(l4d, programs) as running:
        process = running.start(key, row)
        time.sleep(1)
        check(f"{name} waits", process.poll() is None, process.poll())
        ends_with_l4d(running, name, process)


def block_works(l4d, times):
    """README's block of two processes, as one; the programs of `l4d` and of the client's package are those of this tree."""
    (block,) = re.findall(r"^```sh\n(cat > server\.py <<'END'.*?)^```$", text_of("README.md"), re.S | re.M)
    if not pasting.FORMS:
        print("README's block as one: left out, since bash is not there", flush=True)
    for form in pasting.FORMS:
        failures = []
        for _ in range(times):
            with tempfile.TemporaryDirectory() as folder:
                os.symlink(l4d, f"{folder}/l4d")
                os.symlink(f"{ROOT}/clients", f"{folder}/clients")
                said = form(block, "kill %1; wait; rm -r $dir; exit\n", folder)
                if "42" not in said.splitlines():
                    failures.append(said[-2000:])
        check(f"README's block as one, {form.__name__}, {times} times", not failures, f"{len(failures)} failed: {failures[:1]}")


def another_driver(l4d):
    """driver.py DIR ask tells in one line that who has the name `driver` is another driver, as that of the client in C."""
    with Running(l4d, {}) as running, thread(running.server.folder, 60) as other:
        Names(other).register("driver")
        process = subprocess.Popen([sys.executable, f"{ROOT}/clients/python/examples/driver.py", running.server.folder, "ask"], stdin=subprocess.DEVNULL,
                                   stdout=subprocess.PIPE, stderr=subprocess.STDOUT, text=True, env=ENVIRONMENT)
        running.started.append(process)
        other.send(other.wait(20).sender, Message(0, [7]), 5)
        text, _ = process.communicate(timeout=20)
        check("driver.py beside another driver", (process.returncode, text.count("\n"), "60.1 answered without a line" in text) == (1, 1, True), text)


def two_servers(l4d, programs):
    """Two of README's servers, which a message to one in the name of the other has answer each other's answers: they stop, and serve on."""
    key = ("README.md", "server.py")
    one, two = SERVES[key], Serving(2, Message(0, [40, 2]), words_are(42))
    with open(programs[key], encoding="utf-8") as file:
        text = file.read().replace("sys.argv[1], 1,", "sys.argv[1], 2,")
    programs = {**programs, "two": f"{programs[key]}.two.py"}
    with open(programs["two"], "w", encoding="utf-8") as file:
        file.write(text)
    with Running(l4d, programs) as running:
        folder, said = running.server.folder, []
        for name, row in ((key, one), ("two", two)):
            running.start(name, row)
            said.append(running.until_it_serves(row))
        with thread(folder, WORST) as worst:
            worst.send(ThreadId.of(1, 1), Message(0, [7], originator=ThreadId.of(2, 1)), 5)
            limit, calls = time.monotonic() + 60, [0, 1]
            while len(set(calls[-2:])) > 1 and time.monotonic() < limit:
                time.sleep(0.5)
                calls.append(calls_over(folder))
            check("two servers stop", not any(said) and 3_000 < calls[-1] == calls[-2], f"{said} {calls}")
        said = [running.asked(row) for row in (one, two)]
        check("two servers that have stopped serve on", not any(said), said)


def calls_over(folder):
    """How many calls of an l4d are over, as it tells."""
    with socket.socket(socket.AF_UNIX) as asker:
        asker.connect(f"{folder}/control")
        asker.sendall(b"counters\n")
        answer = b"".join(iter(lambda: asker.recv(65_536), b"")).decode()
    return int(re.search(r"^calls_over ([0-9]+)$", answer, re.M)[1])


def words_are_told(folder):
    """Words that an example does not take are told in a few lines, with status 2; that nobody serves in the folder is told in one, with status 1."""
    for path in EXAMPLES:
        (role, *_) = re.findall(rf"^    {os.path.basename(path)} DIR ((?:serve|silent)(?: DEVICE)?)", text_of(path), re.M)
        served = [it.replace("DEVICE", os.devnull) for it in role.split()]
        for words, status in (([], 2), ([folder, "walk"], 2), ([folder, "ask", "x"], 2), ([folder, *served, "more"], 2), ([folder, *served], 1)):
            ran = subprocess.run([sys.executable, f"{ROOT}/{path}", *words], env=ENVIRONMENT, stdin=subprocess.DEVNULL, capture_output=True, text=True, timeout=20)
            is_told = "Traceback" not in ran.stderr and ran.stderr and (status == 2 or ran.stderr.count("\n") == 1)
            check(f"{path} {words}", (ran.returncode, ran.stdout) == (status, "") and is_told, f"{ran.returncode} {ran.stderr}")


def main():
    l4d = os.path.abspath(sys.argv[1])
    if sys.argv[2:]:
        block_works(l4d, int(sys.argv[3]))
        return tally.end()
    block_works(l4d, TIMES)
    with tempfile.TemporaryDirectory() as folder:
        words_are_told(folder)
        another_driver(l4d)
        programs = all_programs(folder)
        two_servers(l4d, programs)
        for kind, table in ((survives, SERVES), (prints, ASKS), (waits, WAITS)):
            for key in table:
                if key in programs:
                    kind(l4d, programs, key)
                if kind is survives and key[0] in EXAMPLES:
                    ends_by_ctrl_c(l4d, programs, key)
    return tally.end()


if __name__ == "__main__":
    if sys.argv[2:3] not in ([], ["--times"]) or len(sys.argv) not in (2, 4):
        sys.exit(__doc__)
    sys.exit(main())
