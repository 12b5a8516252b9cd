#!/usr/bin/env python3
"""checks/live/talks.py L4D L4SH: threads of a live l4d from pipes, by `l4sh talk DIR`.

Each talk is a process of its own, which is given one line after the other and says something to each. They meet with words and strings, call and reply,
time out, are cancelled, find a thread by its number that was there before, and end by `quit`, by the end of their input, by a signal, and by a server that refuses, faults or is killed. At the end
`l4sh check` judges the trace, and the calls that were typed stand in it as they were meant.

10,000 bytes of anything are pasted, a prompt stands at a terminal, and a run tells a terminal of a p that is dropped.

Then comes a server that sends stored frames: each line that asks for something goes out as the one frame of FORMATS, and a mistake as none, however the
lines are cut.

Its last line is `N checked, M failed`; the status is 0 where M is 0.
"""

import os
import pty
import random
import select
import signal
import socket
import subprocess
import sys
import tempfile
import threading

sys.path.insert(1, f"{sys.path[0]}/../lib")

from counting import Tally
from runs import ended, ended_in_pieces
from serving import Server, is_legal

L4D, L4SH = sys.argv[1:3]
# So long a terminal is waited for.
SECONDS = 20
# Frames: HELLO 2, WELCOME 2.1, BYE, and the IPCR of a send that was successful.
HELLO, WELCOME, BYE = "00000003 01 0002", "00000009 81 0000000200000001", "00000001 04"
SENT = "00000022 82 0000000000000000 0000000000000000 0000000000000000 0000000000000000 00"
GREETING = "= 2.1    this thread; help lists what it can do\n"
# What is typed, the frame that goes out for it, the one that comes back, and what is said.
EXCHANGES = [
    ("# nothing is asked for", "", "", ""),
    ("  send 1 7  # one word",
     "00000036 02 0000000100000001 0000000000000000 00000000 0000000000000000 0000000000000001 0000000000000000 00 0000000000000007",
     SENT, "= 0x0 nil nil 0x0 - -    it was sent\n"),
    ("receive buffers=4",
     "0000003e 02 0000000000000000 ffffffffffffffff 00000000 0000000000000000 0000000000000000 0000000000000001 02 0000000000001000 0000000000100000",
     "00000041 82 0000000000000080 0000000200000001 0000000000000000 0000000000000000 0000000000000c00 0000000000001000 01 0000000000001000 00000003 616263",
     '= 0x80 2.1 nil 0x0 0xc00,0x1000 0x1000:x616263    from 2.1, label 0, no words, "abc"\n'),
    ('call 1.1 "abc" timeout=5us',
     "00000041 02 0000000100000001 0000000100000001 00050005 0000000000000000 0000000000000080 0000000000000000 00 0000000000000c00 0000000000000000 616263",
     "00000022 82 0000000000008000 0000000000000000 0000000000000000 0000000000000003 00",
     "= 0x8000 nil nil 0x3 - -    the receive phase failed: it took longer than its timeout\n"),
    ("exreg 2 send", "00000011 03 0000000200000001 0000000000000004", "00000019 83 0000000200000001 0000000000000004 0000000000000000",
     "= 2.1 0x4 0x0    2.1 was in a send phase\n"),
    ("reply_wait 2 label=3 as=3 words=7",
     "00000036 02 0000000200000001 ffffffffffffffff 04000000 0000000300000001 0000000000031001 0000000000000000 00 0000000000000007",
     "00000002 84 08", "! K8    the number of the call would pass the limit\n"),
    ("quit now", "", "", "? wanted is quit or exit alone\n"),
    ("send 1 hello", "", "", '? wanted is a number, as 7 or 0x8, or a text between quotation marks, as "hello"; not hello\n'),
    ("send 1 18446744073709551616", "", "", "? wanted is a number of 64 bits at most, as 7 or 0x8; not 18446744073709551616\n"),
    ("walk", "", "", "? wanted is send, receive, wait, call, reply_wait, exreg, help or quit; not walk\n"),
    ("send nil", "", "", "? wanted is a thread, as 1.1, or 1; not nil\n"),
    ("wait label=3", "", "", "? wanted is receive ID timeout=TIME buffers=N,N; not label=3\n"),
    ('send 1 "hi', "", "", "? a quotation mark is missing\n"),
    ("exreg 2 all", "", "", "? wanted is exreg ID send, receive, both or nothing\n"),
    ("exreg 2 nothing", "00000011 03 0000000200000001 0000000000000000", "00000019 83 0000000200000001 0000000000000000 0000000000000000",
     "= 2.1 0x0 0x0    2.1 was in no phase\n"),
    ("send 1 label=0x1000000000000", "", "", "? a label has 48 bits at most\n"),
    ("wait",
     "0000002e 02 0000000000000000 ffffffffffffffff 00000000 0000000000000000 0000000000000000 0000000000000000 00",
     "00000022 82 0000000100000000 0000000200000001 0000000000000000 0000000000000000 00",
     "= 0x100000000 2.1 nil 0x0 - -    from 2.1, label 0x10000, no words\n"),
    ("wait",
     "0000002e 02 0000000000000000 ffffffffffffffff 00000000 0000000000000000 0000000000000000 0000000000000000 00",
     "00000022 82 ffffffffffff0000 0000000200000001 0000000000000000 0000000000000000 00",
     "= 0xffffffffffff0000 2.1 nil 0x0 - -    from 2.1, label 0xffffffffffff (FUNCTION_FAILED), no words\n"),
    ("quit", BYE, "", ""),
]
# What is told where the connection ends.
GONE = "l4sh: the server is gone\nit ended, or has no memory or no worker for this connection: its standard error says which\n"
# The frames of a server, of which the last one may be cut, and how a talk of two lines ends with them: its status, and what is told.
ENDINGS = [
    ([WELCOME, SENT, SENT], 0, ""),
    (["00000002 84 02"], 4, "l4sh: the server refused the thread: K2\na thread of that number is live; --thread N takes another number\n"),
    ([WELCOME, "00000003 85 53 03"], 4, "l4sh: the server ended the thread: S3\nthe server stops\n"),
    ([WELCOME, "00000003 85 4b 07"], 4, "l4sh: the server ended the thread: K7\nthe thread has an open call, or an outcome that it has not yet taken\n"),
    ([], 4, GONE),
    ([WELCOME, SENT, "000000"], 4, GONE),
    ([WELCOME, "0000"], 4, GONE),
    ([WELCOME, WELCOME], 4, "l4sh: the server sent what is no answer\n"),
]
# A thread of space 2 sends in the name of one of its space, which is kept, of one of another space, and of one that is not there.
DROPPED = """open 1 1
open 2 2
open 3 2
call 2.1 1.1 nil 0x4000000 0x1000 3.1 - - -
take 2.1
call 2.1 1.1 nil 0x4000000 0x1001 1.1 0x5 - -
take 2.1
call 2.1 1.1 nil 0x4000000 0x1001 9.1 0x5 - -
take 2.1
broke 9.1
"""
tally = Tally()
same = tally.same


class Talk:
    """A talk of a thread, from a pipe."""

    def __init__(self, folder, *words, thread=None):
        self.process = subprocess.Popen([L4SH, "talk", folder, *words], stdin=subprocess.PIPE, stdout=subprocess.PIPE, stderr=subprocess.PIPE, text=True)
        if thread:
            same(f"the welcome of {thread}", self.line(), f"= {thread}    this thread; help lists what it can do\n")

    def type(self, line):
        self.process.stdin.write(f"{line}\n")
        self.process.stdin.flush()

    def line(self):
        return self.process.stdout.readline()

    def says(self, typed, wanted):
        """Types a line, and looks at what is said to it."""
        self.type(typed)
        same(typed, self.line(), f"{wanted}\n")

    def hears(self, what, wanted):
        same(what, self.line(), f"{wanted}\n")

    def ends(self, what, status=0, told="", typed=None):
        """How it ends, once its input has: nothing more is printed."""
        out, err = self.process.communicate(typed, timeout=20)
        same(what, (self.process.returncode, out, err), (status, "", told))


def until_waits(other, thread):
    """Until a thread is in a phase, as ExchangeRegisters without a bit tells."""
    for _ in range(5000):
        other.type(f"exreg {thread} nothing")
        if "0x0 0x0" not in other.line():
            return
    same(f"{thread} waits", False, True)


def meetings(server):
    one, two = Talk(server.folder, thread="1.1"), Talk(server.folder, "--thread", "2", thread="2.1")
    one.type("receive buffers=100  # of anybody")
    two.says('send 1 7 label=5 "hello"', "= 0x0 nil nil 0x0 - -    it was sent")
    one.hears("a word and a string", '= 0x50081 2.1 nil 0x0 0x7,0x1400,0x100000 0x100000:x68656c6c6f    from 2.1, label 5, 1 word, 7, "hello"')
    one.type("wait")
    two.type("call 1.1 40 2 timeout=10s")
    one.hears("a request", "= 0x2 2.1 nil 0x0 0x28,0x2 -    from 2.1, label 0, 2 words")
    one.type("reply_wait 2 42")
    two.hears("a reply", "= 0x1 1.1 nil 0x0 0x2a -    from 1.1, label 0, 1 word, 42")
    until_waits(two, "1")
    two.says("exreg 1 receive", "= 1.1 0x2 0x0    1.1 was in a receive phase")
    one.hears("a cancelled wait", "= 0x8000 nil nil 0x7 - -    the receive phase failed: another thread cancelled it")
    two.says("receive 1 timeout=2ms", "= 0x8000 nil nil 0x3 - -    the receive phase failed: it took longer than its timeout")
    two.says("send 9 1", "= 0x8000 nil nil 0x4 - -    the send phase failed: the partner does not exist, or ended; 9.1 to 9.63 were tried")
    two.says("exreg 9 both", "= nil 0x0 0x2    no such thread is live in this space; 9.1 to 9.63 were tried")
    two.says("send 9.1 1", "= 0x8000 nil nil 0x4 - -    the send phase failed: the partner does not exist, or ended")
    two.says("open 3 1", "? wanted is send, receive, wait, call, reply_wait, exreg, help or quit; not open")
    two.says("send 1 timeout=soon", '? wanted is a time with its unit, as 20us, 2ms, 1s or 1min, or never; not timeout=soon')
    two.says("send 1 buffers=5", '? wanted is send ID timeout=TIME label=N words=N,N as=ID "text"; not buffers=5')
    two.says("send 1 label=-1", "? wanted is a decimal or HEX of at most 48 bits, as label=3; not label=-1")
    one.type("receive")
    two.says('send 1 "too long"', "= 0x8000 nil nil 0x8 - -    the send phase failed: the message did not fit; a receiver takes strings into buffers alone")
    one.hears("an overflow", "= 0x8000 nil nil 0x9 - -    the receive phase failed: the message did not fit; a receiver takes strings into buffers alone")
    one.type("quit")
    one.ends("quit")
    two.ends("the end of the input without a newline", typed="# nothing more")
    Talk(server.folder, "--space=2", "--thread=1023", thread="1023.1").ends("the last thread, of the second space")


def propagation(server):
    client, gateway, worker = [Talk(server.folder, "--thread", str(number), thread=f"{number}.1") for number in (11, 12, 13)]
    worker.type("receive")
    gateway.type("receive")
    client.type("call 12 5")
    gateway.hears("the request", "= 0x1 11.1 nil 0x0 0x5 -    from 11.1, label 0, 1 word, 5")
    until_waits(gateway, "13")
    gateway.says("send 13 5 as=11", "= 0x0 nil nil 0x0 - -    it was sent")
    worker.hears("the request", "= 0x1001 11.1 12.1 0x0 0x5 -    from 11.1, sent by 12.1, label 0, 1 word, 5")
    worker.says("send 11 6", "= 0x0 nil nil 0x0 - -    it was sent")
    client.hears("the reply", "= 0x1 13.1 nil 0x0 0x6 -    from 13.1, label 0, 1 word, 6")
    for talk in (client, gateway, worker):
        talk.ends("the end of the input")


def pastes(server):
    """No control byte of what is typed comes back, and none of it ends a talk."""
    pasted = random.Random(55).randbytes(10_000)
    for words in ((), (server.folder, "--thread", "34")):
        ran = subprocess.run([L4SH, "talk", *words], input=pasted + b"\nquit\n", capture_output=True)
        controls = {byte for byte in ran.stdout.replace(b"\n", b"") if not 32 <= byte < 127}
        same(f"talk {words} of 10,000 bytes of anything", (ran.returncode, ran.stderr, controls), (0, b"", set()))
        same(f"talk {words} tells of mistakes", ran.stdout.count(b"\n? ") > 10, True)


def at_terminal(words, typed):
    """The status of a talk at a terminal where this is typed, and what stands there then, but for what the terminal echoes."""
    ours, theirs = pty.openpty()
    with subprocess.Popen([L4SH, "talk", *words], stdin=theirs, stdout=theirs, stderr=theirs, close_fds=True) as talk:
        os.close(theirs)
        os.write(ours, typed)
        seen = b""
        try:
            while piece := os.read(ours, 4096):
                seen += piece
        except OSError:
            pass  # it ended, and let go of the terminal
    os.close(ours)
    # the terminal echoes what is typed, at a time of its own
    return talk.returncode, seen.decode().replace("walk\r\n", "", 1).replace("quit\r\n", "", 1)


def terminals(server):
    """A prompt stands before each line that is typed at a terminal. Where the input ends its line ends, too."""
    for words, greeting in (((), ""), ((server.folder, "--thread", "35"), "    this thread; help lists what it can do\r\n")):
        for typed, end in ((b"walk\nquit\n", "l4sh> "), (b"walk\n\x04", "l4sh> \r\n")):
            status, said = at_terminal(words, typed)
            told = said.partition(greeting)[2] if greeting else said
            seen = status, told.startswith("l4sh> "), told.count("l4sh> "), "not walk" in told, told.endswith(end)
            same(f"talk {words} at a terminal where {typed} is typed", seen, (0, True, 2, True, True))


def numbers(server, again):
    """A number is the version of it that is live, here the second one; what was sent to no version before is no message twice."""
    other = Talk(server.folder, "--thread", "23", thread="23.1")
    again.type("receive")
    until_waits(other, "21.2")
    other.says("exreg 21 nothing", "= 21.2 0x2 0x0    21.2 was in a receive phase; 21 is 21.2")
    other.says("send 21 5", "= 0x0 nil nil 0x0 - -    it was sent; 21 is 21.2")
    again.hears("one message", "= 0x1 23.1 nil 0x0 0x5 -    from 23.1, label 0, 1 word, 5")
    again.says("receive 23 timeout=2ms", "= 0x8000 nil nil 0x3 - -    the receive phase failed: it took longer than its timeout")
    again.type("send 23 6")
    until_waits(other, "21.2")
    other.says("receive 21", "= 0x1 21.2 nil 0x0 0x6 -    from 21.2, label 0, 1 word, 6; 21 is 21.2")
    again.hears("the sender is told", "= 0x0 nil nil 0x0 - -    it was sent")
    other.says("send 21.1 5", "= 0x8000 nil nil 0x4 - -    the send phase failed: the partner does not exist, or ended")
    other.ends("numbers")


def runs():
    """`l4sh run` tells of a p that is dropped, and what a refusal means, where standard error is a terminal, and nowhere else; what it prints is the same."""
    usual = subprocess.run([L4SH, "run"], input=DROPPED, capture_output=True, text=True)
    same("a run without a terminal", (usual.returncode, usual.stderr), (0, ""))
    ours, theirs = pty.openpty()
    ran = subprocess.run([L4SH, "run"], input=DROPPED, stdout=subprocess.PIPE, stderr=theirs, text=True)
    os.close(theirs)
    told = os.read(ours, 4096).decode().splitlines()
    os.close(ours)
    same("a run at a terminal", (ran.returncode, ran.stdout), (0, usual.stdout))
    same("what it tells", told, [f"l4sh: call {call}: p is dropped, since {originator} is no live thread of the caller's space: the receiver sees 2.1"
                                 for call, originator in ((2, "1.1"), (3, "9.1"))] + ["l4sh: K6: no such thread is live"])


def refusals(server):
    one = Talk(server.folder, "--thread", "21", thread="21.1")
    Talk(server.folder, "--thread", "21").ends("a number that is taken", 4, "l4sh: the server refused the thread: K2\n"
                                               "a thread of that number is live; --thread N takes another number\n")
    path = f"{server.folder}/space7"
    Talk(server.folder, "--space", "7").ends("a space that is not there", 4, f"l4sh: no server\n{path}: No such file or directory (os error 2): no l4d serves there, or none that makes this path\n")
    one.type("receive")
    one.process.send_signal(signal.SIGINT)
    one.ends("a signal", -signal.SIGINT)
    for _ in range(200):
        again = Talk(server.folder, "--thread", "21")
        if again.line() == "= 21.2    this thread; help lists what it can do\n":
            break
        again.process.communicate()
    else:
        same("the next version", None, "= 21.2")
    numbers(server, again)
    again.ends("the next version")
    with open("/dev/full", "w") as full:
        ran = subprocess.run([L4SH, "talk", server.folder, "--thread", "22"], input="", stdout=full, stderr=subprocess.PIPE, text=True)
    same("a full device", (ran.returncode, ran.stderr), (1, "l4sh: device failed\nstandard output: No space left on device (os error 28)\n"))


def judged(server):
    tally.check("the trace", *is_legal(L4SH, server.trace))
    with open(server.trace) as file:
        lines = file.readlines()
    calls = [line.split(" ", 2)[2].rstrip("\n") for line in lines if line.startswith("called ")]
    same("spaces stand in the trace", ("opened 1.1 1\n" in lines, "opened 1023.1 2\n" in lines), (True, True))
    for call in ("1.1 nil any 0x0 0x0 nil - - 100@0x100000", "2.1 1.1 nil 0x0 0x50081 nil 0x7 x68656c6c6f -",
                 f"2.1 1.1 1.1 {timeouts('10s')} 0x2 nil 0x28,0x2 - -", "1.1 2.1 any 0x4000000 0x1 nil 0x2a - -",
                 "12.1 13.1 nil 0x0 0x1001 11.1 0x5 - -"):
        same(f"{call} stands in the trace", call in calls, True)


def timeouts(time):
    """Both periods of a call as `l4sh period` makes them."""
    period = subprocess.run([L4SH, "period", time], capture_output=True, text=True).stdout.split()[0]
    return hex(int(period, 16) * 0x10001)


def lost_servers():
    with Server(L4D) as server:
        idle, waiting = Talk(server.folder, thread="1.1"), Talk(server.folder, "--thread", "2", thread="2.1")
        waiting.type("receive")
        until_waits(idle, "2")
        server.kill()
        waiting.ends("a server that is killed while a call waits", 4, GONE)
        idle.ends("a server that was killed before", 4, GONE, typed="receive\n")


def lost_at_a_terminal():
    """A terminal is told at once that the server has ended, while no line is typed."""
    with Server(L4D) as server:
        ours, theirs = pty.openpty()
        with subprocess.Popen([L4SH, "talk", server.folder], stdin=theirs, stdout=theirs, stderr=theirs, close_fds=True) as talk:
            os.close(theirs)
            seen = b""
            while not seen.endswith(b"l4sh> "):
                seen += os.read(ours, 4096)
            server.kill()
            seen = b""
            try:
                while select.select([ours], [], [], SECONDS)[0] and (piece := os.read(ours, 4096)):
                    seen += piece
            except OSError:
                pass  # it ended, and let go of the terminal
            talk.kill()
        os.close(ours)
        same("a terminal whose server ends", (talk.returncode, seen.decode()), (4, "\r\n" + GONE.replace("\n", "\r\n")))


def beside_frames(frames, talk):
    """What a talk comes to whose server sends these frames and then no more, and all bytes that the server got."""
    with tempfile.TemporaryDirectory(prefix="talks-") as folder, socket.socket(socket.AF_UNIX) as listener:
        listener.bind(f"{folder}/space1")
        listener.listen()
        got = []

        def serve():
            line, _ = listener.accept()
            with line:
                line.sendall(bytes.fromhex("".join(frames)))
                line.shutdown(socket.SHUT_WR)
                while piece := line.recv(65536):
                    got.append(piece)

        server = threading.Thread(target=serve, daemon=True)
        server.start()
        came = talk([L4SH, "talk", folder, "--thread", "2"])
        server.join(20)
        return came, b"".join(got)


def stored_frames():
    """Each line that asks for something is one frame, and what ends a talk is told."""
    # what is typed behind `quit` is not read
    typed = "".join(f"{line}\n" for line, *_ in EXCHANGES).encode() + b"send 1\n"
    said = (GREETING + "".join(said for *_, said in EXCHANGES)).encode()
    sent = bytes.fromhex(HELLO + "".join(sent for _, sent, _, _ in EXCHANGES))
    answers = [WELCOME, *(answer for _, _, answer, _ in EXCHANGES)]
    for what, talk in (("lines", lambda words: ended(words, typed)), ("lines byte by byte", lambda words: ended_in_pieces(words, typed, 1))):
        same(f"{what} and their frames", beside_frames(answers, talk), ((said, 0, b""), sent))
    (helped, *_), _ = beside_frames([WELCOME], lambda words: ended(words, b"help\n"))
    same("each phase is in the help of exreg", [it for it in helped.decode().splitlines() if it.startswith("exreg ")],
         ["exreg ID PHASE              stops phases of a thread of this space: send, receive, both or nothing"])
    for frames, status, told in ENDINGS:
        (_, *end), _ = beside_frames(frames, lambda words: ended(words, b"receive\nsend 1"))
        same(f"a server that sends {frames}", end, [status, told.encode()])


def main():
    # who runs this in the background may have SIGINT ignored, which the talks would inherit
    signal.signal(signal.SIGINT, signal.default_int_handler)
    with Server(L4D, spaces=2, trace=True) as server:
        meetings(server)
        propagation(server)
        pastes(server)
        terminals(server)
        refusals(server)
        judged(server)
    runs()
    lost_servers()
    lost_at_a_terminal()
    stored_frames()
    ran = subprocess.run([L4SH, "talk", "/nowhere"], input="", capture_output=True, text=True)
    same("no folder", (ran.returncode, ran.stdout, ran.stderr),
         (4, "", "l4sh: no server\n/nowhere/space1: No such file or directory (os error 2): no l4d serves there, or none that makes this path\n"))
    ran = subprocess.run([L4SH, "talk", "--thread", "2"], input="", capture_output=True, text=True)
    same("a thread without a server", (ran.returncode, ran.stdout, "--thread and --space want DIR" in ran.stderr), (2, "", True))
    return tally.end()


if __name__ == "__main__":
    sys.exit(main())
