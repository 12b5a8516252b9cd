"""Refusals, errors, faults and random traffic of the C client against an l4d."""

import errno
import os
import random
import re
import select
import socket
import tempfile
import threading
import time

from c_client.building import code_of
from c_client.saying import SECONDS, ZERO, Say, Server, compare, told_to, wait_until_waiting
from frames import ANY, FAILED, HEAD_BYTES, LENGTH_BYTES, LOCAL, NIL, TOO_LONG, hello, ipc, place_in, size_of, thread_id, words_bytes
from name_server import NameServer
from protocol_tables import C_LEFT_OUT_CONTROL, FRAMES, MAX_MESSAGE_WORDS, MAX_STRING_BYTES, MEANINGS, VERSIONS


def check_refusals(programs, l4d, l4sh, room):
    """Every refusal and ErrorCode that can be had from a server, and all that the library refuses itself."""
    with Server(l4d, room, spaces=2) as server:
        one, two, three = (Say(programs["say"], server.dir, number) for number in (1, 2, 3))
        far = Say(programs["say"], server.dir, 4, space=2)
        other = Say(programs["say"], server.dir)
        a, b = one.thread, two.thread
        assert (a, b) == (thread_id(1), thread_id(2))
        count = 0

        def want(got, wanted):
            nonlocal count
            count += 1
            assert got == wanted, (got, wanted)

        # HELLO
        for number, text in ((0, "REFUSED K1"), (1024, "REFUSED K1"), (65536, "K1"), (2, "REFUSED K2")):
            status, errno, said = other.connect(number)
            want((status, errno, said.split(":")[0]), (-1, 98 if "K2" in text else 22, text))
        want(other.connect(5, space=3)[:2], (-1, 2))
        want(other.ask(f"connect {'x' * 200} 1 5 2")[1], 36)
        want(one.ask(f"connect {server.dir} 1 5 1")[1:], (106, "C5: the thread is connected already"))
        for version in (0, max(VERSIONS) + 1, 65536):
            want(other.connect(5, version=version)[1:], (22, f"C8: {MEANINGS['C8']}"))
        # timeouts, and partners that are not there
        want(one.code(to=b, snd=ZERO), 0x2)
        want(one.code(to=b, snd=0x5), 0x2)
        want(one.code(source=ANY, rcv=0x5), 0x3)
        want(one.code(source=a, rcv=0x64), 0x3)
        want(one.code(), 0)
        for nobody in (thread_id(9), thread_id(2, 2), a, ANY, LOCAL, 0x40):
            want(one.code(to=nobody), 0x4)
        want(one.code(source=thread_id(9)), 0x5)
        # cancels: S and R, of the own space alone
        one.tell_ipc(to=b)
        wait_until_waiting(two, a, 0x4)
        want(far.exreg(a, 0x6), (0, 0, 2))
        want(two.exreg(a, 0x2), (a, 0x4, 0))
        want(two.exreg(a, 0x4), (a, 0x4, 0))
        want(one.hear_ipc()[3], 0x6)
        want(two.exreg(a, 0x6), (a, 0, 0))
        one.tell_ipc(source=ANY)
        wait_until_waiting(two, a, 0x2)
        want(two.exreg(a, 0x6), (a, 0x2, 0))
        want(one.hear_ipc()[3], 0x7)
        want(two.exreg(b, 0), (b, 0, 0))
        # overflow
        for buffers, code in (([[3], [4]], 0x38), (None, 0x8), ([], 0x8), ([[2]], 0x8), ([[3], [4], [9]], 0x38)):
            one.tell_ipc(source=ANY, buffers=buffers)
            want(two.code(to=a, strings=[[b"abc"], [b"he", b"llo"]]), code)
            want(one.hear_ipc()[3], code + 1)
        one.tell_ipc(source=ANY, buffers=[[3], [2, 3]])
        want(two.code(to=a, label=3, words=(9,), strings=[[b"a", b"bc"], [b"he", b"l", b"lo"]]), 0)
        want(one.hear_ipc()[:6], (0x30101, b, 0, 0, "9", "x616263,x68656c6c6f"))
        # propagation, permitted and not
        one.tell_ipc(source=ANY)
        want(two.code(to=a, virtual=three.thread, words=(1,)), 0)
        want(one.hear_ipc()[:5], (0x1001, three.thread, b, 0, "1"))
        one.tell_ipc(source=ANY)
        want(two.code(to=a, virtual=far.thread, words=(1,)), 0)
        want(one.hear_ipc()[:5], (0x1, b, 0, 0, "1"))
        # anylocalthread accepts the own space alone
        one.tell_ipc(source=LOCAL)
        want(far.code(to=a, snd=0x64), 0x2)
        want(two.code(to=a), 0)
        want(one.hear_ipc()[:2], (0, b))
        count += check_aborts(one, two, three)
        count += check_own_refusals(one, two)
        # the end of a partner, in both phases
        two.tell_ipc(to=three.thread)
        one.tell_ipc(source=three.thread)
        wait_until_waiting(three, a, 0x2)
        wait_until_waiting(three, b, 0x4)
        told = told_to(three)
        three.kill()
        want(one.hear_ipc()[3], 0x5)
        want(two.hear_ipc()[3], 0x4)
        # the end, and the next version of the number
        told += [(a, *told_to(one)[0][1:])]
        want(one.ask("disconnect")[0], "-")
        want(one.ask("wait")[1:], (107, "C1: the thread is not connected"))
        want(one.connect(1)[0], 0)
        want(one.thread, thread_id(1, 2))
        want(one.exreg(a, 0), (0, 0, 2))
        told += told_to(one, two, far)
        for sayer in (one, two, far, other):
            sayer.end()
        return count, compare(server, l4sh, told)


def check_errors(programs, l4d, room):
    """Errors name the path, the partner, the string; of what is no string and of memory that is not there the connection stays; what is not there
    yet is waited for; a server that is full, or that does not answer, is told of as such."""
    count = 0

    def want(got, *wanted):
        nonlocal count
        count += 1
        assert all(re.search(it, got[2]) for it in wanted), (got, wanted)

    nowhere = os.path.join(room, "nowhere")
    say = Say(programs["say"], nowhere)
    want(("", 0, say.connect(2)[2]), rf"^F10: .*: No such file or directory; start l4d with this folder and so many --spaces \({nowhere}/space1\)$")
    began = time.time()
    want(say.ask(f"connect_wait 300000 {nowhere} 1 2 1"), r"^F10: .*No such file")
    assert time.time() - began > 0.29, "it was not waited for"
    # a folder where somebody takes each connection and closes it, as an l4d that has no worker for it
    shut = tempfile.mkdtemp(dir=room)
    with socket.socket(socket.AF_UNIX) as listener:
        listener.bind(os.path.join(shut, "space1"))
        listener.listen(8)
        listener.settimeout(SECONDS)
        for asked in (f"connect {shut} 1 2 1", f"connect_wait 0 {shut} 1 2 1"):
            say.tell(asked)
            listener.accept()[0].close()
            why = "before WELCOME: l4d has no memory or no worker for it, as it says on its standard error, or it ends"
            want(say.hear(), rf"^F9: the connection ended {why} \({shut}/space1\)$")
    # a folder where somebody listens and never answers, and one whose queue is full
    for backlog in (8, 0):
        deaf = tempfile.mkdtemp(dir=room)
        with socket.socket(socket.AF_UNIX) as listener:
            listener.bind(os.path.join(deaf, "space1"))
            listener.listen(backlog)
            filling = [socket.socket(socket.AF_UNIX) for _ in range(4)] if backlog == 0 else []
            for line in filling:
                line.setblocking(False)
                line.connect_ex(os.path.join(deaf, "space1"))
            began = time.time()
            want(say.ask(f"connect_wait 300000 {deaf} 1 2 1"), rf"^C13: {MEANINGS['C13']} \({deaf}/space1\)$")
            assert 0.29 < time.time() - began < SECONDS / 2
            for line in filling:
                line.close()
    with Server(l4d, room) as server:
        one, two = Say(programs["say"], server.dir, 1), Say(programs["say"], server.dir)
        # what failed stays with its path beside a later call that succeeds
        for number, line in ((7, f"connect {server.dir} 1 7 2"), (8, f"connect_wait 20000000 {server.dir} 1 8 1")):
            want(say.ask(f"connect {nowhere} 1 2 1"), rf"^F10: .*: No such file or directory; start l4d with this folder and so many --spaces \({nowhere}/space1\)$")
            got = say.ask(line)
            assert got[0] == f"0 {thread_id(number):x}", got
            want(got, rf"^F10: .*: No such file or directory; start l4d with this folder and so many --spaces \({nowhere}/space1\)$")
            want(say.ask("lookup a"), r"^N6: .* \(a\)$")
            say.ask("disconnect")
        want(one.ask("item -5"), "^C11: no string item")
        want(one.ask("null"), "^C12: a string or a buffer lies in memory")
        want(one.ask("nowhere"), "^C12: a string or a buffer lies in memory")
        want(one.ask("buffer -5"), "^C11: no string item")
        want(one.ask("null_buffer"), "^C12: a string or a buffer lies in memory")
        want(one.ask("nowhere_buffer"), "^C12: a string or a buffer lies in memory")
        # memory that cannot be written at its begin or its end, or is not there between; behind the longest string nothing is written
        for pages in ("r", "x", "rw", "xw", "wr", "wx", "wxw", "wwwxxw"):
            want(one.ask(f"buffer_in {pages}"), "^C12: a string or a buffer lies in memory")
        for pages in ("w", "ww", "www", "w" * 300, "w" * 300 + "x"):
            want(one.ask(f"buffer_in {pages}"), r"^receive phase from 9\.1: non-existing partner")
        # a message that waits for such a receive is not lost: the next one gets it
        sender = Say(programs["say"], server.dir, 6)
        sender.tell_ipc(to=one.thread, strings=[[b"kept"]])
        wait_until_waiting(one, sender.thread, 0x4)
        one.ask("brs 0 1,1000,10")
        want(one.ask("wait"), "^C12: a string or a buffer lies in memory")
        got = one.ipc(source=ANY, buffers=[[8]])
        assert (got[1], got[5]) == (sender.thread, f"x{b'kept'.hex()}"), got
        assert sender.hear_ipc()[3] == 0
        sender.end()
        # more substrings than the function takes, and a u or t that are not those of the words
        for line in ("compound", "compound_put", "compound_buffer", "put -1 0", "put 0 2", "put 0 -1", "put 1 1"):
            want(one.ask(line), "^C11: no string item, or not such as the function takes: ")
        for line in ("put 64 0", "put 61 3"):
            want(one.ask(line), "^F4: ")
        want(one.ask("put 60 3"), r"^send phase to 9\.1: non-existing partner")
        want(one.ask("item 5"), r"^send phase to 9\.1: non-existing partner \(e=2, offset 0\)$")
        want(one.ask("buffer 5"), r"^receive phase from 9\.1: non-existing partner")
        want(("", 0, one.ipc(source=LOCAL, rcv=0x64)[6]), "^receive phase from any thread of the space: timeout")
        # a number is waited for, and a partner that comes later
        want(two.ask(f"connect_wait 200000 {server.dir} 1 1 2"), rf"^REFUSED K2: {MEANINGS['K2']}; end the program that has it, or take another number \(number 1 at {server.dir}/space1\)$")
        for number, said in ((1024, "REFUSED K1"), (65536, "K1")):
            want(two.ask(f"connect {server.dir} 1 {number} 1"), rf"^{said}: {MEANINGS['K1']} \(number {number} at {server.dir}/space1\)$")
        for space in (0, 65):
            want(two.ask(f"connect {server.dir} {space} 2 1"), rf"^K1: {MEANINGS['K1']} \(space {space}\)$")
        two.tell(f"connect_wait 20000000 {server.dir} 1 1 2")
        time.sleep(0.1)
        one.ask("disconnect")
        assert two.hear()[0] == f"0 {thread_id(1, 2):x}"
        two.tell(f"call_wait 20000000 {thread_id(3):x}")
        time.sleep(0.1)
        three = Say(programs["say"], server.dir, 3)
        assert three.ipc(source=ANY)[1] == thread_id(1, 2)
        assert three.code(to=thread_id(1, 2), words=(7,)) == 0
        assert two.hear()[0].split()[4] == "7"
        for waited, said in ((0, ""), (100000, ", after waiting for 0.1 s"), (1000000, ", after waiting for 1 s")):
            want(two.ask(f"call_wait {waited} {thread_id(9):x}"), rf"^send phase to 9\.1: non-existing partner \(e=2, offset 0\){said}$")
        # nobody is called, as where a look up failed: it fails at once, and sends nothing; L4_Call leaves its phases out, as the manual has it
        began, made = time.time(), two.ask("ipc 0 0 0 0 - - - -")[0].split()
        assert made[0] == "0" and made[3] == "0", made
        said = two.ask("call_wait 20000000 0")
        assert said[0] == f"{FAILED:x} 0 0 4 - - -" and time.time() - began < 10, said
        want(said, r"^send phase to L4_nilthread: non-existing partner \(e=2, offset 0\), nobody is called, and nothing was sent: did the look up fail\?$")
        assert said[1] == errno.EINVAL, said
        # which string did not fit
        three.tell_ipc(source=ANY, buffers=[[3], [2, 2], [5]])
        want(("", 0, one.connect(4) and one.ipc(to=thread_id(3), strings=[[b"k"], [b""], [b"val", b"ue!"], [b"x"]])[6]),
             r"^send phase to 3\.1: message overflow \(e=4, offset 1\), string 3 did not fit the receiver's buffers, and nothing was delivered$")
        overflow, unfit = r"message overflow \(e=4, offset {}\), ", "a string did not fit the buffers that were accepted"
        want(("", 0, three.hear_ipc()[6]), rf"^receive phase from any thread: {overflow.format(1)}{unfit}, and nothing was received$")
        # an answer that does not fit: the request was delivered, which is not to be sent again
        delivered = "; what was sent was delivered, and "
        for source, buffers, behind, wanted in ((thread_id(3), [[1]], 0, unfit + delivered + "no answer came"),
                                                (thread_id(3), [[2], [1]], 2, unfit + delivered + "no answer came"),
                                                (thread_id(3), None, 0, "no strings were accepted" + delivered + "no answer came"),
                                                (thread_id(3), [], 0, "no strings were accepted" + delivered + "no answer came"),
                                                (ANY, [[1]], 0, unfit + delivered + "nothing was received")):
            three.tell_ipc(source=ANY)
            one.tell_ipc(to=thread_id(3), source=source, words=(7,), buffers=buffers)
            got = three.hear_ipc()
            assert (got[1], got[4]) == (one.thread, "7"), got
            want(("", 0, three.ipc(to=one.thread, strings=[[b"an"], [b"answer"]])[6]),
                 rf"^send phase to 4\.1: {overflow.format(behind)}string {1 + (behind > 0)} did not fit the receiver's buffers, and nothing was delivered$")
            shown = "3\\.1" if source == thread_id(3) else "any thread"
            want(("", 0, one.hear_ipc()[6]), rf"^receive phase from {shown}: {overflow.format(behind)}{wanted}$")
        # a receive alone
        for buffers, wanted in ((None, "no strings were accepted"), ([], "no strings were accepted"), ([[1]], unfit)):
            three.tell_ipc(source=one.thread, buffers=buffers)
            one.ipc(to=thread_id(3), strings=[[b"an"]])
            want(("", 0, three.hear_ipc()[6]), rf"^receive phase from 4\.1: {overflow.format(0)}{wanted}, and nothing was received$")
        two.tell("lookup_wait 20000000 echo")
        time.sleep(0.1)
        names = NameServer(server.path)
        assert three.ask("register echo")[0] == "0" and two.hear()[0] == f"{thread_id(3):x}"
        want(two.ask("lookup_wait 1000000 other"), r"^N7: no live thread has the name \(other\)$")
        names.end()
        # what the program put into the buffer registers stays over a connection: it is accepted once
        one.ask("disconnect")
        one.ask("brs 0 1,1,0,8")
        for _ in range(2):
            assert one.connect(4)[0] == 0
            want(one.ask("wait"), "^F6: bit 3 of a descriptor")
            one.ask("disconnect")
        assert one.connect(4)[0] == 0
        server.process.kill()
        one.ask("brs 0 0")
        want(one.ask("wait"), rf"^F9: the connection ended \({server.path}\)$")
        for sayer in (say, one, two, three):
            sayer.end()
    # a server that is full
    with Server(l4d, room, "--live", "1", trace=False) as server:
        one, two = Say(programs["say"], server.dir, 1), Say(programs["say"], server.dir)
        want(two.ask(f"connect_wait 300000 {server.dir} 1 2 1"), rf"^C13: {MEANINGS['C13']}")
        two.tell(f"connect_wait 20000000 {server.dir} 1 2 1")
        time.sleep(0.1)
        one.end()
        got = two.hear()
        # the HELLO of the try that was given up may have been served before
        assert re.match("0 2000000[0-9]{2}$", got[0]), got
        two.end()
    return count


def check_aborts(one, two, three):
    """A transfer that a third thread stops, and one whose sender is stopped while it waits; both are met in time."""
    seen, tries = set(), 0
    longest = bytes(MAX_STRING_BYTES)
    while not {0xE, 0xF} <= seen:
        tries += 1
        assert tries < 3_000, "no transfer was aborted"
        one.tell_ipc(source=ANY, buffers=[[MAX_STRING_BYTES]])
        wait_until_waiting(three, one.thread, 0x2)
        two.tell_ipc(to=one.thread, strings=[[longest]])
        while not three.exreg(two.thread, 0x4)[1] and not select.select([two.process.stdout], [], [], 0)[0]:
            pass
        sent, code = two.hear_ipc()[3], 0
        if sent & 0xF == 0x6:
            # it was stopped before it began: the receiver waits still
            three.exreg(one.thread, 0x2)
        code = one.hear_ipc()[3]
        if sent & 0xF == 0xE:
            assert code == sent + 1 and sent >> 4 < MAX_STRING_BYTES and (sent >> 4) % 65536 == 0
            seen |= {0xE, 0xF}
    return tries


def check_own_refusals(one, two):
    """What the library refuses before anything is sent: the thread stays, and the next call is made."""
    rows = [
        (dict(to=two.thread, words=range(MAX_MESSAGE_WORDS + 1)), "F4"),
        (dict(to=two.thread, strings=[[b"x"]] * 32), "F4"),
        (dict(to=two.thread, strings=[[bytes(MAX_STRING_BYTES // 2 + 1), bytes(MAX_STRING_BYTES // 2)]]), "F8"),
        (dict(to=two.thread, snd=0x8000), "F12"),
        (dict(source=ANY, rcv=0x8000), "F12"),
        (dict(source=ANY, rcv=0x5, buffers=[[1]] * 17), "F5"),
        (dict(source=ANY, rcv=0x5, buffers=[[1, 2, 3]] * 6), "F5"),
    ]
    count = 0
    for parts, text in rows:
        tag, _, _, code, _, _, said = one.ipc(**parts)
        wanted = code_of("F", int(text[1:])) | (0 if "to" in parts else 1)
        assert (tag, code, said.split(":")[0]) == (FAILED, wanted, text), (text, hex(code), said)
        count += 1
    to = f"{two.thread:x}"
    # t = 3 of an item of 2 words, a string that goes on with nothing, a map item, and 63 words with one more
    for words, text in (("c0,c00,0,0", "F5"), ("80,e00,0", "F5"), ("80,8,0", "F6"), ("7f,0", "F4"), ("40,0", "F5")):
        one.ask("mrs 0 " + words)
        said = one.ask("send " + to)
        assert said[2].startswith(text + ":") and said[1] != 0, said
        count += 1
    for command in ("mrs 64 0", "mrs -1 0", "mrs 60 0,0,0,0,0", "brs 33 0", "brs -1 0"):
        one.ask(command)
        assert one.ask("wait")[1:] == (22, "C2: a register that is not there"), command
        count += 1
    for words, text in (("1,e00,0,8", "F6"), ("1,1,0,8", "F6"), ("1,3f0,0", "F5"), ("1,8", "receive phase from any thread: timeout"), ("1,1e0,0", "receive phase from any thread: timeout")):
        one.ask("brs 0 " + words)
        said = one.ask("wait")
        assert said[2].startswith(text), said
        if text.startswith("receive"):
            one.outcomes.append((FAILED, NIL, NIL, 0x3, "-", "-"))
            one.times.append(None)
        count += 1
    for control in (0x1, 0x8, 0x106, 1 << 63):
        assert one.exreg(two.thread, control) == (0, 0, code_of("C", C_LEFT_OUT_CONTROL))
        count += 1
    return count


class Relay:
    """Stands between one client and l4d, and puts its own bytes in the place of the client's first call."""

    def __init__(self, room, path, spoil, closes=False):
        self.dir, self.path, self.spoil, self.closes = tempfile.mkdtemp(dir=room), path, spoil, closes
        self.listener = socket.socket(socket.AF_UNIX)
        self.listener.bind(os.path.join(self.dir, "space1"))
        self.listener.listen(1)
        threading.Thread(target=self.run, daemon=True).start()

    def run(self):
        client, server = self.listener.accept()[0], socket.socket(socket.AF_UNIX)
        server.connect(self.path)
        server.sendall(self.frame_of(client))
        client.sendall(server.recv(LENGTH_BYTES + FRAMES["WELCOME"].body, socket.MSG_WAITALL))
        server.sendall(self.spoil(self.frame_of(client)))
        if self.closes:
            server.shutdown(socket.SHUT_WR)
        while data := server.recv(65536):
            client.sendall(data)
        client.close()

    @staticmethod
    def frame_of(line):
        head = line.recv(LENGTH_BYTES, socket.MSG_WAITALL)
        return head + line.recv(int.from_bytes(head, "big"), socket.MSG_WAITALL)


def check_faults(programs, l4d, room):
    """Each fault that a server tells a client, by frames that a relay spoils on their way."""
    def with_bytes(at, data):
        return lambda frame: frame[:at] + data + frame[at + len(data) :]

    # where the tag, the timeouts and the words of an IPC frame stand
    tag, timeouts, words = place_in("IPC", "tag"), place_in("IPC", "timeouts"), HEAD_BYTES + size_of("IPC")
    word = lambda value: words_bytes([value])
    most = MAX_STRING_BYTES // 2 + 1
    twice = ipc(1 << 32 | 1, NIL, (most << 10, 0, most << 10, 0), tag=0x100, payload=bytes(most))
    rows = [
        ("F1", lambda frame: TOO_LONG, False),
        ("F2", lambda frame: bytes.fromhex("0000000981"), False),
        ("F3", lambda frame: bytes.fromhex("0000002d02"), False),
        ("F3", lambda frame: bytes(4), False),
        ("F4", with_bytes(tag, word(0x7F)), False),
        ("F5", with_bytes(words, word(0xE00)), False),
        ("F6", with_bytes(words, word(0x8)), False),
        ("F7", with_bytes(words + 8, word(4)), False),
        ("F8", lambda frame: twice, False),
        ("F9", lambda frame: frame[:-1], True),
        ("F12", with_bytes(timeouts, b"\x80\x00"), False),
        ("K7", lambda frame: ipc(NIL, ANY) + ipc(NIL, ANY), False),
        ("S1", lambda frame: hello(7), False),
    ]
    with Server(l4d, room, trace=False) as server:
        for number, (fault, spoil, closes) in enumerate(rows):
            relay = Relay(room, server.path, spoil, closes)
            sayer = Say(programs["say"], relay.dir, 10 + number)
            got = sayer.ipc(to=thread_id(9), strings=[[b"abc"]])
            assert got[0] == FAILED and got[6].startswith(f"FAULT {fault}:"), (fault, got)
            assert got[3] == code_of(fault[0], int(fault[1:])), (fault, got)
            again = sayer.ask("wait")
            assert again[1] == 107 and again[2].startswith("C1:") and f"since FAULT {fault}:" in again[2], again
            sayer.end()
        count = len(rows)
        # the server ends in midst of a wait
        sayer = Say(programs["say"], server.dir, 1)
        sayer.tell_ipc(source=ANY)
        time.sleep(0.05)
        server.process.kill()
        got = sayer.hear_ipc()
        assert got[3] == code_of("F", 9) | 1 and sayer.ask("exreg 100000001 6")[1] == 107, got
        sayer.end()
    return count + 1


def random_call(sayer, threads, pick):
    """The parts of a random Ipc of one of these threads; none of them waits for long."""
    # zero, 100 microseconds, 1, 4 and 8 milliseconds
    periods = [ZERO, 0x64, 0x3E8, 0xBE8, 0xFE8, 0xFE8]
    partner = lambda: pick.choice([*threads, *threads, *threads, thread_id(99), sayer.thread])
    parts = dict(to=pick.choice([NIL, partner(), partner()]), source=pick.choice([NIL, ANY, ANY, ANY, LOCAL, partner()]))
    if parts["to"] != NIL:
        parts.update(snd=pick.choice(periods), label=pick.getrandbits(48), words=[pick.getrandbits(64) for _ in range(pick.randrange(6))])
        length = lambda: pick.choice([0, 1, 3, 7, 100, 100, pick.randrange(3000), pick.choice([9000, 70000])])
        parts["strings"] = [[pick.randbytes(length()) for _ in range(pick.choice([1, 1, 2, 3]))] for _ in range(pick.choice([0, 0, 1, 2]))]
        if pick.random() < 0.2:
            parts["virtual"] = partner()
    if parts["source"] != NIL:
        parts["rcv"] = pick.choice(periods)
        room = lambda: pick.choice([0, 5, 4000, 20000, 70000, 70000])
        parts["buffers"] = pick.choice([None, [], *2 * [[[room() for _ in range(pick.choice([1, 1, 2]))] for _ in range(count)] for count in (1, 2, 3)]])
    return parts


def check_traffic(programs, l4d, l4sh, room, calls):
    """Eight processes in two spaces, each with random calls; what they were told is compared with the trace."""
    with Server(l4d, room, spaces=2) as server:
        sayers = [Say(programs["say"], server.dir, number, space=1 + (number > 5)) for number in range(1, 9)]
        threads = [sayer.thread for sayer in sayers]
        troubles = []

        def run(sayer, pick):
            try:
                for _ in range(calls):
                    if pick.random() < 0.1:
                        sayer.exreg(pick.choice(threads), pick.choice([0, 2, 4, 6]))
                    else:
                        sayer.ipc(**random_call(sayer, threads, pick))
            except Exception as trouble:
                troubles.append(trouble)

        runs = [threading.Thread(target=run, args=(sayer, random.Random(random.random()))) for sayer in sayers]
        for one in runs:
            one.start()
        for one in runs:
            one.join()
        if troubles:
            raise troubles[0]
        for sayer in sayers:
            sayer.end()
        count = compare(server, l4sh, told_to(*sayers))
        received = sum(1 for sayer in sayers for outcome in sayer.outcomes if outcome[1] != NIL)
        assert received > calls / 4, "too few messages"
        return count, received
