"""Names, and the examples and servers of the C client beside each other, beside those in Python, and beside clients that do the worst."""

import errno
import os
import re
import select
import signal
import subprocess
import sys
import tempfile
import time

from c_client.building import build_pages
from c_client.saying import SECONDS, ZERO, Past, Say, Server, compare, told_to, wait_until_gone, wait_until_waiting, word_of_id
from frames import ANY, FAILED, NIL, ipc, thread_id
from kit import ROOT
from name_server import NameServer
from page_text import blocks_of
from protocol_tables import MAX_NAME_BYTES, MAX_STRING_BYTES, MEANINGS
from serving import Client
from traces import entries_in

# The label of the answer that stands for one that cannot be sent.
FUNCTION_FAILED = (1 << 48) - 1


class L4xNames:
    """The name server of l4x, with the look of the one of checks/lib."""

    def __init__(self, l4x, path):
        self.process = subprocess.Popen([l4x, os.path.dirname(path), "names"], stdout=subprocess.PIPE, text=True)
        word, thread = self.process.stdout.readline().split()
        assert word == "names"
        self.thread = word_of_id(thread)

    def end(self):
        self.process.kill()
        self.process.wait()


def check_l4x(programs, l4d, l4sh, l4x, room):
    """A C client of the key-value server of l4x, through its gateway too: label 2 asks for a key, label 3 answers it."""
    with Server(l4d, room) as server:
        serving = [subprocess.Popen([l4x, server.dir, role], stdout=subprocess.DEVNULL) for role in ("keyvalue", "gateway")]
        sayer = Say(programs["say"], server.dir, 7)
        for number in (1, 2):
            wait_until_waiting(sayer, thread_id(number), 0x2)
        subprocess.run([l4x, server.dir, "put", "7", "70"], check=True, stdout=subprocess.DEVNULL)
        for number in (1, 2):
            to = thread_id(number)
            # the gateway's request is answered by the server itself, for which the wait is turned
            got = sayer.ipc(to=to, source=to, label=2, words=(7,))
            assert got[:5] == (3 << 16 | 1, thread_id(1), 0, 0, "46"), got
        # the server behind the gateway ends: who asks the gateway is told that
        serving[0].kill()
        serving[0].wait()
        wait_until_gone(sayer, thread_id(1))
        for asked in (["get", "7"], ["put", "7", "70"]):
            ran = subprocess.run([l4x, server.dir, *asked, "gateway"], stdin=subprocess.DEVNULL, capture_output=True, text=True, timeout=SECONDS)
            wanted = (1, "", f"l4x: {server.dir}/space1: the gateway found no server: start l4x DIR keyvalue, with --names if the gateway has it\n")
            assert (ran.returncode, ran.stdout, ran.stderr) == wanted, ran
        told = told_to(sayer)
        sayer.end()
        for process in serving:
            process.kill()
            process.wait()
        return compare(server, l4sh, told)


def check_names(programs, l4d, l4sh, room, start):
    """The calls of l4/names.h, with a name server that follows docs/NAMES.md: start makes one for a path."""
    with Server(l4d, room) as server:
        one, two = (Say(programs["say"], server.dir, number) for number in (1, 2))
        ask = lambda sayer, line: sayer.ask(line)
        count = 0

        def want(got, wanted):
            nonlocal count
            count += 1
            assert got == wanted, (got, wanted)

        want(ask(one, "lookup a"), ("0", 3, "N6: there is no name server (a)"))
        for asked in ("register ", "register_wait 1000000 ", "lookup ", "lookup_wait 1000000 "):
            want(ask(one, asked)[1:], (22, "N2: a name has 1 to 64 bytes of printable ASCII without the space"))
        began = time.time()
        want(ask(one, "register_wait 200000 echo"), ("-1", 3, "N6: there is no name server (echo)"))
        assert time.time() - began > 0.19, "nothing was waited for"
        # one that ends while it has the request is as one that is not there
        ending = Client(server.path, 255)
        ending.line.sendall(ipc(NIL, ANY, buffers=(MAX_NAME_BYTES << 10, 0)))
        one.tell("lookup_wait 600000 a")
        ending.outcome()
        began = time.time()
        ending.bye()
        want(one.hear(), ("0", 3, "N6: there is no name server (a)"))
        assert time.time() - began > 0.4, "it gave up"
        one.tell("register_wait 20000000 echo")
        time.sleep(0.1)
        names = start(server.path)
        want(one.hear()[0], "0")
        want(ask(one, "register echo")[0], "0")
        want(ask(two, "register_wait 20000000 echo"), ("-1", 98, "REFUSED N3: another live thread has the name (echo)"))
        want(ask(two, "lookup echo")[:2], (f"{one.thread:x}", 0))
        want(ask(two, "lookup Echo"), ("0", 2, "N7: no live thread has the name (Echo)"))
        want(ask(two, "register echo"), ("-1", 98, "REFUSED N3: another live thread has the name (echo)"))
        # what failed stays with its name beside a later call that succeeds
        want(ask(two, "register other"), ("0", 0, "REFUSED N3: another live thread has the name (echo)"))
        # one that was chosen is asked alone, also where it has ended
        ask(two, "name_server c800000001")
        for asked in ("register private", "register private", "register_wait 200000 private"):
            want(ask(two, asked), ("-1", 3, "N6: there is no name server (private)"))
        ask(two, "name_server 0")
        want(ask(two, "lookup private"), ("0", 2, "N7: no live thread has the name (private)"))
        want(ask(one, "list -")[0], f"1 echo {one.thread:x}")
        want(ask(one, "list echo")[0], f"1 other {two.thread:x}")
        want(ask(one, "list other")[0], "0 - 0")
        longest = "n" * MAX_NAME_BYTES
        want(ask(one, f"register {longest}")[0], "0")
        want(ask(two, "list echo")[0], f"1 {longest} {one.thread:x}")
        for bad in ("n" * (MAX_NAME_BYTES + 1), "a b", "\u00e9"):
            want(ask(one, f"register {bad}")[1], 22)
        # buffers that were accepted before stay: this one is nowhere, and the call's own one is not asked
        one.ask("brs 0 1,c00,7")
        want(ask(one, "lookup echo")[1], 0)
        want(one.ask("wait")[2], "C12: a string or a buffer lies in memory that is not there")
        # a name whose thread has ended is gone, and another one may have it
        one.ask("disconnect")
        want(ask(two, "lookup echo")[1], 2)
        want(ask(two, "register echo")[0], "0")
        # the name server ends, and comes again without names
        names.end()
        wait_until_gone(two, names.thread)
        want(ask(two, "lookup echo")[1], 3)
        again = start(server.path)
        want(again.thread, thread_id(255, 3))
        want(ask(two, "lookup echo")[1], 2)
        want(ask(two, "register echo")[0], "0")
        if hasattr(again, "process"):
            one.connect(3)
            count += stopped_look_ups(server, two, one, again.process)
            want(ask(two, "lookup echo")[0], f"{two.thread:x}")
        one.end()
        two.end()
        again.end()
        server.is_legal(l4sh)
        return count


def stopped_look_ups(server, asker, other, process):
    """A name server that is live and does not answer: what waits for it keeps its limit, as its request was taken and as it is not, and
    tells that. Where it answered in that wait before that nobody has the name, that is told; to another asker, which it owes no answer."""
    os.kill(process.pid, signal.SIGSTOP)
    try:
        for asked, wanted in (("lookup_wait", "0"), ("lookup_wait", "0"), ("register_wait", "-1")):
            began = time.time()
            asker.tell(f"{asked} 1000000 echo")
            assert select.select([asker.process.stdout], [], [], 5)[0], f"{asked} of 1 second has not ended after 5"
            answer, number, words = asker.hear()
            assert (answer, number) == (wanted, errno.ETIMEDOUT) and time.time() - began > 0.9, (asked, answer, number, words)
            told = r"(send|receive) phase (to|from) 255\.3: timeout \(e=1, offset 0\), the name server did not answer \(echo\)"
            assert re.fullmatch(told, words), words
        # the answer that was given up, of a look up of the asker's own name, is no answer to its next request
        asker.tell("lookup nobody")
        time.sleep(0.1)
    finally:
        os.kill(process.pid, signal.SIGCONT)
    assert asker.hear()[:2] == ("0", errno.ENOENT)
    assert other.ask("lookup nobody")[1] == errno.ENOENT
    before = asked_of_names(server)
    other.tell("lookup_wait 3000000 nobody")
    end = time.time() + SECONDS
    # who asks a second time was answered
    while asked_of_names(server) < before + 2:
        assert time.time() < end, "the name was looked up once"
        time.sleep(0.01)
    os.kill(process.pid, signal.SIGSTOP)
    try:
        assert select.select([other.process.stdout], [], [], 15)[0], "a look up of 3 seconds has not ended after 15"
        assert other.hear() == ("0", errno.ENOENT, "N7: no live thread has the name (nobody)")
    finally:
        os.kill(process.pid, signal.SIGCONT)
    return 6


def asked_of_names(server):
    """How many requests of a name server the trace has so far."""
    with open(server.trace, encoding="ascii") as file:
        return len(re.findall(r"^called \d+ \S+ 255\.", file.read(), re.MULTILINE))


def check_names_again(programs, l4d, room, start):
    """A server of l4_serve registers its name again with a name server that was started again, while nobody calls it and while calls come
    without a pause; it tells once that there is none; one that is stopped holds it up for no long, and its late answer is no request."""
    with Server(l4d, room) as server:
        names = start(server.path)
        pong = run_example(room, programs["pingpong"], server.dir, "pong", waits="pingpong is 2.1 (registered)")
        asker, caller = (Say(programs["say"], server.dir, number) for number in (10, 11))
        call = lambda: caller.ipc(to=thread_id(2), source=thread_id(2), label=3, words=(1, 2))
        for is_busy in (False, True):
            names.end()
            wait_until_gone(asker, names.thread)
            began = time.time()
            while is_busy and time.time() - began < 6:
                assert call()[4] == "1,2"
            names = start(server.path)
            asker.tell("lookup_wait 20000000 pingpong")
            while is_busy and not select.select([asker.process.stdout], [], [], 0)[0]:
                assert call()[4] == "1,2"
            assert asker.hear()[0] == f"{thread_id(2):x}", "the name was not registered again"
        process = getattr(names, "process", None)
        if process:
            os.kill(process.pid, signal.SIGSTOP)
            began, longest = time.time(), 0
            while time.time() - began < 6.5:
                before = time.time()
                assert call()[4] == "1,2"
                longest = max(longest, time.time() - before)
            assert 0.2 < longest < 3, f"a call took {longest} seconds beside a name server that is stopped"
            os.kill(process.pid, signal.SIGCONT)
            assert asker.ask("lookup pingpong")[0] == f"{thread_id(2):x}"
            assert call()[4] == "1,2"
        pong.kill()
        told = re.findall(r"l4_serve: (.*)", pong.communicate(timeout=SECONDS)[1])
        wanted = [r"the name pingpong could not be registered again, and is tried again: N6: there is no name server \(pingpong\)$"]
        wanted += [r"the name pingpong could not be registered again, and is tried again: (send|receive) phase (to|from) 255\.3: timeout"] if process else []
        assert len(told) == len(wanted) and all(map(re.match, wanted, told)), told
        # it sends the name servers nothing but its name
        calls = [fields for word, fields in entries_in(server.entries()) if word == "called" and fields[1] == "2.1" and fields[2].startswith("255.")]
        assert len(calls) > 3 and {int(fields[5], 16) for fields in calls} == {0x10080}, calls[-3:]
        names.end()
        asker.end()
        caller.end()
        return 4 if process else 2


def run_example(room, name, *words, waits=None):
    """A role that ends: what it printed. One that serves: its process, when it has said who it is."""
    process = subprocess.Popen([name, *words], stdout=subprocess.PIPE, stderr=subprocess.PIPE, text=True)
    if waits:
        line = process.stdout.readline()
        assert line.startswith(waits), line + process.stderr.read()
        return process
    out, errors = process.communicate(timeout=SECONDS)
    assert process.returncode == 0, (name, words, out, errors)
    return out


def check_examples(programs, l4d, l4sh, room, plain):
    """Each example, by names or by ids; what it prints is right, and stands so in the trace."""
    program = lambda name: os.path.join(room, "plain_" + name) if plain else programs[name]
    with Server(l4d, room) as server:
        if plain:
            names = NameServer(server.path)
        peer = (lambda name, number: name) if plain else (lambda name, number: f"{number}.1")
        run = lambda name, *words, **rest: run_example(room, program(name), server.dir, *words, **rest)
        serving = [run("pingpong", "pong", waits="pingpong is 2.1 " + ("(registered)" if plain else "(N6: there is no name server (pingpong))"))]
        pings = run("pingpong", "ping", peer("pingpong", 2)).splitlines()
        assert [re.match(r"IPC \( *(\d+) MRs\): [\d.]+ microseconds$", line)[1] for line in pings] == [str(n) for n in range(0, 61, 4)]
        serving.append(run("pager", "serve", waits="pager is 4.1"))
        addresses = ["0x1000", "0x2fff", "0x1004", "0xffffffffffffffff"]
        assert run("pager", "touch", peer("pager", 4), *addresses) == "0x1000: frame 0\n0x2fff: frame 1\n0x1004: frame 0\n0xffffffffffffffff: frame 2\n"
        taker = run("copy", "take", waits="taker is 6.1")
        assert run("copy", "give", peer("taker", 6), "Greeting", *"hello from several pieces of memory".split()) == "sent in 12 pieces of memory\n"
        out, errors = taker.communicate(timeout=SECONDS)
        assert (taker.returncode, out) == (0, "title: Greeting\nfront: hello fr\nrest: om several pieces of memory\n"), out + errors
        answerer = run("gateway", "answer", waits="answerer is 8.1")
        serving += [answerer, run("gateway", "pass", peer("answerer", 8), waits="gateway is 9.1")]
        assert run("gateway", "ask", peer("gateway", 9), "21") == "from 8.1: 42\n"
        assert answerer.stdout.readline() == "from 14.1, by 9.1: 21\n"
        cancelled = sorted(run("cancel").splitlines())
        assert cancelled == ["caller: receive phase from 11.1: cancelled by another thread (e=3, offset 0), ErrorCode 0x7",
                             "canceller: it was in its receive phase", "silent: a request from 12.1, and no answer"], cancelled
        lines = server.is_legal(l4sh)
        past = Past(lines)
        heard = lambda thread: [told for told in past.outcomes(thread) if told[1] != NIL and told[1] >> 32 != 255]
        pongs = [(told[4].count(",") + 1 if told[4] != "-" else 0) for told in heard(thread_id(3))]
        assert pongs == [words for words in range(0, 61, 4) for _ in range(1000)]
        assert [told[4] for told in heard(thread_id(5))] == ["1000,0", "2000,1", "1000,0", "fffffffffffff000,2"]
        text = "hello from several pieces of memory".encode().hex()
        assert [told[5] for told in heard(thread_id(6))] == [f"x{'Greeting'.encode().hex()},x{text}"]
        assert [told[1:5] for told in heard(thread_id(8))] == [(thread_id(14), thread_id(9), 0, "15")]
        assert [told[1:5] for told in heard(thread_id(14))] == [(thread_id(8), NIL, 0, "2a")]
        assert (FAILED, NIL, NIL, 0x7, "-", "-") in past.outcomes(thread_id(12))
        for process in serving:
            process.kill()
            process.wait()
        return len(lines)


def do_the_worst(programs, dir, victims):
    """What no server should mind: strings, twice in a row and big ones, each count of words under any label, clients that wait for no
    answer, that end in midst of their call, and that have no room for what comes. How much of it was done."""
    sayer, done = Say(programs["say"], dir, 50), 0
    for to in victims:
        for strings in ([[b"x"]], [[b"x"]], [[bytes(MAX_STRING_BYTES)]], [[b""]] * 31, [[b"x"], [b"y"], [b"z"]]):
            sayer.code(to=to, strings=strings)
        for label, count in ((0, 0), (0, 1), (1, 2), (2, 0), (3, 63), (0xFFFF_FFFF_FFFF, 5), (0xFFFF_FFFF_FFE4, 1)):
            sayer.code(to=to, label=label, words=range(count))
            sayer.code(to=to, source=to, rcv=ZERO, label=label, words=range(count))
        # in the name of one who does not wait, and of nobody
        for shown in (sayer.thread, thread_id(60)):
            sayer.code(to=to, virtual=shown, words=(1,))
        other = Say(programs["say"], dir, 51)
        other.tell_ipc(to=to, source=to, words=(1,))
        other.tell_ipc(to=to, source=to, words=(1,))
        time.sleep(0.01)
        other.kill()
        wait_until_gone(sayer, other.thread)
        done += 22
    sayer.end()
    return done


def check_worst(programs, l4d, room):
    """Each server of each page, beside clients that do their worst: it serves as before, and ends when l4d ends, saying why."""
    pages, count = build_pages(room), 1
    with Server(l4d, room) as server:
        # the client of README may come first
        client = subprocess.Popen([pages["page_client"], server.dir], stdout=subprocess.PIPE, text=True)
        answering = subprocess.Popen([pages["page_readme"], server.dir])
        assert client.communicate(timeout=SECONDS)[0] == "42\n"
        answering.kill()
        answering.wait()
    count += check_again(programs, pages, l4d, room)
    with Server(l4d, room) as server:
        start = lambda name, *words, waits=None: run_example(room, {**programs, **pages}[name], server.dir, *words, waits=waits)
        serving = {2: start("pingpong", "pong", waits="pingpong is 2.1"), 4: start("pager", "serve", waits="pager is 4.1"),
                   8: start("gateway", "answer", waits="answerer is 8.1"), 9: start("gateway", "pass", "8.1", waits="gateway is 9.1"),
                   6: start("copy", "take", waits="taker is 6.1")}
        for number, name in ((1, "page_readme"), (40, "page_tutorial")):
            serving[number] = subprocess.Popen([pages[name], server.dir], stdout=subprocess.PIPE, stderr=subprocess.PIPE, text=True)
        sayer = Say(programs["say"], server.dir, 52)
        for number in serving:
            wait_until_waiting(sayer, thread_id(number), 0x2)
        count += do_the_worst(programs, server.dir, [thread_id(number) for number in serving])
        for number, label, words, wanted in ((2, 5, (1, 2, 3), "1,2,3"), (4, 0xFFFF_FFFF_FFE4, (0x5008, 0), "5000,0"), (8, 0, (21,), "2a"),
                                             (9, 0, (21,), "2a"), (1, 0, (7,), "2a"), (40, 0, (7,), "8")):
            for _ in range(2):
                got = sayer.ipc(to=thread_id(number), source=thread_id(number), rcv=0x2BE8, label=label, words=words)
                # the gateway's request is answered by the answerer
                assert got[1] == thread_id(8 if number == 9 else number) and got[4] == wanted, (number, got)
                count += 1
        # an asker of the gateway is told that its answerer has ended
        serving.pop(8).kill()
        wait_until_gone(sayer, thread_id(8))
        assert sayer.ipc(to=thread_id(9), source=thread_id(9), words=(1,))[0] >> 16 == 1
        taker = serving.pop(6)
        assert sayer.code(to=thread_id(6), strings=[[b"a title"], [b"a text"]]) == 0
        out, errors = taker.communicate(timeout=SECONDS)
        assert (taker.returncode, out) == (0, "title: a title\nfront: a text\nrest: \n"), (out, errors)
        sayer.end()
        server.process.kill()
        for number, process in serving.items():
            _, errors = process.communicate(timeout=SECONDS)
            assert process.returncode == 1 and (number == 40 or "F9: the connection ended" in errors), (number, process.returncode, errors)
            # all but TUTORIAL's loop have told what they could not answer
            assert number == 40 or unanswered_in(errors.splitlines()) > 5 or number == 9, (number, errors)
            count += 1
    return count + check_worst_of_cancel(programs, l4d, room) + check_unsendable(programs, l4d, room) + check_driver(programs, l4d, room) + check_parts(programs, l4d, room)


def check_again(programs, pages, l4d, room):
    """README's loop of a server, beside an l4d that is started again and again: the strings that it accepted once come each time. While another
    thread has the name the loop says so, and it has the name once that thread has ended."""
    folder = tempfile.mkdtemp(dir=room)
    process = None
    try:
        for word in ("one", "two"):
            with Server(l4d, room, "--replace", folder=folder, trace=False) as server:
                NameServer(server.path)
                asker, other = (Say(programs["say"], folder, number) for number in (2, 3))
                if word == "one":
                    assert other.ask("register echo")[0] == "0"
                    process = subprocess.Popen([pages["page_again"], folder], stdout=subprocess.PIPE, stderr=subprocess.PIPE, text=True)
                    assert select.select([process.stderr], [], [], SECONDS)[0], "the server does not say that it has no name"
                    assert process.stderr.readline() == f"REFUSED N3: {MEANINGS['N3']} (echo)\n"
                other.end()
                to = word_of_id("0x" + asker.ask("lookup_wait 20000000 echo")[0])
                assert to & ~0xFFFF_FFFF == thread_id(1) & ~0xFFFF_FFFF, f"{to:x} has the name"
                assert asker.ipc(to=to, source=to, strings=[[word.encode()]])[3] == 0, word
                assert select.select([process.stdout], [], [], SECONDS)[0], f"the string {word} has not come to the server"
                assert process.stdout.readline() == f"2 {word}\n", word
                asker.end()
                server.kill()
                # the folder stays
                server.folder = tempfile.mkdtemp(dir=room)
    finally:
        if process:
            process.kill()
            process.communicate()
    return 4


def check_unsendable(programs, l4d, room):
    """A server's answers that cannot be sent: each asker gets an empty message whose label says so, the server is told of it, and goes on."""
    with Server(l4d, room) as server:
        serving, asker = Say(programs["say"], server.dir, 1), Say(programs["say"], server.dir, 2)
        serving.tell("serve")
        labels = (0, 1, 2, 3, 1, 0)
        for label in labels:
            got = asker.ipc(to=serving.thread, source=serving.thread, rcv=0x2BE8, label=label)
            assert got[:5] == ((FUNCTION_FAILED if label else 5) << 16, serving.thread, 0, 0, "-"), (label, got)
        # one who does not wait for such an answer is no end of the server, either
        assert asker.code(to=serving.thread, label=1) == 0
        assert asker.code(to=serving.thread, label=9) == 0
        assert serving.hear()[0] == "0 6"
        # what is said of it without a function for trouble: who got that label, and who got nothing
        told = os.path.join(room, "trouble")
        assert serving.connect(1)[0] == 0
        serving.tell(f"serve_telling {told}")
        got = asker.ipc(to=serving.thread, source=serving.thread, rcv=0x2BE8, label=2)
        assert got[0] == FUNCTION_FAILED << 16, got
        assert asker.code(to=serving.thread, label=0) == 0
        assert asker.code(to=serving.thread, label=9) == 0
        assert serving.hear()[0] == "0"
        with open(told, encoding="utf-8") as file:
            lines = file.read().splitlines()
        nobody = "l4_serve: 2.1 got no answer: send phase to 2.1: timeout (e=1, offset 0)"
        assert lines[0] == f"l4_serve: 2.1 gets L4_FUNCTION_FAILED in place of an answer: F4: {MEANINGS['F4']}" and nobody in lines[1:], lines
        told_of_many(serving, asker, told, nobody)
        rows = answers_that_are_late(serving, asker, Say(programs["say"], server.dir, 3))
        rows += two_servers(server, asker, [Say(programs["say"], server.dir, number) for number in (4, 5)])
        serving.end()
        asker.end()
        return len(labels) + 6 + rows


def answers_that_are_late(serving, asker, late):
    """The answers to calls that a server gave up are no requests, and what their sender asks then is one; nor is what says that a function failed."""
    assert serving.connect(1)[0] == 0
    serving.tell("serve")
    given_up(serving, asker, late)
    given_up(serving, asker, late)
    assert late.code(to=serving.thread, label=7) == 0
    # one of them might have been a request, which is told to have failed
    for label in (FUNCTION_FAILED, 5):
        got = late.ipc(to=serving.thread, source=serving.thread, rcv=0x2BE8, label=0)
        assert got[:2] == (label << 16, serving.thread), got
    assert asker.code(to=serving.thread, label=FUNCTION_FAILED) == 0
    assert asker.code(source=serving.thread, rcv=0x2864) == 0x3
    assert asker.code(to=serving.thread, label=9) == 0
    told, troubles = serving.hear()[0].split()
    assert told == "0" and int(troubles) >= 2, (told, troubles)
    late.end()
    return 6


def two_servers(server, asker, both):
    """Two servers, which a message to one in the name of the other has answer each other's answers: they stop, and serve on."""
    one, two = both
    for it in both:
        it.tell("serve")
    assert asker.code(to=one.thread, virtual=two.thread, words=(7,)) == 0
    limit, sizes = time.time() + 60, [0, 1]
    while len(set(sizes[-2:])) > 1:
        assert time.time() < limit, f"they answer each other's answers without an end: {sizes[-1]} bytes of trace"
        time.sleep(0.5)
        sizes.append(os.path.getsize(server.trace))
    for it in both:
        got = asker.ipc(to=it.thread, source=it.thread, rcv=0x2BE8, label=0)
        assert got[:2] == (5 << 16, it.thread), got
        assert asker.code(to=it.thread, label=9) == 0
        assert it.hear()[0].startswith("0 "), it
        it.end()
    return 4


def given_up(serving, asker, late):
    """A call of the late one, which the server gives up."""
    late.tell_ipc(source=ANY)
    assert asker.ipc(to=serving.thread, source=serving.thread, rcv=0x2BE8, label=4)[0] == 5 << 16
    assert late.hear_ipc()[1] == serving.thread


def told_of_many(serving, asker, told, line):
    """The same failure again and again: the first is told, and then one line a second, with how many were left out."""
    assert serving.connect(1)[0] == 0
    serving.tell(f"serve_telling {told}")
    for _ in range(500):
        assert asker.code(to=serving.thread, label=0) == 0
    time.sleep(1.1)
    for label in (0, 0, 9):
        assert asker.code(to=serving.thread, label=label) == 0
    assert serving.hear()[0] == "0"
    with open(told, encoding="utf-8") as file:
        lines = file.read().splitlines()
    assert lines[0] == line and 2 <= len(lines) < 20 and unanswered_in(lines) == 502, lines


def unanswered_in(lines):
    """How many got no answer, as the lines of a server tell it."""
    left_out = r"(?:; (\d+) more like it were left out)?"
    told = [re.fullmatch(rf"l4_serve: (?:[\d.]+ got no answer: send phase to .*?{left_out}|(\d+) more got no answer)", it) for it in lines]
    return sum(int(it[2] or 0) or 1 + int(it[1] or 0) for it in told if it)


def check_driver(programs, l4d, room):
    """A driver of a FIFO is there before anybody writes to it. Lines come to readers that wait, each to one, also from one who opens it behind
    the last; a reader gives up beside its call; strangers do their worst; l4d's end is the driver's."""
    fifo = os.path.join(room, "device")
    os.mkfifo(fifo)
    with Server(l4d, room) as server:
        driver = subprocess.Popen([programs["driver"], server.dir, "serve", fifo], stdout=subprocess.PIPE, stderr=subprocess.PIPE, text=True)
        assert select.select([driver.stdout], [], [], SECONDS)[0], "the driver waits for somebody who writes to its device"
        assert driver.stdout.readline().startswith("driver is 15.1")
        device = open(fifo, "w", buffering=1)
        sayer = Say(programs["say"], server.dir, 52)
        reader = lambda: subprocess.Popen([programs["driver"], server.dir, "read", "15.1"], stdin=subprocess.PIPE, stdout=subprocess.PIPE, text=True)

        def wanted(process, line):
            assert process.stdout.readline() == line and process.wait(SECONDS) == 0, line

        for version in (1, 2):
            waiting = reader()
            wait_until_waiting(sayer, thread_id(17, version), 0x2)
            device.write(f"line {version}\n")
            wanted(waiting, f"line {version}\n")
            device.close()
            device = open(fifo, "w", buffering=1)
        # more of them than it keeps readers
        for version in range(3, 13):
            waiting = reader()
            wait_until_waiting(sayer, thread_id(17, version), 0x2)
            waiting.stdin.close()
            wanted(waiting, "gave up\n")
        do_the_worst(programs, server.dir, [thread_id(15)])
        # two lines at once, and the second half of the last one comes later
        device.write("one\ntwo\nthr")
        wanted(reader(), "one\n")
        wanted(reader(), "two\n")
        waiting = reader()
        wait_until_waiting(sayer, thread_id(17, 15), 0x2)
        device.write("ee\n")
        wanted(waiting, "three\n")
        # somebody disturbs the watcher's wait for a reader; the line stays, and comes once
        device.write("four\nfive\n")
        wait_until_waiting(sayer, thread_id(16), 0x2)
        for _ in range(2):
            assert sayer.exreg(thread_id(16), 0x2)[0] == thread_id(16)
            wait_until_waiting(sayer, thread_id(16), 0x2)
            assert sayer.code(to=thread_id(16), virtual=thread_id(15), strings=[[b"x"]]) == 0x8
            wait_until_waiting(sayer, thread_id(16), 0x2)
        wanted(reader(), "four\n")
        wanted(reader(), "five\n")
        sayer.end()
        server.process.kill()
        _, errors = driver.communicate(timeout=SECONDS)
        assert driver.returncode == 1 and "F9: the connection ended" in errors, (driver.returncode, errors)
        device.close()
    return 6


def check_parts(programs, l4d, room):
    """Ipc in two parts: l4_fd is readable when the outcome comes and not before, a call between them is C10, an end of nothing C14."""
    with Server(l4d, room) as server:
        one, two = Say(programs["say"], server.dir, 1), Say(programs["say"], server.dir, 2)
        assert one.ask("end")[2].startswith("C14: no call was begun")
        assert one.ask("begin")[0] == "0"
        assert one.ask("readable")[0] == "0"
        assert one.ask(f"send {two.thread:x}")[2].startswith("C10:") and one.ask("exreg 1 0")[2].startswith("C10:")
        assert one.ask("begin")[2].startswith("C10:")
        assert two.code(to=one.thread, label=5, words=(7, 8)) == 0
        while one.ask("readable")[0] == "0":
            time.sleep(0.001)
        assert one.ask("end")[0].split()[:5] == ["50002", f"{two.thread:x}", "0", "0", "7,8"]
        assert one.ask("end")[2].startswith("C14:")
        # given up, and the number is free
        assert one.ask("begin")[0] == "0"
        one.ask("disconnect")
        assert one.connect(1)[0] == 0 and one.code(source=ANY, rcv=0x64) == 0x3
        server.process.kill()
        while one.ask("readable")[0] == "0":
            time.sleep(0.001)
        one.end()
        two.end()
    return 12


def check_first_block(l4d, l4x, room):
    """The first block of the examples' page, pasted as one beside an l4d that is slow to listen: then a name server is there, and each example."""
    block = next(it for it in blocks_of("clients/c/examples/README.md", "sh") if "l4d --dir" in it)
    folder = os.path.join(room, "pasted")
    os.mkdir(folder)
    for name, target in (("clients", os.path.join(ROOT, "clients")), ("l4x", l4x)):
        os.symlink(target, os.path.join(folder, name))
    with open(os.path.join(folder, "l4d"), "w") as slow:
        slow.write(f'#!/bin/sh\nsleep 1\nexec {l4d} "$@"\n')
    os.chmod(slow.name, 0o755)
    names = "pingpong pager copy gateway cancel driver"
    with open(os.path.join(folder, "said"), "w+") as said:
        shell = subprocess.Popen(["sh", "-c", f'{block}\n./l4x "$dir" lookup nobody\nls {names}'], cwd=folder, stdin=subprocess.DEVNULL, stdout=said,
                                 stderr=subprocess.STDOUT, start_new_session=True)
        try:
            shell.wait(10 * SECONDS)
        finally:
            os.killpg(shell.pid, signal.SIGKILL)
        said.seek(0)
        told = said.read()
    assert "nothing\n" in told and set(names.split()) <= set(told.split()), told
    return 1


def check_worst_of_cancel(programs, l4d, room):
    """The three threads of cancel, beside one that sends strings to each of them."""
    with Server(l4d, room) as server:
        sayer = Say(programs["say"], server.dir, 50)
        process = subprocess.Popen([programs["cancel"], server.dir], stdout=subprocess.PIPE, text=True)
        while process.poll() is None:
            for number in (11, 12, 13):
                sayer.code(to=thread_id(number), snd=0x64, strings=[[b"x"]])
        assert process.returncode == 0 and process.stdout.read().count("\n") == 3
        sayer.end()
    return 1


def check_python(programs, l4d, l4sh, room):
    """C and Python examples with each other: servers of the one, found by name, and clients of the other. How many pairs."""
    python = os.path.join(ROOT, "clients", "python")
    if not os.path.isdir(python):
        return 0
    environment = {**os.environ, "PYTHONPATH": os.path.join(python, "src")}
    example = lambda name: [sys.executable, os.path.join(python, "examples", name + ".py")]

    def ask(words, wanted):
        got = subprocess.run(words, capture_output=True, text=True, timeout=SECONDS, env=environment)
        assert got.returncode == 0 and re.search(wanted, got.stdout), (words, got.stdout, got.stderr)

    def serve(name, words):
        """Starts a server, and waits until its name is known."""
        serving.append(subprocess.Popen(words, stdout=subprocess.DEVNULL, env=environment))
        end = time.time() + SECONDS
        while name not in names.names and time.time() < end:
            time.sleep(0.01)

    for is_c in (True, False):
        with Server(l4d, room) as server:
            names, serving, at = NameServer(server.path), [], server.dir
            serve(b"pingpong", [programs["pingpong"], at, "pong"] if is_c else [*example("pingpong"), at, "serve"])
            serve(b"gateway", [programs["gateway"], at, "pass", "pingpong"] if is_c else [*example("gateway"), at, "serve"])
            serve(b"pager", [programs["pager"], at, "serve"] if is_c else [*example("pager"), at, "serve"])
            if is_c:
                ask([*example("pager"), at, "fault", "0x2fff", "0x1000"], r"0x2fff .*0x2000, frame 0\n0x1000 .*0x1000, frame 1\n")
                ask([*example("gateway"), at, "ask", "21"], r"asked .*9.*, and .*2.* answered 21")
                ask([*example("pingpong"), at, "ask", "200"], "200 calls of ")
            else:
                ask([programs["pager"], at, "touch", "pager", "0x2fff", "0x1000"], "^0x2fff: frame 0\n0x1000: frame 1\n$")
                ask([programs["gateway"], at, "ask", "gateway", "21"], "^from 10.1: 21\n$")
                ask([programs["pingpong"], at, "ping"], r"IPC \(60 MRs\)")
            server.is_legal(l4sh)
            for process in serving:
                process.kill()
                process.wait()
    return 6
