#!/usr/bin/env python3
"""Real processes over l4d's sockets.

checks/live/sockets.py PROGRAM          runs PROGRAM (l4d) in a folder of its own
checks/live/sockets.py --at PATH        asks the server that listens on PATH, but for what needs its number of threads and files

Exit 0 where every answer was right: a receive that is held until another connection sends, half frames, refusals, 1,023 live threads and one
more, a reconnection, ExchangeRegisters over connections, 100 processes in pairs and 100 in a star with each answer checked, and processes that
are killed at random moments. At the end the server has as many threads and files as before, and its memory is told. The server writes a trace
meanwhile, of which l4sh, which has to be built, says that it is a legal history.
"""
import os, random, resource, signal, socket, struct, subprocess, sys, tempfile, time

sys.path.insert(1, f"{sys.path[0]}/../lib")

from frames import ANY, fault, hello, ipc, refused
from kit import ROOT
from processes import figures
from protocol_tables import F_UNFINISHED, K_BAD_NUMBER, K_NUMBER_TAKEN, MAX_THREAD_NUMBER, WELCOME
from serving import Client, opened
from traces import entries_in

STOP_RECEIVE, STOP_SEND = 2, 4
SECONDS = 10
# about so many calls in each part: the server's history has room for 131,000 in all
CALLS = 20_000
# for so long processes are killed
KILLING = 6
# the greatest number of a thread, and how many there are
LAST = MAX_THREAD_NUMBER
# so many descriptors does a process need that has a connection for each of them; the server needs about as many
DESCRIPTORS = LAST + 200

# What is told of half a frame.
CUT = fault("F", F_UNFINISHED)

# These stand here as bytes, made by nothing: HELLO 1, and a call that receives from anythread
RECEIVER = bytes.fromhex(
    "00000003 01 0001"
    "0000002e 02 0000000000000000 ffffffffffffffff 00000000 0000000000000000 0000000000000000 0000000000000000 00"
)
# HELLO 2
SENDER = bytes.fromhex("00000003 01 0002")
# a call that sends the word 7 to 1.1
SEND = bytes.fromhex(
    "00000036 02 0000000100000001 0000000000000000 00000000 0000000000000000 0000000000000001 0000000000000000 00 0000000000000007"
)
# WELCOME 1.1
GREETED = bytes.fromhex("00000009 81 0000000100000001")
# an IPCR with the word 7 from 2.1
TOLD = bytes.fromhex("0000002a 82 0000000000000001 0000000200000001 0000000000000000 0000000000000000 0000000000000007 00")
# WELCOME 2.1, and an empty IPCR
SENT = bytes.fromhex(
    "00000009 81 0000000200000001"
    "00000022 82 0000000000000000 0000000000000000 0000000000000000 0000000000000000 00"
)


def ends_its_input(client):
    """Sends nothing more, and gets nothing more."""
    client.line.shutdown(socket.SHUT_WR)
    assert client.line.recv(1) == b"", "something was told behind the end of the input"
    client.line.close()


def answers(path, number, ready):
    """A process that answers each word with one more, until its server ends or it is killed."""
    child = os.fork()
    if child == 0:
        # (the thread that had the number before may have been killed just now)
        client = opened(path, number)
        os.write(ready, struct.pack(">Q", client.thread))
        try:
            got = client.call(0, ANY, [])
            while True:
                got = client.call(got.sender, ANY, [got.words[0] + 1])
                if got.has_failed:
                    # the caller is gone: nothing was sent, so nothing was received
                    got = client.call(0, ANY, [])
        except (EOFError, ConnectionError, socket.timeout):
            os._exit(0)
    return child


def calls(path, number, to, seconds, result, pause):
    """A process that calls for so long, with pauses of so many seconds on average, and checks each answer."""
    child = os.fork()
    if child == 0:
        client = Client(path, number)
        count = 0
        end = time.time() + seconds
        while time.time() < end:
            word = random.getrandbits(62)
            got = client.call(to, to, [word])
            assert not got.has_failed and got.sender == to and got.words == (word + 1,), (hex(got.tag), hex(got.error), got.words)
            count += 1
            time.sleep(2 * pause * random.random())
        client.bye()
        os.write(result, struct.pack(">Q", count))
        os._exit(0)
    return child


def joined(children, what):
    for child in children:
        assert os.waitpid(child, 0)[1] == 0, what


def killed(children):
    for child in children:
        os.kill(child, signal.SIGKILL)
        os.waitpid(child, 0)


def load(path, servers, clients, name):
    """Clients that call servers in turn, each in a process of its own, each answer checked."""
    ready_in, ready_out = os.pipe()
    counts_in, counts_out = os.pipe()
    serving = [answers(path, 1 + k, ready_out) for k in range(servers)]
    threads = [struct.unpack(">Q", os.read(ready_in, 8))[0] for _ in serving]
    pause = SECONDS * clients / CALLS
    callers = [calls(path, 1 + servers + k, threads[k % servers], SECONDS, counts_out, pause) for k in range(clients)]
    joined(callers, "an answer was wrong")
    counts = [struct.unpack(">Q", os.read(counts_in, 8))[0] for _ in callers]
    killed(serving)
    for end in (ready_in, ready_out, counts_in, counts_out):
        os.close(end)
    assert min(counts) > 0
    print("%s: %d calls in %d s, least %d and most %d of one client" % (name, sum(counts), SECONDS, min(counts), max(counts)))


def random_kills(path):
    """Two processes call each other to the end while others, in midst of their calls, are killed."""
    ready_in, ready_out = os.pipe()
    counts_in, counts_out = os.pipe()
    server = answers(path, 1, ready_out)
    to = struct.unpack(">Q", os.read(ready_in, 8))[0]
    steady = calls(path, 2, to, KILLING, counts_out, KILLING / CALLS)
    end = time.time() + KILLING - 1
    kills = 0
    while time.time() < end:
        first = 3 + 4 * random.randrange(60)
        ready, given = os.pipe()
        victim = answers(path, first, given)
        thread = struct.unpack(">Q", os.read(ready, 8))[0]
        others = [calls_or_dies(path, first + 1 + k, thread) for k in range(3)]
        time.sleep(random.random() / 50)
        order = [victim] + others
        random.shuffle(order)
        killed(order)
        os.close(ready)
        os.close(given)
        kills += 4
        time.sleep(0.02)
    joined([steady], "an answer was wrong beside the kills")
    count = struct.unpack(">Q", os.read(counts_in, 8))[0]
    killed([server])
    for end in (ready_in, ready_out, counts_in, counts_out):
        os.close(end)
    print("%d processes killed at random moments beside %d calls that were all answered" % (kills, count))


def calls_or_dies(path, number, to):
    child = os.fork()
    if child == 0:
        try:
            client = opened(path, number)
            while True:
                client.call(to, to, [1])
                time.sleep(0.004 * random.random())
        except (AssertionError, EOFError, OSError):
            signal.pause()
    return child


def half_frame(path):
    whole = ipc(0, ANY, [])
    for cut in (1, 4, 5, 20, len(whole) - 1):
        client = Client(path, 1)
        client.line.sendall(whole[:cut])
        client.line.shutdown(socket.SHUT_WR)
        assert client.exactly(len(CUT)) == CUT
        client.line.close()
        wait_free(path, 1)
    stopped = Client(path, 1)
    stopped.line.sendall(whole[:20])
    beside = Client(path, 2)
    assert beside.call(0, ANY, [], 0x0400).has_failed
    beside.bye()
    stopped.line.close()
    wait_free(path, 1)
    print("half a frame: FAULT F9; one that stops in midst of a frame holds nobody up")


def wait_free(path, number):
    """Until the number is free again."""
    for _ in range(200):
        client = Client(path)
        client.line.sendall(hello(number))
        kind, body = client.hear()
        if kind == WELCOME:
            client.bye()
            return
        client.line.close()
        time.sleep(0.01)
    raise AssertionError("number %d stays taken" % number)


def again(path):
    first = Client(path, 9)
    taken = Client(path)
    taken.line.sendall(hello(9))
    told = refused(K_NUMBER_TAKEN)
    assert taken.exactly(len(told)) == told
    old = first.thread
    first.bye()
    wait_free(path, 9)
    second = Client(path, 9)
    assert second.thread >> 32 == 9 and second.thread > old
    caller = Client(path, 10)
    assert caller.call(old, 0, [1]).has_failed, "a thread that ended was called"
    for client in (second, caller, taken):
        client.line.close()
    print("a live number: REFUSED K2; after BYE: a later version, and the id of before is not live")


def is_refused(path, number, refusal):
    """Whether a HELLO is refused so."""
    client, told = Client(path), refused(refusal)
    client.line.sendall(hello(number))
    heard = client.exactly(len(told))
    client.line.close()
    return heard == told


def round_of(live, word):
    """A word goes from each thread to the next one, and grows by 1 each time: what the first one gets from the last one."""
    for sender, receiver in zip(live, live[1:] + live[:1]):
        receiver.line.sendall(ipc(0, sender.thread, []))
        sent = sender.call(receiver.thread, 0, [word])
        assert sent.tag == 0, f"a send from {sender.thread:#x}: {sent.error:#x}"
        got = receiver.outcome()
        assert (got.tag, got.sender, got.words) == (1, sender.thread, (word,)), f"a receive by {receiver.thread:#x}: {got.tag:#x} {got.error:#x}"
        word += 1
    return word


def full(path):
    """As many threads as there are numbers: each sends and receives, no number is left, and one ends for which all others wait."""
    live = [Client(path, number) for number in range(1, LAST + 1)]
    assert [client.thread >> 32 for client in live] == list(range(1, LAST + 1))
    got = round_of(live, 7)
    assert got == 7 + LAST, got
    for number, refusal in ((LAST + 1, K_BAD_NUMBER), (0, K_BAD_NUMBER), (65535, K_BAD_NUMBER), (LAST, K_NUMBER_TAKEN), (1, K_NUMBER_TAKEN), (256, K_NUMBER_TAKEN)):
        assert is_refused(path, number, refusal), f"number {number} beside {LAST} threads"
    first, others = live[0], live[1:]
    # all send to one, which takes them one after the other: each message comes once
    for client in others:
        client.line.sendall(ipc(first.thread, 0, [client.thread]))
    senders = set()
    for _ in others:
        got = first.call(0, ANY, [])
        assert (got.tag, got.words) == (1, (got.sender,)), f"one of {len(others)} that send: {got.tag:#x} {got.error:#x}"
        senders.add(got.sender)
    assert senders == {client.thread for client in others}, f"{len(senders)} of {len(others)} senders were received"
    for client in others:
        sent = client.outcome()
        assert sent.tag == 0, f"the send of {client.thread:#x}: {sent.error:#x}"
    for client in others:
        client.line.sendall(ipc(0, first.thread, []))
    # (the last one waits, too, once it can be seen to wait)
    while first.exreg(others[-1].thread, 0)[2] != STOP_RECEIVE:
        time.sleep(0.01)
    first.line.close()
    for client in others:
        got = client.outcome()
        assert (got.tag, got.error) == (0x8000, 5), f"{client.thread:#x} waited for one that ended: {got.tag:#x} {got.error:#x}"
    wait_free(path, 1)
    for client in others:
        client.line.close()
    for number in (2, LAST):
        wait_free(path, number)
    print("%d live threads, and messages through all of them; number %d: REFUSED K1, a live one: REFUSED K2" % (LAST, LAST + 1))


def stop(path):
    """ExchangeRegisters over connections: a waiting receive and a waiting send of another thread are stopped."""
    waits, other = Client(path, 20), Client(path, 21)
    for message, control, code in ((ipc(0, other.thread, []), STOP_RECEIVE, 7), (ipc(other.thread, 0, [1]), STOP_SEND, 6)):
        waits.line.sendall(message)
        time.sleep(0.1)
        _, result, stood, _ = other.exreg(waits.thread, STOP_RECEIVE | STOP_SEND)
        assert (result, stood) == (waits.thread, control), (hex(result), stood)
        got = waits.outcome()
        assert got.has_failed and got.error & 0xF == code, hex(got.error)
    waits.bye()
    other.bye()
    print("ExchangeRegisters stops a receive and a send of another connection")


def check_all(path):
    for check in (half_frame, again, stop, full):
        check(path)
    load(path, 50, 50, "100 processes in pairs")
    load(path, 1, 99, "100 processes in a star")
    random_kills(path)


def main():
    if sys.argv[1] == "--at":
        return check_all(sys.argv[2])
    _, most = resource.getrlimit(resource.RLIMIT_NOFILE)
    if most != resource.RLIM_INFINITY and most < DESCRIPTORS:
        sys.exit("sockets: the system gives a process %d descriptors, and %d threads need %d" % (most, LAST, DESCRIPTORS))
    # the server has the same limit
    resource.setrlimit(resource.RLIMIT_NOFILE, (DESCRIPTORS, most))
    held_receive(sys.argv[1])
    traces(sys.argv[1])
    folder = tempfile.mkdtemp()
    trace = folder + "/trace"
    server = subprocess.Popen([sys.argv[1], "--dir", folder, "--spaces", "1", "--trace", trace], stdout=subprocess.PIPE)
    try:
        assert server.stdout.readline() == b"listening 1\n"
        path = folder + "/space1"
        assert os.stat(path).st_mode & 0o777 == 0o600
        # until all workers were started
        time.sleep(0.5)
        before = figures(server.pid)
        seen_soon(path, trace)
        check_all(path)
        assert server.poll() is None
        time.sleep(1)
        after = figures(server.pid)
        told = (before[0], after[0], before[1], after[1], before[2], after[2])
        print("threads %d and %d, files %d and %d, resident KiB %d and %d" % told)
        assert after[:2] == before[:2], "something of a connection that ended was left"
    finally:
        server.kill()
    judged(trace)
    refusals(sys.argv[1])


def judged(trace):
    """How many entries of each kind are in a trace, which has to be a legal history."""
    begin = time.time()
    told = subprocess.run([ROOT + "/l4sh", "check", trace], capture_output=True)
    assert (told.returncode, told.stdout) == (0, b"yes\n"), told
    counts = {}
    with open(trace) as lines:
        for kind, _ in entries_in(lines):
            counts[kind] = counts.get(kind, 0) + 1
    print("a trace of %d entries: yes, in %.1f s" % (sum(counts.values()), time.time() - begin))
    return counts


def traced(program, trace):
    """What a server says that writes a trace of its own client's message."""
    folder = tempfile.mkdtemp()
    words = [program, "--dir", folder, "--spaces", "1", "--connections", "2", "--probe", "--trace", trace]
    told = subprocess.run(words, capture_output=True)
    assert told.stdout == b"listening 1\nprobe 0x7\nclosed\n", told
    os.rmdir(folder)
    return told.returncode, told.stderr


def traces(program):
    """A trace to its end; and a trace that fails, which the server goes on without."""
    folder = tempfile.mkdtemp()
    trace = folder + "/trace"
    with open(trace, "w") as old:
        old.write("what was there before\n" * 100)
    assert traced(program, trace) == (0, b"")
    counts = judged(trace)
    assert (counts["ended"], counts["broke"]) == (1, 2), counts
    for bad in ("/dev/full", folder, folder + "/none/trace"):
        status, told = traced(program, bad)
        assert status == 1 and told.startswith(b"l4d: trace TR1\n  %s cannot be " % bad.encode()) and told.count(b"TR1") == 1, (bad, status, told)
    print("a trace that fails: l4d: trace TR1 once, the server serves on, and its status is 1")


def seen_soon(path, trace):
    """What a client does is in the trace while it is connected, in whole lines."""
    client = Client(path, 200)
    for _ in range(100):
        text = open(trace).read()
        if "opened 200.1 1\n" in text:
            break
        time.sleep(0.01)
    assert text.endswith("opened 200.1 1\n"), text
    client.bye()
    wait_free(path, 200)


def held_receive(program):
    """One connection receives, and sends nothing more before its message came: another one, beside it, is welcomed, sends, and is answered. All that
    both are told is checked, byte for byte, to the end of the server. One that serves connections one after the other never welcomes the other."""
    folder = tempfile.mkdtemp()
    words = [program, "--dir", folder, "--spaces", "1", "--connections", "2"]
    server = subprocess.Popen(words, stdout=subprocess.PIPE, stderr=subprocess.PIPE)
    try:
        assert server.stdout.readline() == b"listening 1\n"
        receiver, sender = Client(folder + "/space1"), Client(folder + "/space1")
        receiver.line.sendall(RECEIVER)
        sender.line.sendall(SENDER)
        assert receiver.exactly(len(GREETED)) == GREETED
        sender.line.sendall(SEND)
        assert receiver.exactly(len(TOLD)) == TOLD
        ends_its_input(receiver)
        assert sender.exactly(len(SENT)) == SENT
        ends_its_input(sender)
        assert server.communicate(timeout=20) == (b"closed\n", b"") and server.returncode == 0
    finally:
        server.kill()
    os.rmdir(folder)
    print("a receive is held until another connection sends; what both are told, byte for byte")


def refusals(program):
    """What a start is told that cannot listen, and bad words."""
    folder = tempfile.mkdtemp()
    open(folder + "/space2", "w").close()
    told = subprocess.run([program, "--dir", folder, "--spaces", "3"], capture_output=True)
    assert (told.returncode, told.stdout) == (1, b""), told
    assert told.stderr.startswith(b"l4d: cannot listen on %s/space2\n" % folder.encode()), told
    assert sorted(os.listdir(folder)) == ["space2"]
    told = subprocess.run([program, "--dir", folder + "/none", "--spaces", "1"], capture_output=True)
    assert told.returncode == 1 and told.stderr.startswith(b"l4d: cannot listen on %s/none/space1\n" % folder.encode()), told
    told = subprocess.run([program, "--dir", folder, "--spaces", "65"], capture_output=True)
    assert told.returncode == 2 and told.stderr and not told.stdout, told
    print("a path that is taken, a folder that is not there, bad words: status 1, 1, 2")


main()
