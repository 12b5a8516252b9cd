"""Refusals, faults, errors, strings and propagation of the Python client against an l4d."""

import asyncio
import os
import socket
import time

from frames import TOO_LONG, fault, frame_of, words_bytes
from processes import figures
from protocol_tables import F_UNFINISHED, F_UNKNOWN_VERSION, MAX_STRING_BYTES, S_PROTOCOL
from python_client.seeing import Encoded, Message, Server, ThreadId, aio, beside, check, frames, l4ipc, raised, same, told, words


def refusals(server):
    with server.thread(60) as thread:
        for number in (0, 1024, -1, 1 << 16):
            error = raised(lambda: server.thread(number))
            check(f"no number is {number}", type(error) is ValueError and str(error) == f"number: {number} is not from 1 to 1023", repr(error))
        with socket.socket(socket.AF_UNIX) as line:
            line.connect(f"{server.folder}/space1")
            told("K1 of 0, over a connection", lambda: l4ipc.Thread.over(line, 0), l4ipc.Refused, number=1)
        told("K2", lambda: server.thread(60), l4ipc.Refused, number=2)
        check("K2 tells what waits for it", "it was not waited for (wait_for=)" in str(raised(lambda: server.thread(60))))
        check("the thread goes on", raised(lambda: thread.sleep(0)) is None)


def spaces(server):
    """A space that the server does not have: what is told names the option."""
    try:
        came = server.thread(60, 3)
    except FileNotFoundError as error:
        came = error
    check("a space that is not there", "--spaces 3 or more" in str(came), str(came))


def ended_threads(server):
    """A thread that was closed has ended: its number is free at once, whether its calls block or are coroutines, and whether one is open."""
    async def coroutines():
        async with aio.Thread(server.folder, 66):
            pass
        await (await aio.Thread(server.folder, 66).connect()).aclose()
        (await aio.Thread(server.folder, 66).connect()).close()

    def blocking():
        with l4ipc.Thread(server.folder, 65):
            pass

    def with_an_open_call():
        with l4ipc.Thread(server.folder, 67) as thread:
            thread.begin_wait()

    for opened in (blocking, with_an_open_call, lambda: asyncio.run(coroutines())):
        began = time.monotonic()
        came = [raised(opened) for _ in range(200)]
        refused = [str(it) for it in came if it is not None]
        check("a number is free once its thread is closed", not refused, f"{len(refused)} of 200 refused: {refused[:1]}")
        check("no end was waited for in vain", time.monotonic() - began < 100, time.monotonic() - began)


def forked(server):
    """A child that leaves the block of a thread of its parent, as by an exception, does not end it."""
    with server.thread(61) as thread:
        child = os.fork()
        if child == 0:
            try:
                with thread:
                    told = raised(lambda: thread.sleep(0))
            finally:
                os._exit(0 if type(told) is l4ipc.Closed else 1)
        same("a call of a forked child", os.waitpid(child, 0)[1], 0)
        check("the thread of its parent goes on", raised(lambda: thread.sleep(0)) is None)


def long_life(l4d):
    """Many calls of four threads at a time. Each failed send adds two entries, of which the server lets go."""
    server = Server(l4d, trace=False)
    threads = [l4ipc.Thread(server.folder, number) for number in range(1, 5)]

    def call(place, count):
        frame = ipc_frame(to=0, timeouts=0x400, from_specifier=ThreadId.of(200, 1))
        for _ in range(count):
            threads[place]._ask(frame, frames.Outcome)

    def calls(count):
        for joined in [beside(lambda place=place: call(place, count)) for place in range(len(threads))]:
            check("the calls are over", raised(lambda joined=joined: joined(90)) is None)
        return figures(server.process.pid).resident

    before = calls(5_000)
    more = calls(20_000) - before
    check("no more memory is held", more <= 8 * 1024, f"{more} KiB")
    print(f"long life: 100,000 calls, {more} KiB more than after the first 20,000", flush=True)
    server.stop()


def ipc_frame(tag=0, items=(), payload=b"", timeouts=0, to=ThreadId.of(1, 1), buffer_words=(), from_specifier=0, acceptor=0):
    return frames.ipc(to, from_specifier, timeouts, Encoded(tag, 0, words_bytes(items), payload), acceptor, buffer_words)


def faults(server):
    rows = [
        ("F", 1, TOO_LONG), ("F", 2, bytes.fromhex("0000000205")), ("F", 2, bytes.fromhex("0000000981")),
        ("F", 3, bytes(4)), ("F", 3, bytes.fromhex("0000000201")), ("F", 3, bytes.fromhex("0000002d02")), ("F", 3, ipc_frame(1)),
        ("F", 4, ipc_frame(0x7F, [0] * 64)), ("F", 4, ipc_frame(0, buffer_words=[0] * 33, from_specifier=1 << 32 | 1, acceptor=1)),
        ("F", 5, ipc_frame(0x80, [0xE00, 0], b"abc")), ("F", 6, ipc_frame(0x80, [0x8, 0])), ("F", 7, ipc_frame(0x80, [0x1400, 4], b"abchello")),
        ("F", 8, ipc_frame(0x100, [MAX_STRING_BYTES << 10, 0, 1 << 10, 0], bytes(MAX_STRING_BYTES))), ("F", 12, ipc_frame(1, [7], timeouts=0x8000_0000)),
        ("S", 1, frames.hello(62)),
    ]
    for letter, number, frame in rows:
        thread = server.next_thread(62)
        told(f"fault {letter}{number}", lambda: thread._ask(frame, frames.Outcome), l4ipc.Fault, letter=letter, number=number)
        told("after a fault", lambda: thread.wait(0), l4ipc.Closed)
    thread = server.next_thread(62)
    thread._connection.sendall(b"\0\0")
    thread._connection.shutdown(socket.SHUT_WR)
    same("fault F9", raised(lambda: thread._exchange(b"")), frames.FaultTold(ord("F"), F_UNFINISHED))
    thread._connection.close()
    thread = server.next_thread(62)
    same("fault K7", raised(lambda: thread._ask(2 * ipc_frame(to=0, from_specifier=l4ipc.ANYTHREAD), frames.Outcome)).args, ("K", 7))
    raw = socket.socket(socket.AF_UNIX)
    raw.connect(f"{server.folder}/space1")
    raw.sendall(ipc_frame())
    same("fault S1 before HELLO", raw.recv(100), fault("S", S_PROTOCOL))
    raw.close()


def versions(server):
    """Version 2 where it is asked for, F15 for a version that there is not, and an answer that an old client never gets."""
    with server.thread(63) as thread:
        check("version 2", thread.version == 2 and thread.last_call is None)
        told("a call of version 2", lambda: thread.receive(thread.id, 0), l4ipc.Timeout, phase="receive")
        check("its number and moment", isinstance(thread.last_call, int) and isinstance(thread.last_moment, int), f"{thread.last_call}, {thread.last_moment}")
    for version in (0, 1, 3, 65_535):
        raw = socket.socket(socket.AF_UNIX)
        raw.connect(f"{server.folder}/space1")
        raw.sendall(frame_of("HELLO_2", 63, version))
        same(f"HELLO of version {version}", raw.recv(100), fault("F", F_UNKNOWN_VERSION))
        raw.close()


# Errors of both phases.


def errors(server):
    with server.thread(70) as a, server.thread(71) as b, server.thread(72) as c:
        gone = ThreadId.of(99, 1)
        for time_out in (0, 0.003):
            told("timeout of a send", lambda: a.send(b.id, timeout=time_out), l4ipc.Timeout, phase="send", offset=0)
            told("timeout of a receive", lambda: a.receive(b.id, time_out), l4ipc.Timeout, phase="receive", offset=0)
            told("timeout of a wait", lambda: a.wait(time_out), l4ipc.Timeout, phase="receive")
        told("no partner of a send", lambda: a.send(gone), l4ipc.NoPartner, phase="send")
        told("no partner of a call", lambda: a.call(gone), l4ipc.NoPartner, phase="send")
        told("no partner of a receive", lambda: a.receive(gone), l4ipc.NoPartner, phase="receive")
        told("a send to oneself", lambda: a.send(a.id), l4ipc.NoPartner, phase="send")
        began = time.monotonic()
        same("sleep", raised(lambda: a.sleep(0.05)), None)
        check("sleep is as long as it says", time.monotonic() - began >= 0.05)

        waits = beside(lambda: a.receive(b.id))
        same("cancel of a receive", cancel(c, a, receive=True), (False, True))
        told("a cancelled receive", lambda: (_ for _ in ()).throw(waits()), l4ipc.Cancelled, phase="receive")
        sends = beside(lambda: a.call(b.id))
        same("cancel of a send", cancel(c, a, send=True), (True, False))
        told("a cancelled send", lambda: (_ for _ in ()).throw(sends()), l4ipc.Cancelled, phase="send")
        same("a thread of no phase", str(c.exchange_registers(a.id, True, True)), "Exchanged(70.1, was_sending=False, was_receiving=False)")
        same("a thread that is gone", c.exchange_registers(gone, True, True), None)

        waits = beside(lambda: a.wait(buffers=[3]))
        until_waits(c, a)
        told("overflow of a send", lambda: b.send(a.id, Message(0, [1], [b"abc", b"x"])), l4ipc.Overflow, phase="send", offset=3)
        told("overflow of a receive", lambda: (_ for _ in ()).throw(waits()), l4ipc.Overflow, phase="receive", offset=3)
        waits = beside(lambda: a.wait())
        until_waits(c, a)
        told("a string that is not accepted", lambda: b.send(a.id, Message(0, [], [b""])), l4ipc.Overflow, phase="send", offset=0)
        told("and its receiver", lambda: (_ for _ in ()).throw(waits()), l4ipc.Overflow, phase="receive", offset=0)

        waits = beside(lambda: a.receive(b.id))
        until_waits(c, a)
        b.close()
        told("a partner that ends", lambda: (_ for _ in ()).throw(waits()), l4ipc.NoPartner, phase="receive")
        aborts(server, a, c)


def until_waits(other, thread):
    """Until a thread is in a phase: ExchangeRegisters without a bit tells it."""
    for _ in range(5000):
        phase = other.exchange_registers(thread.id)
        if phase and (phase.was_sending or phase.was_receiving):
            return
    raise RuntimeError(f"{thread} is in no phase")


def cancel(other, thread, send=False, receive=False):
    until_waits(other, thread)
    was = other.exchange_registers(thread.id, send, receive)
    return was.was_sending, was.was_receiving


def aborts(server, receiver, other):
    """A transfer that is aborted. Who cancels has to come between two blocks of the copy, so this is tried for a while."""
    text = Message(0, [], [bytes(MAX_STRING_BYTES)])
    came = set()
    until = time.monotonic() + 20
    with server.thread(73) as sender:
        while time.monotonic() < until and not any(kind == "Aborted" for kind, _ in came):
            waits = beside(lambda: receiver.wait(buffers=[MAX_STRING_BYTES]))
            until_waits(other, receiver)
            sends = beside(lambda: sender.send(receiver.id, text))
            for _ in range(200):
                was = other.exchange_registers(sender.id, send=True)
                if was.was_sending:
                    break
            sent = sends()
            if isinstance(sent, l4ipc.Cancelled) or not (was.was_sending or sent is None):
                other.exchange_registers(receiver.id, receive=True)
            got = waits()
            came.add((type(sent).__name__, type(got).__name__))
            if isinstance(sent, l4ipc.Aborted):
                check("both sides of an abort", isinstance(got, l4ipc.Aborted) and got.bytes == sent.bytes and got.bytes % 65_536 == 0, f"{sent!r} {got!r}")
                same("the phases of an abort", (sent.phase, got.phase), ("send", "receive"))
    check("an abort in midst of a transfer", any(kind == "Aborted" for kind, _ in came), str(came))


# Strings and propagation.


def strings(server):
    with server.thread(80) as a, server.thread(81) as b:
        memory, second = bytearray(10), bytearray(4)
        rows = [
            ([], []), ([b""], [3]), ([b"abc"], [3]), ([b"abc", b"", b"hello"], [3, 0, 9]), ([b"abcdefghijklmn"], [[memory, second]]),
            ([b"abcdefg"], [memory]), ([b"abcdefghij" * 3, b"xyz"], [[5, 5, 3, 3, 3, 20], memory]), ([bytes(range(256)) * (MAX_STRING_BYTES // 256)], [MAX_STRING_BYTES]),
            ([bytes([it]) for it in range(16)], [1] * 16), ([bytes(range(31))], [[1] * 31]),
        ]
        for sent, buffers in rows:
            got = beside(lambda: a.receive(b.id, 5, buffers))
            b.send(a.id, Message(5, [9, words.WORD_LIMIT - 1], sent), 5)
            received = got()
            same("strings", [bytes(it) for it in getattr(received, "strings", [repr(received)])], sent)
            same("words with strings", (received.label, received.words, received.sender), (5, (9, words.WORD_LIMIT - 1), b.id))
        same("memory that is filled", (bytes(memory), bytes(second)), (b"xyzdefghij", b"klmn"))


def propagation(server):
    with server.thread(82) as a, server.thread(83) as gate, server.thread(84) as asks, server.thread(85, 2) as other:
        got = beside(lambda: asks.call(gate.id, Message(1, [5])))
        request = gate.wait(5)
        served = beside(lambda: a.wait(5))
        gate.send(a.id, Message(request.label, request.words, originator=request.sender))
        shown = served()
        same("a propagated message", (shown.sender, shown.actual_sender, shown.words), (asks.id, gate.id, (5,)))
        a.send(shown.sender, Message(2, [6]), 0)
        answer = got()
        same("its answer comes from the server itself", (answer.sender, answer.words), (a.id, (6,)))
        served = beside(lambda: a.wait(5))
        gate.send(a.id, Message(0, [], originator=other.id))
        shown = served()
        same("a propagation that is not permitted", (shown.sender, shown.actual_sender), (gate.id, None))
        served = beside(lambda: a.receive(l4ipc.ANYLOCALTHREAD, 5))
        told("a thread of another space is not local", lambda: other.send(a.id, timeout=0), l4ipc.Timeout, phase="send")
        gate.send(a.id, Message(3))
        same("a receive from anylocalthread", served().sender, gate.id)
        same("ExchangeRegisters over spaces", other.exchange_registers(a.id, True, True), None)
