"""Names: servers and name servers that restart, bad names, and names of who propagates."""

import asyncio
import os
import signal
import time

from python_client.package import name_server
from python_client.seeing import Message, PlainServer, Server, ThreadId, aio, beside, check, end, l4ipc, names, output, raised, same, told


def server_restarts(server):
    """A server of two versions, under one name."""
    with server.thread(90) as asks:
        asked = names.Names(asks)
        same("no such name", asked.lookup("echo"), None)
        told("a name that does not come", lambda: asked.wait_for("echo", 0.01), l4ipc.NameTimeout)
        told("a call of it", lambda: asks.call("echo", wait_for=0.01), l4ipc.Unregistered, waited=0.01)
        first = server.thread(91)
        same("register", str(names.register(first, "echo")), "91.1")
        same("register again", str(names.register(first, "echo")), "91.1")
        same("look up", str(asked.lookup("echo")), "91.1")
        told("taken", lambda: asked.register("echo"), names.NameFault, number=names.NameFault.TAKEN, holder=first.id)
        first.close()
        wait_until_gone(asks, first.id)
        same("the name of a thread that ended", asked.lookup("echo"), None)
        second = server.thread(91)
        same("the second version", str(names.register(second, "echo")), "91.2")
        same("look up of the second version", str(asked.lookup("echo")), "91.2")
        served = beside(lambda: second.reply_wait(second.wait(5).sender, Message(0, [42]), 0))
        same("a call of it by its name", asks.call(asked.lookup("echo"), Message(1)).words, (42,))
        served()
        second.close()
        wait_until_gone(asks, second.id)
        third = server.thread(91)
        same("a name that is taken over from a thread that ended", str(names.register(third, "echo")), "91.3")
        third.close()


def wait_until_gone(thread, other):
    for _ in range(500):
        if not names.is_live(thread, other):
            return
        time.sleep(0.002)


def bad_names(server):
    fault = names.NameFault
    with server.thread(92) as thread:
        asked = names.Names(thread)
        longest = "~" * 64
        same("the longest name", asked.register(longest), thread.id)
        for name in ("", " ", "a b", "a\n", "\x7f", "é"):
            told(f"bad name {name!r}", lambda: asked.register(name), ValueError)
            told(f"bad name {name!r} looked up", lambda: asked.lookup(name), ValueError)
            # the client sends none of these, and the server refuses each
            for label in (1, 2):
                answer = thread.call(asked.server, Message(label, [], [name.encode()]))
                same(f"bad name {name!r} with label {label}", (answer.label, answer.words), (fault.BAD_NAME, (0,)))
        same("it is found", asked.lookup(longest), thread.id)
        for message in (Message(0), Message(1), Message(1, [1], [b"a"]), Message(2, [1]), Message(3), Message(4, [], [b"a"]), Message(3, [0], [b""])):
            answer = thread.call(asked.server, message, buffers=[64])
            same(f"bad request {message}", (answer.label, answer.words, answer.strings), (fault.BAD_REQUEST, (0,), ()))
        for message in (Message(1, [], [b"a" * 65]), Message(1, [], [b"a", b"b"])):
            told("a request past the server's buffer", lambda: thread.call(asked.server, message), l4ipc.Overflow, phase="send")
        answer = thread.call(asked.server, Message(3, [], [b"\xff"]), buffers=[64])
        same("a list after what is no name", answer.label, fault.BAD_NAME)
        thread.send(asked.server, Message(1, [], [b"quiet"]))
        same("a register that waits for no answer", asked.lookup("quiet"), thread.id)
        same("the list", asked.list(), [("quiet", thread.id), (longest, thread.id)])


def propagated_names(server):
    with server.thread(93) as gate, server.thread(94) as other, server.thread(95, 2) as stranger:
        asked = names.Names(gate)
        same("no such name", asked.lookup("other"), None)
        # the server answers whom it registers, so that the gate gets no answer; it looks the name up afterwards
        same("a thread of the own space is registered", names.Names(gate, timeout=5).register("other", originator=other.id), other.id)
        same("and has its name", asked.lookup("other"), other.id)
        told("a name that another one has", lambda: names.Names(gate, timeout=5).register("other", originator=ThreadId.of(999, 1)), l4ipc.NameFault, number=3,
             holder=other.id)
        same("a thread of another space is not", asked.register("stranger", originator=stranger.id), gate.id)
        same("its own", names.Names(stranger).register("own"), stranger.id)
        same("names over spaces", asked.lookup("own"), stranger.id)


def busy_names(server):
    """Threads that look each other up while all of them ask: the name server meets requests of those whom it asks the kernel about."""
    threads = [server.thread(number) for number in range(100, 108)]
    for thread in threads:
        names.register(thread, f"busy{thread.id.number}")
    wrong = []

    def asks(place):
        asked = names.Names(threads[place])
        for turn in range(60):
            wanted = threads[(place + turn) % len(threads)].id
            found = asked.lookup(f"busy{wanted.number}")
            if found != wanted:
                wrong.append((found, wanted))
        return "done"

    joined = [beside(lambda place=place: asks(place)) for place in range(len(threads))]
    same("busy look ups end", [it(60) for it in joined], ["done"] * len(threads))
    same("busy look ups", wrong, [])
    for thread in threads:
        thread.close()


def full_names(server):
    with server.thread(96) as thread, server.thread(97) as asks:
        asked = names.Names(thread)
        wait_until_listed(asks, 0)
        for place in range(256):
            asked.register(f"n{place:03}")
        told("full", lambda: names.register(asks, "more"), names.NameFault, number=names.NameFault.FULL)
        check("full tells the limit", "256 names" in str(raised(lambda: names.register(asks, "more"))))
        same("a full list", [name for name, _ in names.Names(asks).list()], [f"n{place:03}" for place in range(256)])
    with server.next_thread(97) as asks:
        wait_until_gone(asks, thread.id)
        same("room after their thread has ended", names.register(asks, "more"), asks.id)
        same("the list drops who ended", names.Names(asks).list(), [("more", asks.id)])


def wait_until_listed(thread, count):
    for _ in range(500):
        if len(names.Names(thread).list()) == count:
            return
        time.sleep(0.002)


def stopped_names(l4d, l4x):
    """A name server that is live and does not answer: each wait keeps its limit, and says who did not answer."""
    server = Server(l4d)
    process = name_server(server, l4x, 1)
    kv, first, second = (l4ipc.Thread(server.folder, number, wait_for=10) for number in (1, 2, 3))
    names.register(kv, "kv")
    os.kill(process.pid, signal.SIGSTOP)
    # (it has taken the request of the first thread, so its receive phase is what fails; of the second one the send phase)
    for thread in (first, second):
        asked, hasty = names.Names(thread), names.Names(thread, timeout=0.2)
        in_time(f"{thread.id}: wait_for", 1, lambda: asked.wait_for("kv", 1), l4ipc.NameTimeout, "the name server 255.1 does not answer; waited for 'kv' for 1 second")
        in_time(f"{thread.id}: wait_for, of short tries", 1, lambda: hasty.wait_for("kv", 1), l4ipc.NameTimeout, "255.1 does not answer")
        in_time(f"{thread.id}: wait_to_register", 1, lambda: asked.wait_to_register("more", 1), l4ipc.NameTimeout, "255.1 does not answer")
        text = "to 255.1: timeout (error 0x2): the name server did not answer who has the name 'kv'{}; nothing was delivered"
        in_time(f"{thread.id}: a call", 1, lambda: thread.call("kv", wait_for=1), l4ipc.Timeout, text.format(", after waiting for 1 second"))
        in_time(f"{thread.id}: a send", 1, lambda: thread.send("kv", wait_for=1), l4ipc.Timeout, text.format(", after waiting for 1 second"))
    in_time("a call that does not wait", 2, lambda: second.call("kv"), l4ipc.Timeout, text.format(""))
    in_time("aio: wait_for", 1, lambda: asyncio.run(waits_for(server.folder)), l4ipc.NameTimeout, "the name server 255.1 does not answer; waited for 'kv' for 1 second")
    # more clients at once, which wait longer than it is stopped
    serves = beside(lambda: kv.serve(lambda request: Message(0, [42]), tell=lambda *_: None))
    asks = beside(lambda: asyncio.run(calls_of(server.folder, range(10, 30))))
    time.sleep(5)
    os.kill(process.pid, signal.SIGCONT)
    same("calls that outlast a name server that is stopped", asks(30), [(42,)] * 20)
    same("its name is found", names.Names(second, timeout=2).wait_for("kv", 2), kv.id)
    server.stop()
    serves(10)
    for thread in (kv, first, second):
        thread.close()


def answered_answers(l4d, l4x):
    """Servers of l4x whose answers are answered without an end: they pause, so that an answer finds nobody who waits for it."""
    server = Server(l4d)
    name_server(server, l4x, 1)
    server.start([l4x, server.folder, "keyvalue"])
    with l4ipc.Thread(server.folder, 5, wait_for=10) as bounces:
        for to in (ThreadId.of(1, 1), ThreadId.of(names.NUMBER, 1)):
            bounces.call(to, Message(9, [1]), wait_for=10)
            came, turns = bounces.ipc(to, l4ipc.ANYTHREAD, Message(9, [1]), 10, 10), 0
            while came is not None and turns < 20_000:
                try:
                    came, turns = bounces.reply_wait(came.sender, Message(9, [1]), 10), turns + 1
                except l4ipc.Timeout as end:
                    came, phase = None, end.phase
            same(f"{to} is answered so often: {turns}", (came, phase if came is None else None, turns > 3_000), (None, "send", True))
            same(f"{to} serves on", bounces.call(to, Message(9, [1]), 10, 10).sender, to)
    server.stop()


def chosen_names(l4d, l4x):
    """A name server past version 63 is chosen for a thread; whatever asks for a name asks that one then, and no other."""
    server = Server(l4d)
    for _ in range(names.MAX_VERSION):
        server.thread(names.NUMBER).close()
    # (no version has zero as its six lowest bits)
    process, chosen = server.start([l4x, server.folder, "names"]), ThreadId.of(names.NUMBER, names.MAX_VERSION + 2)
    same("the first line of a name server", process.stdout.readline(), f"names {chosen}\n")
    same("it says who finds it", process.stdout.readline(),
         "l4x: clients find a name server of a version up to 63 by themselves: give them this id, or start l4d anew\n")
    kv, asks = l4ipc.Thread(server.folder, 1), l4ipc.Thread(server.folder, 2)
    told("one that is not chosen", lambda: asks.call("kv"), l4ipc.NoNames, server=None)
    same("register with one that is chosen", names.Names(kv, chosen).register("kv"), kv.id)
    names.Names(asks, chosen)
    serves = beside(lambda: kv.serve(lambda request: Message(0, [42]), tell=lambda *_: None))
    same("a call of a name", asks.call("kv").words, (42,))
    same("a coroutine's", asyncio.run(calls_chosen(server.folder, chosen)), (42,))
    kv.kept.again_at = 0.0
    asks.send("kv")
    same("it is registered again where it was chosen", [asks.call("kv").words, kv.kept.again_at > 0], [(42,), True])
    end(process)
    wait_until_gone(asks, chosen)
    for what, does in (("look up", lambda: names.Names(asks).lookup("kv")), ("call", lambda: asks.call("more")), ("send", lambda: asks.send("more"))):
        told(f"{what} where it has ended", does, l4ipc.NoNames, server=chosen)
    server.stop()
    serves(10)
    for thread in (kv, asks):
        thread.close()


async def calls_chosen(folder, chosen):
    async with aio.Thread(folder, 3) as thread:
        aio.Names(thread, chosen)
        return (await thread.call("kv")).words


async def waits_for(folder):
    async with aio.Thread(folder, 4, wait_for=10) as thread:
        return await aio.Names(thread).wait_for("kv", 1)


async def calls_of(folder, numbers):
    """What clients are answered that call a name at once."""
    async def one(number):
        async with aio.Thread(folder, number, wait_for=10) as thread:
            return (await thread.call("kv", Message(8), wait_for=30)).words
    return await asyncio.gather(*map(one, numbers), return_exceptions=True)


def in_time(what, seconds, does, kind, text):
    """It fails so, after so many seconds, and not much later."""
    began, answer = time.monotonic(), beside(does)(20)
    took = time.monotonic() - began
    check(f"{what}, stopped: its error", isinstance(answer, kind) and text in str(answer), repr(answer))
    check(f"{what}, stopped: its time", seconds - 0.1 < took < seconds + 1, took)


def names_over_restarts(l4d, l4x):
    """A client that keeps its connection over the restart of l4d: what it calls by a name goes to who has that name in the new one."""
    for how in (signal.SIGTERM, signal.SIGKILL):
        server = Server(l4d)
        started_names(server, l4x, 4)
        clients = [Blocking(server.folder, 30), Waiting(server.folder, 31)]
        with l4ipc.Thread(server.folder, 1) as echo:
            names.register(echo, "echo")
            serves = beside(lambda: echo.serve(lambda request: Message(0, [111]), tell=lambda *_: None))
            for client in clients:
                same(f"{client.what}: before the restart", client.call("echo").words, (111,))
                same(f"{client.what}: it registers", client.register(f"client{client.thread.id.number}"), client.thread.id)
            restarted(server, l4d, how)
            serves(10)
        started_names(server, l4x, 1)
        what = f"{how.name}, {{}}: {{}}".format
        with l4ipc.Thread(server.folder, 1) as other, l4ipc.Thread(server.folder, 2) as echo:
            # (the old id is that of a thread that is there and receives nothing, and nobody has the name)
            for client in clients:
                answer = beside(lambda: client.call("echo", wait_for=0.3))(10)
                check(what(client.what, "a name that nobody has registered"), isinstance(answer, l4ipc.Unregistered), repr(answer))
                client.thread.kept.names.clear()
                check(what(client.what, "it registers again"), client.register(f"client{client.thread.id.number}") == client.thread.id)
            names.register(echo, "echo")
            came = []
            serves = beside(lambda: echo.serve(lambda request: came.append(request.label) or Message(0, [222]), tell=lambda *_: None))
            for label, client in enumerate(clients):
                same(what(client.what, "a call"), client.call("echo", Message(label)).words, (222,))
                client.send("echo", Message(label + 10))
                same(what(client.what, "a call after a send"), client.call("echo").words, (222,))
                same(what(client.what, "its connections"), client.thread.lives, 2)
            same(what("both", "what came"), came, [0, 10, 0, 1, 11, 0])
            told(what("both", "nothing came to the old id"), lambda: other.wait(0), l4ipc.Timeout, phase="receive")
            restarted(server, l4d, how)
            serves(10)
        # the first message after the restart is a send
        started_names(server, l4x, 1)
        with l4ipc.Thread(server.folder, 2) as other, l4ipc.Thread(server.folder, 3) as echo:
            names.register(echo, "echo")
            sends = beside(lambda: [client.send("echo", Message(9), 5) for client in clients])
            same(what("both", "a send alone"), [echo.wait(5).label for _ in clients], [9, 9])
            sends(10)
            told(what("both", "no send came to the old id"), lambda: other.wait(0), l4ipc.Timeout, phase="receive")
            for client in clients:
                client.close()
        server.stop()


def started_names(server, l4x, version):
    """The name server, once it was started again so often that it has this version."""
    for turn in range(1, version + 1):
        process = name_server(server, l4x, turn)
        if turn < version:
            end(process)
            with server.next_thread(248) as thread:
                wait_until_gone(thread, ThreadId.of(names.NUMBER, turn))


def restarted(server, l4d, how):
    """The l4d of a server, ended so and started again in its folder; its programs are ended first."""
    for process in server.started:
        end(process)
    server.started.clear()
    server.process.send_signal(how)
    server.process.communicate()
    server.process = PlainServer(l4d, "--replace", folder=server.folder).process


class Blocking:
    """A client that connects again, whose calls block."""

    what = "a thread"

    def __init__(self, folder, number):
        self.thread = l4ipc.Thread(folder, number, wait_for=10, reconnect=True)
        self.asked = names.Names(self.thread)

    def call(self, *words, **more):
        return self.thread.call(*words, **more)

    def send(self, *words, **more):
        self.thread.send(*words, **more)

    def register(self, name):
        return self.asked.register(name)

    def close(self):
        self.thread.close()


class Waiting:
    """The same of one whose calls are coroutines."""

    what = "a thread of coroutines"

    def __init__(self, folder, number):
        self.loop = asyncio.new_event_loop()
        self.thread = aio.Thread(folder, number, wait_for=10, reconnect=True)
        self.asked = aio.Names(self.thread)
        self.loop.run_until_complete(self.thread.connect())

    def call(self, *words, **more):
        return self.loop.run_until_complete(self.thread.call(*words, **more))

    def send(self, *words, **more):
        self.loop.run_until_complete(self.thread.send(*words, **more))

    def register(self, name):
        return self.loop.run_until_complete(self.asked.register(name))

    def close(self):
        self.thread.close()
        self.loop.close()


def looked_up(server, l4x, name):
    """What `l4x lookup` prints, and its status."""
    return said_by(server, l4x, "lookup", name)


def said_by(server, l4x, *words):
    """What a role of l4x prints, and its status."""
    return output(server.start([l4x, server.folder, *words]))


def name_server_restarts(server, l4x, process):
    with server.thread(98) as thread:
        asked = names.Names(thread)
        asked.register("before")
        end(process)
        wait_until_gone(thread, asked.server)
        told("no name server", lambda: asked.lookup("before"), names.NoNames)
        told("none that comes", lambda: thread.call("before", wait_for=0.01), l4ipc.NoNames, waited=0.01)
        name_server(server, l4x, 2)
        same("a new name server has forgotten", asked.lookup("before"), None)
        same("it was found", str(asked.server), "255.2")
        asked.register("after")
        text, status = looked_up(server, l4x, "after")
        same("l4x lookup", (status, text), (0, "98.1\n"))
        text, status = looked_up(server, l4x, "nobody")
        same("l4x lookup of nobody", (status, text), (1, "nothing\n"))
        for words, missing in ((["get", "1"], "there is no such server: start l4x DIR keyvalue"),
                               (["put", "1", "2", "gateway"], "there is no such server: start l4x DIR gateway"),
                               (["get", "1", "--names"], "nobody has the name keyvalue: start l4x DIR keyvalue --names, or wait 5 seconds for one that runs")):
            text, status = said_by(server, l4x, *words)
            same(f"l4x {' '.join(words)} where nobody serves", (status, text), (1, f"l4x: {server.folder}/space1: {missing}\n"))
    server.start([l4x, server.folder, "keyvalue", "--names"])
    server.start([l4x, server.folder, "gateway", "--names"])
    with server.next_thread(98) as thread:
        asked = names.Names(thread)
        same("l4x registers", [str(asked.wait_for(name, 10)) for name in ("keyvalue", "gateway")], ["1.1", "2.1"])
        answer = thread.call(asked.lookup("gateway"), Message(1, [7, 70]))
        same("a put through the gateway of l4x", (answer.label, answer.words, str(answer.sender)), (3, (70,), "1.1"))
    for said, wanted in ((("get", "7", "--names"), "70\n"), (("get", "7", "gateway", "--names"), "70\n"), (("get", "7"), "70\n"), (("get", "8"), "nothing\n")):
        same(f"l4x {' '.join(said)}", output(server.start([l4x, server.folder, *said])), (wanted, 0))
