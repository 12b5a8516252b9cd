"""Strangers, and limits of connections, descriptors and tasks."""

import os
import resource
import shutil
import socket
import subprocess
import tempfile
import time

from frames import BYE, hello
from protocol_tables import MAX_CONNECTIONS, WELCOME
from server_cases.running import PROGRAM, has, run, served
from serving import Client, pair_works

# How many descriptors the server of strangers may have, how many strangers come, and how long one may be silent, in seconds.
DESCRIPTORS, STRANGERS, SILENT = 64, 10_000, 1
# One connection more than a path takes without --keep-open.
MOST_CONNECTIONS = MAX_CONNECTIONS + 1
# How many tasks a server may have that gets no further worker.
TASKS = 12
# A user whom nobody else is.
USER = 54_321
# What is told who would follow a server that has no worker for him, and one without a trace.
NO_WORKER, NO_TRACE = "no worker is left for one who follows: ask again\n", "no trace: start l4d with --trace, as --trace /dev/null\n"
# The bytes of a worker's stack, and more addresses than a server takes that was not compiled to find faults of memory.
STACK, MOST_ADDRESSES = 1 << 18, 1 << 40


def strangers():
    """Strangers who connect and say nothing use up no path: a pair works on, a new client is served, and the server ends well."""
    with served("--hello-within", str(SILENT), preexec_fn=lambda: resource.setrlimit(resource.RLIMIT_NOFILE, (DESCRIPTORS, DESCRIPTORS))) as server:
        pair = Client(server.path, 1), Client(server.path, 2)
        came, waiting, trips, begin = 0, [], 0, time.time()
        while came < STRANGERS:
            # most leave at once, as scanners do; some stay and say nothing
            try:
                stranger = Client(server.path)
            except BlockingIOError:
                # the system's queue for the path is full
                time.sleep(0.01)
                continue
            came += 1
            if came % 100 == 0:
                waiting.append(stranger)
                pair_works(pair)
                trips += 1
            else:
                stranger.line.close()
        spent = time.time() - begin
        begin = time.time()
        new = None
        while new is None:
            try:
                new = Client(server.path, 3, seconds=30)
            except BlockingIOError:
                time.sleep(0.01)
        after = time.time() - begin
        pair_works((pair[0], new))
        pair_works(pair)
        files = len(os.listdir(f"/proc/{server.process.pid}/fd"))
        assert files <= DESCRIPTORS, files
        shut = [stranger for stranger in waiting if stranger.is_shut(0.05)]
        assert shut, "no silent stranger was closed"
        assert pair[0].is_shut(0.05) is False, "the pair was closed"
        return f"{came} strangers in {spent:.1f} s, {trips} round trips meanwhile, a new client after {after:.1f} s, {len(shut)} silent ones closed"


def no_descriptor():
    """An accept that finds no descriptor is tried again, told once, and does not count as a connection."""
    with served("--connections", "40") as server:
        first = Client(server.path, 1)
        files = len(os.listdir(f"/proc/{server.process.pid}/fd"))
        resource.prlimit(server.process.pid, resource.RLIMIT_NOFILE, (files, DESCRIPTORS))
        # an accept that waits has its descriptor already, so the first may still come
        late = [Client(server.path) for _ in range(3)]
        late[2].line.sendall(hello(2))
        time.sleep(0.5)
        late[2].line.settimeout(0.2)
        try:
            raise AssertionError(late[2].hear())
        except TimeoutError:
            pass
        resource.prlimit(server.process.pid, resource.RLIMIT_NOFILE, (DESCRIPTORS, DESCRIPTORS))
        late[2].line.settimeout(5)
        assert late[2].hear()[0] == WELCOME
        for number in range(3, 3 + 36):
            client = Client(server.path, number)
            client.line.close()
        for client in (first, *late):
            client.line.close()
        status, out, err = server.end()
        assert (status, out) == (0, "closed\n"), (status, out, err)
        assert err.count("\n") == 1, err
        has(err, "l4d: no connection can be accepted: ", "os error 24", " connections are there")
        return err.strip()


def few_connections():
    """--live 2: a third is served once one of the two has ended or was silent for too long."""
    with served("--live", "2", "--hello-within", str(SILENT)) as server:
        one, silent = Client(server.path, 1), Client(server.path)
        begin = time.time()
        three = Client(server.path, 3)
        spent = time.time() - begin
        assert spent > SILENT / 2, spent
        assert silent.is_shut(1) and not one.is_shut(0.1)
        four = Client(server.path)
        four.line.sendall(hello(4))
        assert not four.is_shut(2 * SILENT), "a thread was closed for a newer connection"
        one.line.sendall(BYE)
        four.line.settimeout(5)
        assert four.hear()[0] == WELCOME
        three.line.close()
        return f"the third connection was served after {spent:.1f} s, when the silent one was closed"


def is_refused(path):
    """Whether who connects to a path is refused at once."""
    with socket.socket(socket.AF_UNIX) as late:
        late.settimeout(5)
        try:
            late.connect(path)
        except ConnectionRefusedError:
            return True
        return False


def closed_path():
    """A path that has had its connections refuses further ones at once, those that wait there, too; its server goes on, and ends with the last of them."""
    for words, told in ((("--log",), True), ((), False)):
        with served("--connections", "2", *words) as server:
            pair = Client(server.path, 1), Client(server.path, 2)
            time.sleep(0.5)
            assert is_refused(server.path)
            pair_works(pair)
            assert "in use" in run("--dir", server.folder, "--spaces", "1", "--replace")[2]
            for client in pair:
                client.bye()
            status, out, err = server.end()
            assert (status, out) == (0, "closed\n") and not os.path.exists(server.path), (status, out, err)
            line = f"l4d: {server.path} refuses connections from now on, since it has had 2: a greater --connections helps, or --keep-open\n"
            assert (line in err) == told and (told or err == ""), err
    with served("--connections", "2", "--live", "1") as server:
        # the second one waits for room, and the third one waits to be accepted
        one, two, three = Client(server.path, 1), Client(server.path), Client(server.path)
        two.line.sendall(hello(2))
        time.sleep(0.5)
        one.bye()
        assert two.hear()[0] == WELCOME
        assert three.is_shut(5) and is_refused(server.path)
        two.bye()
        status, out, err = server.end()
        assert (status, out) == (0, "closed\n"), (status, out, err)
        has(err, f"l4d: {server.path} refuses connections from now on, since it has had 2")
    return err.strip().splitlines()[-1]


def too_few_tasks():
    """A server that cannot start its own workers ends with 1 and says what helps, and never that it listens."""
    if left_out := without_limits():
        return left_out
    ended = 0
    for tasks in range(2, TASKS + 1):
        with tempfile.TemporaryDirectory() as folder, limited(folder, tasks) as process:
            if process.stdout.readline():
                time.sleep(0.3)
                assert process.poll() is None, (tasks, process.communicate())
                process.kill()
                break
            _, err = process.communicate()
            assert process.returncode == 1, (tasks, process.returncode, err)
            has(err.decode(), "l4d: no worker can be started")
            assert not os.path.exists(f"{folder}/space1"), tasks
            ended += 1
    else:
        raise AssertionError("it never listens")
    assert ended, "it always listens"
    return f"with {ended} limits it ended with 1, and told nothing before"


def few_tasks():
    """A server that may start no further worker closes the connection, says why and what helps, with --log each time, and serves on."""
    if left_out := without_limits():
        return left_out
    # of one of the two it is the first worker of a connection that cannot be started, of the other one the second
    followed = set()
    for tasks in (TASKS, TASKS + 1):
        for log in ((), ("--log",)):
            said = few_tasks_of(tasks, log, followed)
    # of one of the two a worker may be left for who asks
    assert NO_WORKER in followed and followed <= {NO_WORKER, NO_TRACE}, followed
    return said


def without_limits():
    """Why no server can be run with few tasks, if none can."""
    if not shutil.which("prlimit") or os.getuid() != 0:
        return "left out: prlimit and root are wanted"
    return None if shutil.which("setpriv") else "left out: setpriv is wanted"


def limited(folder, tasks, *words):
    """A server that may have so many tasks, as a user whom nobody else is: the limit counts all tasks of a user."""
    os.chmod(folder, 0o777)
    run_as = ["prlimit", f"--nproc={tasks}", "setpriv", f"--reuid={USER}", f"--regid={USER}", "--clear-groups"]
    place = f"{folder}/l4d"
    shutil.copy(PROGRAM, place)
    os.chmod(place, 0o755)
    return subprocess.Popen([*run_as, place, "--dir", folder, "--spaces", "1", *words], stdin=subprocess.DEVNULL, stdout=subprocess.PIPE, stderr=subprocess.PIPE)


def asked(folder, word):
    """What the server of a folder answers who asks."""
    with socket.socket(socket.AF_UNIX) as asker:
        asker.settimeout(30)
        asker.connect(f"{folder}/control")
        asker.sendall(f"{word}\n".encode())
        return b"".join(iter(lambda: asker.recv(65_536), b"")).decode()


def told_to_followers(folder, awaited):
    """What is answered to those who would follow, one behind the other, until one is told what is awaited: the worker of who asked before may not have
    ended when the next one asks."""
    answers = set()
    for _ in range(20):
        answers.add(asked(folder, "trace follow"))
        if awaited in answers:
            break
        time.sleep(0.2)
    return answers


def few_tasks_of(tasks, log, followed):
    """The same, with so many tasks; what is answered to who would follow."""
    with tempfile.TemporaryDirectory() as folder, limited(folder, tasks, *log) as process:
        try:
            assert process.stdout.readline() == b"listening 1\n", process.communicate()
            clients, refused = [], 0
            for number in range(1, 12):
                try:
                    clients.append(Client(f"{folder}/space1", number, seconds=5))
                except (EOFError, ConnectionResetError, BrokenPipeError):
                    refused += 1
            assert refused and len(clients) >= 2, (refused, len(clients))
            pair_works(clients[:2])
            # with no worker of their own they are answered, too, one behind the other
            for word, answer in 3 * [("state", "1.1  space 1  "), ("counters", "connections ")]:
                assert answer in asked(folder, word), (word, asked(folder, word))
            followed |= told_to_followers(folder, NO_WORKER)
            for client in clients[1:]:
                client.line.sendall(BYE)
            time.sleep(0.3)
            again = Client(f"{folder}/space1", 100)
            pair_works((clients[0], again))
            # who asks gets a worker of his own where one is left
            assert NO_TRACE in told_to_followers(folder, NO_TRACE)
        finally:
            process.kill()
        err = process.communicate()[1].decode()
        told = turned_away(err)
        assert len(told) == (refused if log else 1), (refused, err)
        return f"{len(clients)} served, {refused} closed, and served again once there was room; {told[0]}"


def turned_away(err):
    """The lines of connections that got no worker, or no memory."""
    lines = [line for line in err.splitlines() if line.startswith("l4d: a connection of space 1 is closed, since there is no ")]
    for line in lines:
        has(line, " for it", " connections are there: ", "`ulimit -v`", "`ulimit -u`", "LimitAS=", "TasksMax=")
        assert "would block" not in line, line
    return lines


def little_memory():
    """A server whose address space has no room for one more stack closes the connection, says why, and serves on; its clients are told whom to ask."""
    with served() as server:
        there = Client(server.path, 1), Client(server.path, 2)
        with open(f"/proc/{server.process.pid}/status") as file:
            size = next(int(line.split()[1]) * 1024 for line in file if line.startswith("VmSize:"))
        if size > MOST_ADDRESSES:
            return "left out: this program was compiled to find faults of memory, and takes all addresses"
        closed = 0
        # with room for no worker, and with room for one of the two
        for more in (0, STACK + STACK // 2):
            resource.prlimit(server.process.pid, resource.RLIMIT_AS, (size + more, resource.RLIM_INFINITY))
            for number in range(3, 8):
                try:
                    Client(server.path, number, seconds=5).line.close()
                except (EOFError, ConnectionResetError, BrokenPipeError):
                    closed += 1
        assert closed, "each connection was served"
        pair_works(there)
        resource.prlimit(server.process.pid, resource.RLIMIT_AS, (resource.RLIM_INFINITY, resource.RLIM_INFINITY))
        pair_works((there[0], Client(server.path, 100)))
        server.process.kill()
        err = server.process.communicate()[1].decode()
        told = turned_away(err)
        assert len(told) == 1, (closed, err)
        return f"{closed} closed; {told[0]}"


def full():
    """A server that has no room for a connection says so once, and what helps; with --log it tells each connection that waits."""
    for words, before, helps in ((("--live", "2"), (), "--live"), ((), ("prlimit", "--nofile=30"), "LimitNOFILE")):
        if before and not shutil.which(before[0]):
            continue
        for log in ((), ("--log",)):
            with served(*words, *log, before=before) as server:
                there = [Client(server.path) for _ in range(8)]
                time.sleep(0.5)
                for client in there:
                    client.line.close()
                time.sleep(0.5)
                server.process.kill()
                err = server.end()[2]
                assert err.count("l4d: full: ") == 1 and "connections are there" in err and helps in err, err
                assert ("l4d: no room yet for a connection of space 1\n" in err) == bool(log), err
    return err.splitlines()[1]


def kept_open():
    """--keep-open: a path goes on past the number of connections after which it closes otherwise; without it that number is the last."""
    # so few descriptors that no crowd of threads builds up: who comes then waits for room
    few = lambda: resource.setrlimit(resource.RLIMIT_NOFILE, (4 * DESCRIPTORS, 4 * DESCRIPTORS))
    with served("--keep-open", preexec_fn=few) as server:
        pair = Client(server.path, 1), Client(server.path, 2)
        begin = time.time()
        for _ in range(MOST_CONNECTIONS):
            came = socket.socket(socket.AF_UNIX)
            came.connect(server.path)
            came.close()
        spent = time.time() - begin
        pair_works(pair)
        pair_works((pair[0], Client(server.path, 3)))
        assert server.process.poll() is None
    status, out, err = run("--dir", "/", "--spaces", "1", "--connections", "2", "--keep-open")
    assert (status, out) == (2, "") and "--keep-open: no --connections beside it, got 2" in err, err
    return f"{MOST_CONNECTIONS} connections in {spent:.0f} s, and a pair and a new client work on"
