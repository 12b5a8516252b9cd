"""Traces, and what is told."""

import fcntl
import mmap
import os
import re
import resource
import signal
import socket
import stat
import tempfile
import threading
import time

from frames import frame, hello, ipc
from protocol_tables import FAULT, IPCR, K_NUMBER_TAKEN, REFUSED
from server_cases.running import BLOCKED, has, run, served
from serving import Client, pair_works, rest_of

# So many processes make so many calls each, which are more than may wait for a trace.
CALLERS, EACH = 2, 30_000
# So many lines of a log are more than a pipe of four pages takes.
LINES = 1000


def traces():
    """A trace that is made is its owner's alone; one that is required and fails ends the server, at the start before anything is accepted."""
    with tempfile.TemporaryDirectory() as folder:
        old = os.umask(0)
        try:
            file = f"{folder}/trace"
            told = run("--dir", folder, "--spaces", "1", "--connections", "2", "--probe", "--trace", file, "--trace-required")
        finally:
            os.umask(old)
        assert told == (0, "listening 1\nprobe 0x7\nclosed\n", ""), told
        assert stat.S_IMODE(os.stat(file).st_mode) == 0o600, oct(os.stat(file).st_mode)
        told = run("--dir", folder, "--spaces", "1", "--trace", f"{folder}/none/trace", "--trace-required")
        assert (told[0], told[1]) == (1, ""), told
        has(told[2], f"l4d: trace TR1\n  {folder}/none/trace cannot be opened: No such file", "--trace-required")
        assert not os.path.exists(f"{folder}/space1")
        told = run("--dir", folder, "--spaces", "1", "--trace", "/dev/full", "--trace-required")
        assert (told[0], told[1]) == (1, ""), told
        has(told[2], "l4d: trace TR1\n", "--trace-required")
        assert not os.path.exists(f"{folder}/space1")

        def little_room():
            # room for the line of the version, and a write past it fails
            signal.signal(signal.SIGXFSZ, signal.SIG_IGN)
            resource.setrlimit(resource.RLIMIT_FSIZE, (len("l4trace 2\n"),) * 2)

        with served("--trace", f"{folder}/short", "--trace-required", preexec_fn=little_room) as server:
            try:
                client = Client(server.path, 1)
                assert client.is_shut(5)
            except (EOFError, ConnectionResetError):
                pass
            status, out, err = server.end()
            assert status == 1 and not os.path.exists(server.path), (status, out, err)
            has(err, "l4d: trace TR1\n", "--trace-required")
        return "mode 0600; at the start, on a full device, and at a later write that fails, status 1"


def call_nobody(path, number, count):
    """A process of its own that calls a thread which is not there, so often."""
    child = os.fork()
    if child:
        return child
    status = 1
    try:
        caller, call = Client(path, number, seconds=120), ipc(77 << 32 | 1, 0, [])
        status = 0 if all(caller.ask(call)[0] == IPCR for _ in range(count)) else 2
    finally:
        os._exit(status)


def lines_of(pipe, read):
    """Adds what comes out of a pipe to a list until its end."""
    while piece := os.read(pipe, 1 << 20):
        read.append(piece)


def slow_trace():
    """Who asks waits for a trace that nobody reads; that is told once; the control path answers; and when it is read all go on, and it is whole."""
    with tempfile.TemporaryDirectory() as folder:
        fifo = f"{folder}/trace"
        os.mkfifo(fifo)
        pipe = os.open(fifo, os.O_RDONLY | os.O_NONBLOCK)
        with served("--trace", fifo, "--connections", str(CALLERS)) as server:
            callers = [call_nobody(server.path, 10 + it, EACH) for it in range(CALLERS)]
            waited, behind = time.time() + 60, -1
            while time.time() < waited and behind != (behind := behind_of(server)):
                time.sleep(4)
            assert all(os.waitpid(it, os.WNOHANG) == (0, 0) for it in callers), "nobody waits"
            os.set_blocking(pipe, True)
            read = []
            reader = threading.Thread(target=lines_of, args=(pipe, read))
            reader.start()
            assert [os.waitpid(it, 0)[1] for it in callers] == [0] * CALLERS
            status, out, err = server.end(60)
            reader.join()
            os.close(pipe)
            told = re.fullmatch(rf"l4d: {re.escape(fifo)} is a pipe: l4d waits until somebody reads it\nl4d: connections wait for the trace, which is (\d+) entries behind: "
                                "whoever reads the pipe of --trace, or its disk, holds them up\n", err)
            assert (status, out) == (0, "closed\n") and told and abs(int(told[1]) - behind) < 100, (status, out, err, behind)
            trace, calls = b"".join(read), CALLERS * EACH
            assert trace.startswith(b"l4trace 2\n") and trace.endswith(b"\n")
            assert trace.count(b"\ncalled ") == calls and trace.count(b"\nfailed ") == calls, trace.count(b"\n")
        return f"{calls} calls, which waited at {told[1]} entries, and then a trace of {trace.count(bytes([10]))} lines"


def behind_of(server):
    """How many entries its trace is behind, as the control path tells."""
    with socket.socket(socket.AF_UNIX) as asker:
        asker.connect(f"{server.folder}/control")
        asker.sendall(b"counters\n")
        return int(re.search(r"^trace_entries_behind (\d+)$", rest_of(asker), re.M)[1])


def log():
    """--log tells paths, refused connections, faults with their thread, and counters; nothing is told without it."""
    for words, told in ((("--log",), True), ((), False)):
        with served("--connections", "4", *words) as server:
            pair = Client(server.path, 1), Client(server.path, 2)
            pair_works(pair)
            taken = Client(server.path)
            assert taken.ask(hello(1)) == (REFUSED, bytes([K_NUMBER_TAKEN]))
            assert Client(server.path).ask(b"GET / HTTP/1.1\r\n\r\n")[0] == FAULT
            assert pair[1].ask(frame(9))[0] == FAULT
            taken.line.close()
            pair[0].line.close()
            status, out, err = server.end()
            assert (status, out) == (0, "closed\n"), (status, out, err)
            if not told:
                assert err == "", err
                continue
            has(err, f"l4d: listens on {server.path}\n", "l4d: refused K2 to a connection of space 1\n", "l4d: fault F1 to a connection of space 1\n",
                " to 2.1 of space 1\n", "2 calls over", "2 faults", "1 refusals K2", " entries, ", " KiB")
    return last_counters()


def last_counters():
    """The last line of the log, which tells of a trace that has all entries."""
    for _ in range(5):
        with tempfile.TemporaryDirectory() as folder, served("--connections", "2", "--log", "--trace", f"{folder}/trace") as server:
            pair = Client(server.path, 1), Client(server.path, 2)
            pair_works(pair)
            for client in pair:
                client.line.close()
            status, out, err = server.end()
            last = err.strip().splitlines()[-1]
            assert (status, out) == (0, "closed\n") and last.endswith(", trace 0 entries behind"), (status, out, err)
    return last


def stopped_log():
    """Where nobody reads standard error any more, no client is held up by a line of it, nor is SIGTERM; how many lines were left out is told once it is read."""
    with served("--log", before=(BLOCKED,)) as server:
        told = server.process.stderr.fileno()
        fcntl.fcntl(told, fcntl.F_SETPIPE_SZ, 4 * mmap.PAGESIZE)
        pair = Client(server.path, 1), Client(server.path, 2)
        other = Client(server.path, seconds=20)

        def refused(times):
            for _ in range(times):
                assert other.ask(hello(1)) == (REFUSED, bytes([K_NUMBER_TAKEN]))

        refused(LINES)
        pair_works(pair)
        os.set_blocking(told, False)
        first = os.read(told, 1 << 20).decode()
        refused(1)
        second = os.read(told, 1 << 20).decode()
        line = "l4d: refused K2 to a connection of space 1\n"
        left_out = re.fullmatch(rf"l4d: standard error took nothing for a while: (\d+) lines were left out\n{line}", second)
        assert left_out and first.count(line) + int(left_out[1]) == LINES, (first[-200:], second)
        refused(LINES)
        begin = time.time()
        server.process.terminate()
        # nothing of standard error is read before it has ended
        assert server.process.wait(20) == 0
        spent = time.time() - begin
        os.set_blocking(told, True)
    return f"{left_out[1]} of {LINES} lines were left out, and SIGTERM ended it after {spent * 1000:.0f} ms"
