#!/usr/bin/env python3
"""control.py L4D L4SH: a server without a trace is asked what it does, while it works and while it hangs.

Three threads that wait for each other are told as a deadlock, in the words of `l4sh state` of the trace of such a history; counters are told. The path `control` is
its owner's alone whatever --mode says, it is not there with --no-control, and it goes with the others. Those who ask nothing, ask what is unknown, ask in pieces,
do not read, or come in crowds hold up nobody. Of each thread the socket is told, by which `l4ipc.who` finds its process.

Its last line is `N checked, M failed`; the status is 0 where M is 0.
"""

import contextlib
import os
import re
import shutil
import socket
import stat
import subprocess
import sys
import tempfile
import threading
import time

sys.path[1:1] = [f"{sys.path[0]}/../lib", f"{sys.path[0]}/../../clients/python/src"]

from arguments import programs_of
from counting import Tally
from frames import hello
from l4ipc import L4Error, Message, Thread, ThreadId, who
from page_text import text_of
from protocol_tables import K_NUMBER_TAKEN, REFUSED
from serving import Client, rest_of

SECONDS = 60
CROWD = 40
PACKAGE = f"{sys.path[0]}/../../clients/python/src"
# A process that is a thread of a server until its input ends.
CLIENT = "import sys; from l4ipc import Thread; thread = Thread(sys.argv[1], int(sys.argv[2]), int(sys.argv[3])); print('there', flush=True); sys.stdin.read()"
# A system that tells of no descriptor what it is.
NO_LINKS = "#include <errno.h>\nlong readlink(const char *path, char *into, unsigned long size) { errno = EACCES; return -1; }\n"

tally = Tally()
check = tally.check


class Server:
    """An l4d in a folder of its own."""

    def __init__(self, l4d, *words, spaces=1, **more):
        self.folder = tempfile.mkdtemp(prefix="l4control")
        command = [l4d, "--dir", self.folder, "--spaces", str(spaces), "--keep-open", *words]
        # SIGTERM is blocked, so that it ends the service
        blocked = "import signal, os, sys; signal.pthread_sigmask(signal.SIG_BLOCK, [signal.SIGTERM]); os.execv(sys.argv[1], sys.argv[1:])"
        self.process = subprocess.Popen([sys.executable, "-c", blocked, *command], stdin=subprocess.DEVNULL, stdout=subprocess.PIPE, text=True,
                                        env={**os.environ, **more})
        self.process.stdout.readline()
        self.path = f"{self.folder}/control"

    def __enter__(self):
        return self

    def __exit__(self, *_):
        self.process.kill()
        self.process.communicate()

    def end(self):
        """Ends the service; how long that took."""
        began = time.monotonic()
        self.process.terminate()
        self.process.communicate(timeout=SECONDS)
        return time.monotonic() - began

    def connect(self):
        asker = socket.socket(socket.AF_UNIX)
        asker.settimeout(SECONDS)
        asker.connect(self.path)
        return asker

    def ask(self, *pieces):
        """What is answered to a word that comes in pieces."""
        with self.connect() as asker:
            try:
                for piece in pieces:
                    asker.sendall(piece)
                    time.sleep(0.05 if len(pieces) > 1 else 0)
            except ConnectionError:
                # closed at once, in a crowd
                pass
            return rest_of(asker)


def tool(l4sh, *words):
    ran = subprocess.run([l4sh, *words], stdin=subprocess.DEVNULL, capture_output=True, text=True, timeout=SECONDS)
    return ran.returncode, ran.stdout, ran.stderr


def without_moments(text):
    """A state without its moments."""
    return re.sub(r"^moment \d+ µs$|since \d+( \(\d+ \S+\))?", "", text, flags=re.M)


def wait_until(holds):
    """Whether this holds within a while."""
    end = time.monotonic() + SECONDS
    while time.monotonic() < end:
        if holds():
            return True
        time.sleep(0.02)
    return False


def hang(server):
    """Three threads, each of which calls the next."""
    threads = [Thread(server.folder, number) for number in (1, 2, 3)]
    for number, thread in enumerate(threads, 1):
        def call(thread=thread, to=number % 3 + 1):
            try:
                thread.call(ThreadId.of(to, 1), Message(0, [7]))
            except (L4Error, OSError):
                pass
        threading.Thread(target=call, daemon=True).start()
        wait_until(lambda: f"{number}.1  space 1  sends" in server.ask(b"state\n"))
    return threads


def check_hang(l4d, l4sh):
    """A hang of a server without a trace is told, and is that of the trace of the same calls."""
    with Server(l4d) as plain, tempfile.TemporaryDirectory() as room:
        with Server(l4d, "--trace", f"{room}/trace") as traced:
            held = hang(plain), hang(traced)
            status, told, error = tool(l4sh, "state", plain.folder)
            check("the deadlock is told", (status, error) == (0, "") and "deadlock: 1.1 waits for 2.1 waits for 3.1 waits for 1.1\n" in told, (status, told, error))
            check("a server answers as l4sh does", told and without_moments(told) == without_moments(plain.ask(b"state\n")), told)
            status, of_trace, _ = tool(l4sh, "state", f"{room}/trace")
            check("it is the state of the trace", status == 0 and without_moments(told) == without_moments(of_trace), (told, of_trace))
            first, second = (int(re.match(r"moment (\d+)", plain.ask(b"state\n"))[1]) for _ in range(2))
            check("its clock goes on while all hang", first < second, (first, second))
            del held


def check_counters(l4d, l4sh):
    """The counters, as lines of a name and a value."""
    with Server(l4d) as server, Thread(server.folder, 1) as one, Thread(server.folder, 2) as two:
        for _ in range(5):
            two.begin_wait()
            one.send(ThreadId.of(2, 1), Message(0, [1]))
            two.finish()
        status, told, error = tool(l4sh, "count", server.folder)
        counters = dict(line.split(" ") for line in told.splitlines())
        check("counters are told", (status, error) == (0, "") and all(value.isdigit() for value in counters.values()), (status, told, error))
        check("they count", counters.get("threads") == "2" and counters.get("connections") == "2" and counters.get("calls_over") == "10", counters)
        check("no refusal is counted that there is not", "refusals_k0" not in counters and "refusals_k1" in counters, counters)
        check("without a trace none lags or stops", not {"trace_entries_behind", "trace_stopped"} & set(counters), counters)
    with Server(l4d, "--trace", "/dev/null") as server:
        tally.same("a trace that goes on", counters_of(server).get("trace_stopped"), "0")
    with Server(l4d, "--trace", "/dev/full") as server:
        tally.same("one that has stopped", counters_of(server).get("trace_stopped"), "1")
        with Thread(server.folder, 1):
            tally.same("nothing waits for one that has stopped", counters_of(server).get("trace_entries_behind"), "0")
    check_told(l4d)


def check_told(l4d):
    """What clients are told is counted without --log, too."""
    with Server(l4d, "--live", "3") as server:
        one, two = Client(f"{server.folder}/space1", 1), Client(f"{server.folder}/space1")
        tally.same("a number that is taken", two.ask(hello(1)), (REFUSED, bytes([K_NUMBER_TAKEN])))
        one.exreg(one.thread, 0)
        bad = Client(f"{server.folder}/space1")
        bad.line.sendall(b"\xff" * 64)
        bad.to_the_end()
        held, waits = (Client(f"{server.folder}/space1") for _ in range(2))
        wanted = {"refusals_k2": "1", "exchanges": "1", "faults": "1", "waited_for_room": "1"}
        told = wait_until(lambda: wanted.items() <= counters_of(server).items())
        check("refusals, exchanges, faults and waits are counted", told, counters_of(server))
        held.line.close()
        waits.line.close()


def counters_of(server):
    return dict(line.split(" ") for line in server.ask(b"counters\n").splitlines())


def check_askers(l4d, l4sh):
    """Those who ask badly hold up nobody."""
    with Server(l4d) as server, Thread(server.folder, 1):
        state = "1.1  space 1  free\n"
        check("a word in pieces", state in server.ask(b"st", b"ate", b"\n"), "")
        check("a word of one who then says no more, as socat", state in ask_and_end(server), "")
        check("a word without a newline of one who then says no more", state in ask_and_end(server, b"state"), "")
        tally.same("a word without a newline", server.ask(b"state"), "")
        check("the page says how a word ends", "write a word and a newline" in text_of("docs/OPERATING.md"), "")
        for word in (b"\n", b"states\n", b"thread\n", b"threads \n", b"Threads\n", b"STATE\n", b"state \n", b"\0" * 64, b"x" * 64, b"counters\r\n"):
            told = server.ask(word)
            check(f"{word[:12]!r} is unknown", told == "unknown: one of state, counters, trace, trace follow, rotate, began, threads\n", told)
        crowd = [server.connect() for _ in range(CROWD)]
        time.sleep(0.2)
        closed = sum(1 for asker in crowd if is_closed(asker))
        check("a crowd is not let in", closed >= CROWD - 8, closed)
        began = time.monotonic()
        check("who says nothing is left", wait_until(lambda: state in server.ask(b"state\n")), "")
        check("soon", time.monotonic() - began < 10, time.monotonic() - began)
        for asker in crowd:
            asker.close()
        check("l4sh says that many ask", wait_until(lambda: says_many(l4sh, server)), tool(l4sh, "state", server.folder))
        mute = server.connect()
        took = server.end()
        check("who says nothing does not keep a server that ends", took < 10, took)
        mute.close()
        check("the paths are gone", os.listdir(server.folder) == [], os.listdir(server.folder))


def says_many(l4sh, server):
    """Whether l4sh says so beside a crowd of those who say nothing."""
    crowd = [server.connect() for _ in range(CROWD)]
    status, out, error = tool(l4sh, "state", server.folder)
    for asker in crowd:
        asker.close()
    return (status, out) == (1, "") and error.startswith(f"l4sh: {server.folder}/control: l4d closed the connection, as where 8 ask at one time")


def ask_and_end(server, word=b"state\n"):
    """What is answered to one who says the word and closes his side."""
    with server.connect() as asker:
        asker.sendall(word)
        asker.shutdown(socket.SHUT_WR)
        return rest_of(asker)


def is_closed(asker):
    """Whether the server has closed this connection."""
    asker.setblocking(False)
    try:
        return asker.recv(1) == b""
    except BlockingIOError:
        return False
    except ConnectionError:
        return True


def check_path(l4d, l4sh):
    """Whose the path is, and that it can be left out."""
    with Server(l4d, "--mode", "666") as server:
        modes = {name: stat.S_IMODE(os.stat(f"{server.folder}/{name}").st_mode) for name in os.listdir(server.folder)}
        check("it is its owner's alone", modes == {"space1": 0o666, "control": 0o600}, modes)
        status, _, error = tool(l4sh, "state", "--at", "1", server.folder)
        check("no --at of a live server", status == 2 and "takes no --at" in error, (status, error))
        status, _, error = tool(l4sh, "count", "--json", server.folder)
        check("no --json of a live server", status == 2 and "takes no --json" in error, (status, error))
        for word in ("state", "count", "follow"):
            behind = f"l4sh: bad word\n{server.folder}: is a folder, of a live server: wanted is nothing behind it; not trace\n"
            tally.same(f"a word behind the folder of {word}", tool(l4sh, word, server.folder, "trace"), (2, "", behind))
        check_denied(l4sh, server)
    nobody = f"l4sh: {server.folder}/control: Connection refused (os error 111): nobody serves there: once its l4d has ended, l4d with --replace serves anew\n"
    for word in ("state", "count", "follow", "rotate"):
        tally.same(f"{word} of a server that was killed", tool(l4sh, word, server.folder), (1, "", nobody))
    with Server(l4d, "--no-control") as server:
        check("it can be left out", os.listdir(server.folder) == ["space1"], os.listdir(server.folder))
        absent = f"l4sh: {server.folder}/control: No such file or directory (os error 2): no l4d serves there, or none that makes this path\n"
        tally.same("then nobody can ask", tool(l4sh, "state", server.folder), (1, "", absent))


def check_denied(l4sh, server):
    """Another user is told who may ask, and who may be a thread."""
    if not shutil.which("setpriv") or os.getuid() != 0:
        print("another user: left out, since setpriv and root are wanted")
        return
    with tempfile.TemporaryDirectory() as room:
        other = ["setpriv", "--reuid=54321", "--regid=54321", "--clear-groups", shutil.copy(l4sh, room)]
        for folder in (room, server.folder):
            os.chmod(folder, 0o755)
        os.chmod(f"{server.folder}/space1", 0o600)
        denied = f"l4sh: {server.folder}/control: Permission denied (os error 13): only the user whose l4d serves there may ask it, and root\n"
        for word in ("state", "count", "follow", "rotate"):
            tally.same(f"{word} of another user", tool(*other, word, server.folder), (1, "", denied))
        shut = f"{server.folder}/space1: Permission denied (os error 13): only the user whose l4d serves there may connect, root, and whom its --mode lets in\n"
        tally.same("talk of another user", tool(*other, "talk", server.folder), (4, "", f"l4sh: no server\n{shut}"))


def client(server, number, space=1):
    """A process that is a thread of a server."""
    process = subprocess.Popen([sys.executable, "-c", CLIENT, server.folder, str(number), str(space)], stdin=subprocess.PIPE, stdout=subprocess.PIPE, text=True,
                               env={**os.environ, "PYTHONPATH": PACKAGE})
    process.stdout.readline()
    return process


def told_threads(server, count):
    """The lines of the threads of a server, once there are so many: each as the thread, the space and the inode of its socket."""
    wait_until(lambda: server.ask(b"threads\n").startswith(f"threads {count}\n"))
    return [re.fullmatch(r"(\d+\.\d+)  space (\d+)  socket (\d+)", line).groups() for line in server.ask(b"threads\n").splitlines()[1:]]


def held_by(pid):
    """The inodes of what a process has open."""
    inodes = set()
    for descriptor in os.listdir(f"/proc/{pid}/fd"):
        with contextlib.suppress(FileNotFoundError):  # closed meanwhile
            inodes.add(os.stat(f"/proc/{pid}/fd/{descriptor}").st_ino)
    return inodes


def pids_of(server):
    """Of each thread the processes that have its connection."""
    return [(str(it.thread), [process.pid for process in it.processes]) for it in who.processes(server.folder)]


def check_threads(l4d):
    """Of each thread the socket is told, and its process is found by that; who is no thread is not told."""
    with Server(l4d, spaces=2) as server:
        tally.same("a server without threads", (server.ask(b"threads\n"), who.processes(server.folder)), ("threads 0\n", []))
        silent = Client(f"{server.folder}/space1")
        with Thread(server.folder, 3):
            one, two = client(server, 1), client(server, 2, 2)
            told = told_threads(server, 3)
            check("each thread is told with its space", sorted(it[:2] for it in told) == [("1.1", "1"), ("2.1", "2"), ("3.1", "1")], told)
            inodes, held = {int(it[2]) for it in told}, held_by(server.process.pid)
            check("their sockets are the server's", len(inodes) == 3 and inodes <= held, (told, held))
            tally.same("each has its process", pids_of(server), [("1.1", [one.pid]), ("2.1", [two.pid]), ("3.1", [os.getpid()])])
            ran = subprocess.run([sys.executable, "-m", "l4ipc.who", server.folder], capture_output=True, text=True, env={**os.environ, "PYTHONPATH": PACKAGE})
            line = f"1.1  space 1  pid {one.pid}  uid {os.geteuid()}  {sys.executable} -c import"
            check("l4ipc.who prints them", (ran.returncode, ran.stderr, ran.stdout.count("\n")) == (0, "", 3) and ran.stdout.startswith(line), ran)
            one.communicate()
            check("a thread that has ended is told no more", [it[0] for it in sorted(told_threads(server, 2))] == ["2.1", "3.1"], "")
            again = client(server, 1)
            told_threads(server, 3)
            tally.same("its number and its descriptor are another process's", pids_of(server), [("1.2", [again.pid]), ("2.1", [two.pid]), ("3.1", [os.getpid()])])
            for process in (two, again):
                process.communicate()
        silent.line.close()
    check_untold(l4d)


def check_untold(l4d):
    """A server that cannot tell a socket tells its thread all the same."""
    if not shutil.which("cc"):
        print("a server that is told no socket: left out, since cc is not there")
        return
    with tempfile.TemporaryDirectory() as room:
        with open(f"{room}/no_links.c", "w") as file:
            file.write(NO_LINKS)
        subprocess.run(["cc", "-shared", "-fPIC", "-o", f"{room}/no_links.so", f"{room}/no_links.c"], check=True)
        with Server(l4d, LD_PRELOAD=f"{room}/no_links.so") as server, Thread(server.folder, 1):
            tally.same("a thread whose socket is not known", server.ask(b"threads\n"), "threads 1\n1.1  space 1\n")
            check("its process is not known", [it.unknown for it in who.processes(server.folder)] == [who.Unknown.NO_SOCKET], who.processes(server.folder))


def main(arguments):
    l4d, l4sh = programs_of(arguments, __doc__, 2)
    check_hang(l4d, l4sh)
    check_counters(l4d, l4sh)
    check_askers(l4d, l4sh)
    check_path(l4d, l4sh)
    check_threads(l4d)
    return tally.end()


if __name__ == "__main__":
    sys.exit(main(sys.argv[1:]))
