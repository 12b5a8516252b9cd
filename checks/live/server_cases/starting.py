"""Words, paths, permissions, and how who starts it learns that it is ready."""

import fcntl
import os
import pty
import re
import select
import shutil
import socket
import stat
import subprocess
import tempfile
import threading
import time

from server_cases.running import BLOCKED, PROGRAM, has, run, served
from serving import Client, pair_works

MODES = (("888", "--mode: octal, 0 to 777, got 888"), ("rw", "--mode: octal, 0 to 777, got rw"), ("1777", "--mode: octal, 0 to 777, got 1777"))


def paths():
    """What is said of a path that cannot be listened on, and what --replace does."""
    with served() as server:
        told = run("--dir", server.folder, "--spaces", "1")
        assert told[0] == 1 and told[2].startswith(f"l4d: cannot listen on {server.path}\n  in use: "), told
        told = run("--dir", server.folder, "--spaces", "1", "--replace")
        assert told[0] == 1 and "in use" in told[2], told
        pair_works((Client(server.path, 1), Client(server.path, 2)))
        server.process.kill()
        server.process.wait()
        assert stat.S_ISSOCK(os.stat(server.path).st_mode)
        told = run("--dir", server.folder, "--spaces", "1")
        assert told[0] == 1 and "  stale: nobody answers there; give --replace, too, which removes it\n" in told[2], told
        words = ["--dir", server.folder, "--spaces", "1", "--connections", "2", "--probe", "--replace"]
        assert run(*words) == (0, "listening 1\nprobe 0x7\nclosed\n", ""), run(*words)
        with open(server.path, "w") as file:
            file.write("kept")
        told = run("--dir", server.folder, "--spaces", "1", "--replace")
        assert told[0] == 1 and "no socket" in told[2] and open(server.path).read() == "kept", told
        told = run("--dir", f"{server.folder}/none", "--spaces", "1")
        assert told[0] == 1 and f"{server.folder}/none/space1\n  no such folder: " in told[2], told
        told = run("--dir", server.path, "--spaces", "1")
        assert told[0] == 1 and "\n  not a folder: " in told[2], told
        long = f"{server.folder}/{'d' * (100 - len(server.folder))}"
        os.mkdir(long)
        told = run("--dir", long, "--spaces", "1")
        assert told[0] == 1 and "at most 107 bytes" in told[2], told
        # a second start is no connection
        os.remove(server.path)
        with served("--connections", "1", folder=server.folder) as server:
            for _ in range(3):
                assert "in use" in run("--dir", server.folder, "--spaces", "1")[2]
            Client(server.path, 1).line.close()
            assert server.end()[:2] == (0, "closed\n")
        told = run("--dir", server.folder, "--spaces", "1", "--trace", "")
        assert told == (2, "", "l4d: --trace: wanted is the path of a file; not an empty word\n"), told
        assert run("--dir", "", "--spaces", "1")[0] == 2
        has(run("--dir", "", "--spaces", "1")[2], "--dir", "folder")
        return "in use, stale, replaced, no socket, no folder, a file as folder, too long, empty"


def starts():
    """One start in a folder at a time looks which paths are stale; where another process keeps a lock on the folder it waits a second, and no longer."""
    took = []
    for kept in (0.3, None):
        folder = tempfile.mkdtemp()
        held = os.open(folder, os.O_RDONLY)
        fcntl.flock(held, fcntl.LOCK_EX)
        if kept:
            threading.Timer(kept, fcntl.flock, (held, fcntl.LOCK_UN)).start()
        began = time.monotonic()
        with served("--replace", folder=folder) as server:
            took.append(time.monotonic() - began)
            pair_works((Client(server.path, 1), Client(server.path, 2)))
        os.close(held)
    assert took[0] >= 0.3 and took[1] >= 0.9, took
    return f"after {took[0]:.1f} and {took[1]:.1f} s"


def output():
    """Where standard output takes nothing the second line names it, and why."""
    for device, why in (("/dev/full", "No space left on device (os error 28)"), (None, "Broken pipe (os error 32)")):
        for words in (("help",), ("--version",), ("--spaces", "1")):
            with tempfile.TemporaryDirectory() as folder:
                if device:
                    taken = os.open(device, os.O_WRONLY)
                else:
                    ours, taken = os.pipe()
                    os.close(ours)
                words = ["--dir", folder, *words] if words[0] == "--spaces" else words
                told = subprocess.run([PROGRAM, *words], stdin=subprocess.DEVNULL, stdout=taken, stderr=subprocess.PIPE, text=True, timeout=20)
                os.close(taken)
                assert (told.returncode, told.stderr) == (1, f"l4d: device failed\n  standard output: {why}\n"), (words, told)
                assert not os.path.exists(f"{folder}/space1"), words
    return told.stderr.strip()


def as_nobody(folder):
    """What a start by the user nobody says who is to listen in this folder, which it may enter; None where it cannot be tried."""
    if os.getuid() != 0 or not shutil.which("setpriv"):
        return None
    place = f"{folder}/l4d"
    shutil.copy(PROGRAM, place)
    os.chmod(place, 0o755)
    told = subprocess.run(["setpriv", "--reuid=65534", "--regid=65534", "--clear-groups", place, "--dir", folder, "--spaces", "1"],
                          capture_output=True, text=True, timeout=20)
    assert told.returncode == 1 and f"cannot listen on {folder}/space1\n" in told.stderr, told
    return told.stderr.strip().replace("\n", ";")


def denied():
    """A folder where this user may make nothing."""
    with tempfile.TemporaryDirectory() as folder:
        os.chmod(folder, 0o755)
        told = as_nobody(folder)
        assert told is None or ";  denied: " in told, told
        return told or "left out: root and setpriv are wanted"


def guarded():
    """A path where another user's server answers: this user may not connect to it."""
    with tempfile.TemporaryDirectory() as folder, socket.socket(socket.AF_UNIX) as line:
        os.chmod(folder, 0o777)
        line.bind(f"{folder}/space1")
        os.chmod(f"{folder}/space1", 0o600)
        line.listen()
        told = as_nobody(folder)
        assert told is None or ";  a socket stands there to which this user may not connect" in told, told
        return told or "left out: root and setpriv are wanted"


def words():
    """Each refusal of words names the option, the value and the limit; --version is told on standard output."""
    here = ["--dir", ".", "--spaces", "1"]
    for mode, text in MODES:
        status, out, err = run(*here, "--mode", mode)
        assert (status, out) == (2, "") and text in err, err
    for name, value, limit in (("spaces", "65", "1..=64"), ("connections", "0", "1..=65535"), ("live", "65536", "1..=65535"),
                               ("hello-within", "0", "1..=65535")):
        status, out, err = run(*[it for it in here if name != "spaces" or it not in ("--spaces", "1")], f"--{name}", value)
        assert (status, out) == (2, ""), err
        has(err, f"--{name}", f"'{value}'", limit)
    status, out, err = run(*here, "--trace-required")
    assert (status, out) == (2, "") and "--trace-required: --trace FILE" in err, err
    for fd in ("2", "65536", "x"):
        status, out, err = run(*here, f"--ready-fd={fd}")
        assert (status, out) == (2, "") and f"--ready-fd: the number of a descriptor, 3 to 65535, got {fd}\n" in err, err
    assert run(*here, "--ready-fd", "9") == (1, "", "l4d: --ready-fd 9: who starts it has opened no such descriptor for writing\n")
    assert not os.path.exists("space1")
    assert run("help") == (0, run("--help")[2], "")
    status, out, err = run("--version")
    assert (status, err) == (0, "") and out.startswith("l4d 1.0 ("), (status, out, err)
    rt = shutil.which("rt")
    if rt:
        # a proof holds for a logic, whichever the letter of the kit
        kit = subprocess.run([rt, "version"], capture_output=True, text=True).stdout.strip()
        logic = re.search(r"logic \w+$", kit)
        assert logic and f"({logic[0]})" in out, (kit, out)
    return out.strip().replace("\n", ";")


def probe():
    """The line of --probe comes as soon as its message came, while the server goes on. Without room for its two connections there is no probe."""
    with tempfile.TemporaryDirectory() as folder:
        for room in ("--live", "--connections"):
            told = run("--dir", folder, "--spaces", "1", "--probe", room, "1")
            assert told == (1, "", "l4d: --probe makes two connections, and there is room for fewer\n"), told
    with served("--probe") as server:
        begin = time.time()
        assert server.process.stdout.readline() == b"probe 0x7\n"
        spent = time.time() - begin
        assert spent < 3, spent
        Client(server.path, 9)
        return f"after {spent * 1000:.0f} ms"


def ready():
    """Who waits on --ready-fd or on the socket of NOTIFY_SOCKET is told when clients can connect, and the descriptor is closed."""
    with tempfile.TemporaryDirectory() as folder:
        for name in (f"{folder}/manager", "@l4d-operating"):
            with socket.socket(socket.AF_UNIX, socket.SOCK_DGRAM) as manager:
                manager.bind(name.replace("@", "\0"))
                manager.settimeout(10)
                reads, writes = os.pipe()
                words = ["--dir", folder, "--spaces", "2", "--connections", "1", "--ready-fd", str(writes)]
                process = subprocess.Popen([PROGRAM, *words], pass_fds=[writes], stdout=subprocess.DEVNULL, stderr=subprocess.PIPE, text=True,
                                           env={**os.environ, "NOTIFY_SOCKET": name})
                os.close(writes)
                with os.fdopen(reads) as pipe:
                    # it ends: the descriptor is closed
                    assert pipe.read() == "listening 2\n"
                Client(f"{folder}/space1", 1).line.close()
                Client(f"{folder}/space2", 2).line.close()
                assert manager.recv(100) == b"READY=1"
                assert (process.communicate()[1], process.returncode) == ("", 0)
        # nobody reads, and no manager is there: it serves all the same
        reads, writes = os.pipe()
        os.close(reads)
        with served("--ready-fd", str(writes), pass_fds=[writes], env={**os.environ, "NOTIFY_SOCKET": f"{folder}/none"}) as server:
            os.close(writes)
            pair_works((Client(server.path, 1), Client(server.path, 2)))
            server.process.kill()
            err = server.end()[2]
            has(err, "l4d: --ready-fd: it cannot be told", "Broken pipe", "l4d: NOTIFY_SOCKET: it cannot be told", "No such file")
    ready_at_a_terminal()
    return "a line on the descriptor, also one past 9 at a terminal, READY=1 at a path and at a name; what fails is told, and it serves"


def ready_at_a_terminal():
    """The process that waits there for the second Ctrl-C keeps no descriptor open, whatever its number is."""
    ours, theirs = pty.openpty()
    with tempfile.TemporaryDirectory() as folder, os.fdopen(ours), os.fdopen(theirs):
        for least in (3, 13, 213):
            reads, writes = os.pipe()
            fd = fcntl.fcntl(writes, fcntl.F_DUPFD, least)
            words = ["--dir", folder, "--spaces", "1", "--ready-fd", str(fd)]
            process = subprocess.Popen([BLOCKED, PROGRAM, *words], pass_fds=[fd], stdin=theirs, stdout=subprocess.DEVNULL, stderr=subprocess.DEVNULL)
            os.close(writes)
            os.close(fd)
            with os.fdopen(reads, "rb") as pipe:
                assert pipe.readline() == b"listening 1\n"
                assert select.select([pipe], [], [], 10)[0] and pipe.read() == b"", f"descriptor {fd} is open still"
            process.terminate()
            assert process.wait(10) == 0
