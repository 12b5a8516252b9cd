"""Signals and terminals."""

import os
import pty
import resource
import signal
import subprocess
import tempfile
import time

from server_cases.running import BLOCKED, PROGRAM, has, served
from server_cases.telling import call_nobody
from serving import Client, pair_works


def signals():
    """With SIGTERM and SIGINT blocked at the start, as the unit does, a signal ends the service and not the process."""
    for number in (signal.SIGTERM, signal.SIGINT):
        with tempfile.TemporaryDirectory() as place:
            block = lambda: signal.pthread_sigmask(signal.SIG_BLOCK, (signal.SIGTERM, signal.SIGINT))
            with served("--trace", f"{place}/trace", "--log", preexec_fn=block) as server:
                pair = Client(server.path, 1), Client(server.path, 2)
                pair_works(pair)
                begin = time.time()
                server.process.send_signal(number)
                assert pair[0].is_shut(5)
                status, out, err = server.end()
                spent = time.time() - begin
                assert (status, out) == (0, "closed\n"), (status, out, err)
                assert not os.path.exists(server.path)
                text = open(f"{place}/trace").read()
                assert text.startswith("l4trace 2\n") and text.endswith("\n") and "opened 1.1 1" in text and "broke 2.1\n" in text, text
    # one that is blocked alone ends it too
    alone = lambda: signal.pthread_sigmask(signal.SIG_BLOCK, (signal.SIGTERM,))
    with served(preexec_fn=alone) as server:
        server.process.send_signal(signal.SIGTERM)
        assert server.end()[:2] == (0, "closed\n") and not os.path.exists(server.path)
    with served() as server:
        server.process.send_signal(signal.SIGTERM)
        assert server.end()[0] == -signal.SIGTERM and os.path.exists(server.path)
    return f"closed, status 0, path removed and trace whole after {spent * 1000:.0f} ms; where they are not blocked, status 143 at once"


def paths_of_others():
    """What somebody else put at a path meanwhile stays, a file and the path of another server."""
    block = lambda: signal.pthread_sigmask(signal.SIG_BLOCK, (signal.SIGTERM,))
    with served(preexec_fn=block) as server:
        os.remove(server.path)
        with open(server.path, "w") as file:
            file.write("kept")
        server.process.send_signal(signal.SIGTERM)
        assert server.end()[:2] == (0, "closed\n") and open(server.path).read() == "kept"
        os.remove(server.path)
    with served("--no-control", preexec_fn=block) as first:
        os.remove(first.path)
        with served("--no-control", folder=first.folder) as second:
            first.process.send_signal(signal.SIGTERM)
            assert first.end()[:2] == (0, "closed\n")
            pair_works((Client(second.path, 1), Client(second.path, 2)))
    return "a file, and the path of a server that was started behind it"


class Terminal:
    """A terminal of its own in which l4d was started as ./l4d does it, and has said that it listens."""

    def __init__(self, *words, script='exec "$@"', meanwhile=lambda: None):
        self.process, self.screen = pty.fork()
        if not self.process:
            os.execvp("sh", ["sh", "-c", script, "sh", BLOCKED, PROGRAM, "--spaces", "1", *words])
        self.heard = meanwhile()
        self.text = b""
        while b"listening 1" not in self.text:
            try:
                self.text += os.read(self.screen, 1000)
            except OSError as error:
                raise AssertionError(f"it does not listen: {self.text.decode()}") from error

    def press_interrupt(self):
        os.write(self.screen, b"\3")

    def is_there(self):
        return os.waitpid(self.process, os.WNOHANG) == (0, 0)

    def end(self):
        """Its status, and what it said, once it ends."""
        try:
            while piece := os.read(self.screen, 1000):
                self.text += piece
        except OSError:
            # nobody has the terminal open any more
            pass
        os.close(self.screen)
        return os.waitstatus_to_exitcode(os.waitpid(self.process, 0)[1]), self.text.decode()


def terminal():
    """At a terminal Ctrl-C ends the service, and the next start finds no path; a second Ctrl-C ends the process. A script's SIGTERM or SIGINT does the former."""
    if subprocess.run(["env", "--block-signal=INT", "true"], capture_output=True).returncode:
        return "left out: this env blocks no signal"
    with tempfile.TemporaryDirectory() as folder:
        for _ in range(2):
            line = Terminal("--dir", folder)
            line.press_interrupt()
            status, text = line.end()
            assert status == 0 and text.endswith("closed\r\n") and not os.path.exists(f"{folder}/space1"), (status, text)
        # the trace is a pipe that nobody reads: the server cannot end
        os.mkfifo(f"{folder}/trace")
        pipe = os.open(f"{folder}/trace", os.O_RDWR)
        line = Terminal("--dir", folder, "--trace", f"{folder}/trace")
        assert os.waitpid(call_nobody(f"{folder}/space1", 5, 4_000), 0)[1] == 0
        line.press_interrupt()
        time.sleep(4)
        assert line.is_there()
        begin = time.time()
        line.press_interrupt()
        status, text = line.end()
        spent = time.time() - begin
        assert status == -signal.SIGKILL, status
        has(text, f"l4d: ends once {folder}/trace has taken the rest of the trace; SIGKILL ends it at once")
        os.close(pipe)
        # the paths that it left are taken by --replace; who reads on the descriptor of --ready-fd gets its end while the server goes on
        ready = f"{folder}/ready"
        os.mkfifo(ready)
        line = Terminal("--dir", folder, "--replace", "--ready-fd", "3", script=f'exec "$@" 3> {ready}', meanwhile=lambda: open(ready).read())
        assert line.heard == "listening 1\n", line.heard
        line.press_interrupt()
        assert line.end()[0] == 0
        for name in ("TERM", "INT"):
            said = f'"{folder}/{name}"'
            script = (f'"{BLOCKED}" "{PROGRAM}" --dir "{folder}" --spaces 1 >{said} & while ! grep -qs listening {said}; do sleep 0.1; done; '
                      f'kill -{name} $!; wait $!')
            told = subprocess.run(["sh", "-c", script], stdin=subprocess.DEVNULL, capture_output=True, text=True, timeout=20)
            assert (told.returncode, told.stderr) == (0, "") and not os.path.exists(f"{folder}/space1"), told
    return f"closed twice; one that could not end was ended {spent * 1000:.0f} ms after the second Ctrl-C; closed in scripts"


def unread_pipe():
    """SIGTERM ends an l4d that waits until somebody reads the pipe of its trace; it has not said that it listens."""
    with tempfile.TemporaryDirectory() as folder:
        os.mkfifo(f"{folder}/trace")
        words = [BLOCKED, PROGRAM, "--dir", folder, "--spaces", "1", "--trace", f"{folder}/trace"]
        with subprocess.Popen(words, stdin=subprocess.DEVNULL, stdout=subprocess.PIPE, stderr=subprocess.PIPE, text=True) as process:
            try:
                assert "l4d waits until somebody reads it" in process.stderr.readline()
                begin = time.time()
                process.terminate()
                out, err = process.communicate(timeout=20)
                spent = time.time() - begin
            finally:
                process.kill()
        assert (process.returncode, out, err) == (0, "closed\n", ""), (process.returncode, out, err)
        assert os.listdir(folder) == ["trace"], os.listdir(folder)
    return f"closed, status 0 after {spent * 1000:.0f} ms"


def limited_file():
    """A trace whose file reaches the limit of a file's size stops, which is told, and the server goes on."""
    with tempfile.TemporaryDirectory() as folder:
        words = [BLOCKED, PROGRAM, "--dir", folder, "--spaces", "1", "--trace", f"{folder}/trace", "--connections", "2"]
        few = lambda: resource.setrlimit(resource.RLIMIT_FSIZE, (4_096, 4_096))
        with subprocess.Popen(words, stdin=subprocess.DEVNULL, stdout=subprocess.PIPE, stderr=subprocess.PIPE, text=True, preexec_fn=few) as process:
            try:
                assert process.stdout.readline() == "listening 1\n"
                pair = Client(f"{folder}/space1", 1), Client(f"{folder}/space1", 2)
                for _ in range(200):
                    pair_works(pair)
                for client in pair:
                    client.bye()
                out, err = process.communicate(timeout=20)
            finally:
                process.kill()
        assert (process.returncode, out) == (1, "closed\n") and err.startswith("l4d: trace TR1\n") and "File too large" in err, (process.returncode, out, err)
    return "TR1 told once, 200 exchanges went on, closed"
