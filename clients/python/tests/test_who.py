"""From a thread to its process: real sockets and processes, and a server whose answers the test gives."""

import contextlib
import io
import json
import os
import pty
import shutil
import socket
import subprocess
import sys
import tempfile
import threading
import unittest

from l4ipc import L4Error, ThreadId, who

NOBODY = 65_534
NO_INODE = 0xFFFF_FFF0
# A process that connects to a path, says so, and stays until its input ends; with `fork` a child of it stays with it.
CLIENT = """import os, socket, sys
line = socket.socket(socket.AF_UNIX)
line.connect(sys.argv[1])
if "fork" in sys.argv and os.fork() == 0:
    line.sendall(b"child %d" % os.getpid())
else:
    line.sendall(b"connected")
sys.stdin.read()
"""


class Server:
    """A folder with the paths of a server, which tells at `control` what the test gives."""

    def __init__(self):
        self.folder = tempfile.mkdtemp()
        self.answer = ""
        with open(f"{self.folder}/client.py", "w") as file:
            file.write(CLIENT)
        self.space, self.control = (self.listener(name) for name in ("space1", "control"))
        self.kept = []
        threading.Thread(target=self.serve, daemon=True).start()

    def listener(self, name):
        listener = socket.socket(socket.AF_UNIX)
        listener.bind(f"{self.folder}/{name}")
        listener.listen(8)
        return listener

    def serve(self):
        while True:
            try:
                asker, _ = self.control.accept()
            except OSError:
                return
            with asker:
                if self.answer is not None and asker.recv(64) == b"threads\n":
                    asker.sendall(self.answer.encode())

    def client(self, *words):
        """A process that has connected, and the inode of the server's end of its connection."""
        process = subprocess.Popen([sys.executable, f"{self.folder}/client.py", f"{self.folder}/space1", *words], stdin=subprocess.PIPE)
        connection, _ = self.space.accept()
        self.kept += [connection]
        return process, os.fstat(connection.fileno()).st_ino, connection.recv(64)

    def tells(self, *lines):
        self.answer = f"threads {len(lines)}\n" + "".join(f"{line}\n" for line in lines)

    def __enter__(self):
        return self

    def __exit__(self, *_):
        self.control.shutdown(socket.SHUT_RDWR)
        for it in (self.space, self.control, *self.kept):
            it.close()
        shutil.rmtree(self.folder)


def ended(process):
    process.communicate()


def printed(*words):
    """The exit status of the command, and what it prints on standard output and error."""
    output, error = io.StringIO(), io.StringIO()
    with contextlib.redirect_stdout(output), contextlib.redirect_stderr(error):
        status = who.main(words)
    return status, output.getvalue(), error.getvalue()


class Who(unittest.TestCase):
    def setUp(self):
        self.server = self.enter(Server())
        self.folder = self.server.folder

    def enter(self, it):
        self.addCleanup(it.__exit__, None, None, None)
        return it.__enter__()

    def client(self, *words):
        process, inode, said = self.server.client(*words)
        self.addCleanup(ended, process)
        return process, inode, said

    def test_each_thread_has_its_process(self):
        (first, one, _), (second, two, _) = self.client(), self.client("kv_server")
        self.server.tells(f"10.2  space 1  socket {two}", f"9.1  space 3  socket {one}")
        owners = who.processes(self.folder)
        self.assertEqual([(it.thread, it.space, [p.pid for p in it.processes]) for it in owners],
                         [(ThreadId.of(9, 1), 3, [first.pid]), (ThreadId.of(10, 2), 1, [second.pid])])
        for owner in owners:
            self.assertEqual((owner.uid, owner.processes[0].uid, owner.unknown), (os.geteuid(), os.geteuid(), None))
        self.assertTrue(owners[1].processes[0].command.endswith(f"{self.folder}/space1 kv_server"))
        status, output, error = printed(self.folder)
        self.assertEqual((status, error), (0, ""))
        self.assertRegex(output, rf"^9\.1  space 3  pid {first.pid}  uid {os.geteuid()}  \S+ {self.folder}/client.py .*\n10\.2  space 1  pid {second.pid}  uid ")

    def test_own_threads(self):
        with socket.socket(socket.AF_UNIX) as line:
            line.connect(f"{self.folder}/space1")
            self.server.kept += [self.server.space.accept()[0]]
            self.server.tells(f"1.1  space 1  socket {os.fstat(self.server.kept[-1].fileno()).st_ino}")
            # the listener of this process has the other end, and not this one
            self.assertEqual([it.pid for it in who.processes(self.folder)[0].processes], [os.getpid()])

    def test_a_child_has_it_too(self):
        process, inode, said = self.client("fork")
        while b"child" not in said or b"connected" not in said:
            said += self.server.kept[-1].recv(64)
        child = int(said.replace(b"connected", b"").split()[1])
        self.server.tells(f"1.1  space 1  socket {inode}")
        self.assertEqual([it.pid for it in who.processes(self.folder)[0].processes], [process.pid, child])
        self.assertIn(f"pid {process.pid},{child}  ", printed(self.folder)[1])

    def test_none_is_told(self):
        ends, inode, _ = self.client()
        ends.communicate()
        self.server.tells("1.1  space 1", f"2.1  space 1  socket {NO_INODE}", f"3.1  space 1  socket {inode}", "4.1  space 1  socket 0",
                          f"5.1  space 1  socket {1 << 64}")
        owners = who.processes(self.folder)
        self.assertEqual([it.unknown for it in owners], [who.Unknown.NO_SOCKET] + 4 * [who.Unknown.NO_PEER])
        status, output, error = printed(self.folder)
        self.assertEqual((status, output.splitlines()[0]), (0, "1.1  space 1  pid ?  uid ?  ?"))
        self.assertEqual(error.splitlines(), [f"l4ipc.who: ?: {it.value}" for it in (who.Unknown.NO_SOCKET, who.Unknown.NO_PEER)])

    @unittest.skipUnless(os.geteuid() == 0, "only root can be another user")
    def test_of_another_user(self):
        process, inode, _ = self.client()
        self.server.tells(f"1.1  space 1  socket {inode}", f"2.1  space 1  socket {inode}")
        os.chmod(self.folder, 0o755)
        os.chmod(f"{self.folder}/control", 0o666)
        reader, writer = os.pipe()
        child = os.fork()
        if child == 0:
            try:
                os.setuid(NOBODY)
                os.write(writer, json.dumps(printed(self.folder)).encode())
            finally:
                os._exit(0)
        os.close(writer)
        with open(reader) as told:
            status, output, error = json.load(told)
        os.waitpid(child, 0)
        self.assertEqual((status, output), (0, "1.1  space 1  pid ?  uid 0  ?\n2.1  space 1  pid ?  uid 0  ?\n"))
        self.assertEqual(error, f"l4ipc.who: ?: {who.Unknown.NO_PROCESS.value}\n")
        self.assertEqual(who.processes(self.folder)[0].processes[0].pid, process.pid)

    def test_what_a_process_is_called_is_shown_as_it_is(self):
        _, inode, _ = self.client("\x1b]0;title\x07", "two\nlines", "\udcff", "x" * 200)
        self.server.tells(f"1.1  space 1  socket {inode}")
        status, output, error = printed(self.folder)
        self.assertEqual((status, error, output.count("\n")), (0, "", 1))
        self.assertTrue(output.rstrip("\n").isprintable() and output.endswith(f" {'x' * 200}\n"), output)

    def ended_with(self, output, **environment):
        """How the program ends whose standard output this is, and what it tells."""
        words = [sys.executable, "-m", "l4ipc.who", self.folder]
        ran = subprocess.run(words, stdout=output, stderr=subprocess.PIPE, text=True, env={**os.environ, **environment})
        return ran.returncode, ran.stderr

    def test_standard_output_that_takes_nothing(self):
        _, inode, _ = self.client("x" * 200)
        self.server.tells(f"1.1  space 1  socket {inode}")
        with open("/dev/full", "w") as full:
            self.assertEqual(self.ended_with(full), (1, "l4ipc.who: standard output: No space left on device\n"))
        reader, writer = os.pipe()
        os.close(reader)
        self.assertEqual(self.ended_with(writer), (1, "l4ipc.who: standard output: Broken pipe\n"))
        os.close(writer)

    def test_a_terminal_has_as_much_of_a_line_as_it_shows(self):
        _, inode, _ = self.client("x" * 200)
        self.server.tells(f"1.1  space 1  socket {inode}")
        for columns in (60, 132):
            ours, theirs = pty.openpty()
            self.assertEqual(self.ended_with(theirs, COLUMNS=str(columns)), (0, ""))
            os.close(theirs)
            line = os.read(ours, 4096).decode()
            os.close(ours)
            self.assertEqual((len(line), line[-4:]), (columns + 2, "..\r\n"), line)

    def test_no_threads(self):
        self.server.tells()
        self.assertEqual((who.processes(self.folder), printed(self.folder)), ([], (0, "", "")))

    def test_answers_that_are_none(self):
        for answer, text in ((None, "8 ask"), ("", "8 ask"), ("unknown: one of state\n", "older"), ("no memory\n", "no memory"), ("\x1b[2J", "\\x1b"),
                             ("threads 2\n1.1  space 1\n", "cut off"), ("threads 1\n1.1  space 1", "cut off"), ("threads 0\n1.1  space 1\n", "cut off"),
                             ("threads 1\n1.1  space 1  socket x\n", "cut off"), ("threads 1\n", "cut off")):
            with self.subTest(answer=answer):
                self.server.answer = answer
                with self.assertRaises(L4Error) as caught:
                    who.processes(self.folder)
                self.assertIn(text, str(caught.exception))
                status, output, error = printed(self.folder)
                self.assertEqual((status, output, error.count("\n")), (1, "", 1))
                self.assertIn(f"{self.folder}/control: ", error)

    def test_no_server(self):
        with self.assertRaises(FileNotFoundError) as caught:
            who.processes("/nope")
        self.assertEqual(caught.exception.filename, "/nope/control")
        self.assertEqual(printed("/nope")[0], 1)
        self.assertEqual(printed("n" * 200)[0], 1)
        with tempfile.TemporaryDirectory() as folder:
            with socket.socket(socket.AF_UNIX) as ended:
                ended.bind(f"{folder}/control")
            self.assertIn("its l4d has ended", printed(folder)[2])
        for bad in (7, None, b"x" * 200, "\0"):
            with self.subTest(bad=bad), self.assertRaises((TypeError, ValueError)) as wrong:
                who.processes(bad)
            self.assertTrue(str(wrong.exception).startswith("directory: "), wrong.exception)


if __name__ == "__main__":
    unittest.main()
