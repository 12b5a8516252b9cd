"""Connecting, and waiting for a partner: what is waited for, and what is said of it."""

import asyncio
import gc
import os
import shutil
import socket
import tempfile
import threading
import time
import unittest
import unittest.mock
import warnings

import l4ipc
import l4ipc.aio
from l4ipc import Message, Thread, ThreadId, connecting

from .scripted import BYE, FAULT, REFUSED, WELCOME, WORDS, failed, outcome, said, scripted

FIRST = ThreadId.of(1, 1)


class Listener:
    """A path that answers each connection by the next of some bytes, from so many seconds on. It keeps all connections open, or ends them."""

    def __init__(self, answers=(), after=0.0, backlog=8, ends=False):
        self.folder = tempfile.mkdtemp()
        self.path = f"{self.folder}/space1"
        self.kept = []
        self.listener = socket.socket(socket.AF_UNIX)
        self.is_there = False
        self.worker = threading.Thread(target=self.serve, args=(list(answers), after, backlog, ends), daemon=True)
        self.worker.start()

    def serve(self, answers, after, backlog, ends):
        time.sleep(after)
        self.listener.bind(self.path)
        self.listener.listen(backlog)
        self.is_there = True
        for answer in answers:
            connection, _ = self.listener.accept()
            self.kept.append(connection)
            connection.sendall(answer)
            if ends:
                connection.close()

    def listens(self):
        """Until the path is there."""
        while not self.is_there:
            time.sleep(0.005)
        return self

    def accepted(self):
        """The last connection, once it is there."""
        while not self.kept:
            time.sleep(0.005)
        return self.kept[-1]

    def __enter__(self):
        return self

    def __exit__(self, *_):
        self.worker.join(5)
        for connection in (self.listener, *self.kept):
            connection.close()
        shutil.rmtree(self.folder)


class Interrupts(unittest.TestCase):
    def test_what_closed_the_thread_is_told(self):
        thread, server = scripted(b"", ends=False)
        with thread, server:
            with unittest.mock.patch.object(thread, "_hear", side_effect=KeyboardInterrupt), self.assertRaises(KeyboardInterrupt):
                thread.wait()
            with self.assertRaises(l4ipc.Closed) as caught:
                thread.wait()
        self.assertIn("no call is made: a call that was interrupted has closed it", str(caught.exception))


class Overflows(unittest.TestCase):
    def test_what_is_said_where_no_buffers_were_given(self):
        for buffers, text in (((), "(error 0x9): a message with strings, and no buffers= were given; nothing was received"),
                              ([3], "(error 0x9): a string did not fit the buffers, behind 0 bytes that did; nothing was received")):
            thread, server = scripted(failed(0x9))
            with thread, server, self.assertRaises(l4ipc.Overflow) as caught:
                thread.wait(buffers=buffers)
            self.assertIn(text, str(caught.exception))


class Connecting(unittest.TestCase):
    def test_a_wait_without_end(self):
        for seconds in (None, float("inf"), 1e300):
            with Listener([WELCOME], after=0.03) as listener:
                Thread(listener.folder, 2, wait_for=seconds, connect_timeout=seconds).close()

    def fails(self, kind, folder, *texts, **more):
        with self.assertRaises(kind) as caught:
            Thread(folder, 2, **more)
        for text in texts:
            self.assertIn(text, str(caught.exception))
        return caught.exception

    def test_no_path(self):
        began = time.monotonic()
        error = self.fails(FileNotFoundError, "/nope", "/nope/space1", "start l4d --dir", "was not waited for")
        self.assertEqual(error.filename, "/nope/space1")
        self.fails(FileNotFoundError, "/nope", "/nope/space1", "after waiting for 0.2 seconds", wait_for=0.2)
        self.assertTrue(0.2 <= time.monotonic() - began < 5)
        self.assertNotIn("--spaces", str(error))
        self.fails(FileNotFoundError, "/nope", "/nope/space3", "with the folder DIR, and --spaces 3 or more", space=3)

    def test_nobody_listens(self):
        with Listener() as there:
            there.listens().listener.close()
            self.fails(ConnectionRefusedError, there.folder, there.path, "has ended", "--replace", "has had its --connections", "was not waited for")
            self.fails(ConnectionRefusedError, there.folder, "after waiting for 0.1 seconds", wait_for=0.1)

    def test_who_drops_a_thread_ends_its_connection(self):
        thread, server = scripted(b"", ends=False)
        gc.disable()
        try:
            with server, warnings.catch_warnings():
                warnings.simplefilter("ignore", ResourceWarning)
                del thread
                server.settimeout(5)
                self.assertEqual([server.recv(100)[4], server.recv(100)], [1, b""])
        finally:
            gc.enable()

    def test_an_end_is_told_as_one_error(self):
        thread, server = scripted(b"")
        with server, self.assertRaises(l4ipc.Closed) as caught:
            thread.wait()
        self.assertIsNone(caught.exception.__cause__)
        self.assertTrue(caught.exception.__suppress_context__)

    def test_a_path_that_is_there_later(self):
        with Listener([WELCOME], after=0.3) as there:
            Thread(there.folder, 2, wait_for=10).close()

    def test_a_number_that_becomes_free(self):
        with Listener([REFUSED, REFUSED, WELCOME], ends=True) as there:
            Thread(there.listens().folder, 2, wait_for=10).close()
        with Listener([REFUSED], ends=True) as there:
            error = self.fails(l4ipc.Refused, there.listens().folder, "number 2", there.path, "K2", "is live")
            self.assertEqual(error.number, 2)
            self.assertIn("is live, and it was not waited for (wait_for=); end the program that has it, or take another number", str(error))
        for number, text in ((2, "K2: a thread of that number is live, after waiting for 1 second; end the program that has it, or take another number"),
                             (4, "K4: the server has no memory")):
            error = connecting.explained(l4ipc.Refused(number), connecting.Place("/d/space1", 2, wait_for=1))
            self.assertEqual(str(error), f"number 2 at /d/space1: refused {text}")

    def test_what_does_not_pass(self):
        for answer, kind in ((REFUSED[:-1] + b"\1", l4ipc.Refused), (FAULT, l4ipc.Fault), (WORDS, l4ipc.BadFrame)):
            with Listener([answer]) as there:
                self.fails(kind, there.listens().folder, wait_for=10)

    def test_a_server_that_closes_the_connection(self):
        why = "before it answered: it has no memory or no worker for it, as it says on its standard error, or it ends"
        with Listener([b""], ends=True) as there:
            self.fails(l4ipc.Closed, there.listens().folder, there.path, why)
        with Listener([b"", WELCOME], ends=True) as there:
            Thread(there.listens().folder, 2, wait_for=10).close()

    def test_a_server_that_does_not_answer(self):
        began = time.monotonic()
        with Listener([b"", WELCOME[:3]]) as there:
            self.fails(TimeoutError, there.listens().folder, there.path, "is full", connect_timeout=0.2)
            self.fails(TimeoutError, there.folder, there.path, "is full", connect_timeout=0.1, wait_for=0.2)
        self.assertTrue(0.4 <= time.monotonic() - began < 5)

    def test_a_server_that_takes_no_connection(self):
        with Listener(backlog=0) as there:
            queued = [socket.socket(socket.AF_UNIX) for _ in range(1)]
            there.listens()
            queued[0].connect(there.path)
            self.fails(TimeoutError, there.folder, there.path, "is full", connect_timeout=0.2)
            queued[0].close()

    def test_a_server_that_ends(self):
        with Listener([b""], ends=True) as there:
            self.fails(l4ipc.Closed, there.listens().folder, there.path)
        with Listener([b"", b"", WELCOME], ends=True) as there:
            Thread(there.listens().folder, 2, wait_for=10).close()


def patience(seconds):
    """The client waits so long for a server that does not end a thread."""
    return unittest.mock.patch.object(connecting, "PATIENCE", seconds)


class Ender:
    """The server's side of a thread: so many seconds after BYE it ends the connection, behind some bytes. Once it has, `has_ended`."""

    def __init__(self, server, after, said=b""):
        self.server, self.after, self.said, self.has_ended = server, after, said, False
        self.worker = threading.Thread(target=self.serve, daemon=True)
        self.worker.start()

    def serve(self):
        while not self.server.recv(100).endswith(BYE):
            pass
        time.sleep(self.after)
        self.server.sendall(self.said)
        self.has_ended = True
        self.server.close()


class Ending(unittest.TestCase):
    def test_close_waits_until_the_server_has_ended_the_thread(self):
        for said_before in (b"", FAULT, bytes(100_000)):
            thread, server = scripted(b"", ends=False)
            with patience(10):
                ender = Ender(server, 0.1, said_before)
                thread.close()
            self.assertTrue(ender.has_ended)
            ender.worker.join()

    def test_the_end_of_with_does_so(self):
        thread, server = scripted(b"", ends=False)
        with patience(10):
            ender = Ender(server, 0.1)
            with thread:
                thread.begin_wait()
        self.assertTrue(ender.has_ended and thread.is_closed)
        ender.worker.join()

    def test_it_does_not_wait_for_ever(self):
        for floods in (False, True):
            thread, server = scripted(b"", ends=False)
            if floods:
                threading.Thread(target=flood, args=(server,), daemon=True).start()
            began = time.monotonic()
            with patience(0.3):
                thread.close()
                thread.close()
            self.assertTrue(0.3 <= time.monotonic() - began < 5)
            server.close()

    def test_it_raises_nothing(self):
        thread, server = scripted(b"")
        server.close()
        thread.close()
        thread, server = scripted(b"", ends=False)
        thread._connection.setblocking(False)
        with self.assertRaises(BlockingIOError):
            while True:
                thread._connection.send(bytes(100_000))
        began = time.monotonic()
        with patience(10):
            thread.close()
            self.assertTrue(thread.is_closed)
        thread, other = scripted(b"", ends=False)
        thread._connection.close()
        with patience(10):
            thread.close()
        self.assertLess(time.monotonic() - began, 5)
        server.close()
        other.close()

    def test_a_thread_whose_connection_has_ended_is_not_waited_for(self):
        thread, server = scripted(FAULT, ends=False)
        with self.assertRaises(l4ipc.Fault):
            thread.wait()
        began = time.monotonic()
        with patience(10):
            thread.close()
        self.assertLess(time.monotonic() - began, 5)
        server.close()


def flood(server):
    try:
        while True:
            server.sendall(bytes(1000))
    except OSError:
        pass


class WaitingForAPartner(unittest.TestCase):
    def test_it_is_asked_again_until_it_is_there(self):
        thread, server = scripted(3 * failed(0x4) + WORDS)
        self.assertEqual(thread.call(FIRST, Message(0, [1]), wait_for=10).words, (7, 8))
        frames = said(server)[1:]
        self.assertEqual(frames, [frames[0]] * 4)
        thread.close()
        server.close()

    def test_it_does_not_come(self):
        thread, server = scripted(100 * failed(0x4))
        with self.assertRaises(l4ipc.NoPartner) as caught:
            thread.send(FIRST, wait_for=0.2)
        self.assertEqual(caught.exception.waited, 0.2)
        self.assertIn("2.1: send phase to 1.1: non-existing partner (error 0x4), after waiting for 0.2 seconds; nothing was delivered"
                      "; a server that was started again is 1.2 or later: its name finds it, or up to version 63 names.live_thread", str(caught.exception))
        self.assertTrue(4 < len(said(server)) < 20)
        thread.close()
        server.close()

    def test_one_second_is_one(self):
        error = l4ipc.NoPartner(0x4)
        error.waited = 1
        self.assertIn(", after waiting for 1 second;", str(error))

    def test_what_was_sent_is_not_sent_again(self):
        for code in (0x5, 0x2, 0x3, 0x6, 0x18):
            thread, server = scripted(failed(code) + WORDS)
            with self.assertRaises(l4ipc.IpcError) as caught:
                thread.call(FIRST, Message(0, [1]), wait_for=10)
            self.assertNotIn("after waiting", str(caught.exception))
            self.assertEqual(len(said(server)), 2)
            thread.close()
            server.close()


class Texts(unittest.TestCase):
    def text(self, code, does):
        thread, server = scripted(failed(code))
        with self.assertRaises(l4ipc.IpcError) as caught:
            does(thread)
        thread.close()
        server.close()
        return caught.exception, str(caught.exception)

    def test_who_and_what(self):
        strings = Message(0, [], [b"k", b"", b"x" * 9])
        rows = [
            (0x2, lambda it: it.send(FIRST), "2.1: send phase to 1.1: timeout (error 0x2); nothing was delivered"),
            (0x5, lambda it: it.call(FIRST), "2.1: receive phase from 1.1: non-existing partner (error 0x5), which has ended, or the thread to which it passed the message on; what was sent was delivered, and no answer came"),
            (0x3, lambda it: it.wait(1), "2.1: receive phase from anythread: timeout (error 0x3); nothing was received"),
            (0x7, lambda it: it.reply_wait(FIRST, Message()), "cancelled by another thread (error 0x7); what was sent was delivered, and nothing was received"),
            (0x4, lambda it: it.send(1), "that is no id of a thread: ThreadId.of(1, 1)"),
            (0x4, lambda it: it.send(ThreadId.of(5, 0)), "that is no id of a thread: ThreadId.of(5, 1)"),
            (0x4, lambda it: it.send(it.id), "that is the thread itself"),
            (0x18, lambda it: it.send(FIRST, strings), "string 3, of 9 bytes, did not fit the receiver's buffers; nothing was delivered"),
            (0x8, lambda it: it.send(FIRST, strings), "string 1, of 1 byte, did not fit"),
            (0x19, lambda it: it.wait(), "a string did not fit the buffers, behind 1 byte that did; nothing was received"),
            (0x10000E, lambda it: it.send(FIRST), "aborted by another thread, or its partner ended (error 0x10000e) after 65536 bytes"),
        ]
        for code, does, text in rows:
            with self.subTest(hex(code)):
                self.assertIn(text, self.text(code, does)[1])

    def test_parts(self):
        error, _ = self.text(0x18, lambda it: it.send(FIRST, Message(0, [], [b"k", b"x"])))
        self.assertEqual((error.thread, error.partner, error.string, error.delivered), (ThreadId.of(2, 1), FIRST, 2, False))
        error, _ = self.text(0x9, lambda it: it.call(FIRST, Message(0, [], [b"k", b"x"])))
        self.assertEqual((error.partner, error.string, error.delivered), (FIRST, None, True))

    def test_an_end_tells_the_thread(self):
        thread, server = scripted(b"")
        with self.assertRaises(l4ipc.Closed) as caught:
            thread.wait()
        self.assertIn("2.1", str(caught.exception))
        server.close()

    def test_no_name_server(self):
        thread, server = scripted(200 * failed(0x5))
        with self.assertRaises(l4ipc.NameTimeout) as caught:
            l4ipc.names.Names(thread).wait_for("x", 0.01)
        self.assertIsInstance(caught.exception, TimeoutError)
        self.assertIsInstance(caught.exception, l4ipc.L4Error)
        self.assertIn("no name server is there", str(caught.exception))
        self.assertIn("start l4x DIR names", str(caught.exception))
        thread.close()
        server.close()

    def test_a_name_server_that_comes(self):
        answer = outcome(1, 0xFF00000002, words=(ThreadId.of(2, 1),))
        thread, server = scripted(63 * failed(0x5) + failed(0x5) + failed(0x3) + answer)
        self.assertEqual(l4ipc.names.Names(thread).wait_to_register("x", 10), ThreadId.of(2, 1))
        thread.close()
        server.close()


class Forking(unittest.TestCase):
    def in_child(self, does):
        """Whether this is true in a forked child, which ends then."""
        with warnings.catch_warnings():
            warnings.simplefilter("ignore", DeprecationWarning)
            child = os.fork()
        if child == 0:
            try:
                os._exit(0 if does() else 1)
            finally:
                os._exit(2)
        return os.waitpid(child, 0)[1] == 0

    def test_a_child_leaves_the_thread_to_its_parent(self):
        thread, server = scripted(WORDS + WORDS)

        def is_left():
            try:
                with thread:
                    thread.wait()
            except l4ipc.Closed as end:
                return "of the process that forked: connect in the child" in str(end) and thread.is_closed
            return False

        with patience(10):
            began = time.monotonic()
            self.assertTrue(self.in_child(is_left))
            self.assertLess(time.monotonic() - began, 5)
        self.assertEqual(thread.wait().words, (7, 8))
        self.assertEqual([frame[4] for frame in said(server)], [1, 2])
        thread.close()
        server.close()

    def test_a_child_of_a_thread_of_coroutines(self):
        with Listener([WELCOME + WORDS]) as there:
            async def main():
                async with l4ipc.aio.Thread(there.listens().folder, 2) as thread:
                    self.assertTrue(self.in_child(lambda: thread.close() or thread.is_closed))
                    self.assertEqual((await thread.wait()).words, (7, 8))
                    self.assertEqual([frame[4] for frame in said(there.kept[0])], [1, 2])

            asyncio.run(main())


if __name__ == "__main__":
    unittest.main()
