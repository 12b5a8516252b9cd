"""A call that is begun, waited for by poll, and finished."""

import select
import signal
import socket
import tempfile
import unittest

import l4ipc
from l4ipc import Message, ThreadId

from .scripted import FAULT, REFUSED, STRING, WORDS, failed, said, scripted

FIRST = ThreadId.of(1, 1)


class Begin(unittest.TestCase):
    def setUp(self):
        self.open = []

    def tearDown(self):
        for it in self.open:
            it.close()

    def begun(self, answers=b"", does=lambda it: it.begin_wait(), ends=False):
        thread, server = scripted(b"", ends=False)
        self.open += [thread, server]
        does(thread)
        server.sendall(answers)
        if ends:
            server.close()
        return thread, server

    def test_an_answer_that_arrives_in_pieces(self):
        memory = bytearray(3)
        thread, server = self.begun(does=lambda it: it.begin_wait(buffers=[memory]))
        poll = select.poll()
        poll.register(thread, select.POLLIN)
        self.assertEqual((poll.poll(0), thread.is_over()), ([], False))
        for place in range(len(STRING)):
            self.assertFalse(thread.is_over())
            server.sendall(STRING[place : place + 1])
            self.assertEqual(poll.poll(1000), [(thread.fileno(), select.POLLIN)])
        self.assertTrue(thread.is_over())
        self.assertEqual(bytes(thread.finish().strings[0]), b"abc")
        self.assertEqual(bytes(memory), b"abc")

    def test_no_other_call_until_it_is_finished(self):
        thread, server = self.begun(WORDS)
        for does in (lambda: thread.wait(0), lambda: thread.send(FIRST), lambda: thread.begin_wait(), lambda: thread.exchange_registers(FIRST)):
            with self.assertRaises(RuntimeError):
                does()
        self.assertEqual(len(said(server)), 2)
        self.assertEqual(thread.finish().words, (7, 8))
        server.sendall(WORDS)
        self.assertEqual(thread.wait().words, (7, 8))

    def test_nothing_was_begun(self):
        thread, _ = self.begun(WORDS)
        thread.finish()
        for does in (thread.finish, thread.is_over):
            with self.assertRaises(RuntimeError):
                does()

    def test_a_thread_that_is_closed_meanwhile(self):
        thread, _ = self.begun()
        thread.close()
        for does in (thread.is_over, thread.finish, lambda: thread.wait(0), thread.begin_wait, lambda: thread.call(FIRST)):
            with self.assertRaises(l4ipc.Closed):
                does()

    def test_the_frames_are_those_of_the_calls(self):
        rows = [
            (lambda it: it.begin_wait(1, [5]), lambda it: it.wait(1, [5])),
            (lambda it: it.begin_reply_wait(FIRST, Message(1, [2]), 3, [5]), lambda it: it.reply_wait(FIRST, Message(1, [2]), 3, [5])),
            (lambda it: it.begin_call(FIRST, Message(1), 1, 2, [5]), lambda it: it.call(FIRST, Message(1), 1, 2, [5])),
        ]
        for begins, calls in rows:
            thread, server = self.begun(WORDS, begins)
            thread.finish()
            server.sendall(WORDS)
            calls(thread)
            _, first, second = said(server)
            self.assertEqual(first, second)

    def test_what_fails(self):
        for answer, kind, goes_on in (
            (failed(0x3), l4ipc.Timeout, True), (REFUSED, l4ipc.Refused, True), (FAULT, l4ipc.Fault, False), (WORDS[:4] + b"\x90", l4ipc.BadFrame, False),
            (STRING, l4ipc.BadFrame, False),
        ):
            thread, server = self.begun(answer)
            self.assertTrue(thread.is_over())
            with self.assertRaises(kind):
                thread.finish()
            self.assertEqual(thread.is_closed, not goes_on)

    def test_an_end(self):
        for answer in (b"", WORDS[:7]):
            thread, _ = self.begun(answer, ends=True)
            self.assertTrue(thread.is_over())
            with self.assertRaises(l4ipc.Closed):
                thread.finish()
            with self.assertRaises(l4ipc.Closed):
                thread.begin_wait()

    def test_what_the_handler_of_a_signal_raises(self):
        """It comes out of the call, whatever it is, and that call has closed the thread."""
        for kind in (TimeoutError, EOFError, ConnectionResetError, OSError, ValueError, KeyboardInterrupt):
            def handler(number, frame):
                raise kind("enough")

            before = signal.signal(signal.SIGALRM, handler)
            for waits in (lambda it: it.wait(), lambda it: it.serve(lambda request: None), lambda it: it.sleep(5), lambda it: (it.begin_wait(), it.finish())):
                thread, server = scripted(b"", ends=False)
                self.open += [thread, server]
                signal.setitimer(signal.ITIMER_REAL, 0.02)
                with self.subTest(kind), self.assertRaisesRegex(kind, "^enough$"):
                    waits(thread)
                with self.assertRaisesRegex(l4ipc.Closed, "no call is made: a call that was interrupted has closed it"):
                    thread.wait()
            signal.signal(signal.SIGALRM, before)

    def test_the_same_while_it_connects(self):
        def handler(number, frame):
            raise TimeoutError("enough")

        before = signal.signal(signal.SIGALRM, handler)
        with tempfile.TemporaryDirectory() as folder, socket.socket(socket.AF_UNIX) as silent:
            silent.bind(f"{folder}/space1")
            silent.listen()
            signal.setitimer(signal.ITIMER_REAL, 0.05)
            with self.assertRaisesRegex(TimeoutError, "^enough$"):
                l4ipc.Thread(folder, 2, wait_for=10)
        signal.signal(signal.SIGALRM, before)

    def test_wrong_arguments_begin_nothing(self):
        thread, server = self.begun(WORDS)
        thread.finish()
        wrong = (
            lambda: thread.begin_wait("1s"), lambda: thread.begin_call("x"), lambda: thread.begin_reply_wait(FIRST, 7),
            lambda: thread.begin_wait(buffers=[b"x"]),
        )
        for does in wrong:
            with self.assertRaises((TypeError, ValueError)):
                does()
        server.sendall(WORDS)
        thread.wait()
        self.assertEqual(len(said(server)), 3)


if __name__ == "__main__":
    unittest.main()
