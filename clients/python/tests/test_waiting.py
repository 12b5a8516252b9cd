"""Waits that have no end: each tells once who is waited for and what helps, and one line tells that it is over."""

import asyncio
import threading
import unittest
import unittest.mock

import l4ipc
from l4ipc import Message, Thread, ThreadId, aio, names

from .scripted import REFUSED, WELCOME, WORDS, failed, outcome, scripted
from .test_connecting import Listener

FIRST = ThreadId.of(1, 1)
NAMES = ThreadId.of(255, 1)
GONE, TIMEOUT = failed(0x5), failed(0x3)


def answered(thread=0):
    return outcome(1, NAMES, words=(thread,))


def connects(folder):
    Thread(folder, 2, wait_for=None).close()


def connects_with_coroutines(folder):
    async def main():
        async with aio.Thread(folder, 2, wait_for=None):
            pass

    asyncio.run(main())


CONNECTS = (connects, connects_with_coroutines)


class Waits(unittest.TestCase):
    def setUp(self):
        patched = unittest.mock.patch("l4ipc.waiting.TOLD_AFTER", 0.05)
        patched.start()
        self.addCleanup(patched.stop)

    def told(self, does, *texts):
        """What is told while something is done: these texts, a line each."""
        with self.assertLogs("l4ipc") as logged:
            does()
        lines = [record.getMessage() for record in logged.records]
        self.assertEqual(len(lines), len(texts), lines)
        for line, text in zip(lines, texts):
            self.assertIn(text, line)
            self.assertTrue(line.startswith("l4ipc: "), line)

    def test_a_path_that_is_not_there(self):
        for does in CONNECTS:
            with Listener([WELCOME], after=0.5) as there:
                self.told(lambda: does(there.folder), f"waiting for {there.path}: no such path: start l4d --dir DIR with the folder DIR",
                          f"2.1 is connected at {there.path}")

    def test_a_number_that_is_taken(self):
        for does in CONNECTS:
            with Listener([REFUSED] * 6 + [WELCOME]) as there:
                self.told(lambda: does(there.listens().folder), "refused K2", "2.1 is connected")

    def test_a_server_that_does_not_answer(self):
        for does in CONNECTS:
            with Listener([b""]) as there:
                later = threading.Timer(0.5, lambda: there.accepted().sendall(WELCOME))
                later.start()
                self.told(lambda: does(there.listens().folder), f"waiting for {there.path}: l4d does not answer: it is full", "2.1 is connected")
                later.join()

    def test_a_wait_with_an_end_tells_nothing(self):
        with Listener([WELCOME], after=0.2) as there, self.assertNoLogs() if hasattr(self, "assertNoLogs") else unittest.mock.MagicMock():
            Thread(there.folder, 2, wait_for=10).close()

    def test_partners_and_names(self):
        no_server, later = 63 * GONE, TIMEOUT + answered(FIRST)
        rows = [
            (8 * failed(0x4) + WORDS, lambda it: it.call(FIRST, wait_for=None), "waiting for 1.1: no such thread: start its program", "1.1 was there"),
            (3 * no_server + TIMEOUT + answered(ThreadId.of(2, 1)), lambda it: names.Names(it).wait_to_register("echo"),
             "waiting for a name server that registers 'echo': no name server is there (a live thread of number 255, of a version up to 63): start l4x DIR names",
             "echo is registered: it is 2.1"),
            (3 * no_server + later, lambda it: names.Names(it).wait_for("echo"), "waiting for the name 'echo': no name server is there", "echo is 1.1"),
            (TIMEOUT + 8 * answered() + answered(FIRST), lambda it: names.Names(it).wait_for("echo"), "waiting for the name 'echo': nobody has registered 'echo'",
             "echo is 1.1"),
            (3 * no_server + later + WORDS, lambda it: it.call("echo", wait_for=None), "start l4x DIR names", "echo is 1.1"),
            (TIMEOUT + 8 * answered() + answered(FIRST) + WORDS, lambda it: it.call("echo", wait_for=None), "nobody has registered 'echo'", "echo is 1.1"),
        ]
        for answers, does, *texts in rows:
            thread, server = scripted(answers)
            with self.subTest(texts[0]), thread, server, unittest.mock.patch("l4ipc.names.pauses_until", lambda *_: iter([0.03] * 20)):
                self.told(lambda: does(thread), *texts)

    def test_a_name_server_that_does_not_answer(self):
        thread, server = scripted(TIMEOUT + 6 * failed(0x2) + answered(FIRST))
        with thread, server:
            self.told(lambda: names.Names(thread).wait_for("echo"), "waiting for the name 'echo': the name server 255.1 does not answer", "echo is 1.1")

    def test_a_name_that_is_registered_again(self):
        own = answered(ThreadId.of(2, 1))
        thread, server = scripted(TIMEOUT + own + TIMEOUT + failed(0x3) + WORDS + own + WORDS + failed(0x3))
        with thread, server:
            names.Names(thread).register("echo")
            thread.kept.again_at = 0.0

            def answer(request):
                thread.kept.again_at = 0.0
                return Message()

            self.told(lambda: thread.serve(answer), "the name echo could not be registered again", "registered again: echo",
                      "could not be registered again", "has ended")


if __name__ == "__main__":
    unittest.main()
