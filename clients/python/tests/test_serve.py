"""The loop of a server."""

import itertools
import threading
import time
import types
import unittest
import unittest.mock

import l4ipc
from l4ipc import FUNCTION_FAILED, Message, Received, ThreadId
from l4ipc.names import Names
from l4ipc.words import ANYTHREAD

from .scripted import DONE, REFUSED, STRING, WORDS, failed, outcome, said, scripted

# An IPC frame's place of the word `to`, of its tag and of its first word.
TO, TAG, FIRST_WORD = slice(5, 13), slice(33, 41), slice(50, 58)
NAMES, FIRST, OTHER = ThreadId.of(255, 1), ThreadId.of(1, 1), ThreadId.of(3, 1)


def served(answers, function, **more):
    """What a server tells of until its connection ends, and the frames that it wrote behind HELLO."""
    thread, server = scripted(answers)
    told = []
    try:
        thread.serve(function, tell=lambda error, request: told.append((type(error), request and request.sender)), **more)
        return told, said(server)[1:]
    finally:
        thread.close()
        server.close()


def logged_by(test, answers, function):
    """What the logger is told while a server serves."""
    thread, server = scripted(answers)
    with test.assertLogs("l4ipc") as logged:
        thread.serve(function)
    server.close()
    return logged


def message_of(frame):
    """To whom a frame goes, with which label and which first word."""
    tag = int.from_bytes(frame[TAG], "big")
    return int.from_bytes(frame[TO], "big"), tag >> 16, int.from_bytes(frame[FIRST_WORD], "big") if tag & 0x3F else None


class Serve(unittest.TestCase):
    def test_each_message_is_answered_until_the_end(self):
        told, frames = served(2 * WORDS, lambda request: Message(request.label + 1, [sum(request.words)]))
        self.assertEqual(told, [(l4ipc.Closed, None)])
        self.assertEqual([message_of(frame) for frame in frames], [(0, 0, None), (1 << 32 | 1, 4, 15), (1 << 32 | 1, 4, 15)])

    def test_no_answer(self):
        told, frames = served(2 * WORDS, lambda request: None)
        self.assertEqual([message_of(frame)[0] for frame in frames], [0, 0, 0])

    def test_phases_that_fail(self):
        answers = failed(0x9) + failed(0x7) + WORDS + failed(0x4) + WORDS + failed(0x2) + failed(0x9) + WORDS
        told, frames = served(answers, lambda request: Message())
        client = 1 << 32 | 1
        self.assertEqual(told, [(l4ipc.Overflow, None), (l4ipc.Cancelled, None), (l4ipc.NoPartner, client), (l4ipc.Timeout, client), (l4ipc.Overflow, None),
                                (l4ipc.Closed, None)])
        self.assertEqual([message_of(frame)[0] for frame in frames], [0, 0, 0, client, 0, client, 0, 0, client])

    def test_functions_that_fail(self):
        def raises(request):
            raise IndexError

        for function, kind in ((raises, IndexError), (lambda request: Message(0, [-1]), ValueError), (lambda request: Message(-1), ValueError)):
            told, frames = served(2 * WORDS, function)
            self.assertEqual([error for error, _ in told], [kind, kind, l4ipc.Closed])
            self.assertEqual([message_of(frame)[1] for frame in frames], [0, FUNCTION_FAILED, FUNCTION_FAILED])
        told, frames = served(WORDS, lambda request: 42)
        self.assertEqual([message_of(frame)[1] for frame in frames], [0, FUNCTION_FAILED])

    def test_refusals_that_pass(self):
        told, frames = served(REFUSED[:-1] + b"\5" + REFUSED[:-1] + b"\4" + WORDS, lambda request: Message())
        self.assertEqual([error for error, _ in told], [l4ipc.Refused, l4ipc.Closed])

    def test_an_answer_that_is_refused_is_sent_again(self):
        for number, sent in ((b"\5", [(1 << 32 | 1, 4, 15)] * 3), (b"\4", [(1 << 32 | 1, 4, 15)] + [(1 << 32 | 1, FUNCTION_FAILED, None)] * 2)):
            told, frames = served(WORDS + 2 * (REFUSED[:-1] + number) + WORDS, lambda request: Message(request.label + 1, [sum(request.words)]))
            self.assertEqual(told, [(l4ipc.Refused, None), (l4ipc.Closed, None)])
            self.assertEqual([message_of(frame) for frame in frames], [(0, 0, None), *sent, (1 << 32 | 1, 4, 15)])

    def test_what_ends_it(self):
        with self.assertRaises(l4ipc.Refused):
            served(REFUSED[:-1] + b"\6", lambda request: Message())
        with self.assertRaises(l4ipc.BadFrame):
            served(STRING, lambda request: Message())
        with self.assertRaises(SystemExit):
            served(WORDS, lambda request: exit())

    def test_its_own_close_is_no_trouble(self):
        """Neither where the function closes the thread, nor where another thread of the process does while it waits: a call that is open says who did."""
        thread, server = scripted(WORDS)
        told = []
        thread.serve(lambda request: thread.close(), tell=lambda error, request: told.append(error))
        server.close()
        thread, server = scripted(WORDS, ends=False)
        serves = threading.Thread(target=thread.serve, args=(lambda request: None,), kwargs={"tell": lambda error, request: told.append(error)})
        serves.start()
        thread.close()
        server.close()
        serves.join(5)
        self.assertEqual((told, serves.is_alive()), ([], False))
        thread, server = scripted(b"", ends=False)
        closes = threading.Timer(0.05, lambda: (thread.close(), server.close()))
        closes.start()
        with self.assertRaises(l4ipc.Closed) as caught:
            thread.wait()
        closes.join()
        self.assertIn("this process closed it", str(caught.exception))

    def test_what_the_logger_says(self):
        logged = logged_by(self, failed(0x9) + WORDS + failed(0x4), lambda request: Message())
        self.assertEqual([record.levelname for record in logged.records], ["WARNING"] * 3)
        for text, wanted in zip(logged.output, ("nothing was received", "1.1 was not answered", "the connection has ended")):
            self.assertIn(wanted, text)
        self.assertIn("function: a Message or None as its answer is wanted, and not 42 (int)", logged_by(self, WORDS, lambda request: 42).output[0])
        self.assertIn("ZeroDivisionError", logged_by(self, WORDS, lambda request: 1 // 0).output[0])

    def test_what_the_logger_says_of_an_inner_call(self):
        thread, server = scripted(WORDS + failed(0x4) + REFUSED[:-1] + b"\5" + WORDS + failed(0x4))
        inner = []

        def answer(request):
            if inner:
                return Message()
            inner.append(request.sender)
            thread.call(ThreadId.of(999, 1))

        thread._connection.settimeout(5)
        with self.assertLogs("l4ipc") as logged:
            thread.serve(answer)
        server.close()
        self.assertEqual([record.levelname for record in logged.records], ["ERROR", "WARNING", "WARNING", "WARNING"])
        failure, refused, unsent, _ = logged.output
        self.assertIn("the message of 1.1 failed the server's function\nTraceback", failure)
        self.assertIn("thread.call(ThreadId.of(999, 1))", failure)
        self.assertIn("l4ipc.errors.NoPartner: 2.1: send phase to 999.1: non-existing partner", failure)
        self.assertIn("l4ipc: <Thread 2.1>: refused K5", refused)
        self.assertIn("1.1 was not answered: 2.1: send phase to 1.1", unsent)

    def test_what_comes_again_and_again_is_told_once_a_second(self):
        lines = logged_by(self, 4 * failed(0x9) + 3 * WORDS, lambda request: 1 // 0).output
        self.assertEqual([sum(text in line for line in lines) for text in ("receive phase from anythread: message overflow", "failed the server's function", "has ended")],
                         [1, 1, 1])
        self.assertIn("l4ipc: 3 more of Overflow were left out", lines[-2])
        self.assertIn("l4ipc: 2 more of ZeroDivisionError were left out", lines[-1])
        with unittest.mock.patch("l4ipc.serving.QUIET", 0.0):
            self.assertEqual(len(logged_by(self, 4 * failed(0x9), lambda request: None).output), 5)

        def slow(request):
            if request.words == (9,):
                time.sleep(0.06)
            raise ValueError

        with unittest.mock.patch("l4ipc.serving.QUIET", 0.05):
            lines = logged_by(self, 2 * WORDS + outcome(1, FIRST, words=(9,)) + WORDS, slow).output
        told = ["like it" if "l4ipc: 1 more like it were left out" in line else "of" if "1 more of" in line else "a line" for line in lines]
        self.assertEqual(told[:3], ["a line", "a line", "like it"])

    def test_a_coroutine_function(self):
        async def answer(request):
            return Message()

        thread, server = scripted(WORDS)
        with self.assertRaises(TypeError) as caught:
            thread.serve(answer)
        self.assertIn("is a coroutine function, which serve of l4ipc.aio takes", str(caught.exception))
        self.assertEqual(len(said(server)), 1)
        thread.close()
        server.close()

    def test_a_late_answer_of_a_name_server_is_no_request(self):
        late, came = outcome(1, NAMES, words=(2 << 32 | 1,)), []
        thread, server = scripted(failed(0x3) + failed(0x3) + late + WORDS + late)
        with self.assertRaises(l4ipc.Timeout):
            Names(thread, timeout=1).register("echo")
        thread.serve(lambda request: came.append(request.sender) or Message(), tell=lambda error, request: None)
        # (the one answer that was owed is dropped; a message of that thread behind it is a request as any other)
        self.assertEqual(came, [1 << 32 | 1, NAMES])
        self.assertEqual([message_of(frame)[0] for frame in said(server)[3:]], [0, 0, 1 << 32 | 1, NAMES])
        thread.close()
        server.close()

    def test_a_late_answer_is_no_request(self):
        late, came, told = outcome(0x50001, OTHER, words=(2,)), [], []

        def gives_up(request):
            came.append((request.sender, request.label))
            if request.sender == FIRST:
                with self.assertRaises(l4ipc.Timeout):
                    thread.call(OTHER, Message(), receive_timeout=1)
            return Message(9)

        # two calls are given up; then their answers come, and a request of that thread
        thread, server = scripted(2 * (WORDS + failed(0x3)) + 3 * late)
        thread.serve(gives_up, tell=lambda error, request: told.append((str(error), request and request.sender)))
        self.assertEqual(came, [(FIRST, 3), (FIRST, 3), (OTHER, 5)])
        says = "a message of 3.1 was taken for its answer to a call that was given up; if it was a request, it is told to have failed"
        self.assertEqual(told[:2], 2 * [(says, OTHER)])
        labels = [message_of(frame)[:2] for frame in said(server)[1:]]
        self.assertEqual(labels, [(0, 0), (OTHER, 0), (FIRST, 9), (OTHER, 0), (FIRST, 9), (OTHER, FUNCTION_FAILED), (OTHER, FUNCTION_FAILED), (OTHER, 9)])
        thread.close()
        server.close()

    def test_a_server_pauses_after_many_answers(self):
        for turn, pause in ((0.0, 0.001), (0.02, 0.041), (0.5, 0.001)):
            clock = itertools.chain([10.0, 10.0 + turn], itertools.repeat(20.0))
            with unittest.mock.patch("l4ipc.serving.ANSWERS", 2), unittest.mock.patch("time.sleep") as sleep, \
                    unittest.mock.patch("l4ipc.serving.time", types.SimpleNamespace(monotonic=lambda: next(clock))):
                told, frames = served(3 * WORDS + DONE + WORDS, lambda request: Message(9))
            partners = [(int.from_bytes(frame[5:13], "big"), int.from_bytes(frame[13:21], "big")) for frame in frames]
            self.assertEqual(partners, [(0, ANYTHREAD), (FIRST, ANYTHREAD), (FIRST, ANYTHREAD), (FIRST, 0), (0, ANYTHREAD), (FIRST, ANYTHREAD)])
            (paused,), _ = sleep.call_args
            self.assertAlmostEqual(paused, pause)

    def test_who_was_called_again_owes_no_more(self):
        late, came = outcome(0x50001, OTHER, words=(2,)), []

        def calls(request):
            came.append((request.sender, request.label))
            if len(came) == 1:
                with self.assertRaises(l4ipc.Cancelled):
                    thread.call(OTHER)
                does(thread)

        for does, answer, heard in ((lambda it: it.call(OTHER), late, 1), (lambda it: it.call(OTHER, buffers=[8]), late, 1), (lambda it: None, b"", 0)):
            came.clear()
            thread, server = scripted(WORDS + failed(0x7) + answer + late)
            thread.serve(calls, tell=lambda error, request: None)
            self.assertEqual(came, [(FIRST, 3)] + heard * [(OTHER, 5)])
            thread.close()
            server.close()

    def test_what_fails_in_the_send_phase_is_owed_no_answer(self):
        came = []

        def gives_up(request):
            came.append(request.sender)
            if len(came) == 1:
                with self.assertRaises(l4ipc.Timeout):
                    thread.call(OTHER, Message(), send_timeout=1)

        thread, server = scripted(WORDS + failed(0x2) + outcome(1, OTHER, words=(2,)))
        thread.serve(gives_up, tell=lambda error, request: None)
        self.assertEqual(came, [FIRST, OTHER])
        thread.close()
        server.close()

    def test_what_says_that_a_function_failed_is_no_request(self):
        came = []
        thread, server = scripted(outcome(FUNCTION_FAILED << 16, OTHER) + WORDS)
        thread.serve(lambda request: came.append(request.sender) or Message(), tell=lambda error, request: None)
        self.assertEqual(came, [FIRST])
        # nobody is answered but who asked
        self.assertEqual([message_of(frame)[0] for frame in said(server)[1:]], [0, 0, FIRST])
        thread.close()
        server.close()

    def test_an_interrupted_function_is_a_failed_one(self):
        def interrupted(request):
            raise KeyboardInterrupt

        thread, server = scripted(WORDS + DONE)
        with self.assertRaises(KeyboardInterrupt):
            thread.serve(interrupted)
        to, label = message_of(said(server)[2])[:2]
        self.assertEqual((to, label), (FIRST, FUNCTION_FAILED))
        thread.close()
        server.close()

    def test_a_name_that_is_not_registered_again_is_told(self):
        registered = outcome(1, NAMES, words=(2 << 32 | 1,))
        thread, server = scripted(failed(0x3) + registered + failed(0x3) + failed(0x3))
        Names(thread).register("echo")
        thread.kept.again_at = 0.0
        with self.assertLogs("l4ipc") as logged:
            thread.serve(lambda request: Message())
        self.assertIn("the name echo could not be registered again, and is tried again: 2.1: receive phase from 255.1: timeout", logged.output[0])
        server.close()

    def test_strings(self):
        memory = bytearray(8)
        came = []
        served(STRING, lambda request: came.append(bytes(request.strings[0])), buffers=[memory])
        self.assertEqual((came, bytes(memory[:3])), ([b"abc"], b"abc"))

    def test_a_message_that_tells_both_senders(self):
        came = []
        served(outcome(0x1001, 0x300000001, 0x400000001, words=(9,)), came.append)
        self.assertIsInstance(came[0], Received)


if __name__ == "__main__":
    unittest.main()
