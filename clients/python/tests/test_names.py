"""The client of a name server, against answers that a test gives."""

import pickle
import unittest
import unittest.mock

import l4ipc
from l4ipc import ThreadId, names, seconds_of

from .scripted import failed, outcome, said, scripted

GONE, TIMEOUT, NO_RECEIVER = failed(0x5), failed(0x3), failed(0x4)
ECHO = ThreadId.of(1, 2)


def answered(label=0, thread=0, name=b""):
    tag = label << 16 | (0x81 if name else 1)
    if not name:
        return outcome(tag, 0xFF00000001, words=(thread,))
    piece = b"\1" + bytes(8) + len(name).to_bytes(4, "big") + name
    return outcome(tag, 0xFF00000001, words=(thread, len(name) << 10, 0), pieces=piece)


class Names(unittest.TestCase):
    def setUp(self):
        self.open = []

    def tearDown(self):
        for it in self.open:
            it.close()

    def asked(self, answers):
        thread, server = scripted(answers)
        self.open += [thread, server]
        return names.Names(thread), server

    def test_the_server_is_looked_for_upward(self):
        asked, server = self.asked(GONE + GONE + TIMEOUT + answered(thread=ECHO))
        self.assertEqual(asked.lookup("echo"), ECHO)
        self.assertEqual(asked.server, ThreadId.of(255, 3))
        froms = [int.from_bytes(frame[13:21], "big") for frame in said(server)[1:]]
        self.assertEqual(froms, [ThreadId.of(255, version) for version in (1, 2, 3, 3)])

    def test_nobody_is_there(self):
        asked, server = self.asked(GONE * 63)
        with self.assertRaises(names.NoNames):
            asked.lookup("echo")
        self.assertEqual(len(said(server)), 64)

    def test_a_server_that_came_again_is_looked_for_from_the_next_version(self):
        asked, server = self.asked(TIMEOUT + answered(thread=ECHO) + NO_RECEIVER + GONE + TIMEOUT + answered())
        self.assertEqual(asked.lookup("echo"), ECHO)
        self.assertIsNone(asked.lookup("echo"))
        self.assertEqual(asked.server, ThreadId.of(255, 3))

    def test_a_server_that_is_given(self):
        thread, server = scripted(answered(thread=2 << 32 | 1))
        self.open += [thread, server]
        self.assertEqual(names.Names(thread, ThreadId.of(255, 66)).register("me"), thread.id)
        self.assertEqual(said(server)[1][5:13].hex(), "000000ff00000042")

    def test_a_server_that_is_chosen_is_asked_alone(self):
        """By each way to a name: register, a call, a send, who serves, another `Names`; it is not looked for where it has ended."""
        chosen = ThreadId.of(255, 66)
        thread, server = scripted(answered(thread=2 << 32 | 1) + answered(thread=ECHO) + outcome(0, ECHO) + NO_RECEIVER * 4)
        self.open += [thread, server]
        names.Names(thread, chosen).register("me")
        thread.call("echo")
        thread.kept.found.clear()
        for does in (lambda: thread.call("echo"), lambda: thread.send("echo"), lambda: thread.run(thread._keeper.keep()), names.Names(thread).list):
            with self.assertRaises(names.NoNames) as caught:
                does()
            self.assertEqual(str(caught.exception), "the name server 255.66, which was chosen, is not there: start l4x DIR names, and choose the id that it prints")
            self.assertEqual(caught.exception.server, chosen)
        asked = [int.from_bytes(frame[5:13], "big") for frame in said(server)[1:]]
        self.assertEqual(asked, [chosen, chosen, ECHO, *[chosen] * 4])

    def test_a_choice_that_is_taken_back(self):
        thread, server = scripted(NO_RECEIVER + TIMEOUT + answered())
        self.open += [thread, server]
        asked = names.Names(thread, ThreadId.of(255, 66))
        self.assertEqual(asked.server, ThreadId.of(255, 66))
        with self.assertRaises(names.NoNames):
            asked.lookup("echo")
        self.assertEqual(names.Names(thread, l4ipc.NILTHREAD).lookup("echo"), None)

    def test_an_error_goes_to_another_process(self):
        for error in (names.Unregistered(ThreadId.of(2, 1), "nobody"), names.Unanswered(ThreadId.of(2, 1), ThreadId.of(9, 1), "nobody")):
            other = pickle.loads(pickle.dumps(error))
            self.assertEqual((type(other), str(other), other.name, other.partner), (type(error), str(error), error.name, error.partner))

    def test_each_error(self):
        for number in range(1, 7):
            asked, _ = self.asked(TIMEOUT + answered(number, ECHO))
            with self.subTest(number), self.assertRaises(names.NameFault) as caught:
                asked.register("echo")
            self.assertEqual((caught.exception.number, caught.exception.holder, caught.exception.name), (number, ECHO, "echo"))
            self.assertIn("by 1.2: 'echo'", str(caught.exception))
            self.assertEqual("it has 256 names of live threads" in str(caught.exception), number == names.NameFault.FULL)
            self.assertEqual("1 to 64 bytes of printable ASCII without the space" in str(caught.exception), number == names.NameFault.BAD_NAME)

    def test_a_list(self):
        asked, server = self.asked(TIMEOUT + answered(thread=ECHO, name=b"A") + answered(thread=1 << 32 | 3, name=b"echo") + answered())
        self.assertEqual(asked.list(), [("A", ECHO), ("echo", ThreadId.of(1, 3))])
        payloads = [frame[82:] for frame in said(server)[2:]]
        self.assertEqual(payloads, [b"", b"A", b"echo"])

    def test_a_list_that_goes_back(self):
        asked, _ = self.asked(TIMEOUT + answered(thread=ECHO, name=b"b") + answered(thread=ECHO, name=b"a"))
        with self.assertRaises(l4ipc.L4Error):
            asked.list()

    def test_names_that_are_too_long(self):
        asked, server = self.asked(TIMEOUT)
        with self.assertRaises(ValueError):
            asked.lookup("é" * 33)
        self.assertEqual(len(said(server)), 1)

    def test_another_server_of_that_number(self):
        asked, _ = self.asked(TIMEOUT + outcome(0, 0xFF00000001))
        with self.assertRaises(l4ipc.L4Error):
            asked.lookup("echo")

    def test_wait_for(self):
        asked, _ = self.asked(TIMEOUT + answered() + answered() + answered(thread=ECHO) + answered())
        self.assertEqual(asked.wait_for("echo", 5), ECHO)
        with self.assertRaises(l4ipc.NameTimeout) as caught:
            asked.wait_for("echo", 0)
        self.assertIsInstance(caught.exception, TimeoutError)
        self.assertIsInstance(caught.exception, l4ipc.L4Error)
        self.assertEqual(str(caught.exception), "nobody has registered 'echo'; waited for 'echo' for 0 seconds")

    def test_one_second_is_one(self):
        asked, _ = self.asked(TIMEOUT + 20 * answered())
        with unittest.mock.patch("l4ipc.names.pauses_until", lambda *_: iter(())), self.assertRaises(l4ipc.NameTimeout) as caught:
            asked.wait_for("echo", 1)
        self.assertEqual(str(caught.exception), "nobody has registered 'echo'; waited for 'echo' for 1 second")

    def test_a_name_server_that_does_not_answer(self):
        unsent = failed(0x2)
        for wait in ("wait_for", "wait_to_register"):
            asked, server = self.asked(TIMEOUT + 1000 * unsent)
            with self.subTest(wait), self.assertRaises(l4ipc.NameTimeout) as caught:
                getattr(asked, wait)("echo", 1)
            self.assertEqual(str(caught.exception), "the name server 255.1 does not answer; waited for 'echo' for 1 second")
            tried = said(server)[2:]
            self.assertGreater(len(tried), 1)
            for frame in tried:
                for half in (frame[21:23], frame[23:25]):
                    self.assertLessEqual(seconds_of(int.from_bytes(half, "big")) or 9, 0.51)

    def test_a_wait_goes_on_after_a_timeout(self):
        for does in (lambda it: names.Names(it, timeout=1).wait_for("echo", 5), lambda it: names.Names(it, timeout=1).wait_for("echo")):
            thread, server = scripted(TIMEOUT + failed(0x2) + failed(0x3) + answered(thread=ECHO))
            self.open += [thread, server]
            self.assertEqual(does(thread), ECHO)

    def test_a_call_whose_name_is_not_looked_up(self):
        for waits, said_so in ((0, ""), (0.5, ", after waiting for 0.5 seconds")):
            thread, server = scripted(TIMEOUT + 1000 * failed(0x3))
            self.open += [thread, server]
            with self.subTest(waits), self.assertRaises(l4ipc.Unanswered) as caught:
                thread.call("echo", wait_for=waits)
            self.assertIn(f"to 255.1: timeout (error 0x2): the name server did not answer who has the name 'echo'{said_so}; nothing was delivered",
                          str(caught.exception))
            self.assertIsInstance(caught.exception, l4ipc.Timeout)
            self.assertEqual((caught.exception.name, str(caught.exception.partner), caught.exception.delivered), ("echo", "255.1", False))
            self.assertEqual(len(said(server)) > 3, waits > 0)

    def test_how_long_a_name_server_was_waited_for(self):
        for does in (lambda it: it.call("echo", wait_for=0.02), lambda it: it.send("echo", wait_for=0.02),
                     lambda it: names.Names(it).wait_to_register("echo", 0.02)):
            thread, server = scripted(1000 * GONE)
            self.open += [thread, server]
            with self.assertRaises(l4ipc.NoNames) as caught:
                does(thread)
            self.assertEqual(caught.exception.waited, 0.02)
            self.assertIn("up to 63), after waiting for 0.02 seconds: start l4x DIR names", str(caught.exception))
            self.assertTrue(caught.exception.__suppress_context__)
        thread, server = scripted(1000 * GONE)
        self.open += [thread, server]
        with self.assertRaises(l4ipc.NoNames) as caught:
            thread.call("echo")
        self.assertTrue(caught.exception.__suppress_context__)
        self.assertIn("up to 63): start l4x DIR names", str(caught.exception))

    def test_a_name_that_nobody_has_registered(self):
        thread, server = scripted(TIMEOUT + 1000 * answered())
        self.open += [thread, server]
        with self.assertRaises(l4ipc.Unregistered) as caught:
            thread.call("echo", wait_for=0.02)
        self.assertIn("nobody has registered 'echo', after waiting for 0.02 seconds", str(caught.exception))
        self.assertTrue(caught.exception.__suppress_context__)


if __name__ == "__main__":
    unittest.main()
