"""Wrong arguments: a TypeError or a ValueError that begins with the argument's name, and nothing is sent."""

import array
import copy
import pickle
import unittest

import l4ipc
from l4ipc import ANYTHREAD, Message, Thread, ThreadId, connecting, names, protocol

from .scripted import DONE, FAILED, WORDS, said, scripted

FIRST = ThreadId.of(1, 1)
BAD_IDS = ("1.1", None, 1.5, [1], -1, 1 << 64)
NOBODY = (0, ThreadId(0))
BAD_NAMES = ("", "a b", "a\n", "\u00e9", "n" * 65)
BAD_SECONDS = ("1s", b"1", [1], -1, float("nan"), float("-inf"), 10**400, object())
ENDLESS = (float("inf"), 1e300, 10**10)


def sends(message):
    return lambda it: it.send(FIRST, message)


def waits(buffers):
    return lambda it: it.wait(buffers=buffers)


# The name of an argument, and calls that have it wrong.
ROWS = [
    *(("to", lambda it, bad=bad: it.send(bad)) for bad in BAD_IDS),
    *(("to", lambda it, bad=bad: it.call(bad)) for bad in BAD_IDS),
    *(("to", lambda it, bad=bad: it.reply_wait(bad)) for bad in BAD_IDS),
    *(("to", lambda it, bad=bad: it.ipc(bad, ANYTHREAD)) for bad in BAD_IDS),
    *(("to", lambda it, bad=bad: it.begin_call(bad)) for bad in ("kv", *BAD_IDS)),
    *(("to", lambda it, bad=bad: it.begin_reply_wait(bad)) for bad in BAD_IDS),
    *(("to: nilthread is no partner of a send", lambda it, bad=bad: it.send(bad, Message(1, [5], [b"lost"]))) for bad in NOBODY),
    *(("to: nilthread is no partner of a send", lambda it, bad=bad: it.send(bad, Message(1), wait_for=None)) for bad in NOBODY),
    *(("to: nilthread is no partner of a call", lambda it, bad=bad: it.call(bad)) for bad in NOBODY),
    *(("to: nilthread is no partner of a call", lambda it, bad=bad: it.call(bad, wait_for=1)) for bad in NOBODY),
    *(("to: nilthread is no partner of a call", lambda it, bad=bad: it.begin_call(bad, Message(1))) for bad in NOBODY),
    *(("to: nilthread is no thread to answer: wait receives alone", lambda it, bad=bad: it.reply_wait(bad, Message(1))) for bad in NOBODY),
    *(("to: nilthread is no thread to answer: wait receives alone", lambda it, bad=bad: it.begin_reply_wait(bad, Message(1))) for bad in NOBODY),
    *(("sender", lambda it, bad=bad: it.receive(bad)) for bad in (*BAD_IDS, 0)),
    *(("from_specifier", lambda it, bad=bad: it.ipc(FIRST, bad)) for bad in BAD_IDS),
    *(("send", lambda it, bad=bad: it.exchange_registers(FIRST, bad)) for bad in (5, "1", None)),
    *(("receive", lambda it, bad=bad: it.exchange_registers(FIRST, receive=bad)) for bad in (5, "1", None)),
    *(("dest", lambda it, bad=bad: it.exchange_registers(bad)) for bad in BAD_IDS),
    *(("originator", sends(Message(originator=bad))) for bad in ("1.1", 1.5, [1], -1, 1 << 64, 6, 6 << 32)),
    *(("timeout", lambda it, bad=bad: it.send(FIRST, timeout=bad)) for bad in BAD_SECONDS),
    *(("timeout", lambda it, bad=bad: it.wait(bad)) for bad in BAD_SECONDS),
    *(("timeout", lambda it, bad=bad: it.receive(FIRST, bad)) for bad in BAD_SECONDS),
    *(("timeout", lambda it, bad=bad: it.reply_wait(FIRST, timeout=bad)) for bad in BAD_SECONDS),
    *(("send_timeout", lambda it, bad=bad: it.call(FIRST, send_timeout=bad)) for bad in BAD_SECONDS),
    *(("receive_timeout", lambda it, bad=bad: it.call(FIRST, receive_timeout=bad)) for bad in BAD_SECONDS),
    *(("wait_for", lambda it, bad=bad: it.call(FIRST, wait_for=bad)) for bad in BAD_SECONDS),
    *(("wait_for", lambda it, bad=bad: it.send(FIRST, wait_for=bad)) for bad in BAD_SECONDS),
    *(("seconds", lambda it, bad=bad: it.sleep(bad)) for bad in BAD_SECONDS),
    *(("message", lambda it, bad=bad: it.send(FIRST, bad)) for bad in ([1, 2], "x", None, 7)),
    *(("label", sends(Message(bad))) for bad in ("x", None, 1.5, [1], -1, 1 << 48)),
    *(("words", sends(Message(0, bad))) for bad in (5, None, "abc", b"abc", bytearray(2), iter([1]), [0] * 64)),
    *(("words[1]", sends(Message(0, [0, bad]))) for bad in (1.5, "1", None, b"x", -1, 1 << 64)),
    *(("strings", sends(Message(0, [], bad))) for bad in (b"abc", "abc", 7, [bytes(protocol.MAX_STRING_BYTES + 1)])),
    *(("strings[1]", sends(Message(0, [], [b"a", bad]))) for bad in ("abc", 7, None, memoryview(bytes(8))[::2])),
    *(("buffers", waits(bad)) for bad in (b"AB", "AB", bytearray(10), memoryview(bytearray(3)), 10, None, [1, 2] * 17)),
    *(("buffers[1]", waits([3, bad])) for bad in (b"AB", bytes(10), "AB", None, 1.5, -1, 1 << 54, [], [b"AB"], ["x"], [1, None])),
    ("buffers[1]", waits([3, memoryview(b"read")])),
    ("buffers[1]", waits([3, memoryview(bytearray(8))[::2]])),
    ("function", lambda it: it.serve(7)),
    ("buffers[0]", lambda it: it.serve(print, [b"AB"])),
    ("tell", lambda it: it.serve(print, tell=7)),
    *(("name", lambda it, bad=bad: names.Names(it).register(bad)) for bad in (7, None, b"x", *BAD_NAMES)),
    *(("name", lambda it, bad=bad: names.Names(it).lookup(bad)) for bad in (7, *BAD_NAMES)),
    *(("name", lambda it, bad=bad: names.Names(it).wait_for(bad, 5)) for bad in BAD_NAMES),
    *(("to", lambda it, bad=bad: it.call(bad)) for bad in BAD_NAMES),
    *(("to", lambda it, bad=bad: it.send(bad, wait_for=5)) for bad in BAD_NAMES),
    *(("originator", lambda it, bad=bad: names.Names(it).register("x", bad)) for bad in ("1.1", 1.5, -1, 1 << 64, 10, 10 << 32)),
    ("thread", lambda it: names.Names("1.1")),
    ("thread", lambda it: names.lookup(7, "x")),
    ("server", lambda it: names.Names(it, "255.1")),
    *(("timeout", lambda it, bad=bad: names.Names(it, timeout=bad)) for bad in BAD_SECONDS),
    *(("seconds", lambda it, bad=bad: names.Names(it).wait_for("x", bad)) for bad in BAD_SECONDS),
    *(("seconds", lambda it, bad=bad: names.Names(it).wait_to_register("x", bad)) for bad in BAD_SECONDS),
    *(("wait_for", lambda it, bad=bad: Thread("/", 1, wait_for=bad)) for bad in BAD_SECONDS),
    *(("connect_timeout", lambda it, bad=bad: Thread("/", 1, connect_timeout=bad)) for bad in BAD_SECONDS),
]


class Arguments(unittest.TestCase):
    def test_an_id_is_shown_as_it_is_made(self):
        for thread in (ThreadId.of(1, 2), ThreadId(0), ThreadId((1 << 64) - 1)):
            self.assertEqual(eval(repr(thread)), thread)
        self.assertEqual(repr(ThreadId.of(1, 2)), "ThreadId.of(1, 2)")

    def test_each_names_the_argument_and_sends_nothing(self):
        thread, server = scripted(WORDS)
        for name, does in ROWS:
            with self.assertRaises((TypeError, ValueError)) as caught:
                does(thread)
            text = str(caught.exception)
            self.assertTrue(text.startswith((f"{name}:", f"{name},")) or text == name, f"{name}: {text}")
            self.assertLess(len(text), 300)
        self.assertEqual(len(said(server)), 1)
        self.assertEqual(thread.wait().words, (7, 8))
        thread.close()
        server.close()

    def test_seconds_without_end(self):
        for seconds in ENDLESS:
            place = connecting.place_of("/nope", 2, 1, 1, seconds, seconds)
            self.assertEqual((place.wait_for, place.connect_timeout), (None, None))
            thread, server = scripted(FAILED + WORDS + FAILED + DONE)
            self.assertEqual(thread.call(FIRST, send_timeout=seconds, receive_timeout=seconds, wait_for=seconds).words, (7, 8))
            thread.send(FIRST, timeout=seconds, wait_for=seconds)
            names.Names(thread, timeout=seconds)
            thread.close()
            server.close()

    def test_threads(self):
        rows = [
            ("directory", (7, 2)), ("directory", (None, 2)), ("directory", ("x" * 120, 2)), ("directory", ("a\0b", 2)), ("number", ("/nope", "2")),
            ("number", ("/nope", -1)), ("number", ("/nope", 1 << 16)), ("space", ("/nope", 2, 0)), ("space", ("/nope", 2, "1")),
            ("version", ("/nope", 2, 1, protocol.VERSIONS[-1] + 1)), ("version", ("/nope", 2, 1, "1")), ("wait_for", ("/nope", 2, 1, 1, "1s")),
            ("connect_timeout", ("/nope", 2, 1, 1, 0, -1)),
        ]
        for name, given in rows:
            with self.subTest(name), self.assertRaises((TypeError, ValueError)) as caught:
                Thread(*given)
            self.assertTrue(str(caught.exception).startswith(f"{name}:"), str(caught.exception))
        for word in ("3.1", "3", None, 1.5, b"3"):
            with self.assertRaises(TypeError) as caught:
                ThreadId(word)
            self.assertIn("word: a thread id, as ThreadId.of(2, 1), is wanted, and not", str(caught.exception))
        for thread in (ThreadId.of(3, 1), ThreadId(), ANYTHREAD):
            self.assertEqual((ThreadId(int(thread)), pickle.loads(pickle.dumps(thread)), type(copy.copy(thread))), (thread, thread, ThreadId))
        for given in (("1", 1), (1, None), (-1, 1), (1, 1 << 32)):
            with self.assertRaises((TypeError, ValueError)):
                ThreadId.of(*given)

    def test_what_a_text_says(self):
        thread, server = scripted(b"")
        for does, text in (
            (waits([b"AB"]), "buffers[0]: bytes cannot be written; a buffer is a size or a bytearray"),
            (lambda it: it.call(""), "to: '' is no name; a name has 1 to 64 bytes of printable ASCII without the space"),
            (lambda it: names.Names(it).lookup("a b"), "name: 'a b' is no name; a name has 1 to 64 bytes of printable ASCII without the space"),
            (lambda it: it.begin_call("kv"), "to: begin_call takes no name, as 'kv' is: Names(thread).lookup finds the thread id that it takes"),
            (lambda it: it.send("1.1"), "to: a thread id, as ThreadId.of(2, 1), is wanted, and not '1.1' (str)"),
            (sends(Message(0, [1.5])), "words[0]: an int of 64 bits is wanted, and not 1.5 (float)"),
            (sends(Message(0, [], ["abc"])), "strings[0]: bytes are wanted, and not 'abc' (str)"),
            (sends(Message(originator=6)), "originator: a thread id, as ThreadId.of(6, 1), is wanted, and not 6 (int)"),
            (lambda it: names.Names(it).register("x", 10), "originator: a thread id, as ThreadId.of(10, 1), is wanted, and not 10 (int)"),
            (lambda it: it.wait("1s"), "timeout: a number of seconds, or None for never, is wanted, and not '1s' (str)"),
        ):
            with self.assertRaises((TypeError, ValueError)) as caught:
                does(thread)
            self.assertEqual(str(caught.exception), text)
        thread.close()
        server.close()

    def test_memory_of_any_kind_is_a_buffer(self):
        whole = array.array("I", [0] * 4)
        self.assertEqual(l4ipc.message.BufferStrings([whole, [whole, 3]]).words, [16 << 10, 0, 16 << 10 | 1 << 9, 16, 3 << 10, 32])


if __name__ == "__main__":
    unittest.main()
