"""A server that sends anything: frames cut at each byte, and made wrong at each byte."""

import socket
import unittest

import l4ipc
from l4ipc import Message, Thread, ThreadId

from .scripted import DONE, EXREGR, FAILED, FAULT, REFUSED, STRING, WELCOME, WORDS, failed, in_version_2, outcome, said, scripted

FIRST = ThreadId.of(1, 1)

# Each call with an answer that it takes.
CALLS = {
    "a string": (lambda thread, memory: thread.wait(buffers=[memory]), STRING),
    "words": (lambda thread, memory: thread.call(FIRST, buffers=[memory]), WORDS),
    "an end": (lambda thread, memory: thread.send(FIRST, Message(0, [7])), DONE),
    "a failure": (lambda thread, memory: thread.reply_wait(FIRST, buffers=[memory]), FAILED),
    "registers": (lambda thread, memory: thread.exchange_registers(FIRST, receive=True), EXREGR),
    "a refusal": (lambda thread, memory: thread.wait(buffers=[memory]), REFUSED),
    "a fault": (lambda thread, memory: thread.wait(buffers=[memory]), FAULT),
}
# The same in both versions of the wire: the name, the version, what is called, and the answer.
IN_BOTH = [
    (name, version, does, in_version_2(answer) if version == 2 and answer[4] in (0x82, 0x83) else answer)
    for version in (1, 2)
    for name, (does, answer) in CALLS.items()
]
ROOM = 4


def tried(does, answer, version=1):
    """What a call raises or answers where these bytes come; and that nothing went beyond its memory."""
    whole = bytearray(b"\xee" * (ROOM + 16))
    thread, server = scripted(answer, version=version)
    try:
        came = does(thread, memoryview(whole)[:ROOM])
    except l4ipc.L4Error as error:
        came = error
    finally:
        server.close()
    if whole[ROOM:] != b"\xee" * 16:
        raise AssertionError(f"written past the buffer by {answer.hex()}")
    # whatever came, the thread is closed or in step
    if not thread.is_closed:
        try:
            thread.wait()
            raise AssertionError("an answer where the input has ended")
        except l4ipc.L4Error:
            pass
    thread.close()
    return came


class Hostile(unittest.TestCase):
    def test_an_answer_of_the_other_version(self):
        for version, answer in ((1, in_version_2(WORDS)), (2, WORDS)):
            own, server = socket.socketpair()
            with own, server, self.subTest(version=version):
                server.sendall(WELCOME)
                thread = l4ipc.Thread.over(own, 2, version)
                server.sendall(answer)
                with self.assertRaises(l4ipc.BadFrame):
                    thread.call(FIRST, Message(0, [1]))

    def test_each_answer_as_it_is(self):
        expected = {
            "a string": l4ipc.Received, "words": l4ipc.Received, "an end": type(None), "a failure": l4ipc.NoPartner,
            "registers": l4ipc.Exchanged, "a refusal": l4ipc.Refused, "a fault": l4ipc.Fault,
        }
        for name, version, does, answer in IN_BOTH:
            with self.subTest(name, version=version):
                self.assertIs(type(tried(does, answer, version)), expected[name])

    def test_cut_at_each_byte(self):
        for name, version, does, answer in IN_BOTH:
            for cut in range(len(answer)):
                with self.subTest(name, version=version, cut=cut):
                    self.assertIsInstance(tried(does, answer[:cut], version), (l4ipc.Closed, l4ipc.BadFrame))

    def test_wrong_at_each_byte(self):
        kinds = set()
        for _, version, does, answer in IN_BOTH:
            for place in range(len(answer)):
                for value in range(256):
                    if value == answer[place]:
                        continue
                    wrong = answer[:place] + bytes([value]) + answer[place + 1 :]
                    kinds.add(type(tried(does, wrong, version)).__name__)
        for kind in ("BadFrame", "Closed", "Received", "Refused", "Fault", "Timeout", "Cancelled", "Overflow", "Aborted"):
            self.assertIn(kind, kinds)

    def test_one_byte_at_a_time(self):
        client, server = socket.socketpair()
        pieces = iter(WELCOME + STRING)
        real = client.recv

        class Slow:
            """A socket that gives one byte at a time."""

            def __getattr__(self, name):
                return getattr(client, name)

            def recv(self, count):
                server.sendall(bytes([next(pieces)]))
                return real(1)

        thread = Thread.over(Slow(), 2)
        self.assertEqual(thread.wait(buffers=[3]).strings, (b"abc",))
        thread.close()
        server.close()

    def test_welcome_made_wrong_and_cut(self):
        for place in range(len(WELCOME)):
            for value in (*range(16), 0x7F, 0x80, 0x82, 0x83, 0x84, 0x85, 0xFF):
                for answer in (WELCOME[:place], WELCOME[:place] + bytes([value]) + WELCOME[place + 1 :]):
                    client, server = socket.socketpair()
                    server.sendall(answer)
                    server.shutdown(socket.SHUT_WR)
                    try:
                        Thread.over(client, 2).close()
                    except l4ipc.L4Error:
                        self.assertEqual(client.fileno(), -1)
                    server.close()

    def test_strings_that_do_not_fit_the_buffers(self):
        at = (8).to_bytes(8, "big")
        rows = [
            outcome(0x40, FIRST, words=(0xC00,), pieces=b"\0"),  # one typed word
            outcome(0x80, FIRST, words=(0xC08, 0), pieces=b"\0"),  # bit 3 of the descriptor
            outcome(0x80, FIRST, words=(0xC00, 0), pieces=b"\0"),  # three bytes, and no piece
            outcome(0x80, FIRST, words=(0xC00, 0), pieces=b"\1" + at + b"\0\0\0\3abc"),  # elsewhere
            outcome(0x80, FIRST, words=(0xC00, 0), pieces=b"\1" + bytes(8) + b"\0\0\0\2ab"),  # shorter
            outcome(0x80, FIRST, words=(0x1400, 0), pieces=b"\1" + bytes(8) + b"\0\0\0\5abcde"),  # longer than the buffer
            outcome(0x80, FIRST, words=(0xC00, 8), pieces=b"\1" + bytes(8) + b"\0\0\0\3abc"),  # another first pointer
            outcome(0x100, FIRST, words=(0x400, 0, 0x400, 4), pieces=b"\2" + (bytes(8) + b"\0\0\0\1a") * 2),  # two strings
            outcome(0x80, FIRST, words=((1 << 64) - 1024, 0), pieces=b"\0"),  # a length of 2^54 - 1
            outcome(0x80, FIRST, words=(0xC00, 0), pieces=b"\2" + bytes(8) + b"\0\0\0\1a" + bytes(7) + b"\1\0\0\0\2bc"),  # two pieces for one
        ]
        for answer in rows:
            with self.subTest(answer.hex()):
                self.assertIsInstance(tried(CALLS["a string"][0], answer), l4ipc.BadFrame)

    def test_strings_where_none_are_accepted(self):
        self.assertIsInstance(tried(lambda thread, memory: thread.wait(), STRING), l4ipc.BadFrame)

    def test_answers_of_another_kind(self):
        for name, (does, answer) in CALLS.items():
            other = WORDS if answer[4] == 0x83 else EXREGR
            for wrong in (other, WELCOME):
                with self.subTest(name):
                    self.assertIsInstance(tried(does, wrong), l4ipc.BadFrame)


class Errors(unittest.TestCase):
    def test_each_error_code(self):
        rows = [
            (0x2, l4ipc.Timeout, "send", 0), (0x3, l4ipc.Timeout, "receive", 0), (0x4, l4ipc.NoPartner, "send", 0),
            (0x5, l4ipc.NoPartner, "receive", 0), (0x6, l4ipc.Cancelled, "send", 0), (0x7, l4ipc.Cancelled, "receive", 0),
            (0x38, l4ipc.Overflow, "send", 3), (0x309, l4ipc.Overflow, "receive", 48), (0xE, l4ipc.Aborted, "send", 0),
            (0x10000F, l4ipc.Aborted, "receive", 65_536), (0xA, l4ipc.IpcError, "send", 0),
        ]
        for code, kind, phase, offset in rows:
            with self.subTest(code=hex(code)):
                thread, server = scripted(failed(code) + DONE)
                with self.assertRaises(l4ipc.IpcError) as caught:
                    thread.call(FIRST)
                self.assertIs(type(caught.exception), kind)
                self.assertEqual((caught.exception.phase, caught.exception.offset, caught.exception.code), (phase, offset, code))
                if kind is l4ipc.Aborted:
                    self.assertEqual(caught.exception.bytes, offset)
                thread.send(FIRST)  # the thread goes on
                thread.close()
                server.close()

    def test_a_refusal_goes_on_and_a_fault_does_not(self):
        thread, server = scripted(REFUSED + DONE + FAULT + DONE)
        with self.assertRaises(l4ipc.Refused) as refused:
            thread.send(FIRST)
        self.assertEqual(refused.exception.number, 2)
        thread.send(FIRST)
        with self.assertRaises(l4ipc.Fault) as fault:
            thread.send(FIRST)
        self.assertEqual((fault.exception.letter, fault.exception.number), ("F", 1))
        written = len(said(server))
        with self.assertRaises(l4ipc.Closed):
            thread.send(FIRST)
        self.assertEqual(said(server), [])
        self.assertEqual(written, 4)
        server.close()

    def test_an_interrupted_call_closes_the_thread(self):
        client, server = socket.socketpair()
        server.sendall(WELCOME)
        thread = Thread.over(client, 2)

        class Interrupted:
            def recv(self, count):
                raise KeyboardInterrupt

            def __getattr__(self, name):
                return getattr(client, name)

        thread._connection = Interrupted()
        with self.assertRaises(KeyboardInterrupt):
            thread.wait()
        with self.assertRaises(l4ipc.Closed):
            thread.wait()
        server.close()

    def test_one_call_at_a_time(self):
        thread, server = scripted(WORDS)
        thread._call.acquire()
        with self.assertRaises(RuntimeError):
            thread.wait()
        thread._call.release()
        self.assertEqual(thread.wait().words, (7, 8))
        thread.close()
        server.close()

    def test_a_propagated_message_tells_both_senders(self):
        thread, server = scripted(outcome(0x1001, 0x300000001, FIRST, words=(9,)))
        received = thread.wait()
        self.assertEqual((received.sender, received.actual_sender, received.words), (0x300000001, FIRST, (9,)))
        thread.close()
        server.close()

    def test_sleep_ends_by_its_timeout_alone(self):
        thread, server = scripted(failed(0x3) + failed(0x7))
        thread.sleep(0.5)
        with self.assertRaises(l4ipc.Cancelled):
            thread.sleep(0.5)
        thread.close()
        server.close()

    def test_exchange_registers_of_another_space(self):
        thread, server = scripted(bytes.fromhex("00000019 83 0000000000000000 0000000000000000 0000000000000002"))
        self.assertIsNone(thread.exchange_registers(FIRST))
        thread.close()
        server.close()


if __name__ == "__main__":
    unittest.main()
