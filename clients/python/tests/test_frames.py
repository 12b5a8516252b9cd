"""What is written, against the vectors of docs/FORMATS.md."""

import socket
import unittest

import l4ipc
from l4ipc import ANYLOCALTHREAD, ANYTHREAD, NILTHREAD, Message, Thread, ThreadId, period, seconds_of
from l4ipc import frames
from l4ipc.message import BufferStrings
from l4ipc.protocol import MAX_STRING_BYTES, VERSIONS, Told

from .scripted import DONE, EXREGR, FAILED, WORDS, in_version_2, said, scripted

FIRST, SECOND = ThreadId.of(1, 1), ThreadId.of(2, 1)


class Words(unittest.TestCase):
    def test_periods(self):
        rows = [
            (None, 0x0), (0, 0x400), (5e-6, 0x5), (0.001023, 0x3FF), (0.001025, 0x601), (0.002, 0x7E8), (1, 0x2BD1), (1.024, 0x2BE8),
            (1e-9, 0x1), (1e-12, 0x400), (2_196_875.771904, 0x7FFF), (2_196_875.771905, 0x0), (float("inf"), 0x0),
        ]
        for seconds, word in rows:
            with self.subTest(seconds=seconds):
                self.assertEqual(period(seconds), word)

    def test_a_period_is_the_shortest_that_is_not_shorter(self):
        worths = sorted({mantissa << exponent for exponent in range(32) for mantissa in range(1, 1024)})
        for micros in [*range(1, 5000), 10**6, 10**9, 10**12, 123_456_789, 2_196_875_771_903]:
            told = seconds_of(period(micros / 1e6))
            least = next(worth for worth in worths if worth >= micros)
            self.assertEqual(round(told * 1e6), least, micros)

    def test_what_is_no_period(self):
        for seconds in (-1, -1e-9, float("nan")):
            with self.subTest(seconds=seconds), self.assertRaises(ValueError):
                period(seconds)

    def test_ids(self):
        self.assertEqual(SECOND, 0x200000001)
        self.assertEqual((SECOND.number, SECOND.version), (2, 1))
        self.assertEqual(ThreadId.of(2, 65), 0x200000041)
        self.assertEqual([str(it) for it in (SECOND, NILTHREAD, ANYTHREAD, ANYLOCALTHREAD)], ["2.1", "nilthread", "anythread", "anylocalthread"])

    def test_tags(self):
        rows = [
            (Message(), 0x0), (Message(0, [1, 2]), 0x2), (Message(0, [], [b"", b"a"]), 0x100), (Message(0, [1], originator=SECOND), 0x1001),
            (Message(3, [9], [b"x"]), 0x30081), (Message((1 << 48) - 1, [0] * 63), 0xFFFF_FFFF_FFFF_003F),
        ]
        for message, tag in rows:
            with self.subTest(message=message):
                self.assertEqual(message.tag(), tag)

    def test_messages_past_their_limits(self):
        for message in (
            Message(1 << 48), Message(-1), Message(0, [0] * 64), Message(0, [0] * 62, [b""]), Message(0, [], [b""] * 32),
            Message(0, [1 << 64]), Message(0, [-1]), Message(0, [], [bytes(MAX_STRING_BYTES + 1)]), Message(0, [0], originator=1 << 64),
        ):
            thread, server = scripted(DONE)
            with self.subTest(message=str(message)[:60]), self.assertRaises(ValueError):
                thread.send(FIRST, message)
            self.assertEqual(len(said(server)), 1, "a frame went out")
            self.assertFalse(thread.is_closed)
            thread.send(FIRST)
            thread.close()
            server.close()


class Buffers(unittest.TestCase):
    def test_items(self):
        rows = [
            ([], []),
            ([3], [0xC00, 0]),
            ([4, 8], [0x1000, 0, 0x2000, 4]),
            ([[4, 4]], [0x1010, 0, 4]),
            ([[3, 5]], [0xE00, 0, 0x1400, 3]),
            ([[5, 5, 3, 3, 3]], [0x1610, 0, 5, 0xC20, 10, 13, 16]),
            ([[1] * 31], [0x5E0, *range(31)]),
        ]
        for given, words in rows:
            with self.subTest(given=given):
                self.assertEqual(BufferStrings(given).words, words)

    def test_buffers_past_their_limits(self):
        for given in ([1] * 17, [[1] * 32], [[]], [-1], [1 << 54], [memoryview(b"abc")]):
            with self.subTest(given=given), self.assertRaises(ValueError):
                BufferStrings(given)

    def test_strings_are_scattered(self):
        first, second, third = bytearray(b"....."), bytearray(b"...."), bytearray(b"...")
        buffers = BufferStrings([[first, second], third])
        self.assertEqual(buffers.pieces_of([7, 2]), [(0, 5), (5, 2), (9, 2)])
        self.assertIsNone(buffers.pieces_of([10]))
        self.assertIsNone(buffers.pieces_of([1, 1, 1]))
        strings = buffers.fill([7, 2], b"abcdefgxy")
        self.assertEqual([bytes(it) for it in strings], [b"abcdefg", b"xy"])
        self.assertEqual((first, second, third), (b"abcde", b"fg..", b"xy."))


class Frames(unittest.TestCase):
    def check(self, does, answer, *wanted):
        thread, server = scripted(answer)
        result = does(thread)
        thread.close()
        written = said(server)
        server.close()
        self.assertEqual([frame.hex() for frame in written], [bytes.fromhex(text).hex() for text in ("00000003 01 0002", *wanted, "00000001 04")])
        return result

    def test_send(self):
        self.check(
            lambda thread: thread.send(FIRST, Message(0, [7])), DONE,
            "00000036 02 0000000100000001 0000000000000000 00000000 0000000000000000 0000000000000001 0000000000000000 00 0000000000000007",
        )

    def test_receive(self):
        received = self.check(
            lambda thread: thread.wait(), WORDS,
            "0000002e 02 0000000000000000 ffffffffffffffff 00000000 0000000000000000 0000000000000000 0000000000000000 00",
        )
        self.assertEqual((received.sender, received.label, received.words), (FIRST, 3, (7, 8)))
        self.assertIsNone(received.actual_sender)

    def test_a_closed_receive_with_zero_time_and_a_buffer(self):
        self.check(
            lambda thread: thread.receive(FIRST, 0, [64]), WORDS,
            "0000003e 02 0000000000000000 0000000100000001 00000400 0000000000000000 0000000000000000 0000000000000001 02"
            "0000000000010000 0000000000000000",
        )

    def test_call_with_a_string(self):
        self.check(
            lambda thread: thread.call(ThreadId.of(255, 1), Message(1, [], [b"echo"])), WORDS,
            "00000042 02 000000ff00000001 000000ff00000001 00000000 0000000000000000 0000000000010080 0000000000000000 00"
            "0000000000001000 0000000000000000 6563686f",
        )

    def test_reply_wait(self):
        self.check(
            lambda thread: thread.reply_wait(FIRST, Message(0, [FIRST]), buffers=[64]), WORDS,
            "00000046 02 0000000100000001 ffffffffffffffff 04000000 0000000000000000 0000000000000001 0000000000000001 02"
            "0000000100000001 0000000000010000 0000000000000000",
        )

    def test_propagation(self):
        self.check(
            lambda thread: thread.send(FIRST, Message(0, [7], originator=SECOND)), DONE,
            "00000036 02 0000000100000001 0000000000000000 00000000 0000000200000001 0000000000001001 0000000000000000 00 0000000000000007",
        )

    def test_exchange_registers(self):
        answer = self.check(
            lambda thread: thread.exchange_registers(SECOND, send=True), EXREGR, "00000011 03 0000000200000001 0000000000000004"
        )
        self.assertEqual((answer.thread, answer.was_sending, answer.was_receiving), (SECOND, True, False))

    def test_sleep_and_both_timeouts(self):
        thread, server = scripted(WORDS + WORDS)
        thread.sleep(1)
        thread.call(FIRST, Message(), send_timeout=5e-6, receive_timeout=200e-6)
        sent = said(server)
        self.assertEqual(sent[1][13:25].hex(), f"{int(SECOND):016x}00002bd1")
        self.assertEqual(sent[2][21:25].hex(), "000500c8")
        thread.close()
        server.close()

    def test_kinds_and_lengths_of_what_comes(self):
        for head, kind in (("00000000", None), (f"{frames.MAX_BODY + 1:08x}", None), (f"{frames.MAX_BODY:08x}", 0x05), ("00000009", 0x81), ("00000002", 0x81), ("00000021", 0x82)):
            with self.subTest(head=head, kind=kind):
                if kind is None:
                    with self.assertRaises(frames.BadFrame):
                        frames.body_length(bytes.fromhex(head))
                elif (head, kind) == ("00000009", 0x81):
                    frames.check_kind(kind, frames.body_length(bytes.fromhex(head)))
                else:
                    with self.assertRaises(frames.BadFrame):
                        frames.check_kind(kind, frames.body_length(bytes.fromhex(head)))


class Version2(unittest.TestCase):
    """What version 2 of the wire has beside version 1."""

    def test_hello(self):
        thread, server = scripted(b"", version=2)
        thread.close()
        self.assertEqual(said(server)[0].hex(), "000000050100020002")
        self.assertEqual(thread.version, 2)
        server.close()
        for version in (0, VERSIONS[-1] + 1, 65_535, -1):
            with self.subTest(version=version), self.assertRaises(ValueError):
                frames.hello(2, version)

    def test_frames_are_those_of_the_document(self):
        rows = [
            (FAILED, 1, 0, "00000032 86 0000000000000001 0000000000000000 0000000000008000 0000000000000000 0000000000000000 0000000000000004 00"),
            (EXREGR, 1, 0, "00000021 87 0000000000000000 0000000200000001 0000000000000004 0000000000000000"),
        ]
        for frame, call, moment, wanted in rows:
            self.assertEqual(in_version_2(frame, call, moment), bytes.fromhex(wanted))

    def test_what_is_told_of_each_call(self):
        answers = (WORDS, FAILED, DONE, EXREGR)
        thread, server = scripted(b"".join(in_version_2(frame, 7 + at, 100 + at) for at, frame in enumerate(answers)), version=2)
        self.assertEqual((thread.last_call, thread.last_moment), (None, None))
        received = thread.wait()
        self.assertEqual((received.words, received.call, received.moment), ((7, 8), 7, 100))
        self.assertEqual((received.told, thread.last_told), (Told(7, 100), Told(7, 100)))
        with self.assertRaises(l4ipc.NoPartner) as failure:
            thread.send(FIRST)
        self.assertEqual((failure.exception.call, failure.exception.moment), (8, 101))
        self.assertEqual(failure.exception.told, Told(8, 101))
        thread.send(FIRST)
        self.assertEqual((thread.last_call, thread.last_moment), (9, 102))
        exchanged = thread.exchange_registers(SECOND, send=True)
        self.assertEqual((exchanged.was_sending, exchanged.moment, thread.last_call, thread.last_moment), (True, 103, 9, 103))
        thread.close()
        server.close()

    def test_in_version_1_they_are_none(self):
        thread, server = scripted(WORDS + FAILED + EXREGR)
        received = thread.wait()
        with self.assertRaises(l4ipc.NoPartner) as failure:
            thread.send(FIRST)
        exchanged = thread.exchange_registers(SECOND)
        told = (received.call, received.moment, failure.exception.call, failure.exception.moment, exchanged.moment, thread.last_call, thread.last_moment)
        self.assertEqual(told, (None,) * 7)
        self.assertEqual((received.told, failure.exception.told, thread.last_told), (Told(),) * 3)
        thread.close()
        server.close()

    def test_an_answer_of_the_other_version_is_none(self):
        for version in (1, 2):
            for does, frame in ((lambda thread: thread.wait(), WORDS), (lambda thread: thread.exchange_registers(SECOND), EXREGR)):
                answer = frame if version == 2 else in_version_2(frame)
                for sent in (answer, answer[:5]):
                    thread, server = scripted(sent, version=version)
                    with self.subTest(version=version, answer=sent.hex()), self.assertRaises(l4ipc.BadFrame):
                        does(thread)
                    self.assertTrue(thread.is_closed)
                    server.close()

    def test_an_old_server(self):
        client, server = socket.socketpair()
        server.sendall(bytes.fromhex("00000003 85 46 03"))
        server.shutdown(socket.SHUT_WR)
        with self.assertRaises(l4ipc.Fault) as fault:
            Thread.over(client, 2, version=2)
        self.assertEqual((fault.exception.letter, fault.exception.number), ("F", 3))
        server.close()


class Interface(unittest.TestCase):
    def test_over_is_a_thread(self):
        thread, server = scripted(b"")
        self.assertIsInstance(thread, Thread)
        self.assertEqual(thread.id, SECOND)
        thread.close()
        thread.close()
        server.close()


if __name__ == "__main__":
    unittest.main()
