"""A thread that connects again, against a server that a test gives."""

import asyncio
import os
import socket
import threading
import time
import unittest
import unittest.mock

import l4ipc
from l4ipc import Message, Thread, ThreadId, aio, connecting, names

from .scripted import WELCOME, WORDS, failed, outcome, said
from .test_connecting import Listener

FIRST = ThreadId.of(1, 1)
AGAIN = bytes.fromhex("00000009 81 0000000200000002")
IN_255 = 0xFF00000001


class Reconnect(unittest.TestCase):
    def test_the_open_call_fails_and_the_next_one_connects(self):
        with Listener([WELCOME + WORDS, AGAIN + WORDS]) as there:
            thread = Thread(there.listens().folder, 2, reconnect=True)
            self.assertEqual(thread.call(FIRST, Message(1)).words, (7, 8))
            there.kept[0].shutdown(socket.SHUT_WR)
            thread._has_ended = lambda: False  # the end comes while the call is open
            with self.assertRaises(l4ipc.Closed):
                thread.call(FIRST, Message(2))
            del thread._has_ended
            self.assertFalse(thread.is_closed)
            self.assertEqual(thread.call(FIRST, Message(3)).words, (7, 8))
            self.assertEqual((thread.id, thread.lives), (ThreadId.of(2, 2), 2))
            labels = [[int.from_bytes(frame[33:41], "big") >> 16 for frame in said(it)[1:]] for it in there.kept]
            self.assertEqual(labels, [[1, 2], [3]])
            thread.close()
            self.assertTrue(thread.is_closed)
            with self.assertRaises(l4ipc.Closed):
                thread.call(FIRST)

    def test_an_end_between_two_calls_costs_no_call(self):
        with Listener([WELCOME + WORDS, AGAIN + WORDS]) as there:
            thread = Thread(there.listens().folder, 2, reconnect=True)
            thread.call(FIRST)
            there.kept[0].close()
            self.assertEqual(thread.call(FIRST).words, (7, 8))
            thread.close()

    def test_without_it_the_thread_is_closed(self):
        with Listener([WELCOME, AGAIN], ends=True) as there:
            thread = Thread(there.listens().folder, 2)
            for _ in range(2):
                with self.assertRaises(l4ipc.Closed):
                    thread.call(FIRST)
            self.assertTrue(thread.is_closed)
            Thread(there.folder, 2).close()

    def test_nobody_is_there_again(self):
        with Listener([WELCOME]) as there:
            thread = Thread(there.listens().folder, 2, reconnect=True)
            there.worker.join()
            there.listener.close()
            there.kept[0].close()
            for _ in range(2):
                with self.assertRaises(l4ipc.Closed) as caught:
                    thread.call(FIRST)
                self.assertIn(there.path, str(caught.exception))
            thread.close()

    def test_it_stays_closed_while_it_waits_for_its_server(self):
        with Listener([WELCOME]) as there:
            thread = Thread(there.listens().folder, 2, reconnect=True)
            server = threading.Thread(target=lambda: thread.serve(lambda _: None, tell=lambda *_: None), daemon=True)
            server.start()
            there.worker.join()
            there.listener.close()
            there.kept[0].close()
            time.sleep(0.1)
            thread.close()
            with socket.socket(socket.AF_UNIX) as later:
                os.unlink(there.path)
                later.bind(there.path)
                later.listen()
                server.join(5)
                later.settimeout(0.4)
                with self.assertRaises(socket.timeout):
                    later.accept()
            self.assertFalse(server.is_alive())
            self.assertEqual((thread.is_closed, thread.lives), (True, 1))

    def test_it_is_closed_as_its_server_comes_back(self):
        with Listener([WELCOME, AGAIN]) as there:
            thread = Thread(there.listens().folder, 2, reconnect=True)
            there.kept[0].close()
            connect = connecting.connect

            def closing(*words):
                came = connect(*words)
                thread.close()
                return came

            with unittest.mock.patch.object(connecting, "connect", closing), self.assertRaises(l4ipc.Closed):
                thread.call(FIRST)
            self.assertTrue(thread.is_closed)
            self.assertEqual([frame[4] for frame in said(there.kept[1])], [1, 4])

    def test_names_are_registered_again(self):
        registered = failed(0x3) + outcome(1, IN_255, words=(ThreadId.of(2, 1),))
        again = failed(0x3) + outcome(1, IN_255, words=(ThreadId.of(2, 2),))
        with Listener([WELCOME + registered, AGAIN + again + WORDS]) as there:
            thread = Thread(there.listens().folder, 2, reconnect=True)
            l4ipc.names.register(thread, "echo")
            there.kept[0].close()
            self.assertEqual(thread.call(FIRST, Message(9)).words, (7, 8))
            frames = said(there.kept[1])
            self.assertEqual([frame[50:].endswith(b"echo") for frame in frames], [False, False, True, False])
            thread.close()

    def test_a_server_goes_on(self):
        with Listener([WELCOME + WORDS, AGAIN + WORDS + WORDS]) as there:
            thread = Thread(there.listens().folder, 2, reconnect=True)
            there.kept[0].shutdown(socket.SHUT_WR)
            told, came = [], []

            def answer(request):
                came.append(request)
                if len(came) == 3:
                    thread.close()
                return Message()

            thread.serve(answer, tell=lambda error, request: told.append((type(error), request)))
            self.assertEqual(len(came), 3)
            # the first answer belongs to the connection that has ended
            partners = [int.from_bytes(frame[5:13], "big") for it in there.kept for frame in said(it)[1:] if frame[4] == 2]
            self.assertEqual(partners, [0, 0, FIRST])
            self.assertEqual(told, [(l4ipc.Closed, None)])  # its own close is no trouble


def found(thread, server=IN_255):
    """What a name server answers to a look up."""
    return outcome(1, server, words=(thread,))


OTHER = ThreadId.of(4, 1)
LOOKED_UP = failed(0x3) + found(FIRST)
LOOKED_UP_AGAIN = failed(0x3) + found(OTHER)
DOES = {"call": lambda thread, **more: thread.call("echo", Message(5), **more), "send": lambda thread, **more: thread.send("echo", Message(5), **more)}


class Blocks:
    """How a thread that blocks is used."""

    def __init__(self, folder, **more):
        self.thread = Thread(folder, 2, reconnect=True, **more)
        self.names = names.Names

    def run(self, came):
        return came

    def has_not_ended(self):
        self.thread._has_ended = lambda: False

    def close(self):
        self.thread.close()


class Coroutines:
    """The same of a thread whose calls are coroutines."""

    def __init__(self, folder, **more):
        self.loop = asyncio.new_event_loop()
        self.thread = aio.Thread(folder, 2, reconnect=True, **more)
        self.names = aio.Names
        self.run(self.thread.connect())

    def run(self, came):
        return self.loop.run_until_complete(came)

    def has_not_ended(self):
        self.thread._has_ended = lambda _: False

    def close(self):
        self.thread.close()
        self.loop.close()


def partners_of(connection):
    """To whom the calls of a connection went: 0 where they were receive phases alone."""
    return [int.from_bytes(frame[5:13], "big") for frame in said(connection)[1:] if frame[4] == 2]


class ByNameOverLives(unittest.TestCase):
    """The id of a name is that of one connection: over the next one it is that of any thread."""

    def each(self, answers):
        """Each kind of thread, and a server that answers its connections so."""
        for kind in (Blocks, Coroutines):
            for what, does in DOES.items():
                with self.subTest(kind.__name__, does=what), Listener(answers) as there:
                    used = kind(there.listens().folder)
                    try:
                        yield there, used, does
                    finally:
                        used.close()

    def test_the_connection_has_ended_between_two_calls(self):
        for there, used, does in self.each([WELCOME + LOOKED_UP + WORDS, AGAIN + LOOKED_UP_AGAIN + WORDS + WORDS]):
            used.run(does(used.thread))
            there.kept[0].close()
            for _ in range(2):
                used.run(does(used.thread))
            self.assertEqual(partners_of(there.kept[1]), [0, IN_255, OTHER, OTHER])
            self.assertEqual(used.thread.lives, 2)

    def test_it_has_ended_before_the_first_call(self):
        for there, used, does in self.each([WELCOME, AGAIN + LOOKED_UP_AGAIN + WORDS]):
            there.kept[0].close()
            used.run(does(used.thread))
            self.assertEqual(partners_of(there.kept[1]), [0, IN_255, OTHER])

    def test_it_has_ended_between_the_look_up_and_the_call(self):
        for there, used, does in self.each([WELCOME + LOOKED_UP, AGAIN + LOOKED_UP_AGAIN + WORDS]):
            partner = used.thread._book._partner

            def ending(*words):
                found = yield from partner(*words)
                there.kept[0].close()
                return found

            with unittest.mock.patch.object(used.thread._book, "_partner", ending):
                used.run(does(used.thread))
            self.assertEqual(partners_of(there.kept[1]), [0, IN_255, OTHER])

    def test_it_has_ended_while_the_name_server_was_looked_for(self):
        for there, used, does in self.each([WELCOME + failed(0x5), AGAIN + LOOKED_UP_AGAIN + WORDS]):
            live = names.live

            def ending(*words):
                was_live = yield from live(*words)
                there.kept[0].close()
                return was_live

            with unittest.mock.patch.object(names, "live", ending):
                used.run(does(used.thread))
            self.assertEqual(partners_of(there.kept[1]), [0, IN_255, OTHER])

    def test_the_open_call_has_failed_before(self):
        for there, used, does in self.each([WELCOME + LOOKED_UP + WORDS, AGAIN + LOOKED_UP_AGAIN + WORDS]):
            used.run(does(used.thread))
            there.kept[0].shutdown(socket.SHUT_WR)
            used.has_not_ended()  # the end comes while the call is open
            with self.assertRaises(l4ipc.Closed):
                used.run(does(used.thread))
            del used.thread._has_ended
            # (that one may have been sent, and is not made again)
            used.run(does(used.thread))
            self.assertEqual([partners_of(it) for it in there.kept], [[0, IN_255, FIRST, FIRST], [0, IN_255, OTHER]])

    def test_nobody_has_registered_it_since(self):
        for wait_for in (0, 0.2):
            for there, used, does in self.each([WELCOME + LOOKED_UP + WORDS, AGAIN + failed(0x3) + found(0) * 100]):
                used.run(does(used.thread))
                there.kept[0].close()
                with self.assertRaises(l4ipc.Unregistered) as caught:
                    used.run(does(used.thread, wait_for=wait_for))
                self.assertEqual(caught.exception.waited, wait_for or None)
                self.assertEqual(set(partners_of(there.kept[1])), {0, IN_255})

    def test_a_name_server_of_a_lower_version(self):
        old, registered = ThreadId.of(255, 4), found(ThreadId.of(2, 1), ThreadId.of(255, 4))
        for kind in (Blocks, Coroutines):
            with self.subTest(kind.__name__), Listener([WELCOME + 3 * failed(0x5) + failed(0x3) + registered, AGAIN + failed(0x3) + found(ThreadId.of(2, 2))]) as there:
                used = kind(there.listens().folder)
                asked = used.names(used.thread)
                self.assertEqual(used.run(asked.register("echo")), ThreadId.of(2, 1))
                self.assertEqual(partners_of(there.kept[0]), [0, 0, 0, 0, old])
                used.thread.kept.names.clear()  # what the thread registers again by itself is another matter
                there.kept[0].close()
                self.assertEqual(used.run(asked.register("echo")), ThreadId.of(2, 2))
                self.assertEqual(partners_of(there.kept[1]), [0, IN_255])
                used.close()

    def test_connections_that_all_end_at_once(self):
        with Listener([WELCOME, AGAIN], ends=True) as there:
            thread = Thread(there.listens().folder, 2, reconnect=True)
            there.kept[0].close()
            with self.assertRaises(l4ipc.Closed):
                thread.call("echo")
            thread.close()


class ByName(unittest.TestCase):
    def test_a_name_that_moves(self):
        answers = WELCOME + failed(0x3) + found(0) + found(FIRST) + WORDS + WORDS + failed(0x4) + found(ThreadId.of(1, 2)) + WORDS
        with Listener([answers]) as there:
            thread = Thread(there.listens().folder, 2)
            for _ in range(3):
                self.assertEqual(thread.call("echo", Message(5), wait_for=10).words, (7, 8))
            partners = [int.from_bytes(frame[5:13], "big") for frame in said(there.kept[0])[1:]]
            self.assertEqual(partners, [0, IN_255, IN_255, FIRST, FIRST, FIRST, IN_255, ThreadId.of(1, 2)])
            thread.close()

    def test_nobody_has_it(self):
        with Listener([WELCOME + failed(0x3) + outcome(1, IN_255, words=(0,)) * 100]) as there:
            thread = Thread(there.listens().folder, 2)
            for wait_for in (0, 0.05):
                with self.assertRaises(l4ipc.NoPartner) as caught:
                    thread.send("echo", wait_for=wait_for)
                self.assertIn("nobody has registered 'echo'", str(caught.exception))
            thread.close()

    def test_no_name_server(self):
        with Listener([WELCOME + failed(0x5) * 63]) as there:
            thread = Thread(there.listens().folder, 2)
            with self.assertRaises(l4ipc.names.NoNames):
                thread.call("echo")
            thread.close()


if __name__ == "__main__":
    unittest.main()
