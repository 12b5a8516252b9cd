"""Threads whose calls are coroutines, against servers that a test gives."""

import asyncio
import contextlib
import socket
import struct
import threading
import time
import unittest
import unittest.mock

import l4ipc
from l4ipc import FUNCTION_FAILED, Message, Thread, ThreadId, aio, connecting
from l4ipc.words import ANYLOCALTHREAD, ANYTHREAD, NILTHREAD

from .scripted import DONE, EXREGR, FAULT, REFUSED, STRING, WELCOME, WORDS, failed, in_version_2, outcome, said
from .test_connecting import Ender, Listener, patience

FIRST = ThreadId.of(1, 1)
OTHER = ThreadId.of(3, 1)
IN_255 = 0xFF00000001
NEWER = outcome(0x40001, FIRST, words=(9,))
AGAIN = bytes.fromhex("00000009 81 0000000200000002")


def tasks_that_know(how_often_they_are_cancelled):
    """Tasks as those of this Python, or as those of before Python 3.11."""
    if how_often_they_are_cancelled:
        return contextlib.nullcontext()
    return unittest.mock.patch("l4ipc.aio._cancels_of", lambda task: None)


async def ticks(turns):
    """What other coroutines do meanwhile."""
    while True:
        await asyncio.sleep(0.01)
        turns.append(None)


def scripted(answers, does, *more, **named):
    """What a coroutine of a thread answers or raises, and the frames that went over the first connection."""

    async def main(there):
        async with aio.Thread(there.folder, 2, **named) as thread:
            try:
                return await does(thread)
            except (l4ipc.L4Error, RuntimeError, ValueError, TypeError) as error:
                return error

    with Listener([WELCOME + answers, *more]) as there:
        came = asyncio.run(main(there.listens()))
        return came, said(there.kept[0])


def end_all(there):
    """Ends all connections, so that a test which waits for what does not come fails."""
    for connection in there.kept:
        connection.shutdown(socket.SHUT_RDWR)


def with_a_canceller(does, **named):
    """What a coroutine of a thread that has a canceller answers, and the frames of the thread; ``server`` is its connection to the server."""

    async def main(there):
        async with aio.Thread(there.listens().folder, 1) as canceller, aio.Thread(there.folder, 2, canceller=canceller, **named) as thread:
            ending = asyncio.get_running_loop().call_later(5, end_all, there)
            came = await does(thread, there.kept[1])
            ending.cancel()
            return came

    with Listener([WELCOME, WELCOME]) as there:
        return asyncio.run(main(there)), said(there.kept[1])


async def cancelled(call):
    """How a task has ended that was cancelled."""
    await asyncio.wait([call], timeout=5)
    return call.cancelled()


async def cancelled_as_it_comes(thread, server, makes=lambda it: it.wait(), message=WORDS):
    """A call is cancelled after its message has come, and before it is looked at."""
    call = asyncio.ensure_future(makes(thread))
    await asyncio.sleep(0.01)
    server.sendall(message)
    call.cancel()
    assert await cancelled(call) and not thread.is_closed


class Aio(unittest.TestCase):
    def test_the_frames_are_those_of_the_calls_that_block(self):
        rows = [
            (WORDS, lambda it: it.call(FIRST, Message(3, [1, 2]), 1, 2, [5])), (DONE, lambda it: it.send(FIRST, Message(3, [], [b"abc"]), 1)),
            (STRING, lambda it: it.wait(3, [3])), (WORDS, lambda it: it.receive(FIRST)), (WORDS, lambda it: it.reply_wait(FIRST, Message(1), 2)),
            (failed(3), lambda it: it.sleep(0.5)), (EXREGR, lambda it: it.exchange_registers(FIRST, True, True)),
            (WORDS, lambda it: it.ipc(FIRST, FIRST, Message(1))),
        ]
        for answer, does in rows:
            with Listener([WELCOME + answer]) as there:
                with Thread(there.listens().folder, 2) as thread:
                    wanted = does(thread)
                frames = said(there.kept[0])
            self.assertEqual(scripted(answer, does), (wanted, frames) if answer != EXREGR else (unittest.mock.ANY, frames))

    def test_what_fails(self):
        rows = [
            (failed(0x4), l4ipc.NoPartner, False), (REFUSED, l4ipc.Refused, False), (FAULT, l4ipc.Fault, True), (STRING, l4ipc.BadFrame, True),
            (WORDS[:4] + b"\x90", l4ipc.BadFrame, True), (EXREGR, l4ipc.BadFrame, True),
        ]
        for answer, kind, closed in rows:
            async def does(thread):
                with self.assertRaises(kind):
                    await thread.wait()
                return thread.is_closed

            self.assertEqual(scripted(answer, does)[0], closed)
        for does in (lambda it: it.wait("1s"), lambda it: it.call("1.1"), lambda it: it.send(FIRST, 7), lambda it: it.wait(buffers=[b"x"]),
                     lambda it: it.send(0, Message(1)), lambda it: it.call(0), lambda it: it.call(0, wait_for=1), lambda it: it.reply_wait(0, Message(1))):
            came, frames = scripted(b"", does)
            self.assertIsInstance(came, (TypeError, ValueError))
            self.assertEqual([frame[4] for frame in frames], [1, 4])

    def test_an_end(self):
        with Listener([WELCOME], ends=True) as there:
            async def main():
                async with aio.Thread(there.listens().folder, 2) as thread:
                    for _ in range(2):
                        with self.assertRaises(l4ipc.Closed):
                            await thread.wait()

            asyncio.run(main())

    def test_the_end_waits_until_the_server_has_ended_the_thread(self):
        async def ends_with(thread):
            async with thread:
                pass

        async def ends_at_once(thread):
            (await thread.connect()).close()

        async def ends_by_a_call(thread):
            await (await thread.connect()).aclose()

        async def ends_twice(thread):
            await thread.connect()
            await asyncio.gather(thread.aclose(), thread.aclose())

        async def main(folder, ends):
            turns = []
            ticking = asyncio.ensure_future(ticks(turns))
            await ends(aio.Thread(folder, 2))
            ticking.cancel()
            return len(turns)

        began = time.monotonic()
        for ends, others_go_on in ((ends_with, True), (ends_at_once, False), (ends_by_a_call, True), (ends_twice, True)):
            with Listener([WELCOME]) as there, patience(10):
                there.listens()
                worker = threading.Thread(target=lambda: enders.append(Ender(there.accepted(), 0.5)))
                enders = []
                worker.start()
                turns = asyncio.run(main(there.folder, ends))
                worker.join()
                self.assertTrue(enders[0].has_ended)
                self.assertEqual(turns > 5, others_go_on)
                enders[0].worker.join()
        self.assertLess(time.monotonic() - began, 8)

    def test_the_end_does_not_wait_for_ever(self):
        async def main(folder):
            async with aio.Thread(folder, 2) as thread:
                pass
            await thread.aclose()
            thread.close()
            return thread.is_closed

        with Listener([WELCOME]) as there, patience(0.3):
            began = time.monotonic()
            self.assertTrue(asyncio.run(main(there.listens().folder)))
            self.assertTrue(0.3 <= time.monotonic() - began < 5)

    def test_the_end_while_another_coroutine_makes_a_call(self):
        async def does(thread):
            call = asyncio.ensure_future(thread.wait())
            await asyncio.sleep(0.01)
            await thread.aclose()
            call.cancel()
            return thread.is_closed

        came, frames = scripted(b"", does)
        self.assertEqual((came, [frame[4] for frame in frames]), (True, [1, 2, 4]))

    def test_a_call_that_is_open_ends_with_its_thread(self):
        makes = [lambda it: it.wait(), lambda it: it.serve(lambda _: None, tell=lambda *_: None), lambda it: it.sleep(9), lambda it: it.call(FIRST)]
        ends = [lambda it: it.aclose(), lambda it: asyncio.get_running_loop().run_in_executor(None, time.sleep, it.close() or 0)]

        async def main(folder, make, end):
            turns = []
            ticking = asyncio.ensure_future(ticks(turns))
            async with aio.Thread(folder, 2) as thread:
                call = asyncio.ensure_future(make(thread))
                await asyncio.sleep(0.05)
                del turns[:]
                await end(thread)
                came = await asyncio.gather(asyncio.wait_for(call, 5), return_exceptions=True)
                ticking.cancel()
                return type(came[0]), len(turns)

        for make in makes:
            for end in ends:
                with Listener([WELCOME]) as there, patience(0.3):
                    came, turns = asyncio.run(main(there.listens().folder, make, end))
                self.assertEqual(came, type(None) if make is makes[1] else l4ipc.Closed)
                if end is ends[0]:  # nobody else is held up
                    self.assertGreater(turns, 5)

    def test_a_call_that_is_open_reads_the_end_of_its_thread(self):
        async def main(there):
            async with aio.Thread(there.listens().folder, 2) as thread:
                call = asyncio.ensure_future(thread.wait())
                await asyncio.sleep(0.05)
                enders.append(Ender(there.accepted(), 0.1))
                began = time.monotonic()
                await thread.aclose()
                return type((await asyncio.gather(call, return_exceptions=True))[0]), time.monotonic() - began

        enders = []
        with Listener([WELCOME]) as there, patience(10):
            came, seconds = asyncio.run(main(there))
            self.assertTrue(enders[0].has_ended)
            enders[0].worker.join()
        self.assertEqual(came, l4ipc.Closed)
        self.assertLess(seconds, 5)

    def test_one_call_at_a_time(self):
        async def does(thread):
            first = asyncio.ensure_future(thread.wait())
            await asyncio.sleep(0)
            with self.assertRaises(RuntimeError):
                await thread.wait()
            first.cancel()

        scripted(b"", does)

    def test_a_cancelled_call_closes_its_thread(self):
        async def does(thread):
            with self.assertRaises(asyncio.TimeoutError):
                await asyncio.wait_for(thread.wait(), 0.05)
            with self.assertRaises(l4ipc.Closed) as caught:
                await thread.wait()
            self.assertIn("no call is made: a call that was cancelled has closed it, for want of a canceller=", str(caught.exception))
            return thread.is_closed

        self.assertEqual(scripted(b"", does)[0], True)

    def test_a_cancelled_call_is_ended_by_a_canceller(self):
        for answer, kept in ((failed(0x7), False), (WORDS, True)):
            with Listener([WELCOME, WELCOME]) as there:
                async def main():
                    async with aio.Thread(there.folder, 3) as canceller, aio.Thread(there.folder, 2, canceller=canceller) as thread:
                        task = asyncio.ensure_future(thread.wait())
                        await asyncio.sleep(0.05)
                        there.kept[0].sendall(20 * EXREGR)
                        asyncio.get_running_loop().call_later(0.01, there.kept[1].sendall, answer)
                        task.cancel()
                        with self.assertRaises(asyncio.CancelledError):
                            await task
                        self.assertFalse(thread.is_closed)
                        there.kept[1].sendall(DONE)
                        if kept:  # the answer is sent, and then the message that came before is there
                            received = await thread.reply_wait(FIRST, Message(9))
                            self.assertEqual(received.words, (7, 8))
                        else:
                            await thread.send(FIRST, Message(9))

                there.listens()
                asyncio.run(main())
                frames = [said(it) for it in there.kept]
                self.assertEqual([frame[4] for frame in frames[0]][:2], [1, 3])
                self.assertEqual(frames[0][1][5:], ThreadId.of(2, 1).to_bytes(8, "big") + (6).to_bytes(8, "big"))
                _, _, last, _ = frames[1]
                self.assertEqual((last[5:13], last[13:21]), (FIRST.to_bytes(8, "big"), bytes(8)))

    def test_a_message_that_has_come_as_its_call_is_cancelled(self):
        async def main(there):
            async with aio.Thread(there.listens().folder, 1) as canceller, aio.Thread(there.folder, 2, canceller=canceller) as thread:
                call = asyncio.ensure_future(thread.wait())
                await asyncio.sleep(0.05)
                there.kept[1].sendall(WORDS)
                asyncio.get_running_loop().call_later(0.01, call.cancel)
                time.sleep(0.1)  # both have come at the next turn of the loop
                came = await asyncio.gather(asyncio.wait_for(call, 5), return_exceptions=True)
                received = came[0] if isinstance(came[0], l4ipc.Received) else await asyncio.wait_for(thread.wait(), 5)
                return received.words

        with Listener([WELCOME + EXREGR, WELCOME]) as there:
            self.assertEqual(asyncio.run(main(there)), (7, 8))

    def test_what_is_held_is_no_answer_to_a_call_that_sends(self):
        rows = [
            lambda it: it.call(FIRST), lambda it: it.call(FIRST, wait_for=1), lambda it: it.ipc(FIRST, FIRST, Message(1)),
            lambda it: it.ipc(OTHER, FIRST, Message(1)),
        ]
        for makes in rows:
            async def does(thread, server):
                await cancelled_as_it_comes(thread, server)
                server.sendall(NEWER)
                return (await makes(thread)).words, (await thread.receive(FIRST)).words

            self.assertEqual(with_a_canceller(does)[0], ((9,), (7, 8)))

    def test_what_is_held_comes_once_the_reply_is_sent(self):
        async def does(thread, server):
            await cancelled_as_it_comes(thread, server)
            server.sendall(failed(0x4))
            with self.assertRaises(l4ipc.NoPartner):
                await thread.reply_wait(FIRST, Message(9))
            reply = asyncio.ensure_future(thread.reply_wait(FIRST, Message(9)))
            await asyncio.sleep(0.01)
            with self.assertRaises(RuntimeError):  # and nobody else gets it meanwhile
                await thread.wait()
            self.assertFalse(reply.done())
            server.sendall(DONE + NEWER)
            return (await reply).words, (await thread.wait()).words

        came, frames = with_a_canceller(does)
        self.assertEqual(came, ((7, 8), (9,)))
        self.assertEqual([int.from_bytes(frame[13:21], "big") for frame in frames[1:-1]], [ANYTHREAD, NILTHREAD, NILTHREAD, ANYTHREAD])

    def test_which_messages_are_held(self):
        open_calls = [
            lambda it: it.wait(), lambda it: it.receive(FIRST), lambda it: it.reply_wait(FIRST), lambda it: it.ipc(NILTHREAD, FIRST),
            lambda it: it.ipc(OTHER, FIRST), lambda it: it.serve(lambda _: None),
        ]
        for makes, words in [(it, (7, 8)) for it in open_calls] + [(lambda it: it.call(FIRST), (9,))]:
            async def does(thread, server):
                await cancelled_as_it_comes(thread, server, makes)
                server.sendall(NEWER)
                return (await thread.wait()).words

            self.assertEqual(with_a_canceller(does)[0], words)

    def test_who_gets_what_is_held(self):
        rows = [
            (ANYTHREAD, FIRST, True), (ANYTHREAD, OTHER, False), (ANYTHREAD, ANYLOCALTHREAD, False), (ANYLOCALTHREAD, ANYLOCALTHREAD, True),
            (ANYLOCALTHREAD, ANYTHREAD, True), (FIRST, ANYTHREAD, True), (FIRST, FIRST, True),
        ]
        for came_for, asked_for, gets in rows:
            async def does(thread, server):
                await cancelled_as_it_comes(thread, server, lambda it: it.ipc(NILTHREAD, came_for))
                server.sendall(NEWER)
                return (await thread.ipc(NILTHREAD, asked_for)).words

            with self.subTest(came_for=came_for, asked_for=asked_for):
                self.assertEqual(with_a_canceller(does)[0], (7, 8) if gets else (9,))

    def test_a_server_gets_what_is_held(self):
        async def does(thread, server):
            await cancelled_as_it_comes(thread, server)
            server.sendall(FAULT)
            requests = []
            with self.assertRaises(l4ipc.Fault):
                await thread.serve(lambda request: requests.append(request.words) or Message(4))
            return requests

        came, frames = with_a_canceller(does)
        self.assertEqual((came, frames[2][5:13]), ([(7, 8)], FIRST.to_bytes(8, "big")))

    def test_a_late_answer_of_a_name_server_is_no_request(self):
        late, requests = outcome(1, ThreadId(IN_255), words=(NILTHREAD,)), []

        async def main(there):
            async with aio.Thread(there.listens().folder, 1) as canceller, aio.Thread(there.folder, 2, canceller=canceller) as thread:
                looking = asyncio.ensure_future(aio.Names(thread).lookup("echo"))
                await asyncio.sleep(0.05)  # the name server is live, and has the request
                asyncio.get_running_loop().call_later(0.01, there.kept[1].sendall, failed(0x7))
                looking.cancel()
                self.assertTrue(await cancelled(looking) and not thread.is_closed)
                there.kept[1].sendall(late + WORDS + FAULT)
                with self.assertRaises(l4ipc.Fault):
                    await thread.serve(lambda request: requests.append(request.sender))

        with Listener([WELCOME + 20 * EXREGR, WELCOME + failed(0x3)]) as there:
            asyncio.run(main(there))
        self.assertEqual(requests, [FIRST])

    def test_what_is_held_goes_into_the_buffers_that_it_fits(self):
        async def gets(thread, server, buffers):
            memory = bytearray(3)
            await cancelled_as_it_comes(thread, server, lambda it: it.wait(buffers=[memory]), STRING)
            memory[:] = b"xyz"
            for too_small in ((), [2], [bytearray(2)], [[1, 1], 9]):
                server.sendall(failed(0x3))
                with self.assertRaises(l4ipc.Timeout):
                    await thread.wait(0.01, too_small)
            return await thread.wait(0.01, buffers)

        memory, parts = bytearray(5), [bytearray(2), bytearray(2)]
        for buffers, kind in (([3], bytes), ([memory, 7], memoryview), ([parts], bytes)):
            came, frames = with_a_canceller(lambda thread, server: gets(thread, server, buffers))
            self.assertEqual(([bytes(it) for it in came.strings], type(came.strings[0]), came.sender), ([b"abc"], kind, ThreadId.of(2, 1)))
            self.assertEqual(len(frames), 7)  # HELLO, the call that was cancelled, four that it does not fit, and BYE
        self.assertEqual((memory, parts), (b"abc\0\0", [b"ab", b"c\0"]))

    def test_what_is_told_of_what_is_held(self):
        async def does(thread, server):
            await cancelled_as_it_comes(thread, server, message=in_version_2(WORDS, 5, 50))
            server.sendall(in_version_2(DONE, 6, 60))
            await thread.send(FIRST)
            return thread.last_call, (await thread.wait()).call, thread.last_call, thread.last_moment

        self.assertEqual(with_a_canceller(does, version=2)[0], (6, 5, 5, 50))

    def test_a_further_cancel_while_the_canceller_ends_the_call(self):
        async def main(there):
            folder = there.listens().folder
            async with aio.Thread(folder, 1) as canceller, aio.Thread(folder, 2, canceller=canceller) as thread, \
                    aio.Thread(folder, 3, canceller=canceller) as other:
                ending = asyncio.get_running_loop().call_later(5, end_all, there)
                for _ in range(2):
                    tasks = [asyncio.ensure_future(it.wait()) for it in (thread, other)]
                    for _ in range(3):  # the canceller asks for the first, and the second waits for its turn
                        await asyncio.sleep(0.01)
                        for task in tasks:
                            task.cancel()
                    await asyncio.sleep(0.01)
                    self.assertEqual([task.done() for task in tasks], [False, False])
                    for task, connection in zip(tasks, there.kept[1:]):
                        connection.sendall(failed(0x7))
                        there.kept[0].sendall(EXREGR)
                        self.assertTrue(await cancelled(task))
                ending.cancel()
                return [it.is_closed for it in (canceller, thread, other)]

        with Listener([WELCOME, WELCOME, WELCOME]) as there:
            self.assertEqual(asyncio.run(main(there)), [False, False, False])

    def test_a_thread_that_is_connected_stays_so(self):
        async def main(there):
            thread = await aio.Thread(there.folder, 2).connect()
            async with thread:
                self.assertFalse(thread.is_closed)
            with self.assertRaises(l4ipc.Closed) as caught:
                await thread.connect()
            return str(caught.exception)

        with Listener([WELCOME]) as there:
            self.assertIn("it stays closed: make another one", asyncio.run(main(there.listens())))
            self.assertEqual(len(there.kept), 1)

    def test_a_thread_that_was_not_connected(self):
        async def main():
            thread = aio.Thread("here", 2)
            for does in (thread.wait, lambda: thread.sleep(1), lambda: thread.send("echo"), aio.Names(thread).list):
                with self.assertRaises(l4ipc.Closed) as caught:
                    await does()
                self.assertIn("no call is made: it was not connected, as async with does, or await thread.connect()", str(caught.exception))

        asyncio.run(main())

    def test_what_is_told_of_a_thread_that_was_closed(self):
        async def main(there, ends):
            async with aio.Thread(there.listens().folder, 1) as canceller, aio.Thread(there.folder, 2, canceller=canceller) as thread:
                if not ends:
                    await canceller.aclose()
                call = asyncio.ensure_future(thread.wait())
                await asyncio.sleep(0.05)
                if ends:
                    there.kept[1].sendall(WORDS)
                call.cancel()
                await asyncio.gather(call, return_exceptions=True)
                self.assertEqual(thread.is_closed, not ends)
            with self.assertRaises(l4ipc.Closed) as caught:
                await thread.sleep(0.01)
            return str(caught.exception).partition(", closed>: ")[2]

        cause = "no call is made: a call that was cancelled has closed it, for want of a canceller= that could end the call"
        for ends, wanted in ((True, "no call is made"), (False, cause)):
            with self.subTest(ends=ends), Listener([WELCOME + EXREGR, WELCOME]) as there:
                self.assertEqual(asyncio.run(main(there, ends)), wanted)

    def test_a_canceller_that_makes_a_call(self):
        async def main(there):
            async with aio.Thread(there.listens().folder, 1) as canceller, aio.Thread(there.folder, 2, canceller=canceller) as thread:
                serving = asyncio.ensure_future(canceller.wait())
                await asyncio.sleep(0.05)
                with self.assertRaises(asyncio.TimeoutError):
                    await asyncio.wait_for(thread.wait(), 0.05)
                serving.cancel()
                return thread.is_closed

        with Listener([WELCOME, WELCOME]) as there:
            self.assertTrue(asyncio.run(main(there)))

    def test_a_canceller_that_connects_again_ends_no_call_of_another_server(self):
        async def main(there, at_once):
            async with aio.Thread(there.listens().folder, 1, reconnect=True) as canceller, aio.Thread(there.folder, 2, canceller=canceller) as thread:
                call = asyncio.ensure_future(thread.wait())
                await asyncio.sleep(0.05)
                there.kept[0].close()
                if at_once:
                    there.kept[1].close()
                else:  # the end of the other connection comes as the canceller has connected again
                    connect = canceller._connect_again

                    async def ending(*words):
                        await connect(*words)
                        there.kept[1].close()

                    canceller._connect_again = ending
                call.cancel()
                came = await asyncio.gather(asyncio.wait_for(call, 5), return_exceptions=True)
                return type(came[0]), thread.is_closed

        for at_once in (True, False):
            with self.subTest(at_once=at_once), Listener([WELCOME, WELCOME, WELCOME + EXREGR]) as there:
                self.assertEqual(asyncio.run(main(there, at_once)), (asyncio.CancelledError, True))
                self.assertEqual([frame[4] for it in there.kept[2:] for frame in said(it) if frame[4] == 3], [])
                if at_once:  # (for the server)
                    connecting.connect(connecting.Place(there.path, 1))[0].close()

    def test_what_is_no_canceller(self):
        with self.assertRaises(ValueError):
            aio.Thread("here", 2, canceller=aio.Thread("here", 1, space=2))
        with self.assertRaises(TypeError):
            aio.Thread("here", 2, canceller=7)

    def test_a_canceller_that_is_closed(self):
        async def main(there):
            async with aio.Thread(there.listens().folder, 1) as canceller, aio.Thread(there.folder, 2, canceller=canceller) as thread:
                await canceller.aclose()
                with self.assertRaises(asyncio.TimeoutError):
                    await asyncio.wait_for(thread.wait(), 0.05)
                return thread.is_closed

        with Listener([WELCOME, WELCOME]) as there:
            self.assertTrue(asyncio.run(main(there)))

    def test_a_server(self):
        async def answer(request):
            await asyncio.sleep(0)
            return Message(request.label + 1)

        for function, label in ((answer, 4), (lambda request: Message(4), 4), (lambda request: 1 // 0, FUNCTION_FAILED)):
            told = []
            with Listener([WELCOME + WORDS], ends=True) as there:
                async def main():
                    async with aio.Thread(there.folder, 2) as thread:
                        await thread.serve(function, tell=lambda error, request: told.append(type(error)))

                there.listens()
                asyncio.run(main())
            self.assertEqual(told[-1], l4ipc.Closed)
        _, frames = scripted(WORDS + FAULT, lambda it: it.serve(answer))
        self.assertEqual([int.from_bytes(frame[33:41], "big") >> 16 for frame in frames[1:]], [0, 4])

    def test_a_server_whose_function_lets_a_cancel_through(self):
        async def of_another_task(request):
            sleeps = asyncio.ensure_future(asyncio.sleep(10))
            asyncio.get_running_loop().call_soon(sleeps.cancel)
            await sleeps

        async def of_itself(request):
            raise asyncio.CancelledError

        def at_once(request):
            raise asyncio.CancelledError

        for knows in (hasattr(asyncio.Task, "cancelling"), False):
            for function in (of_another_task, of_itself, at_once):
                told = []
                with self.subTest(function.__name__, knows=knows), tasks_that_know(knows):
                    came, frames = scripted(2 * WORDS + FAULT, lambda it: it.serve(function, tell=lambda error, request: told.append(type(error))))
                    self.assertIsInstance(came, l4ipc.Fault)
                    self.assertEqual(told, [RuntimeError, RuntimeError])
                    self.assertEqual([int.from_bytes(frame[33:41], "big") >> 16 for frame in frames[1:]], [0, FUNCTION_FAILED, FUNCTION_FAILED])

    def test_a_server_that_is_cancelled_within_its_function(self):
        async def does(thread):
            ends = []

            async def function(request):
                try:
                    await asyncio.sleep(10)
                finally:
                    await asyncio.sleep(0)
                    ends.append("ended")

            serving = asyncio.ensure_future(thread.serve(function))
            await asyncio.sleep(0.05)
            serving.cancel()
            await asyncio.wait([serving])
            return serving.cancelled(), ends

        for knows in (hasattr(asyncio.Task, "cancelling"), False):
            with self.subTest(knows=knows), tasks_that_know(knows):
                came, frames = scripted(WORDS + DONE, does)
                self.assertEqual(came, (True, ["ended"]))
                # who has asked is told so, and no receive phase follows
                _, to, from_specifier, timeouts, _, tag = struct.unpack_from(">BQQIQQ", frames[2], 4)
                self.assertEqual((to, from_specifier, timeouts >> 16, tag >> 16), (FIRST, NILTHREAD, 0x400, FUNCTION_FAILED))

    def test_names(self):
        found = failed(0x3) + outcome(1, IN_255, words=(FIRST,))
        came, frames = scripted(found + WORDS, lambda it: it.call("echo", Message(5)))
        self.assertEqual(came.words, (7, 8))
        came, _ = scripted(failed(0x3) + outcome(1, IN_255, words=(ThreadId.of(2, 1),)), lambda it: aio.Names(it).wait_to_register("echo", 1))
        self.assertEqual(came, ThreadId.of(2, 1))
        came, _ = scripted(3 * failed(0x5) + failed(0x3), lambda it: aio.live_thread(it, 9))
        self.assertEqual(came, ThreadId.of(9, 4))
        came, frames = scripted(3 * failed(0x4) + WORDS, lambda it: it.call(FIRST, wait_for=10))
        self.assertEqual((came.words, len(frames)), ((7, 8), 6))

    def test_connecting(self):
        async def connects(folder, **more):
            async with aio.Thread(folder, 2, **more) as thread:
                return thread.id

        with self.assertRaises(FileNotFoundError) as caught:
            asyncio.run(connects("/nope"))
        self.assertIn("/nope/space1", str(caught.exception))
        with Listener([WELCOME], after=0.2) as there:
            self.assertEqual(asyncio.run(connects(there.folder, wait_for=10)), ThreadId.of(2, 1))
        with Listener([b""]) as there, self.assertRaises(TimeoutError) as caught:
            asyncio.run(connects(there.listens().folder, connect_timeout=0.2))
        self.assertIn("is full", str(caught.exception))
        with Listener([REFUSED]) as there, self.assertRaises(l4ipc.Refused):
            asyncio.run(connects(there.listens().folder))
        with self.assertRaises(ValueError):
            aio.Thread("/nope", 2, space=0)

    def test_it_connects_again(self):
        with Listener([WELCOME + WORDS, AGAIN + WORDS]) as there:
            async def main():
                async with aio.Thread(there.listens().folder, 2, reconnect=True) as thread:
                    await thread.call(FIRST)
                    there.kept[0].close()
                    await thread.call(FIRST)
                    return thread.id, thread.lives

            self.assertEqual(asyncio.run(main()), (ThreadId.of(2, 2), 2))

    def test_it_stays_closed_while_it_waits_for_its_server(self):
        async def main(there):
            async with aio.Thread(there.listens().folder, 2, reconnect=True) as thread:
                server = asyncio.ensure_future(thread.serve(lambda _: None, tell=lambda *_: None))
                await asyncio.sleep(0.05)
                there.listener.close()
                there.kept[0].close()
                await asyncio.sleep(0.05)
                await thread.aclose()
                await asyncio.wait_for(server, 5)
                return thread.is_closed, thread.lives

        with Listener([WELCOME]) as there:
            self.assertEqual(asyncio.run(main(there)), (True, 1))


if __name__ == "__main__":
    unittest.main()
