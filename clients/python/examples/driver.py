#!/usr/bin/env python3
"""A driver: it waits for a device and for messages at the same time. The device is a terminal or a pipe, of which each line is one datum; one of more than
65,536 bytes is given in parts.

    driver.py DIR serve DEVICE     is thread 60, and thread 61 beside it: gives each line of the device to who asked first
    driver.py DIR ask              is thread 62: asks for the next line, and prints it
"""

import os
import select
import sys
from collections import deque

from l4ipc import IpcError, L4Error, Message, Thread
from l4ipc.names import Names

MOST_BYTES = 65_536
MOST_LINES = 1000


class Driver:
    """Lines for which nobody has asked yet, and clients whose line has not come yet: one of the two is empty."""

    def __init__(self, requests, answers):
        self.requests = requests  # this thread waits for requests all the time, so it cannot send
        self.answers = answers  # so this one answers, in its name
        self.lines = deque(maxlen=MOST_LINES)
        self.rest = b""  # of a line whose end has not come yet
        self.clients = {}  # each by its thread number: who asks again has asked once

    def take_request(self):
        """Takes the request that came, or the failure of the wait, and waits for the next one."""
        try:
            client = self.requests.finish().sender
            self.clients.pop(client.number, None)
            self.clients[client.number] = client
        except IpcError as error:
            print(f"no request: {error}", flush=True)
        self.requests.begin_wait()
        self.give()

    def take_lines(self, device):
        """Takes the lines that the device has; answers whether it goes on."""
        data = os.read(device, MOST_BYTES)
        *lines, self.rest = (self.rest + data).split(b"\n")
        if len(self.rest) >= MOST_BYTES or not data and self.rest:  # too long for one message, or the device ends the line
            lines, self.rest = [*lines, self.rest], b""
        for line in lines:
            line = line.removesuffix(b"\r")
            self.lines.extend(line[at : at + MOST_BYTES] for at in range(0, max(len(line), 1), MOST_BYTES))
        self.give()
        return bool(data)

    def give(self):
        """Gives lines to clients. A client that does not wait any more loses its turn, and the line goes to the next one."""
        while self.lines and self.clients:
            client = self.clients.pop(next(iter(self.clients)))
            try:
                self.answers.send(client, Message(0, [], [self.lines[0]], originator=self.requests.id), 0)
                self.lines.popleft()
            except IpcError as error:
                print(f"not given: {error}", flush=True)


def serve(directory, path):
    device = os.open(path, os.O_RDWR | os.O_NONBLOCK)
    with Thread(directory, 60) as requests, Thread(directory, 61) as answers:
        Names(requests).register("driver")
        driver = Driver(requests, answers)
        poll = select.poll()
        poll.register(device, select.POLLIN)
        poll.register(requests, select.POLLIN)
        requests.begin_wait()
        while True:
            for ready, _ in poll.poll():
                if ready == device and not driver.take_lines(device):
                    print("the device has ended", flush=True)
                    return
                # of an answer that has arrived in part, the rest makes it readable again
                if ready == requests.fileno() and requests.is_over():
                    driver.take_request()


def ask(directory):
    with Thread(directory, 62) as thread:
        driver = Names(thread).wait_for("driver", 10)
        answer = thread.call(driver, Message(1), buffers=[MOST_BYTES])
        if not answer.strings:
            sys.exit(f"driver: {answer.sender} answered without a line: it is another driver")
        print(answer.strings[0].decode(errors="replace"))


if __name__ == "__main__":
    try:
        if sys.argv[2:3] == ["serve"] and len(sys.argv) == 4:
            serve(sys.argv[1], sys.argv[3])
        elif sys.argv[2:] == ["ask"]:
            ask(sys.argv[1])
        else:
            raise ValueError(f"the words name no role\n\n{__doc__}")
    except KeyboardInterrupt:
        sys.exit(130)
    except ValueError as wrong:
        print(f"driver: {wrong}", file=sys.stderr)
        sys.exit(2)
    except (L4Error, OSError) as end:
        sys.exit(f"driver: {end}")
