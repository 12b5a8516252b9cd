#!/usr/bin/env python3
"""The manual's ping-pong: a call and its answer, and how many microseconds they take together.

    pingpong.py DIR serve          is thread 10: answers each message with its words
    pingpong.py DIR ask [COUNT]    is thread 11: makes so many calls (1000), and prints the microseconds of one
"""

import sys
import time

from l4ipc import L4Error, Message, Thread
from l4ipc.names import Names


def serve(directory):
    with Thread(directory, 10) as thread:
        Names(thread).register("pingpong")
        thread.serve(lambda request: Message(request.label, request.words))


def ask(directory, count=1000):
    if count < 1:
        raise ValueError("COUNT is at least 1")
    with Thread(directory, 11) as thread:
        server = Names(thread).wait_for("pingpong", 10)
        began = time.perf_counter()
        for turn in range(count):
            answer = thread.call(server, Message(1, [turn]))
            if answer.words != (turn,):
                sys.exit(f"{answer.words} came for {turn}")
        took = time.perf_counter() - began
        print(f"{count} calls of {server}: {took / count * 1e6:.1f} microseconds each")


if __name__ == "__main__":
    try:
        if sys.argv[2:] == ["serve"]:
            serve(sys.argv[1])
        elif sys.argv[2:3] == ["ask"] and len(sys.argv) <= 4:
            ask(sys.argv[1], *map(int, sys.argv[3:]))
        else:
            raise ValueError(f"the words name no role\n\n{__doc__}")
    except KeyboardInterrupt:
        sys.exit(130)
    except ValueError as wrong:
        print(f"pingpong: {wrong}", file=sys.stderr)
        sys.exit(2)
    except (L4Error, OSError) as end:
        sys.exit(f"pingpong: {end}")
