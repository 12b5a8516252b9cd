#!/usr/bin/env python3
"""Prints a wire script: connections say hello and stay idle, and then two others play rounds, a call and its answer.

    bench/idle_connections.py IDLE ROUNDS

There are 1,023 threads at most: the connections past that say hello for a number that has been given."""
import sys

sys.path.insert(1, f"{sys.path[0]}/../checks/lib")

from frames import ANY, hello, ipc, thread_id
from protocol_tables import MAX_THREAD_NUMBER

ONE, TWO = thread_id(1), thread_id(2)
RECEIVE, CALL, ANSWER = ipc(0, ANY).hex(), ipc(TWO, TWO, [7, 8]).hex(), ipc(ONE, ANY, [9]).hex()


def hello_text(number):
    return hello(number).hex()


def main():
    idle, rounds = int(sys.argv[1]), int(sys.argv[2])
    lines = ["connect 1", "connect 1", "feed 1 " + hello_text(1), "feed 2 " + hello_text(2)]
    for connection in range(3, idle + 3):
        lines += ["connect 1", f"feed {connection} " + hello_text(min(connection, MAX_THREAD_NUMBER))]
    lines.append("feed 2 " + RECEIVE)
    for _ in range(rounds):
        lines += ["feed 1 " + CALL, "feed 2 " + ANSWER]
    print("\n".join(lines))


main()
