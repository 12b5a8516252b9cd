#!/usr/bin/env python3
"""A timeout is told when it is due: also one that comes while the ticker sleeps until a later one, and none before its time.

    checks/live/timeouts.py L4D

One thread waits for a second and a half. Meanwhile another one waits for 20 milliseconds, again and again. Each wait has to fail with the
ErrorCode of a receive timeout (0x3), not before its time and not a second after it. An l4d that sleeps until the first timeout that it
knew of, and is woken by no earlier one, fails it. How late they were is told. The last line is `N waits, M failed`.
"""

import sys
import time

sys.path.insert(1, f"{sys.path[0]}/../lib")

from frames import ANY, ipc
from serving import Server, opened

SHORT, LONG, SLACK, WAITS = 20_000, 1_500_000, 1_000_000, 20
RECEIVE_TIMEOUT = 0x3


def period(micros):
    """The Period of about so many microseconds, and how many it stands for."""
    exponent = 0
    while micros >> exponent > 1023:
        exponent += 1
    mantissa = micros >> exponent
    return exponent << 10 | mantissa, mantissa << exponent


def main():
    short, short_micros = period(SHORT)
    long, long_micros = period(LONG)
    late, failed = [], 0
    with Server(sys.argv[1]) as server:
        waits_long, waits_short = opened(server.path, 1), opened(server.path, 2)
        begun = time.monotonic()
        waits_long.line.sendall(ipc(0, ANY, (), long))
        time.sleep(0.05)
        told = []
        for _ in range(WAITS):
            begin = time.monotonic()
            outcome = waits_short.call(0, ANY, (), short)
            told.append((outcome, (time.monotonic() - begin) * 1e6 - short_micros))
        told.append((waits_long.outcome(), (time.monotonic() - begun) * 1e6 - long_micros))
        for outcome, micros in told:
            late.append(micros)
            failed += outcome.error != RECEIVE_TIMEOUT or not 0 <= micros <= SLACK
        waits_long.bye()
        waits_short.bye()
    late.sort()
    print(f"late by {late[len(late) // 2]:.0f} microseconds in the middle, by {late[-1]:.0f} at most")
    print(f"{len(told)} waits, {failed} failed")
    return 1 if failed else 0


if __name__ == "__main__":
    sys.exit(main())
