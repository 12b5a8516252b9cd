"""Threads of one process, fork and signals, a long life, and the measurement of README."""

import re
import subprocess

from c_client.saying import SECONDS, Say, Server
from processes import figures


def check_threads(programs, l4d, l4sh, room):
    """Eight threads of one process, which end without saying so."""
    with Server(l4d, room) as server:
        words = int(subprocess.run([programs["threads"], server.dir], check=True, capture_output=True, text=True, timeout=SECONDS).stdout)
        server.is_legal(l4sh)
        return words


UNIX_ROWS = ["destructor", "signals", "return", "killed", "child", "cancel", "left", "nested"]


def check_unix(programs, l4d, l4sh, room):
    """Fork, signals, the ends of threads of the process, calls that were left: each row with a server of its own."""
    for row in UNIX_ROWS:
        with Server(l4d, room) as server:
            # the sanitizer for addresses does not see that a cancelled thread has left its frames
            program = programs["plain_unix" if row == "cancel" else "unix"]
            ran = subprocess.run([program, server.dir, row], capture_output=True, text=True, timeout=SECONDS)
            assert ran.returncode == 0, (row, ran.returncode, ran.stderr)
            server.is_legal(l4sh)
    return len(UNIX_ROWS)


def check_long_life(programs, l4d, room):
    """A server that has answered many calls holds no more memory than one that has answered few, and takes calls as before."""
    with Server(l4d, room, trace=False) as server:
        def calls(count):
            ran = subprocess.run([programs["long_life"], server.dir, str(count)], check=True, capture_output=True, text=True, timeout=8 * SECONDS)
            assert int(ran.stdout) == count, ran
            return count
        made = calls(50_000)
        before = figures(server.process.pid).resident
        # two entries each: without compaction the greatest history is full before their end
        made += calls(550_000)
        more = figures(server.process.pid).resident - before
        assert more <= 8 * 1024, f"{more} KiB more after {made} calls"
        return made, more


def check_roundtrip(programs, l4d, room):
    """The measurement of README, run by run on one server, so that its threads have other versions each time; it ends where a call fails."""
    measure = lambda dir: subprocess.run([programs["roundtrip"], dir, "1"], capture_output=True, text=True, timeout=SECONDS)
    with Server(l4d, room, trace=False) as server:
        for _ in range(3):
            ran = measure(server.dir)
            assert ran.returncode == 0 and re.match(r"library [\d.]+ us, by hand [\d.]+ us, quotient ", ran.stdout), ran
        for number, who in ((1, "server: REFUSED K2"), (2, "client: REFUSED K2"), (3, "HELLO by hand: no WELCOME came")):
            other = Say(programs["say"], server.dir, number)
            ran = measure(server.dir)
            assert ran.returncode == 1 and ran.stderr.startswith(f"roundtrip: {who}"), ran
            other.end()
        ran = measure(f"{server.dir}/nowhere")
        assert ran.returncode == 1 and ran.stderr.startswith("roundtrip: server: F10: the connection failed"), ran
    return 7
