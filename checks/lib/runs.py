"""The scripts of checks/scripts as they are stored, and runs of a program, for the checks."""

import os
import re
import socket
import subprocess

# The commands of `l4sh` that read a trace, and those that are asked a word.
OF_A_FILE = ("check", "chart", "state", "script", "count", "follow")
OF_A_WORD = ("explain", "tag", "period")
RUN = re.compile(rb"\{([0-9a-f]{2})\*(\d+)\}")


def stored(path, default=b""):
    """The bytes of a file, its long runs written out."""
    if not os.path.exists(path):
        return default
    with open(path, "rb") as file:
        return RUN.sub(lambda run: run[1] * int(run[2]), file.read())


def ended(words, given=b""):
    """What a run prints, its exit status, and all that it says on standard error."""
    ran = subprocess.run(words, input=given, capture_output=True)
    return ran.stdout, ran.returncode, ran.stderr


def ended_in_pieces(words, given, size):
    """The same, where each read gives so many bytes at most: a packet of such a socket is never joined to the next one."""
    ours, theirs = socket.socketpair(socket.AF_UNIX, socket.SOCK_SEQPACKET)
    with ours, subprocess.Popen(words, stdin=theirs, stdout=subprocess.PIPE, stderr=subprocess.PIPE) as ran:
        theirs.close()
        try:
            for place in range(0, len(given), size):
                ours.send(given[place : place + size])
            ours.shutdown(socket.SHUT_WR)
        except OSError:
            pass  # it ended before all was read
        printed, told = ran.communicate()
        return printed, ran.returncode, told


def trace_of(printed):
    """The entry lines that a script printed."""
    return b"".join(line for line in printed.splitlines(keepends=True) if not line.startswith((b"=", b"!")))


def version_line(trace):
    """The line of version 2 where a trace needs it: version 1 opens no number above 255."""
    numbers = re.findall(rb"^opened (\d+)\.", trace, re.M)
    return b"l4trace 2\n" if any(int(number) > 255 for number in numbers) else b""
