"""From a thread to its process: ``python3 -m l4ipc.who DIR`` prints a line for each thread of a live l4d.

l4d tells on its path ``control`` the inode of its end of each connection. Linux tells what is at the other end, and which processes have that open.
"""

import argparse
import contextlib
import enum
import errno
import os
import re
import shutil
import socket
import sys
from dataclasses import dataclass
from typing import Dict, List, Optional, Sequence, Tuple, Union

from .connecting import path_in
from .errors import L4Error
from .peers import PATIENCE, Peer, Process, holders_of, peers_of
from .words import ThreadId

MOST_SHOWN = 80
"""How many characters are printed of an answer that tells no threads."""

_HEAD = re.compile(r"threads ([0-9]+)\n")
_HELP = {
    errno.ENOENT: "no l4d serves there, or one with --no-control",
    errno.ECONNREFUSED: "nobody serves there: its l4d has ended",
}
_LINE = re.compile(r"([0-9]+)\.([0-9]+)  space ([0-9]+)(?:  socket ([0-9]+))?\n")


class Unknown(enum.Enum):
    """Why no process is told of a thread."""

    NO_SOCKET = "l4d could not tell the socket of some threads"
    NO_PEER = "the system does not tell the other end of some connections: it has ended, or is in another network namespace"
    NO_PROCESS = "some threads are of processes at which this user may not look, or of another pid namespace: ask as root"


@dataclass(frozen=True)
class Owner:
    """Whose a thread is.

    ``processes`` are all that have its connection open, the oldest first: more than one where a process has forked since. If there is none,
    ``unknown`` says why. ``uid`` is the user of the first one, or else who made the connection, if the system tells that.
    """

    thread: ThreadId
    space: int
    processes: Tuple[Process, ...] = ()
    uid: Optional[int] = None
    unknown: Optional[Unknown] = None

    def __str__(self) -> str:
        uid = "?" if self.uid is None else str(self.uid)
        pids = ",".join(str(it.pid) for it in self.processes) or "?"
        command = _printable(self.processes[0].command) if self.processes else "?"
        return f"{self.thread}  space {self.space}  pid {pids}  uid {uid}  {command}"


@dataclass(frozen=True)
class _Told:
    """A thread, as l4d tells it."""

    thread: ThreadId
    space: int
    inode: Optional[int]


def processes(directory: Union[str, "os.PathLike[str]"]) -> List[Owner]:
    """Whose each thread is of the l4d of a folder, by thread numbers. Only the user of that l4d and root may ask.

    It raises an ``OSError`` with the path if it cannot connect, and an `L4Error` if what is answered tells no threads.
    """
    threads = _threads(path_in(directory, "control"))
    peers = peers_of({it.inode for it in threads if it.inode is not None})
    holders = holders_of({it.inode for it in peers.values()})
    return [_owner(it, peers, holders) for it in sorted(threads, key=lambda it: it.thread)]


def _owner(told: _Told, peers: Dict[int, Peer], holders: Dict[int, List[Process]]) -> Owner:
    if told.inode is None:
        return Owner(told.thread, told.space, unknown=Unknown.NO_SOCKET)
    peer = peers.get(told.inode)
    if peer is None:
        return Owner(told.thread, told.space, unknown=Unknown.NO_PEER)
    found = tuple(holders[peer.inode])
    if not found:
        return Owner(told.thread, told.space, uid=peer.uid, unknown=Unknown.NO_PROCESS)
    return Owner(told.thread, told.space, found, found[0].uid)


def _threads(path: str) -> List[_Told]:
    """The threads that a server tells at its path."""
    answer = _answer(path)
    head = _HEAD.match(answer)
    if head is None:
        raise L4Error(f"{path}: {_meaning(answer)}")
    found = [_LINE.fullmatch(line) for line in answer[head.end() :].splitlines(keepends=True)]
    threads = [_Told(ThreadId.of(int(it[1]), int(it[2])), int(it[3]), int(it[4]) if it[4] else None) for it in found if it is not None]
    if not len(threads) == len(found) == int(head[1]):
        raise L4Error(f"{path}: what l4d tells of its threads is cut off, or has another form")
    return threads


def _answer(path: str) -> str:
    """What a server answers at its path."""
    try:
        with socket.socket(socket.AF_UNIX) as asker:
            asker.settimeout(PATIENCE)
            asker.connect(path)
            with contextlib.suppress(BrokenPipeError, ConnectionResetError):  # l4d has closed it: too many ask
                asker.sendall(b"threads\n")
                return b"".join(iter(lambda: asker.recv(65_536), b"")).decode("ascii", "replace")
            return ""
    except OSError as error:
        number = error.errno or errno.ETIMEDOUT
        raise OSError(number, _HELP.get(number) or error.strerror or "l4d does not answer", path) from None


def _meaning(answer: str) -> str:
    """What an answer means that tells no threads."""
    if not answer:
        return "l4d closed the connection, as where 8 ask at one time, where it lacks memory (its standard error says so), and where it ends: ask again"
    if answer.startswith("unknown:"):
        return "this l4d is older, and does not tell its threads"
    return f"l4d answered {_fitting(_printable(answer.rstrip()), MOST_SHOWN)}"


def _printable(text: str) -> str:
    """A text that a terminal shows as it is."""
    return "".join(it if it.isprintable() else it.encode("unicode_escape").decode("ascii") for it in text)


def _fitting(text: str, most: int) -> str:
    """A text of at most so many characters, which ends with two points where more came."""
    return text if len(text) <= most else f"{text[: max(most - 2, 0)]}.."


def _print(lines: Sequence[str]) -> None:
    """Prints lines, at a terminal no more of each than its width shows. An ``OSError`` where standard output takes nothing."""
    if sys.stdout is None:
        raise OSError(errno.EBADF, os.strerror(errno.EBADF))
    width = shutil.get_terminal_size().columns if sys.stdout.isatty() else None
    try:
        for line in lines:
            print(line if width is None else _fitting(line, width))
        sys.stdout.flush()
    except OSError:
        # what Python still has of it is written at its end, and is not told of once more
        with contextlib.suppress(OSError, ValueError):
            os.dup2(os.open(os.devnull, os.O_WRONLY), sys.stdout.fileno())
        raise


def main(arguments: Optional[Sequence[str]] = None) -> int:
    """Prints whose each thread is, and answers the exit status."""
    parser = argparse.ArgumentParser(prog="python3 -m l4ipc.who", description="Prints the process of each thread of a live l4d.")
    parser.add_argument("directory", metavar="DIR", help="the folder of l4d, as its --dir says")
    try:
        owners = processes(parser.parse_args(arguments).directory)
    except (OSError, ValueError, L4Error) as error:
        print(f"l4ipc.who: {error}", file=sys.stderr)
        return 1
    try:
        _print([str(it) for it in owners])
    except OSError as error:
        print(f"l4ipc.who: standard output: {error.strerror}", file=sys.stderr)
        return 1
    for why in Unknown:
        if any(it.unknown is why for it in owners):
            print(f"l4ipc.who: ?: {why.value}", file=sys.stderr)
    return 0


if __name__ == "__main__":
    sys.exit(main())
