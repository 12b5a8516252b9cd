"""What Linux tells of the other end of a Unix socket: its inode and its user, and which processes have it open."""

import contextlib
import os
import re
import socket
import struct
import sys
from dataclasses import dataclass
from typing import Dict, Iterator, List, Optional, Set, Tuple

PATIENCE = 10.0
"""How many seconds an answer may take."""

# of linux/netlink.h, linux/sock_diag.h and linux/unix_diag.h
_NETLINK_SOCK_DIAG = 4
_SOCK_DIAG_BY_FAMILY = 20
_NLM_F_REQUEST = 1
_UDIAG_SHOW_PEER, _UDIAG_SHOW_UID = 0x4, 0x40
_UNIX_DIAG_PEER, _UNIX_DIAG_UID = 2, 7
_ANY = 0xFFFF_FFFF
_MESSAGE = struct.Struct("=IHHII")  # struct nlmsghdr
_REQUEST = struct.Struct("=BBHIIIII")  # struct unix_diag_req
_ANSWER = struct.Struct("=BBBBIII")  # struct unix_diag_msg
_ATTRIBUTE = struct.Struct("=HH")  # struct rtattr

_SOCKET = re.compile(r"socket:\[([0-9]+)\]")


@dataclass(frozen=True)
class Peer:
    """The other end of a connection, and the user who made it."""

    inode: int
    uid: Optional[int]


@dataclass(frozen=True)
class Process:
    """A process that has a connection open. ``command`` is its command line, or its name where it has none."""

    pid: int
    uid: int
    command: str


def peers_of(inodes: Set[int]) -> Dict[int, Peer]:
    """The other ends of the sockets with these inodes, of those of which the system tells it."""
    with socket.socket(socket.AF_NETLINK, socket.SOCK_RAW, _NETLINK_SOCK_DIAG) as netlink:
        netlink.settimeout(PATIENCE)
        found = {inode: _peer(netlink, inode) for inode in inodes}
    return {inode: peer for inode, peer in found.items() if peer is not None}


def _peer(netlink: socket.socket, inode: int) -> Optional[Peer]:
    peer = _known(netlink, inode).get(_UNIX_DIAG_PEER)
    return Peer(peer, _known(netlink, peer).get(_UNIX_DIAG_UID)) if peer else None


def _known(netlink: socket.socket, inode: int) -> Dict[int, int]:
    """What the system tells of a Unix socket, by the numbers of its attributes: nothing where it knows no such socket."""
    if not 0 < inode < _ANY:
        return {}
    request = _REQUEST.pack(socket.AF_UNIX, 0, 0, _ANY, inode, _UDIAG_SHOW_PEER | _UDIAG_SHOW_UID, _ANY, _ANY)
    netlink.send(_MESSAGE.pack(_MESSAGE.size + len(request), _SOCK_DIAG_BY_FAMILY, _NLM_F_REQUEST, 0, 0) + request)
    answer = netlink.recv(65_536)
    is_answer = _MESSAGE.unpack_from(answer)[1] == _SOCK_DIAG_BY_FAMILY
    return dict(_attributes(answer[_MESSAGE.size + _ANSWER.size :])) if is_answer else {}


def _attributes(data: bytes) -> Iterator[Tuple[int, int]]:
    """Those attributes of an answer that are numbers of 32 bits."""
    while len(data) >= _ATTRIBUTE.size:
        length, kind = _ATTRIBUTE.unpack_from(data)
        if length == _ATTRIBUTE.size + 4:
            yield kind, int.from_bytes(data[_ATTRIBUTE.size : length], sys.byteorder)
        data = data[max(length + 3 & ~3, _ATTRIBUTE.size) :]


def holders_of(inodes: Set[int]) -> Dict[int, List[Process]]:
    """Which processes have the sockets with these inodes open, the oldest first, as far as this user may look."""
    found: Dict[int, List[Tuple[int, int, Process]]] = {inode: [] for inode in inodes}
    for pid in map(int, filter(str.isdecimal, os.listdir("/proc"))):
        with contextlib.suppress(OSError):  # it has ended, or this user may not look at it
            held = inodes.intersection(_sockets(f"/proc/{pid}/fd"))
            if held:
                began, process = _process(pid)
                for inode in held:
                    found[inode].append((began, pid, process))
    return {inode: [process for _, _, process in sorted(those, key=lambda it: it[:2])] for inode, those in found.items()}


def _sockets(folder: str) -> Iterator[int]:
    """The inodes of the sockets among the descriptors of a process."""
    for descriptor in os.listdir(folder):
        with contextlib.suppress(FileNotFoundError):  # closed meanwhile
            found = _SOCKET.fullmatch(os.readlink(f"{folder}/{descriptor}"))
            if found is not None:
                yield int(found[1])


def _process(pid: int) -> Tuple[int, Process]:
    """When a process began, in ticks of the system, and what is told of it."""
    status, words, stat = (_read(f"/proc/{pid}/{name}") for name in ("status", "cmdline", "stat"))
    fields = dict(line.split(b":", 1) for line in status.splitlines())
    name, _, numbers = stat.partition(b"(")[2].rpartition(b")")
    command = words.rstrip(b"\0").replace(b"\0", b" ") or name
    return int(numbers.split()[19]), Process(pid, int(fields[b"Uid"].split()[1]), os.fsdecode(command))


def _read(path: str) -> bytes:
    with open(path, "rb") as file:
        return file.read()
