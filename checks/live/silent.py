#!/usr/bin/env python3
"""silent.py L4SH L4X: a server that takes a connection and never answers is given up after ten seconds, with its path and what was waited for. Who waits
to be a thread is told so after two.

Of one that refuses, faults or goes, l4x says the code and its sentence, as l4sh does. Where it cannot connect it tells whether nobody listens, or this user
may not. Of words that name no role it says in one line what is wanted. Where a server has no room for a call, a server of l4x makes it again; a caller whose
number is taken takes another one.

Its last line is `N checked, M failed`; the status is 0 where M is 0.
"""

import os
import shutil
import socket
import subprocess
import sys
import tempfile
import threading
import time

sys.path.insert(1, f"{sys.path[0]}/../lib")

from arguments import programs_of
from counting import Tally
from frames import ANY, BYE, NIL, hello, ipc, ipcr, refused, thread_id, welcome
from protocol_tables import K_HISTORY_FULL, K_NO_MEMORY, K_NUMBER_TAKEN, MAX_NAME_BYTES

PATIENCE, SECONDS = 10, 60

tally = Tally()


def listening(path):
    """A socket that listens on a path and answers nothing."""
    door = socket.socket(socket.AF_UNIX)
    door.bind(path)
    door.listen(16)
    return door


# What a server answers to HELLO before it goes, and what l4x says then.
GOES = [
    ("", "F9: the connection ended: so did its l4d, or it has no memory or no worker for it, and says so on its standard error"),
    ("00000002 84 02", "refused: K2: a thread of that number is live; end the program that has it, or wait until it has ended"),
    ("00000002 84 04", "refused: K4: no memory"),
    ("00000003 85 53 03", "the server answered S3: the server stops"),
    ("00000003 81 00 02", "F3: a frame has a body length that its kind doesn't have"),
]


def answers_and_goes(door, frame):
    """Answers one connection so."""
    client, _ = door.accept()
    with client:
        client.recv(64)
        client.sendall(bytes.fromhex(frame))


def check_words(l4x):
    """What l4x says of a server that answers so, and goes."""
    for frame, words in GOES:
        with tempfile.TemporaryDirectory() as folder, listening(f"{folder}/space1") as door:
            serving = threading.Thread(target=answers_and_goes, args=(door, frame))
            serving.start()
            ran = subprocess.run([l4x, folder, "keyvalue"], stdin=subprocess.DEVNULL, capture_output=True, text=True, timeout=SECONDS)
            serving.join(SECONDS)
            tally.same(f"l4x behind {frame or 'nothing'}", (ran.returncode, ran.stdout, ran.stderr), (1, "", f"l4x: {folder}/space1: {words}\n"))


def check_full_device(l4x):
    """What l4x says where standard output takes nothing."""
    with tempfile.TemporaryDirectory() as folder, listening(f"{folder}/space1") as door, open("/dev/full", "w") as full:
        serving = threading.Thread(target=answers_and_goes, args=(door, "00000009 81 000000ff00000001"))
        serving.start()
        ran = subprocess.run([l4x, folder, "names"], stdin=subprocess.DEVNULL, stdout=full, stderr=subprocess.PIPE, text=True, timeout=SECONDS)
        serving.join(SECONDS)
        told = "l4x: standard output failed: No space left on device (os error 28)\n"
        tally.same("l4x into a full device", (ran.returncode, ran.stderr), (1, told))
        ran = subprocess.run([l4x, "help"], stdin=subprocess.DEVNULL, stdout=full, stderr=subprocess.PIPE, text=True, timeout=SECONDS)
        tally.same("its help into a full device", (ran.returncode, ran.stderr), (1, told))


# A server's receive that takes names, a closed one with zero time, and the timeouts of sends with zero time and with a second.
BUFFER, NO_TIME, AT_ONCE, A_SECOND, KEPT_FOR = (MAX_NAME_BYTES << 10, 0), 0x400, 0x400 << 16, 0x2BD1 << 16, 0x3663
LIVE = ipcr(error=0x3)
NO_ROOM, NO_MEMORY, TAKEN = refused(K_HISTORY_FULL), refused(K_NO_MEMORY), refused(K_NUMBER_TAKEN)
ONE, TWO, EIGHT, NINE = (thread_id(number) for number in (1, 2, 8, 9))


def is_it_live(thread):
    return ipc(NIL, thread, timeouts=NO_TIME, buffers=BUFFER)


def request_of_names(label, name, sender):
    """What a name server receives."""
    return ipcr(tag=label << 16 | 2 << 6, sender=sender, words=(len(name) << 10, 0), pieces=[(0, name)])


def told_thread(to, thread):
    """How it answers, and receives the next request."""
    return ipc(to, ANY, (thread,), AT_ONCE, buffers=BUFFER)


RECEIVES, RECEIVES_NAMES = ipc(NIL, ANY), ipc(NIL, ANY, buffers=BUFFER)
FOUND = ipc(NINE, ANY, (70,), AT_ONCE, tag=3 << 16 | 1)
PASSED = ipc(ONE, NIL, (7, 0), A_SECOND, sender=NINE, tag=2 << 16 | 0x1000 | 2)
LISTED = ipc(NINE, ANY, (NINE, 4 << 10, 0), AT_ONCE, tag=2 << 6 | 1, buffers=BUFFER, payload=b"echo")
TRIES_AGAIN, NOT_REGISTERED = "l4d has no room (K{}); trying again", "the name {} could not be registered again, and is tried again: refused: K5: the history has no room for what the command may bring about"

# Roles of l4x, what each sends in its turn with what a server answers, and what it says meanwhile. Behind that the server goes.
WANTS_ROOM = [
    (["keyvalue"], [
        (hello(1), welcome(ONE)), (RECEIVES, NO_ROOM), (RECEIVES, NO_MEMORY), (RECEIVES, ipcr(1 << 16 | 2, NINE, words=(7, 70))),
        (FOUND, NO_MEMORY), (FOUND, NO_ROOM), (FOUND, ipcr(2 << 16 | 1, NINE, words=(7,))), (FOUND, LIVE), (RECEIVES, None),
    ], [TRIES_AGAIN.format(5), TRIES_AGAIN.format(4)]),
    (["keyvalue", "--names"], [
        (hello(1), welcome(ONE)), (is_it_live(thread_id(255)), NO_ROOM), (ipc(NIL, ANY, timeouts=KEPT_FOR), NO_ROOM), (ipc(NIL, ANY, timeouts=KEPT_FOR), None),
    ], [NOT_REGISTERED.format("keyvalue"), TRIES_AGAIN.format(5)]),
    (["gateway"], [
        (hello(2), welcome(TWO)), (RECEIVES, NO_ROOM), (RECEIVES, ipcr(2 << 16 | 1, NINE, words=(7,))), (is_it_live(ONE), NO_ROOM),
        (is_it_live(ONE), LIVE), (PASSED, NO_ROOM), (is_it_live(ONE), LIVE), (PASSED, ipcr(0)), (RECEIVES, None),
    ], [TRIES_AGAIN.format(5)] * 2),
    (["names"], [
        (hello(255), welcome(thread_id(255))), (RECEIVES_NAMES, NO_ROOM), (RECEIVES_NAMES, request_of_names(1, b"echo", NINE)),
        (told_thread(NINE, NINE), NO_ROOM), (told_thread(NINE, NINE), request_of_names(2, b"echo", EIGHT)), (is_it_live(NINE), NO_MEMORY),
        # a request that comes meanwhile is served, whatever has no room then
        (is_it_live(NINE), request_of_names(3, b"", NINE)), (ipc(EIGHT, NIL, (NINE,), AT_ONCE), NO_ROOM), (ipc(EIGHT, NIL, (NINE,), AT_ONCE), ipcr(0)),
        (LISTED, NO_ROOM), (LISTED, LIVE), (RECEIVES_NAMES, None),
    ], [TRIES_AGAIN.format(number) for number in (5, 5, 4, 5, 5)]),
]

# A caller whose number is taken, and the next one.
TAKES_ANOTHER = [
    (hello(3), TAKEN), (hello(1023), TAKEN), (hello(1022), welcome(thread_id(1022))), (is_it_live(ONE), LIVE),
    (ipc(ONE, ONE, (7, 70), tag=1 << 16 | 2), ipcr(3 << 16 | 1, ONE, words=(70,))), (BYE, None),
]


def plays(door, turns, asked):
    """Answers one connection frame by frame, and goes where there is no answer."""
    client, _ = door.accept()
    client.settimeout(SECONDS)
    with client, client.makefile("rb") as frames:
        for _, answer in turns:
            head = frames.read(4)
            asked.append(head + frames.read(int.from_bytes(head, "big")))
            if answer is not None:
                client.sendall(answer)


def played(l4x, words, turns):
    """How l4x ended beside such a server, and whether it asked what it was to ask."""
    with tempfile.TemporaryDirectory() as folder, listening(f"{folder}/space1") as door:
        asked = []
        serving = threading.Thread(target=plays, args=(door, turns, asked))
        serving.start()
        ran = subprocess.run([l4x, folder, *words], stdin=subprocess.DEVNULL, capture_output=True, text=True, timeout=SECONDS)
        door.shutdown(socket.SHUT_RDWR)
        serving.join(SECONDS)
        tally.same(f"what l4x {' '.join(words)} asks", [it.hex() for it in asked], [it.hex() for it, _ in turns])
        return ran.returncode, [line.replace(f"{folder}/space1: ", "") for line in ran.stderr.splitlines()]


def check_room(l4x):
    """A server of l4x goes on where there is no room for its calls, and loses no request; and a caller takes a number that is free."""
    for words, turns, told in WANTS_ROOM:
        wanted = (1, [f"l4x: {line}" for line in (*told, GOES[0][1])])
        tally.same(f"l4x {' '.join(words)} without room", played(l4x, words, turns), wanted)
    tally.same("l4x put whose number is taken", played(l4x, ["put", "7", "70"], TAKES_ANOTHER), (0, []))


def check_unconnected(l4sh, l4x):
    """What l4x and `l4sh talk` say where they cannot connect: where nobody listens, or no more, and to the user nobody where another user's server listens."""
    with tempfile.TemporaryDirectory() as folder:
        ran = subprocess.run([l4x, folder, "names"], stdin=subprocess.DEVNULL, capture_output=True, text=True, timeout=SECONDS)
        tally.same("l4x where nobody listens", (ran.returncode, ran.stderr), (1, f"l4x: {folder}/space1: nobody listens there: start l4d with this folder\n"))
        with listening(f"{folder}/space1"):
            pass
        ran = subprocess.run([l4x, folder, "names"], stdin=subprocess.DEVNULL, capture_output=True, text=True, timeout=SECONDS)
        why = "nobody listens there any more: its l4d has ended, or the path has had its --connections: start l4d anew, with --replace or --keep-open"
        tally.same("l4x where nobody listens any more", (ran.returncode, ran.stderr), (1, f"l4x: {folder}/space1: {why}\n"))
        ran = subprocess.run([l4sh, "talk", folder], stdin=subprocess.DEVNULL, capture_output=True, text=True, timeout=SECONDS)
        why = "nobody listens there: its l4d has ended, or is ending, and --replace serves anew then; or the path has had its --connections, and --keep-open helps"
        told = f"l4sh: no server\n{folder}/space1: Connection refused (os error 111): {why}\n"
        tally.same("l4sh talk where nobody listens any more", (ran.returncode, ran.stderr), (4, told))
        os.remove(f"{folder}/space1")
        if os.getuid() != 0 or not shutil.which("setpriv"):
            print("another user: left out, since root and setpriv are wanted")
            return
        os.chmod(folder, 0o755)
        shutil.copy(l4x, f"{folder}/l4x")
        os.chmod(f"{folder}/l4x", 0o755)
        with listening(f"{folder}/space1"):
            os.chmod(f"{folder}/space1", 0o600)
            words = ["setpriv", "--reuid=65534", "--regid=65534", "--clear-groups", f"{folder}/l4x", folder, "names"]
            ran = subprocess.run(words, stdin=subprocess.DEVNULL, capture_output=True, text=True, timeout=SECONDS)
            why = "no permission to connect: the modes of this path and its folder say who may"
            tally.same("l4x of a user who may not connect", (ran.returncode, ran.stderr), (1, f"l4x: {folder}/space1: {why}\n"))


# Of a role the words that l4x cannot take, and which of them it tells.
NUMBER, NAME = "wanted is a decimal from 0 to 18446744073709551615", "wanted is 1 to 64 bytes of printable ASCII without the space"
BAD_ARGUMENTS = [
    (["put", "1", "two"], f"VALUE: {NUMBER}; not two"),
    (["put", "", "2"], f"KEY: {NUMBER}"),
    (["put", "1", "18446744073709551616", "gateway"], f"VALUE: {NUMBER}; not 18446744073709551616"),
    (["put", "9" * 99, "2"], f"KEY: {NUMBER}"),
    (["get", "\x1b[A"], f"KEY: {NUMBER}; not \\x1b[A"),
    (["get", "-1", "--names"], f"KEY: {NUMBER}; not -1"),
    (["sleep", "1s"], f"MICROSECONDS: {NUMBER}; not 1s"),
    (["lookup", ""], f"NAME: {NAME}"),
    (["lookup", "a b"], f"NAME: {NAME}; not a b"),
    (["lookup", "a" * 65], f"NAME: {NAME}"),
    (["lookup", "a\tb"], f"NAME: {NAME}; not a\\x09b"),
]

# Words that name no role of l4x, and what is wanted.
MISTAKES = [
    ([], "l4x DIR ROLE"),
    (["names"], "l4x DIR ROLE"),
    (["meet", "walk"], "a role, keyvalue, gateway, put, get, sleep, names or lookup; not walk"),
    (["meet", "put", "1"], "l4x DIR put KEY VALUE [gateway] [--names], with decimals"),
    (["meet", "put", "1", "2", "door"], "l4x DIR put KEY VALUE [gateway] [--names], with decimals"),
    (["meet", "get"], "l4x DIR get KEY [gateway] [--names], with a decimal"),
    (["meet", "sleep"], "l4x DIR sleep MICROSECONDS, with a decimal"),
    (["meet", "lookup"], "l4x DIR lookup NAME"),
    (["meet", "names", "now"], "l4x DIR names"),
    (["meet", "keyvalue", "now"], "l4x DIR keyvalue [--names]"),
    (["meet", "gateway", "now"], "l4x DIR gateway [--names]"),
]


def check_mistakes(l4x):
    """What l4x says of words that name no role, and that `help` says what `--help` does."""
    for words, wanted in [*((words, f"wanted is {wanted}") for words, wanted in MISTAKES), *((["meet", *words], wanted) for words, wanted in BAD_ARGUMENTS)]:
        ran = subprocess.run([l4x, *words], stdin=subprocess.DEVNULL, capture_output=True, text=True, timeout=SECONDS)
        told = f"l4x: {wanted}; l4x --help says what each role does\n"
        tally.same(f"l4x {' '.join(words)}", (ran.returncode, ran.stdout, ran.stderr), (2, "", told))
    helps = [subprocess.run([l4x, word], stdin=subprocess.DEVNULL, capture_output=True, text=True, timeout=SECONDS) for word in ("help", "--help")]
    tally.same("l4x help", *[(it.returncode, it.stdout, it.stderr) for it in helps])
    tally.check("l4x help names each role", all(f"    {role}" in helps[0].stdout for role in ("keyvalue", "gateway", "put", "get", "sleep", "names", "lookup")), helps[0].stdout)


def waits(path):
    """What who waits to be a thread is told after two seconds."""
    return f"{path}: no WELCOME yet: the server is full, or does not answer; it has {PATIENCE} seconds\n"


def answers_late(door):
    """Welcomes one connection after three seconds."""
    client, _ = door.accept()
    with client:
        client.recv(64)
        time.sleep(3)
        client.sendall(bytes.fromhex("00000009 81 0000000100000001"))
        client.recv(64)


def check_late(l4sh):
    """A talk with a server that answers after three seconds goes on."""
    with tempfile.TemporaryDirectory() as folder, listening(f"{folder}/space1") as door:
        serving = threading.Thread(target=answers_late, args=(door,))
        serving.start()
        ran = subprocess.run([l4sh, "talk", folder], input="quit\n", capture_output=True, text=True, timeout=SECONDS)
        serving.join(SECONDS)
        wanted = (0, "= 1.1    this thread; help lists what it can do\n", "l4sh: " + waits(f"{folder}/space1"))
        tally.same("a talk with a server that answers late", (ran.returncode, ran.stdout, ran.stderr), wanted)


def fill(path):
    """Connects to a path until as many wait there as the system lets wait; answers who waits."""
    waiting = []
    while True:
        client = socket.socket(socket.AF_UNIX)
        client.setblocking(False)
        try:
            client.connect(path)
        except BlockingIOError:
            client.close()
            return waiting
        waiting.append(client)


def check_crowded(l4sh, l4x):
    """A path where as many wait as the system lets wait: who comes there is told, and has the same patience; where a place becomes free, it goes on."""
    with tempfile.TemporaryDirectory() as folder, socket.socket(socket.AF_UNIX) as door:
        path = f"{folder}/space1"
        door.bind(path)
        door.listen(1)
        waiting = fill(path)
        full = f"{path}: Connection timed out (os error 110): as many connections wait there as the system lets wait: its l4d is full or stopped, and l4sh state asks it by another path\n"
        rows = [([l4sh, "talk", folder], 4, "l4sh: " + waits(path) + "l4sh: no server\n" + full),
                ([l4x, folder, "get", "1"], 1, "l4x: " + waits(path) + f"l4x: {path}: no WELCOME within {PATIENCE} seconds: the server is full, or does not answer\n")]
        ran = [subprocess.Popen(words, stdin=subprocess.DEVNULL, stdout=subprocess.PIPE, stderr=subprocess.PIPE, text=True) for words, *_ in rows]
        for process, (words, status, error) in zip(ran, rows):
            out, err = process.communicate(timeout=SECONDS)
            tally.same(f"{os.path.basename(words[0])} at a path that is crowded", (process.returncode, out, err), (status, "", error))
        talk = subprocess.Popen([l4sh, "talk", folder], stdin=subprocess.DEVNULL, stdout=subprocess.PIPE, stderr=subprocess.PIPE, text=True)
        time.sleep(0.5)
        for client in waiting:
            door.accept()[0].close()
            client.close()
        answers_late(door)
        out, err = talk.communicate(timeout=SECONDS)
        tally.same("a talk that gets a place", (talk.returncode, out), (0, "= 1.1    this thread; help lists what it can do\n"))


def main(arguments):
    l4sh, l4x = programs_of(arguments, __doc__, 2)
    check_words(l4x)
    check_full_device(l4x)
    check_room(l4x)
    check_unconnected(l4sh, l4x)
    check_mistakes(l4x)
    check_late(l4sh)
    check_crowded(l4sh, l4x)
    with tempfile.TemporaryDirectory() as folder:
        doors = [listening(f"{folder}/{name}") for name in ("space1", "control")]
        hello = f"{folder}/space1: no WELCOME within {PATIENCE} seconds: the server is full, or does not answer\n"
        asked = "l4sh: device failed\n{}/control: no answer to {} within {} seconds\n".format
        rows = [
            ([l4sh, "talk", folder], 4, "l4sh: " + waits(f"{folder}/space1") + "l4sh: no server\n" + hello),
            ([l4sh, "state", folder], 1, asked(folder, "state", PATIENCE)),
            ([l4sh, "count", folder], 1, asked(folder, "counters", PATIENCE)),
            ([l4sh, "follow", folder], 1, asked(folder, "trace follow", PATIENCE)),
            ([l4x, folder, "get", "1"], 1, "l4x: " + waits(f"{folder}/space1") + "l4x: " + hello),
        ]
        began = time.monotonic()
        ran = [subprocess.Popen(words, stdin=subprocess.DEVNULL, stdout=subprocess.PIPE, stderr=subprocess.PIPE, text=True) for words, *_ in rows]
        for process, (words, status, error) in zip(ran, rows):
            out, err = process.communicate(timeout=SECONDS)
            took = time.monotonic() - began
            what = " ".join([os.path.basename(words[0]), *words[1:]]).replace(folder, "DIR")
            tally.same(what, (process.returncode, out, err), (status, "", error))
            tally.check(f"{what} waits so long", PATIENCE - 1 < took < PATIENCE + 10, took)
        for door in doors:
            door.close()
    return tally.end()


if __name__ == "__main__":
    sys.exit(main(sys.argv[1:]))
