"""An `l4d` in a folder of its own and clients of it, for the checks."""

import os
import shutil
import socket
import subprocess
import tempfile
import time

from frames import ANY, BYE, HEAD_BYTES, Outcome, exreg, fields_in, hello, ipc, read_head
from protocol_tables import EXREGR, EXREGR_2, IPCR, IPCR_2, K_NUMBER_TAKEN, REFUSED, WELCOME


class Client:
    """A connection to a path; with a number it is a thread. It speaks version 1 of the frames, or version 2 where that is asked for."""

    def __init__(self, path, number=None, seconds=120, version=1):
        self.version = version
        self.line = socket.socket(socket.AF_UNIX, socket.SOCK_STREAM)
        self.line.settimeout(seconds)
        self.line.connect(path)
        if number is not None:
            kind, body = self.ask(hello(number, version))
            assert kind == WELCOME, (hex(kind), body.hex())
            self.thread = fields_in("WELCOME", body).thread

    def exactly(self, count):
        data = b""
        while len(data) < count:
            piece = self.line.recv(count - len(data))
            if not piece:
                raise EOFError
            data += piece
        return data

    def hear(self):
        """The kind of the next frame, and what stands behind it."""
        length, kind = read_head(self.exactly(HEAD_BYTES))
        return kind, self.exactly(length - 1)

    def ask(self, sent):
        self.line.sendall(sent)
        return self.hear()

    def call(self, *arguments, **named):
        """One Ipc, as `frames.ipc` has it: its outcome."""
        self.line.sendall(ipc(*arguments, **named))
        return self.outcome()

    def outcome(self):
        kind, body = self.hear()
        assert kind == (IPCR if self.version == 1 else IPCR_2), (hex(kind), body.hex())
        return Outcome(body, self.version)

    def exreg(self, target, control):
        """ExchangeRegisters: the moment, None in version 1; the result, the control and the code."""
        kind, body = self.ask(exreg(target, control))
        assert kind == (EXREGR if self.version == 1 else EXREGR_2), (hex(kind), body.hex())
        return (None, *fields_in("EXREGR", body)) if self.version == 1 else tuple(fields_in("EXREGR_2", body))

    def to_the_end(self):
        """All bytes until the input ends."""
        data = b""
        while True:
            try:
                piece = self.line.recv(65536)
            except ConnectionResetError:
                return data
            if not piece:
                return data
            data += piece

    def bye(self):
        """Says BYE, and waits until it was served."""
        self.line.sendall(BYE)
        assert self.to_the_end() == b""
        self.line.close()

    def is_shut(self, seconds):
        self.line.settimeout(seconds)
        try:
            return self.line.recv(1) == b""
        except ConnectionResetError:
            return True
        except TimeoutError:
            return False


def opened(path, number, version=0, seconds=120):
    """A client whose thread has this number and a later version than that; K2 may be told as long as the thread before has not ended."""
    limit = time.monotonic() + seconds
    client = Client(path, seconds=seconds)
    while time.monotonic() < limit:
        kind, body = client.ask(hello(number))
        if kind == WELCOME:
            client.thread = fields_in("WELCOME", body).thread
            assert client.thread >> 32 == number and client.thread & 0xFFFFFFFF > version, hex(client.thread)
            return client
        assert (kind, body) == (REFUSED, bytes([K_NUMBER_TAKEN])), (hex(kind), body)
    raise AssertionError(f"number {number} stays taken")


class Server:
    """l4d in a folder of its own, which has said that it listens; with a trace in that folder where that is asked for. At the end of a `with` it is killed,
    and the folder removed."""

    def __init__(self, program, *words, folder=None, before=(), spaces=1, trace=False, **more):
        self.folder = folder or tempfile.mkdtemp(prefix="l4d-")
        self.path = f"{self.folder}/space1"
        self.trace = f"{self.folder}/trace"
        words = ["--dir", self.folder, "--spaces", str(spaces), *(["--trace", self.trace] if trace else []), *words]
        self.process = subprocess.Popen([*before, program, *words], stdin=subprocess.DEVNULL, stdout=subprocess.PIPE, stderr=subprocess.PIPE, **more)
        assert self.process.stdout.readline() == b"listening %d\n" % spaces, self.process.communicate()

    def end(self, seconds=120):
        """Its status, and what it said on standard output and error."""
        out, err = self.process.communicate(timeout=seconds)
        return self.process.returncode, out.decode(), err.decode()

    def kill(self):
        ended(self.process)

    def entries(self):
        """The lines of its trace, when no more have come for a while."""
        settled(self.trace)
        with open(self.trace, encoding="ascii") as file:
            return file.read().splitlines()

    def __enter__(self):
        return self

    def __exit__(self, *_):
        self.kill()
        shutil.rmtree(self.folder, ignore_errors=True)


def rest_of(asker):
    """The text that comes up to the end, as from the path `control`."""
    text = b""
    try:
        while piece := asker.recv(65_536):
            text += piece
    except ConnectionError:
        pass
    return text.decode()


def ended(process):
    """Kills a process that has not ended, and reads what its pipes still have."""
    if process.poll() is None:
        process.kill()
        process.communicate()


def settled(path, seconds=2):
    """Waits until a file has not grown for so long."""
    size, still = -1, 0
    while still < 10 * seconds:
        time.sleep(0.1)
        still = still + 1 if size == os.path.getsize(path) else 0
        size = os.path.getsize(path)


def is_legal(l4sh, trace):
    """Whether `l4sh check` says yes of a trace, and what it says."""
    ran = subprocess.run([l4sh, "check", trace], capture_output=True, text=True, check=False)
    return (ran.returncode, ran.stdout.split()) == (0, ["yes"]), ran.stdout + ran.stderr


def pair_works(pair):
    """A round trip: 1 waits, 2 sends a word."""
    one, two = pair
    one.line.sendall(ipc(0, ANY, []))
    sent = two.call(one.thread, 0, [7])
    assert not sent.has_failed, hex(sent.error)
    got = one.outcome()
    assert not got.has_failed and got.words == (7,) and got.sender == two.thread, (hex(got.tag), got.words)
