"""The frames of docs/NAMES.md and of the README, beside those that go over sockets."""

import shutil
import socket
import tempfile
import threading
import time
from collections import defaultdict

from frames import whole_in
from page_text import text_of
from python_client.seeing import Server, ThreadId, check, l4ipc, names, output, same


class Relay:
    """A path before that of a server, which writes down the frames of each connection, both ways in one list."""

    def __init__(self, server):
        self.folder = tempfile.mkdtemp(prefix="clients-python-relay-")
        self.path = f"{server.folder}/space1"
        self.connections = []
        self.listener = socket.socket(socket.AF_UNIX)
        self.listener.bind(f"{self.folder}/space1")
        self.listener.listen()
        threading.Thread(target=self.accept, daemon=True).start()

    def accept(self):
        while True:
            try:
                near, _ = self.listener.accept()
            except OSError:
                return
            far = socket.socket(socket.AF_UNIX)
            far.connect(self.path)
            seen_frames = []
            self.connections.append(seen_frames)
            for source, sink in ((near, far), (far, near)):
                threading.Thread(target=self.pump, args=(source, sink, seen_frames), daemon=True).start()

    @staticmethod
    def pump(source, sink, seen_frames):
        data = b""
        while True:
            try:
                more = source.recv(65_536)
                if not more:
                    sink.shutdown(socket.SHUT_WR)
                    return
            except OSError:
                return
            data += more
            # written down before it goes on, so that an answer stands behind its question
            whole, data = whole_in(data)
            seen_frames += [frame.hex() for frame in whole]
            try:
                sink.sendall(more)
            except OSError:
                return

    def stop(self):
        self.listener.close()
        shutil.rmtree(self.folder)


def documented(path):
    """The frames of a document by their threads: the rows of a table whose first cell is a thread and whose last one is bytes."""
    rows = defaultdict(list)
    for line in text_of(path).splitlines():
        cells = [cell.strip() for cell in line.strip().strip("|").split("|")]
        if len(cells) == 3 and cells[0].endswith(".1") and cells[2].startswith("`"):
            rows[cells[0]].append(cells[2].strip("`").replace(" ", ""))
    return rows


def compared(path, relay, counts):
    """Each thread's frames in a document are frames that went over its socket, in this order."""
    rows = documented(path)
    same(f"rows of {path}", {own: len(frames_of) for own, frames_of in rows.items()}, counts)
    for went in relay.connections:
        own = str(ThreadId.from_bytes(bytes.fromhex(went[1])[5:], "big"))
        rest = iter(went)
        missing = [frame for frame in rows.pop(own, []) if frame not in rest]
        check(f"the frames of {own} in {path}", not missing, f"{missing} in {went}")
    same(f"threads of {path}", list(rows), [])


def relayed_names(server, l4x):
    """A relay before a server, and a name server behind it."""
    relay = Relay(server)
    server.start([l4x, relay.folder, "names"])
    while not relay.connections or len(relay.connections[0]) < 3:
        time.sleep(0.01)
    return relay


def documented_frames(l4d, l4x):
    """The runs of docs/NAMES.md and of the client's README, frame by frame."""
    server = Server(l4d, trace=False)
    relay = relayed_names(server, l4x)
    with l4ipc.Thread(relay.folder, 1) as first, l4ipc.Thread(relay.folder, 2) as second:
        names.register(first, "echo")
        same("echo", names.lookup(second, "echo"), first.id)
    compared("docs/NAMES.md", relay, {"255.1": 6, "1.1": 2, "2.1": 2})
    server.stop()
    relay.stop()

    server = Server(l4d, trace=False)
    relay = relayed_names(server, l4x)
    folder, server.folder = server.folder, relay.folder
    for name in ("pingpong", "gateway"):
        server.example(name, "serve")
        with l4ipc.Thread(folder, 9 if name == "pingpong" else 8) as thread:
            names.Names(thread).wait_for(name, 10)
    same("a gateway of the README", output(server.example("gateway", "ask", 7)), ("asked 40.1, and 10.1 answered 7\n", 0))
    compared("clients/python/README.md", relay, {"41.1": 2, "40.1": 3, "10.1": 2})
    server.folder = folder
    server.stop()
    relay.stop()
