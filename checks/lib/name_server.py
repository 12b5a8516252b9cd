"""A name server as docs/NAMES.md has it, as a thread of a check: thread 255 of a server, until the server ends."""

import socket
import threading

from frames import ANY
from protocol_tables import MAX_NAME_BYTES, N_BAD_NAME, N_BAD_REQUEST, N_NAME_TAKEN
from serving import Client

SERVERS_TIME = 0x400 << 16
NO_TIME = 0x400
BUFFER = (MAX_NAME_BYTES << 10, 0)
PARTNER_GONE = 0x5
REGISTER, LOOK_UP, LIST = 1, 2, 3


class NameServer(threading.Thread):
    def __init__(self, path):
        super().__init__(daemon=True)
        self.client = Client(path, 255, seconds=None)
        self.thread = self.client.thread
        self.names = {}
        # a request that came while it was asked whether its sender is live
        self.early = None
        self.start()

    def end(self):
        """Ends the thread; what it knew is forgotten."""
        self.client.line.shutdown(socket.SHUT_RDWR)
        self.join()
        self.client.line.close()

    def ask(self, *arguments, **named):
        """One Ipc, with a buffer for a name."""
        return self.client.call(*arguments, buffers=BUFFER, **named)

    def run(self):
        try:
            request = self.ask(0, ANY)
            while True:
                if request.has_failed:
                    request = self.ask(0, ANY)
                    continue
                label, word, name = self.answer(request)
                tag = label << 16 | (0x80 if name else 0) | 1
                items = (len(name) << 10, 0) if name else ()
                to = request.sender
                early, self.early = self.early, None
                if early is None:
                    request = self.ask(to, ANY, (word, *items), SERVERS_TIME, tag=tag, payload=name)
                else:
                    self.ask(to, 0, (word, *items), SERVERS_TIME, tag=tag, payload=name)
                    request = early
        except (EOFError, ConnectionError):
            pass

    def answer(self, request):
        """Label, word and name that answer a request."""
        label, sender, name = request.tag >> 16, request.sender, b"".join(data for _, data in request.pieces)
        if label not in (REGISTER, LOOK_UP, LIST) or request.tag & 0xFFF != 0x80:
            return N_BAD_REQUEST, 0, b""
        if (not name and label != LIST) or any(not 0x21 <= byte <= 0x7E for byte in name):
            return N_BAD_NAME, 0, b""
        if label == LIST:
            for other in sorted(key for key in self.names if key > name):
                if self.holder(other):
                    return 0, self.names[other], other
            return 0, 0, b""
        holder = self.holder(name) if self.names.get(name) != sender else sender
        if label == LOOK_UP:
            return 0, holder, b""
        if holder not in (0, sender):
            return N_NAME_TAKEN, holder, b""
        self.names[name] = sender
        return 0, sender, b""

    def holder(self, name):
        """The live thread of a name, or 0; a name whose thread has ended is dropped."""
        thread = self.names.get(name, 0)
        if thread == 0 or self.early is not None:
            return thread
        request = self.ask(0, thread, timeouts=NO_TIME)
        if not request.has_failed:
            self.early = request
        elif request.error == PARTNER_GONE:
            del self.names[name]
            return 0
        return thread
