"""A server that goes as it is written down, for the checks."""

import socket
import threading

# So long does it wait for a frame, and so much does it read of what comes in place of the end.
SECONDS, MOST_BYTES = 20, 4096


class Written:
    """A server on space 1 of a folder, of one connection, which goes as it is written down."""

    def __init__(self, folder, lines, size):
        self.lines, self.size, self.fault = lines, size, None
        self.listener = socket.socket(socket.AF_UNIX)
        self.listener.settimeout(SECONDS)
        self.listener.bind(f"{folder}/space1")
        self.listener.listen()
        self.worker = threading.Thread(target=self.serve)
        self.worker.start()

    def serve(self):
        try:
            line, _ = self.listener.accept()
            with line:
                line.settimeout(SECONDS)
                for text in self.lines:
                    word, _, digits = text.partition(" ")
                    (self.say if word == "says" else self.hear)(line, bytes.fromhex(digits))
                line.shutdown(socket.SHUT_WR)
                self.hear(line, b"")
        except OSError as error:
            self.fault = self.fault or f"{error}"

    def say(self, line, data):
        try:
            for place in range(0, len(data), self.size):
                line.sendall(data[place : place + self.size])
        except (BrokenPipeError, ConnectionResetError):
            pass  # it ended before it heard all of it

    def hear(self, line, data):
        """Hears these bytes, or where there are none the end."""
        try:
            there = line.recv(len(data) or MOST_BYTES, socket.MSG_WAITALL if data else 0)
        except ConnectionResetError:
            there = b""  # it ended before it heard all
        if there != data:
            self.fault = self.fault or f"it says {there.hex()} and not {data.hex()}"

    def end(self):
        self.worker.join()
        self.listener.close()
        return self.fault
