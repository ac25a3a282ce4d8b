"""The connection to a client of QEMU's qtest, such as libqtest, which listens on a socket."""

import socket
import time


class Client:
    """The client's requests, line by line, and the lines that it gets. If there is a log, both go to it, as in QEMU."""

    def __init__(self, path, log=None):
        self.socket = socket.socket(socket.AF_UNIX, socket.SOCK_STREAM)
        self.socket.connect(path)
        self.rest = b""
        self.log = open(log, "w", encoding="utf-8") if log else None
        self.begun = time.monotonic()

    def fileno(self):
        return self.socket.fileno()

    def note(self, way, lines):
        if self.log:
            for line in lines:
                self.log.write(f"[{way} +{time.monotonic() - self.begun:.6f}] {line}\n")
            self.log.flush()

    def requests(self):
        """The complete lines that have come, or None if the client has closed its end."""
        data = self.socket.recv(65536)
        if not data:
            return None
        *lines, self.rest = (self.rest + data).split(b"\n")
        requests = [line.decode("utf-8", "replace") for line in lines]
        self.note("R", requests)
        return requests

    def send(self, lines):
        self.note("S", lines)
        self.socket.sendall("".join(f"{line}\n" for line in lines).encode())
