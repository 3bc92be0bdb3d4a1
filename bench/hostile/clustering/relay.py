"""A way to a server on loopback that can be cut, as a network may be: connections end, or nothing comes through any more."""
import contextlib
import select
import socket
import threading

# What a relay does: hand on what comes, refuse and end all connections, or take what comes and keep it until it is open again.
OPEN, CLOSED, SILENT = "open", "closed", "silent"
# The seconds until a new way counts.
LATE = 0.05


class Relay(threading.Thread):
    """Hands connections on to a port."""

    def __init__(self, port):
        super().__init__(daemon=True)
        self.to, self.way, self.pairs, self.is_over = port, OPEN, {}, False
        self.listening = socket.create_server(("127.0.0.1", 0))
        self.address = f"127.0.0.1:{self.listening.getsockname()[1]}"
        self.start()

    def run(self):
        while not self.is_over:
            if self.way == CLOSED:
                self.end_all()
            ready, _, _ = select.select([self.listening, *(self.pairs if self.way == OPEN else [])], [], [], LATE)
            for it in ready:
                self.accept() if it is self.listening else self.hand_on(it)
        self.end_all()
        self.listening.close()

    def accept(self):
        came, _ = self.listening.accept()
        try:
            if self.way == CLOSED:
                raise ConnectionRefusedError
            other = socket.create_connection(("127.0.0.1", self.to), 5)
            for one, to in ((came, other), (other, came)):
                one.setsockopt(socket.IPPROTO_TCP, socket.TCP_NODELAY, 1)
                self.pairs[one] = to
        except OSError:
            came.close()

    def hand_on(self, one):
        if one not in self.pairs:
            return
        try:
            piece = one.recv(1 << 16)
            self.pairs[one].sendall(piece)
        except OSError:
            piece = b""
        if not piece:
            self.end(one)

    def end(self, one):
        for it in (one, self.pairs.pop(one)):
            self.pairs.pop(it, None)
            with contextlib.suppress(OSError):
                it.close()

    def end_all(self):
        while self.pairs:
            self.end(next(iter(self.pairs)))

    def open(self):
        self.way = OPEN

    def stop(self):
        self.is_over = True
