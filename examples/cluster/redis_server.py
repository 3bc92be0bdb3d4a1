"""A Redis server of one's own on loopback, for tests: its file stays where the server is killed, and may lose its end."""
import contextlib
import pathlib
import shutil
import socket
import subprocess
import time


def is_there():
    return shutil.which("redis-server") is not None


def free_port():
    with socket.socket() as found:
        found.bind(("127.0.0.1", 0))
        return found.getsockname()[1]


class Server:
    """A server over a folder, with words for redis-server."""

    def __init__(self, folder, *words):
        self.folder, self.port, self.words, self.process = pathlib.Path(folder), free_port(), words, None
        self.address = f"127.0.0.1:{self.port}"

    def start(self):
        """Begins the server, and waits until it answers."""
        fixed = ["--bind", "127.0.0.1", "--appendonly", "yes", "--save", "", "--loglevel", "warning"]
        words = ["redis-server", "--port", str(self.port), "--dir", str(self.folder), *fixed, *self.words]
        self.process = subprocess.Popen(words, stdout=subprocess.DEVNULL, stderr=subprocess.DEVNULL)
        while not self.answers():
            time.sleep(0.01)

    def answers(self):
        """Whether it does, or says that it wants a password."""
        with contextlib.suppress(OSError), socket.create_connection(("127.0.0.1", self.port), 1) as asking:
            asking.sendall(b"PING\r\n")
            return asking.recv(9).startswith((b"+PONG", b"-NOAUTH"))
        return False

    def kill(self):
        self.process.kill()
        self.process.wait()

    def cut(self, part):
        """Takes some of the end of its file, up to half of it, as a power cut may, while it doesn't run. Returns how many bytes that were."""
        file = max(self.folder.rglob("*.aof"), key=lambda it: (it.name.endswith(".incr.aof"), it.stat().st_mtime))
        size = file.stat().st_size
        with open(file, "r+b") as kept:
            kept.truncate(size - int(part * size / 2))
        return int(part * size / 2)
