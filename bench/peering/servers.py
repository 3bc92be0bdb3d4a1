"""Servers of the machine's own packages, run from a folder that goes, by sockets in it; and what speaks with each, of the standard library.

They keep what they answer as nodes do: so that it stays where a process is killed, and with `is_synced` where the machine loses its power.
"""
import asyncio
import contextlib
import os
import pathlib
import pwd
import shutil
import signal
import struct
import subprocess

# Where Debian has programs that aren't on the path, and who runs PostgreSQL, which doesn't run as root.
PLACES = [os.environ.get("PATH", ""), *map(str, sorted(pathlib.Path("/usr/lib/postgresql").glob("*/bin"), reverse=True))]
OTHER = "postgres"
# The seconds within which a server begins or ends, and what PostgreSQL says while it begins.
PATIENCE, STARTING = 30, "57P03"


class Refused(Exception):
    """What a server says against a command: its code and its words."""

    def __init__(self, code, words):
        super().__init__(f"{code}: {words}")
        self.code = code


def program(name):
    """Where a program is, or SystemExit."""
    found = shutil.which(name, path=os.pathsep.join(PLACES))
    if not found:
        raise SystemExit(f"there is no {name}: Debian's packages postgresql and redis-server have what is needed")
    return found


async def opened(path, process):
    """The streams of a socket, as soon as its server answers there."""
    end = asyncio.get_running_loop().time() + PATIENCE
    while True:
        try:
            return await asyncio.open_unix_connection(path)
        except OSError:
            if process.poll() is not None or asyncio.get_running_loop().time() > end:
                raise
            await asyncio.sleep(0.05)


class Server:
    """A process over a folder of its own, its output in a file there."""

    def __init__(self, words, folder, **how):
        self.folder, self.out = folder, open(folder / "out", "ab")
        # (in a group of its own, so that Ctrl-C doesn't end it before its callers)
        self.process = subprocess.Popen(words, stdin=subprocess.DEVNULL, stdout=self.out, stderr=self.out, process_group=0, **how)

    def end(self, number=signal.SIGTERM):
        self.process.send_signal(number)
        try:
            self.process.wait(PATIENCE)
        except subprocess.TimeoutExpired:
            self.process.kill()
            self.process.wait()
        self.out.close()


class Session:
    """A connection with one command at a time."""

    def __init__(self, streams):
        (self.reader, self.writer), self.lock = streams, asyncio.Lock()

    async def asked(self, data):
        async with self.lock:
            self.writer.write(data)
            return await self.answer()

    async def close(self):
        self.writer.close()
        with contextlib.suppress(OSError):
            await self.writer.wait_closed()


# ---- PostgreSQL
class Database(Session):
    """A connection to PostgreSQL, by the simple queries of its protocol, version 3."""

    async def begin(self):
        body = struct.pack("!i", 3 << 16) + b"user\0postgres\0database\0postgres\0\0"
        await self.asked(struct.pack("!i", len(body) + 4) + body)
        return self

    async def run(self, words):
        """The rows of what is run, each a tuple of words or None; or `Refused`."""
        body = words.encode() + b"\0"
        return await self.asked(b"Q" + struct.pack("!i", len(body) + 4) + body)

    async def answer(self):
        rows, fault = [], None
        while True:
            kind, size = struct.unpack("!ci", await self.reader.readexactly(5))
            body = await self.reader.readexactly(size - 4)
            if kind == b"D":
                rows.append(row_of(body))
            elif kind == b"E":
                said = {it[:1]: it[1:].decode() for it in body.split(b"\0") if it}
                fault = Refused(said[b"C"], said[b"M"])
            elif kind == b"Z":
                if fault:
                    raise fault
                return rows


def row_of(body):
    (columns,), at, found = struct.unpack_from("!h", body), 2, []
    for _ in range(columns):
        (size,), at = struct.unpack_from("!i", body, at), at + 4
        found.append(body[at : at + size].decode() if size >= 0 else None)
        at += max(size, 0)
    return tuple(found)


class PostgreSQL:
    """So many servers, each with a folder of its own, as whoever runs this or, of root's, as `postgres`."""

    def __init__(self, top, count, is_synced):
        self.how, self.owner = {}, None
        if os.geteuid() == 0:
            self.owner = pwd.getpwnam(OTHER)
            self.how = {"user": self.owner.pw_uid, "group": self.owner.pw_gid, "extra_groups": []}
        self.folders, self.servers = [top / f"database{number}" for number in range(count)], []
        self.make()
        words = ["-c", "listen_addresses=", "-c", f"fsync={'on' if is_synced else 'off'}", "-c", "default_transaction_isolation=serializable"]
        words += ["-c", "max_prepared_transactions=64", "-c", "max_connections=100", "-c", "autovacuum_naptime=10s"]
        for it in self.folders:
            own = ["-D", str(it / "data"), "-c", f"unix_socket_directories={it}"]
            self.servers.append(Server([program("postgres"), *own, *words], it, cwd=it, **self.how))

    def make(self):
        """A cluster of databases in each folder."""
        for it in self.folders:
            it.mkdir(mode=0o700)
            if self.owner:
                os.chown(it, self.owner.pw_uid, self.owner.pw_gid)
            words = [program("initdb"), "-D", str(it / "data"), "-A", "trust", "-U", "postgres", "--no-sync", "--no-locale", "-E", "UTF8"]
            subprocess.run(words, check=True, stdin=subprocess.DEVNULL, stdout=subprocess.DEVNULL, cwd=it, **self.how)

    async def session(self, number):
        """A connection to one of the servers, as soon as that has begun."""
        path, process = self.folders[number] / ".s.PGSQL.5432", self.servers[number].process
        end = asyncio.get_running_loop().time() + PATIENCE
        while True:
            made = Database(await opened(path, process))
            try:
                return await made.begin()
            except (Refused, asyncio.IncompleteReadError) as it:
                # (it is refused, or let go of, while the server still starts)
                await made.close()
                if isinstance(it, Refused) and it.code != STARTING or asyncio.get_running_loop().time() > end:
                    raise
                await asyncio.sleep(0.05)

    def end(self):
        for it in self.servers:
            it.end(signal.SIGINT)


# ---- Redis
class Store(Session):
    """A connection to Redis, by its protocol."""

    async def run(self, *words):
        """The answer to a command; or `Refused`."""
        parts = [str(it).encode() for it in words]
        return await self.asked(b"*%d\r\n" % len(parts) + b"".join(b"$%d\r\n%s\r\n" % (len(it), it) for it in parts))

    async def answer(self):
        line = (await self.reader.readline())[:-2]
        kind, rest = line[:1], line[1:].decode()
        if kind == b"-":
            raise Refused(*rest.partition(" ")[::2])
        if kind == b"$":
            return (await self.reader.readexactly(int(rest) + 2))[:-2].decode() if rest != "-1" else None
        if kind == b"*":
            return [await self.answer() for _ in range(int(rest))]
        return int(rest) if kind == b":" else rest


class Redis:
    """A server in a folder, whose file is written before it answers."""

    def __init__(self, top, is_synced):
        self.folder = top / "redis"
        self.folder.mkdir()
        words = ["--port", "0", "--unixsocket", str(self.folder / "socket"), "--dir", str(self.folder), "--appendonly", "yes", "--save", ""]
        words += ["--appendfsync", "always" if is_synced else "everysec"]
        self.server = Server([program("redis-server"), *words], self.folder)

    async def session(self):
        return Store(await opened(self.folder / "socket", self.server.process))

    def end(self):
        self.server.end()
