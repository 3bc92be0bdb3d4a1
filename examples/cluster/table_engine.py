"""An engine over tables of a database: SQLite's, so for runners on one machine, as the tests have them. It is a pattern for one that several
machines reach, as PostgreSQL, where LISTEN takes the place of the pauses.

    lines    id, dest (a node's id, or to: and a client's name) and the line: the id is the offset
    kept     node, offset, state, and what its runner told, and when
    texts    one row: the text, and its objects' names
"""
import contextlib
import json
import sqlite3
import time

from engines import Engine, Lost, Overtaken
from nodes import Text, Unable

# The seconds between two looks at a table, for which a table is waited for, and for which what a runner tells is shown; the answers that are
# kept of a client.
PAUSE, PATIENCE, SHOWN, ANSWERS = 0.01, 5, 3, 16
TABLES = """
pragma journal_mode = wal;
pragma synchronous = normal;
create table if not exists lines (id integer primary key autoincrement, dest text, line blob);
create index if not exists by_dest on lines (dest, id);
create table if not exists kept (node text primary key, offset text not null, state text, told text default 'null', at real default 0);
create table if not exists texts (number integer primary key check (number = 1), text blob, objects text);
"""


class TableEngine(Engine):
    """The cluster in a file."""

    FIRST = "0"

    def __init__(self, file):
        self.where = str(file)
        with self.reached():
            self.base = sqlite3.connect(file, timeout=PATIENCE, isolation_level=None)
            self.base.executescript(TABLES)

    @contextlib.contextmanager
    def reached(self):
        try:
            yield
        except sqlite3.Error as fault:
            raise Lost(f"the tables of {self.where} aren't reached: {fault}") from None

    @contextlib.contextmanager
    def at_once(self):
        """All that is done within is done, or nothing."""
        with self.reached():
            self.base.execute("begin immediate")
            try:
                yield
                self.base.execute("commit")
            except BaseException:
                self.base.execute("rollback")
                raise

    def rows(self, query, *values):
        with self.reached():
            return self.base.execute(query, values).fetchall()

    # ---- the cluster
    def begin(self, text, objects):
        is_new = not self.text()
        with self.at_once():
            self.base.execute("insert or ignore into texts values (1, ?, ?)", (text.bytes, json.dumps(objects)))
            self.base.executemany("insert or ignore into kept (node, offset) values (?, ?)", [(node, self.FIRST) for node in text.ids])
        if self.text() != text.bytes:
            raise Unable(f"{self.where} has another text")
        return is_new

    def text(self):
        return next((text for text, in self.rows("select text from texts")), None)

    # ---- a node's runner
    def load(self, node):
        (offset, state), = self.rows("select offset, state from kept where node = ?", node)
        return offset, json.loads(state or "null")

    def read(self, node, offset, most, seconds):
        if self.load(node)[0] != offset:
            raise Overtaken
        self.before = offset
        return self.waited("select id, line from lines where dest = ? and id > ? order by id limit ?", seconds, node, int(offset), most)

    def waited(self, query, seconds, *values):
        """The lines that a query gives, once there are some."""
        end = time.monotonic() + seconds
        while not (found := self.rows(query, *values)) and time.monotonic() < end:
            time.sleep(PAUSE)
        return [(str(offset), line) for offset, line in found]

    def commit(self, node, offset, state, packets, answers):
        with self.at_once():
            told = json.dumps(state) if state is not None else None
            change = "update kept set offset = ?, state = coalesce(?, state) where node = ? and offset = ?"
            if self.base.execute(change, (offset, told, node, self.before)).rowcount != 1:
                raise Overtaken
            lines = [*packets, *((f"to:{client}", line) for client, line in answers)]
            self.base.executemany("insert into lines (dest, line) values (?, ?)", lines)
            self.base.execute("delete from lines where dest = ? and id <= ?", (node, int(offset)))
            for client, _ in answers:
                old = "select id from lines where dest = ? order by id desc limit -1 offset ?"
                self.base.execute(f"delete from lines where id in ({old})", (f"to:{client}", ANSWERS))

    def tell(self, node, told):
        self.rows("update kept set told = ?, at = ? where node = ?", json.dumps(told), time.time(), node)

    def told(self, node):
        return next((self.shown(*it) for it in self.rows("select told, at from kept where node = ?", node)), None)

    def shown(self, told, at):
        return json.loads(told) if time.time() < at + SHOWN else None

    # ---- callers
    def site_of(self, client):
        if (text := self.text()) is None:
            raise Lost(f"{self.where} has no cluster")
        return Text(text).clients.get(client)

    def put(self, node, line):
        self.rows("insert into lines (dest, line) values (?, ?)", node, line)

    def last(self, client):
        (last,), = self.rows("select coalesce(max(id), 0) from lines where dest = ?", f"to:{client}")
        return str(last)

    def answers(self, client, after, seconds):
        return self.waited("select id, line from lines where dest = ? and id > ? order by id", seconds, f"to:{client}", int(after))

    # ---- who asks how it goes
    def seen(self):
        with self.at_once():
            texts = self.rows("select objects from texts")
            found = self.rows("select node, state, told, at from kept")
        if not texts:
            raise Lost(f"{self.where} has no cluster")
        by_site = sorted(found, key=lambda it: int(it[0][1:]))
        return json.loads(texts[0][0]), [(json.loads(state or "null"), self.shown(told, at)) for _, state, told, at in by_site]
