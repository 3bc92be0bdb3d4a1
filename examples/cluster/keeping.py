"""What is kept of a node in a folder: a snapshot, and the lines that it was given since, in logs."""
import json
import os
import pathlib
import re


class Kept:
    """`snapshot` has the node's state and the number of the log that follows it. The logs from this number on count, one after another;
    the last is the one that is written. With `is_synced` all is on the disk before it counts as kept, so that it stays after a power cut."""

    def __init__(self, folder, is_synced):
        self.folder, self.is_synced = pathlib.Path(folder), is_synced
        self.folder.mkdir(parents=True, exist_ok=True)
        self.log = None
        self.load()

    def logs(self):
        """The numbers of the logs that are there, rising."""
        return sorted(int(it.name[4:]) for it in self.folder.iterdir() if re.fullmatch(r"log\.\d+", it.name))

    def load(self):
        """The state, None where there is no snapshot yet, and the lines since. A last line that was cut was never given to the node."""
        state, first = None, 0
        if (self.folder / "snapshot").exists():
            state, first = json.loads((self.folder / "snapshot").read_bytes())
        for number in self.logs():
            if number < first:
                (self.folder / f"log.{number}").unlink()
        numbers = self.logs() or [first]
        self.open(numbers[-1])
        whole = b"".join((self.folder / f"log.{number}").read_bytes() for number in numbers)
        lines = whole.split(b"\n")
        if cut := lines.pop():
            os.ftruncate(self.log, os.fstat(self.log).st_size - len(cut))
        return state, lines

    def open(self, number):
        if self.log is not None:
            os.close(self.log)
        self.number = number
        self.log = os.open(self.folder / f"log.{number}", os.O_RDWR | os.O_CREAT | os.O_APPEND, 0o600)
        self.sync_folder()

    def append(self, lines):
        """Keeps lines. Where that fails, nothing may be let out any more."""
        left = b"".join(line + b"\n" for line in lines)
        while left:
            left = left[os.write(self.log, left) :]
        if self.is_synced:
            os.fsync(self.log)

    def begin(self):
        """Begins the log that follows a snapshot of now, and returns its number."""
        self.open(self.number + 1)
        return self.number

    def keep(self, state, number):
        """Keeps the snapshot that this log follows. The logs before it count no more."""
        new = self.folder / "snapshot.new"
        with open(new, "w", encoding="ascii") as file:
            json.dump([state, number], file)
            file.flush()
            if self.is_synced:
                os.fsync(file.fileno())
        new.replace(self.folder / "snapshot")
        self.sync_folder()
        for older in self.logs():
            if older < number:
                (self.folder / f"log.{older}").unlink()

    def sync_folder(self):
        if self.is_synced:
            folder = os.open(self.folder, os.O_RDONLY)
            os.fsync(folder)
            os.close(folder)
