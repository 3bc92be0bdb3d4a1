"""What `serve` answers to the stored streams, whole and byte by byte, and to streams at each limit and one past it."""
import array
import fcntl
import pathlib
import subprocess
import termios
import time

import boundaries

ROOT = pathlib.Path(__file__).resolve().parent.parent
SERVE = [str(ROOT / ".build" / "homeo"), "serve"]


def served(stream):
    return subprocess.run(SERVE, input=stream, capture_output=True)


def served_by_bytes(stream):
    """The same where each read finds one byte: the next one is written when the one before was read."""
    pipes = {"stdin": subprocess.PIPE, "stdout": subprocess.PIPE, "stderr": subprocess.PIPE}
    with subprocess.Popen(SERVE, bufsize=0, **pipes) as run:
        for byte in stream:
            run.stdin.write(bytes([byte]))
            while unread(run.stdin) and run.poll() is None:
                time.sleep(0)
        answers, said = run.communicate()
    return subprocess.CompletedProcess(SERVE, run.returncode, answers, said)


def unread(pipe):
    """How many bytes of a pipe weren't read yet."""
    count = array.array("i", [0])
    fcntl.ioctl(pipe.fileno(), termios.FIONREAD, count)
    return count[0]


def fault_of(run, said, answers):
    if (run.returncode, run.stderr) != (2 if said else 0, said):
        return f"status {run.returncode}, {run.stderr!r}"
    return None if run.stdout == answers else f"answers {run.stdout[-300:]!r}"


def check(verdict):
    streams = sorted((ROOT / ".ci" / "stored").glob("*.stream"))
    verdict("stored streams", None if streams else "there are none")
    for file in streams:
        stream, answers = file.read_bytes(), file.with_suffix(".answers").read_bytes()
        verdict(f"serve: {file.name}", fault_of(served(stream), b"", answers))
        verdict(f"serve: {file.name}, byte by byte", fault_of(served_by_bytes(stream), b"", answers))
    for it in boundaries.streams():
        verdict(f"serve: {it.name}", fault_of(served(it.stream), it.said.encode(), it.answers))
