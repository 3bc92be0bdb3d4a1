"""That what a script has started ends with the script, and a build with ./homeo, which says meanwhile how far it is."""
import contextlib
import os
import pathlib
import pty
import select
import signal
import subprocess
import tempfile
import time

# A program that starts another and waits for it, and tells both numbers.
SLOW = """#!/usr/bin/env bash
sleep 300 &
echo $$ $! > {told}.new && mv {told}.new {told}
wait
"""
SECONDS = 20


def is_running(process):
    """Whether a process is there, and not only its status."""
    try:
        return pathlib.Path(f"/proc/{process}/stat").read_text().rpartition(")")[2].split()[0] != "Z"
    except OSError:
        return False


def until(holds):
    """Whether it holds within some seconds."""
    end = time.monotonic() + SECONDS
    while not holds() and time.monotonic() < end:
        time.sleep(0.05)
    return holds()


def fault_at_end(words):
    """What is wrong where a script that runs a slow program by these words is ended, None where nothing is."""
    with tempfile.TemporaryDirectory() as folder:
        slow, told = pathlib.Path(folder) / "slow", pathlib.Path(folder) / "told"
        slow.write_text(SLOW.format(told=told))
        slow.chmod(0o755)
        quiet = {"stdout": subprocess.DEVNULL, "stderr": subprocess.DEVNULL}
        script = subprocess.Popen(words, env={**os.environ, "HOMEO": str(slow)}, start_new_session=True, **quiet)
        began = until(told.exists)
        script.terminate()
        try:
            script.wait(SECONDS)
        except subprocess.TimeoutExpired:
            script.kill()
            return "it goes on"
        if not began:
            return "it does not run $HOMEO"
        left = [it for it in told.read_text().split() if not until(lambda: not is_running(it))]
    for it in left:
        os.kill(int(it), signal.SIGKILL)
    return f"{len(left)} of what it started go on" if left else None


def running_in(folder):
    """The processes that were started with words that name the folder."""
    for each in pathlib.Path("/proc").glob("[0-9]*/cmdline"):
        with contextlib.suppress(OSError):
            if str(folder).encode() in each.read_bytes():
                yield each.parent.name


def on_terminal(words, folder, environment, until_said, act):
    """Runs the words on a terminal, acts on the process and the terminal where it has said something, and returns what it said and its status."""
    process, terminal = pty.fork()
    if not process:
        os.chdir(folder)
        os.execvpe(words[0], words, environment)
    said, has_acted, end = b"", False, time.monotonic() + 10 * SECONDS
    while time.monotonic() < end:
        if select.select([terminal], [], [], 0.1)[0]:
            try:
                said += os.read(terminal, 4096)
            except OSError:
                break
        if until_said in said and not has_acted:
            has_acted = True
            act(process, terminal)
    else:
        os.kill(process, signal.SIGKILL)
    os.close(terminal)
    return said, os.waitstatus_to_exitcode(os.waitpid(process, 0)[1])


def fault_of_build(clone, number):
    """What is wrong where a first call in a clone is ended while it builds: by ^C on its terminal where the signal is SIGINT."""
    act = (lambda process, terminal: os.write(terminal, b"\x03")) if number == signal.SIGINT else lambda process, terminal: os.kill(process, number)
    with tempfile.TemporaryDirectory() as folder:
        environment = {**os.environ, "TMPDIR": folder, "TERM": "xterm"}
        said, status = on_terminal(["./homeo", "steps"], clone, environment, b" 0:02 of some ", act)
        if b"homeo: 0:01 of some " not in said or b": reading the sources" not in said:
            return f"it doesn't say how far it is: {said!r}"
        if status != 128 + number:
            return f"status {status}"
        left = list(running_in(folder)) if not until(lambda: not list(running_in(folder))) else []
        return f"{left} go on" if left else f"{os.listdir(folder)} is left" if os.listdir(folder) else None
