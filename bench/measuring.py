"""Runs a command in a process of its own, and measures it: what bench/measure and bench/hostile/at-limits share.

`measured` gives a `Measured`: the status (negative where a signal ended it, None where it took too long), the seconds from start to
end, the seconds of processor time of all its threads, the peak of its memory in megabytes (where GNU time isn't there, at least the 10
or so of the launcher, of which it is a copy at first), and what it said on standard error. Each run has a timeout, and may have no
more address space than `MOST_MEMORY`, so that it can't exhaust the machine.
"""
import collections
import json
import os
import pathlib
import subprocess
import sys

import program

Measured = collections.namedtuple("Measured", "status seconds processor megabytes said")
# Bytes of address space, the seconds that a run may take, and those of one that is not repeated.
MOST_MEMORY, TIMEOUT, LONG = 6 * 2**30, 120, 5

# It tells the peak of what it starts, which begins as a copy of it, and so of little.
TELLER = "/usr/bin/time"
LAUNCHER = """
import json, os, resource, signal, subprocess, sys, tempfile, time
given, taken, timeout, memory, teller = sys.argv[1], sys.argv[2], float(sys.argv[3]), int(sys.argv[4]), sys.argv[5]
limit = lambda: resource.setrlimit(resource.RLIMIT_AS, (memory, memory))
with open(given, "rb") as source, open(taken, "wb") as out, tempfile.NamedTemporaryFile("r") as told:
    words = [teller, "-q", "-f", "%M", "-o", told.name] if os.path.exists(teller) else []
    start = time.perf_counter()
    child = subprocess.Popen(words + sys.argv[6:], stdin=source, stdout=out, preexec_fn=limit, start_new_session=True)
    try:
        status = child.wait(timeout)
    except subprocess.TimeoutExpired:
        os.killpg(child.pid, signal.SIGKILL)
        child.wait()
        status = None
    seconds = time.perf_counter() - start
    peak = told.read().split()
used = resource.getrusage(resource.RUSAGE_CHILDREN)
if words and status is not None and status > 128:
    status = 128 - status
kilobytes = int(peak[-1]) if peak else used.ru_maxrss
print(json.dumps([status, seconds, used.ru_utime + used.ru_stime, kilobytes / 1024]))
"""


def measured(command, given, taken="/dev/null", timeout=TIMEOUT):
    """Runs the command with the file `given` as its standard input, and the file `taken` as its output."""
    words = [sys.executable, "-S", "-E", "-c", LAUNCHER, str(given), str(taken), str(timeout), str(MOST_MEMORY), TELLER, *map(str, command)]
    run = subprocess.run(words, capture_output=True, text=True)
    if run.returncode:
        raise OSError(f"the launcher failed: {run.stderr}")
    return Measured(*json.loads(run.stdout), run.stderr)


def least(command, given, repeats, timeout=TIMEOUT):
    """Of several runs the least of each time and the most memory. A run that takes long is not repeated, nor is one that goes wrong."""
    runs = []
    while len(runs) < repeats:
        runs.append(measured(command, given, timeout=timeout))
        if runs[-1].status not in (0, 2):
            return runs[-1]
        if runs[-1].seconds > LONG:
            break
    seconds, processor = min(it.seconds for it in runs), min(it.processor for it in runs)
    return runs[-1]._replace(seconds=seconds, processor=processor, megabytes=max(it.megabytes for it in runs))


def program_of(path):
    """The program at the path, or where that is None that of $HOMEO, or the built one, which ./homeo builds if need be."""
    return pathlib.Path(path or program.chosen()).resolve()


def state():
    """Which sources these are, on what machine, and how busy it is."""
    words = ["git", "describe", "--always", "--dirty"]
    commit = subprocess.run(words, cwd=pathlib.Path(__file__).parent, capture_output=True, text=True).stdout.strip()
    return f"commit {commit}, {os.cpu_count()} processors with a load of {os.getloadavg()[1]:.1f}"
