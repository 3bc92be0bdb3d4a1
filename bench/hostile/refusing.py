"""Runs the built program under a library that is loaded before the C library: what bench/hostile/refuse-memory and bench/hostile/refuse-io share."""
import argparse
import collections
import itertools
import multiprocessing
import os
import pathlib
import re
import subprocess
import sys

ROOT = pathlib.Path(__file__).resolve().parents[2]
TIMEOUT = 60
Ran = collections.namedtuple("Ran", "status output said counted")
# A head and four batches, one of them refused, the last one without a newline. A read of 4,096 bytes ends at most one of them.
STREAM = b"".join([
    b"workload 1\nsites 2\nobject stock in 0..10 = 5\n",
    b"transaction buy(n in 1..3) { s := read(stock); if n <= s then { write(stock = s - n); print(1) } else print(0) }\nend\n",
    *(b" " * 4_000 + it for it in [
        b"client a at 0 { buy(1); buy(1) }\nschedule a a\nend\n",
        b"client c at 5 { buy(1) }\nschedule c\nend\n",
        b"client b at 1 { buy(3) }\nschedule b\nend\n",
        b"client a at 0 { buy(1) }\nschedule a\nend",
    ]),
])


def beginnings(words, whole):
    """What a run may have written that can't go on: nothing, or under `serve` the answers of some first batches."""
    answers = re.findall(rb"(?:.*\n)*?(?:rounds|refused) .*\n", whole) if words[0] == "serve" else []
    return list(itertools.accumulate(answers, initial=b""))


class Shim:
    """A library made of a C source, and the program that is run with it."""

    def __init__(self, program, source, folder):
        self.program, self.library = program, pathlib.Path(folder) / "shim.so"
        file = pathlib.Path(folder) / "shim.c"
        file.write_text(source)
        subprocess.run(["cc", "-shared", "-fPIC", "-O1", "-o", str(self.library), str(file), "-ldl", "-lpthread"], check=True)

    def run(self, words, text, **settings):
        """A run on the bytes of a text. The library takes its settings from the environment, and counts into a pipe."""
        told, counter = os.pipe()
        environment = {**os.environ, "LD_PRELOAD": str(self.library), "COUNT_TO": str(counter), **{k: str(v) for k, v in settings.items()}}
        command = [str(self.program), *words]
        try:
            run = subprocess.run(command, input=text, capture_output=True, env=environment, pass_fds=(counter,), timeout=TIMEOUT)
            status, output, said = run.returncode, run.stdout, run.stderr
        except subprocess.TimeoutExpired:
            status, output, said = None, b"", b""
        os.close(counter)
        with os.fdopen(told) as file:
            counted = [int(it) for it in file.read().split()]
        return Ran(status, output, said, counted)

    def plain(self, words, text):
        """The output of a run without the library."""
        run = subprocess.run([str(self.program), *words], input=text, capture_output=True, timeout=TIMEOUT)
        if run.returncode or run.stderr:
            sys.exit(f"{' '.join(words)} ends with status {run.returncode}, {run.stderr!r}, where nothing is refused")
        return run.stdout


def side_by_side(work, items):
    """What the work gives for each of the items, in their order, in a process for each processor, which are copies of this one."""
    items = list(items)
    if not items:
        return []
    with multiprocessing.get_context("fork").Pool(os.cpu_count(), begin_work, (work,)) as pool:
        return pool.map(do_work, items, chunksize=max(1, min(64, len(items) // 16)))


def begin_work(work):
    global the_work
    the_work = work


def do_work(item):
    return the_work(item)


def parser_of(name, usage, description):
    parser = argparse.ArgumentParser(prog=name, usage=usage, description=description, formatter_class=argparse.RawDescriptionHelpFormatter)
    parser.add_argument("--every", type=int, default=1)
    parser.add_argument("--program")
    return parser
