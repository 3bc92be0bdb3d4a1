#!/usr/bin/env python3
"""ask.py HEAD: drives a session. Each batch of standard input goes to the program's `serve` by itself, and its answer is printed before the
next. The program is $HOMEO, or ./homeo. Batches that stand behind the head in its file are made first, and their answers aren't printed."""
import os
import pathlib
import re
import subprocess
import sys

PROGRAM = os.environ.get("HOMEO") or str(pathlib.Path(__file__).resolve().parents[2] / "homeo")
LAST_LINE = re.compile(r"(rounds \d+ calls \d+|refused E\d+ at \d+)\n")
END = re.compile(r"^[ \t\r]*end[ \t\r]*\n", re.M)


def frames(text):
    """The text cut behind each line that is `end`, without what stands behind the last."""
    ends = [it.end() for it in END.finditer(text)]
    return [text[begin:end] for begin, end in zip([0, *ends], ends)]


def answer(session, frame):
    """The lines with which a batch is answered, or those that there are."""
    session.stdin.write(frame)
    session.stdin.flush()
    for line in session.stdout:
        yield line
        if LAST_LINE.fullmatch(line):
            return
    sys.exit(session.wait() or "ask.py: the answer is cut off")


if len(sys.argv) != 2:
    sys.exit(__doc__)
session = subprocess.Popen([PROGRAM, "serve"], stdin=subprocess.PIPE, stdout=subprocess.PIPE, text=True)
head, *first = frames(pathlib.Path(sys.argv[1]).read_text())
session.stdin.write(head)
for frame in first:
    list(answer(session, frame))
for frame in frames(sys.stdin.read()):
    for line in answer(session, frame):
        print(line, end="", flush=True)
session.stdin.close()
sys.exit(session.wait())
