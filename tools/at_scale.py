#!/usr/bin/env python3
"""tools/at_scale.py TIMES TEXT [OLD NEW]..

Writes the text with each client's calls so many times over, in the same order, and with each OLD in it replaced by NEW. TEXT is a file,
or a document and the heading above the text, as docs/COOKBOOK.md#a-rate-limit.

Status 1 says that there is no such text, or that an OLD doesn't stand in it; 2 that the words are wrong.
"""
import pathlib
import re
import sys


class Missing(Exception):
    """What isn't there."""


def anchor(heading):
    return re.sub(r"[^\w\- ]", "", heading.lower()).replace(" ", "-")


def text_of(name):
    """The text in a file, or the first one under a heading of a document."""
    file, _, wanted = name.partition("#")
    document = pathlib.Path(file).read_text()
    if not wanted:
        return document
    parts = re.split(r"^#+ (.*)$", document, flags=re.M)
    for heading, body in zip(parts[1::2], parts[2::2]):
        found = re.search(r"^```homeo\n(.*?)^```$", body, re.M | re.S)
        if anchor(heading) == wanted and found:
            return found[1]
    raise Missing(f"no text stands under {wanted} in {file}")


def at_scale(text, times, changes=()):
    """The text with these changes, its calls so many times over."""
    for old, new in changes:
        if old not in text:
            raise Missing(f"{old!r} doesn't stand in the text")
        text = text.replace(old, new)
    text = re.sub(r"^(client .*? at \d+ \{ )(.*?)( \})$", lambda it: it[1] + "; ".join([it[2]] * times) + it[3], text, flags=re.M)
    return re.sub(r"^schedule (.*)$", lambda it: "schedule " + " ".join([it[1]] * times), text, flags=re.M)


def main():
    times, name, *changes = sys.argv[1:] if len(sys.argv) > 2 else ("", "")
    if not times.isdigit() or len(changes) % 2:
        print("usage: tools/at_scale.py TIMES TEXT [OLD NEW]..", file=sys.stderr)
        return 2
    try:
        sys.stdout.write(at_scale(text_of(name), int(times), zip(changes[::2], changes[1::2])))
        return 0
    except (Missing, OSError) as fault:
        print(f"tools/at_scale.py: {fault}", file=sys.stderr)
        return 1


if __name__ == "__main__":
    sys.exit(main())
