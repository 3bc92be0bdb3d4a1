#!/usr/bin/env python3
"""ask.py [--times] [--timeout SECONDS] DIR CLIENT 'CALL' ..: makes calls as a listed client of a running cluster, one after another.
ask.py --redis ADDRESS NAME CLIENT 'CALL' ..: the same of the cluster of this name over Redis (cluster.py --help says what an address is).

It says what each printed, whether its site made it alone (`local`) or it closed its round (`closing`), and with --times how long it took.
"""
import argparse
import re
import sys
import time

sys.dont_write_bytecode = True
from caller import Caller, Failed
from nodes import Unable

USAGE = "%(prog)s [--times] [--timeout SECONDS] [--redis ADDRESS] DIR CLIENT 'CALL' .."


def asked(text):
    """The transaction and the arguments of a call as it is written."""
    found = re.fullmatch(r"\s*(\w+)\s*\(([-\d\s,]*)\)\s*", text)
    if not found:
        sys.exit(f"ask.py: {text} is no call, as buy(2) is one")
    return found[1], [int(it) for it in found[2].split(",") if it.strip()]


def ask(me, text, says_times):
    (transaction, arguments), began = asked(text), time.monotonic()
    try:
        answer = me.call(transaction, *arguments)
    except Failed as fault:
        sys.exit(f"{text}: {type(fault).__name__}: {fault}")
    took = f", {(time.monotonic() - began) * 1_000:.1f} ms" if says_times else ""
    print(f"{text}: {' '.join(map(str, answer.prints))}   {answer.path}, round {answer.round}{took}", flush=True)


def main():
    parser = argparse.ArgumentParser(prog="ask.py", usage=USAGE, description=__doc__, formatter_class=argparse.RawDescriptionHelpFormatter)
    parser.add_argument("cluster", metavar="DIR")
    parser.add_argument("client")
    parser.add_argument("calls", nargs="+")
    parser.add_argument("--times", action="store_true")
    parser.add_argument("--timeout", type=float, default=30)
    parser.add_argument("--redis", metavar="ADDRESS")
    chosen = parser.parse_args()
    try:
        with Caller(chosen.cluster, chosen.client, chosen.timeout, redis=chosen.redis) as me:
            for text in chosen.calls:
                ask(me, text, chosen.times)
    except (Unable, OSError) as fault:
        sys.exit(f"ask.py: {fault}")


if __name__ == "__main__":
    main()
