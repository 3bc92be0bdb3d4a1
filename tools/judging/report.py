"""Reads and writes a report, to the letter, as docs/LANGUAGE.md says what one is."""
import dataclasses
import re

NUMBER = r"(?:0|-?[1-9][0-9]*)"
COUNT = r"(?:0|[1-9][0-9]*)"
NAME = r"[A-Za-z][A-Za-z0-9_]*"
ENTRY = re.compile(rf"({NAME}) ({COUNT}) ({NAME}\((?:{NUMBER}(?:, {NUMBER})*)?\)):((?: {NUMBER})*)")
CLOSE = re.compile(rf"close ({COUNT}) clause ({COUNT}) sum ({NUMBER}) bound ({NUMBER})")
VALUE = re.compile(rf"({NAME}(?:\.{COUNT}\.{NAME})?) = ({NUMBER})")
ROUND, SITE = re.compile(rf"round ({COUNT})"), re.compile(rf"site ({COUNT})")
LAST = re.compile(rf"rounds ({COUNT}) calls ({COUNT})")


class Illegal(Exception):
    """The report isn't one of a legal history: says why and where."""


@dataclasses.dataclass
class Entry:
    """A call that was made: the number counts the client's calls from 1, or is under `nodes` the call's place in the client's list."""

    client: str
    number: int
    call: str
    prints: list

    def __str__(self):
        return f"{self.client} {self.number} {self.call}"

    def line(self):
        return f"{self}:{''.join(f' {it}' for it in self.prints)}"

    def transaction(self):
        return self.call.partition("(")[0]


@dataclasses.dataclass
class Closing:
    """The call that closed a round, and what of its site's treaty it would have broken."""

    site: int
    clause: int
    sum: int
    bound: int
    entry: Entry

    def lines(self):
        return [f"close {self.site} clause {self.clause} sum {self.sum} bound {self.bound}", self.entry.line()]

    def transaction(self):
        return self.entry.transaction()


@dataclasses.dataclass
class Round:
    segments: list
    closing: Closing | None

    def entries(self):
        """All calls of the round, each with its site, the closing call last."""
        made = [(site, entry) for site, segment in enumerate(self.segments) for entry in segment]
        return made + ([(self.closing.site, self.closing.entry)] if self.closing else [])

    def lines(self):
        made = [line for site, segment in enumerate(self.segments) for line in [f"site {site}", *(it.line() for it in segment)]]
        return made + (self.closing.lines() if self.closing else [])


@dataclasses.dataclass
class History:
    """What a report tells. `database` is a list of names and values in the order of the report."""

    rounds: list
    database: list
    rounds_said: int
    calls_said: int

    def calls(self):
        return sum(len(it.entries()) for it in self.rounds)

    def lines(self):
        made = [line for number, it in enumerate(self.rounds) for line in [f"round {number}", *it.lines()]]
        made += ["database", *(f"{name} = {value}" for name, value in self.database)]
        return made + [f"rounds {self.rounds_said} calls {self.calls_said}"]


class Lines:
    def __init__(self, text):
        if not text.endswith("\n"):
            raise Illegal("the report doesn't end with a newline")
        self.lines, self.next = text[:-1].split("\n"), 0

    def matched(self, pattern):
        """The groups of the next line, which is then passed, where it has this form."""
        found = pattern.fullmatch(self.lines[self.next]) if self.next < len(self.lines) else None
        self.next += 1 if found else 0
        return found and found.groups()

    def wanted(self, pattern, what):
        found = self.matched(pattern)
        if found is None:
            said = repr(self.lines[self.next]) if self.next < len(self.lines) else "the end"
            raise Illegal(f"line {self.next + 1}: {said} stands where {what} is wanted")
        return found


def entry_of(client, number, call, prints):
    return Entry(client, int(number), call, [int(it) for it in prints.split()])


def segments_of(lines):
    segments = []
    while found := lines.matched(SITE):
        if int(found[0]) != len(segments):
            raise Illegal(f"line {lines.next}: site {found[0]} stands where site {len(segments)} is wanted")
        segments.append([])
        while entry := lines.matched(ENTRY):
            segments[-1].append(entry_of(*entry))
    return segments


def closing_of(lines):
    found = lines.matched(CLOSE)
    return found and Closing(*map(int, found), entry_of(*lines.wanted(ENTRY, "the call that closed the round")))


def rounds_of(lines):
    rounds = []
    while True:
        (number,) = lines.wanted(ROUND, f"round {len(rounds)}")
        if int(number) != len(rounds):
            raise Illegal(f"line {lines.next}: round {number} stands where round {len(rounds)} is wanted")
        rounds.append(Round(segments_of(lines), closing_of(lines)))
        if rounds[-1].closing is None:
            return rounds


def read(text):
    """The history that a report tells, or `Illegal`."""
    lines = Lines(text)
    rounds = rounds_of(lines)
    lines.wanted(re.compile("database"), "a call, a closing line, or the database behind the round that no call closes,")
    database = []
    while found := lines.matched(VALUE):
        database.append((found[0], int(found[1])))
    counts = lines.wanted(LAST, "the line of rounds and calls")
    if lines.next < len(lines.lines):
        raise Illegal(f"line {lines.next + 1}: {lines.lines[lines.next]!r} stands behind the last line")
    return History(rounds, database, *map(int, counts))


def write(history):
    """The report that tells a history."""
    return "".join(f"{line}\n" for line in history.lines())
