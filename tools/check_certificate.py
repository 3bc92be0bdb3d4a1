#!/usr/bin/env python3
"""tools/check_certificate.py < CERTIFICATE

Prints what `homeo verify` has to print of the certificate on standard input: `valid`, or `invalid` and the first fault. It is written
from docs/CERTIFICATES.md alone and shares no code with the program; the gate compares the two. It can be copied, and read in one go.
"""
import itertools
import json
import math
import re
import sys

LIMIT, WORD, ANY = 4 * 10**18, range(-(2**63), 2**63), None
# By its kind and its name the parts of a node: c command, t temporary, b test, e expression; * stands for as many as the node says.
PARTS = {
    "c": {"skip": "", "assign": "te", "write": "e", "print": "e", "seq": "c*", "if": "b*cc"},
    "t": {"named": "", "fresh": ""},
    "b": {"true": "", "not": "b*", "<": "ee", "<=": "ee", "=": "ee"},
    "e": {"lit": "", "named": "", "fresh": "", "base": "", "delta": "", "sum": "e*", "product": "e*", "neg": "e"},
}


class Fault(Exception):
    """The first fault, as its words."""


def need(holds, *fault):
    if not holds:
        raise Fault(*fault)


# ---- what a certificate is
def number(spelled):
    """A whole number, or None for any other that 64 bits of floating point hold."""
    need(math.isfinite(float(spelled)), "json")
    return int(spelled) if re.fullmatch("-?[0-9]+", spelled) and spelled != "-0" else None


def value_of(text):
    depths = itertools.accumulate((it in "[{") - (it in "]}") for it in re.sub(r'"(\\.|[^"\\])*"', "", text))
    need(max(depths, default=0) < 128, "json")
    value = json.loads(text, parse_int=number, parse_float=number, parse_constant=number)
    json.dumps(value, ensure_ascii=False).encode()  # (half a surrogate pair is no character)
    return value


def fits(value, shape):
    """Whether a value is a number within a range, an object with these members, a list of such items, or one of these items."""
    if type(shape) is range:
        return type(value) is int and value in shape
    if type(shape) is dict:
        return type(value) is dict and value.keys() == shape.keys() and all(fits(value[key], shape[key]) for key in shape)
    if type(shape) is list:
        return type(value) is list and all(fits(it, shape[0]) for it in value)
    return shape is ANY or type(value) is list and len(value) == len(shape) and all(map(fits, value, shape))


def phrase(nodes, kind, depth, numbers):
    """The last node with its parts, which stand before it: its name, its numbers, and they."""
    need(nodes and depth and type(nodes[-1]) is list and nodes[-1], "shape")
    name, *own = nodes.pop()
    need(type(name) is str and name in PARTS[kind] and fits(own, numbers.get(name, ())), "shape")
    parts = PARTS[kind][name]
    if "*" in parts:
        need(own[0] <= len(nodes), "shape")
        parts = parts[0] * own[0] + parts[2:]
    return name, tuple(own), [phrase(nodes, it, depth - 1, numbers) for it in parts]


def command_of(nodes, numbers):
    nodes = nodes[::-1]
    made = phrase(nodes, "c", 1000, numbers)
    need(not nodes, "shape")
    return made


class Certificate:
    def __init__(self, value):
        plain = {"base": [WORD], "freezes": [(WORD, WORD)], "sites": range(1, 17), "version": range(1, 2)}
        need(fits(value, plain | {"bounds": [[WORD]], "calls": [ANY], "clauses": [ANY]}), "shape")
        objects, sites = range(len(value["base"])), range(value["sites"])
        calls, clauses = [{"command": [ANY], "site": sites}], [{"slack": WORD, "terms": [(objects, sites, WORD)]}]
        need(fits(value, plain | {"bounds": [(WORD,) * len(sites)], "calls": calls, "clauses": clauses, "freezes": [(objects, sites)]}), "shape")
        need(len(objects) <= 1024 and len(value["calls"]) <= 1024 and len(value["bounds"]) == len(value["clauses"]), "shape")
        self.base, self.bounds, self.freezes = value["base"], value["bounds"], [tuple(it) for it in value["freezes"]]
        self.clauses = [(it["slack"], {(x, j): factor for x, j, factor in it["terms"]}) for it in value["clauses"]]
        for deltas in (value["freezes"], *([it[:2] for it in clause["terms"]] for clause in value["clauses"])):
            need(all(a < b for a, b in zip(deltas, deltas[1:])), "shape")
        need(all(all(terms.values()) for _, terms in self.clauses), "shape")
        numbers = {"lit": (WORD,), "base": (objects,), "delta": (objects, sites), "write": (objects, sites)}
        numbers |= dict.fromkeys(("named", "fresh"), (range(2**32),))
        numbers |= dict.fromkeys(("sum", "product", "not", "seq", "if"), (range(2**63),))
        self.calls = [(it["site"], command_of(it["command"], numbers)) for it in value["calls"]]


# ---- what is asked of it
def small(form):
    need(all(abs(it) <= LIMIT for it in (form[0], *form[1].values())), "size")
    return form


def plus(a, b):
    factors = {it: a[1].get(it, 0) + b[1].get(it, 0) for it in a[1] | b[1]}
    return a[0] + b[0], {it: n for it, n in factors.items() if n}, a[2] | b[2]


def times(a, b):
    for n, it in ((a, b), (b, a)):
        if not n[1] and not n[2]:
            return n[0] * it[0], {d: n[0] * f for d, f in it[1].items() if n[0]}, it[2]
    return a[0] * b[0], {}, {*a[1], *b[1]} | a[2] | b[2]


def constant(n):
    return n, {}, set()


class Following:
    """A call at a site along the branch that it takes where all deltas are 0: the forms of what was set, and the deltas written.

    A form is a constant, a factor for each delta, and the deltas of which it says nothing but that it is right where they are 0."""

    def __init__(self, certificate, site):
        self.certificate, self.site, self.forms, self.written = certificate, site, {}, set()

    def form(self, phrase):
        name, own, parts = phrase
        if name in ("sum", "product"):
            made = constant(0 if name == "sum" else 1)
            for part in parts:
                made = small((plus if name == "sum" else times)(made, self.form(part)))
            return made
        if name == "neg":
            return times(constant(-1), self.form(parts[0]))
        first = {"lit": constant(own[0]), "base": constant(self.certificate.base[own[0]] if name == "base" else 0), "delta": (0, {own: 1}, set())}
        return small(self.forms.get((name, own), first.get(name, constant(0))))

    def test(self, phrase):
        """Whether it passes where all deltas are 0, and of what a - b + n has to stay at most 0 so that this stays."""
        name, _, parts = phrase
        if name in ("true", "not"):
            holds, kept = self.condition(parts)
            return holds == (name == "true"), kept
        a, b = [self.form(it) for it in parts]
        holds = {"<": a[0] < b[0], "<=": a[0] <= b[0], "=": a[0] == b[0]}[name]
        if name == "=" and holds:
            return True, [(a, b, 0), (b, a, 0)]
        n = int((name == "<") == holds)
        return holds, [(a, b, n) if (a[0] < b[0] if name == "=" else holds) else (b, a, n)]

    def condition(self, tests):
        """Of a condition that holds all its tests are kept, and of another the first that fails."""
        kept = []
        for holds, own in (self.test(it) for it in tests):
            if not holds:
                return False, own
            kept += own
        return True, kept

    def keep(self, a, b, n):
        least, factors, mixed = small(plus(small(plus(a, times(constant(-1), b))), constant(n)))
        self.freeze(mixed)
        need(not factors or any(terms == factors and slack <= -least for slack, terms in self.certificate.clauses), "clause")

    def freeze(self, deltas):
        for delta in sorted(deltas):
            need(delta in self.certificate.freezes, "freeze", *delta)

    def freeze_others(self, form):
        self.freeze(it for it in {*form[1], *form[2]} if it[1] != self.site)

    def follow(self, command):
        name, own, parts = command
        if name == "seq":
            for part in parts:
                self.follow(part)
        elif name == "if":
            holds, kept = self.condition(parts[:-2])
            for it in kept:
                self.keep(*it)
            self.follow(parts[-2 if holds else -1])
        elif name == "print":
            self.freeze_others(self.form(parts[0]))
        elif name == "assign":
            self.forms[parts[0][:2]] = self.form(parts[1])
        elif name == "write":
            need(own[1] == self.site, "foreign")
            self.forms["delta", own] = self.form(parts[0])
            self.written.add(own)

    def end(self):
        for delta in sorted(self.written):
            self.freeze_others(self.forms["delta", delta])


def fault_of(text):
    """The first fault of the bytes, as words, or None."""
    try:
        value = value_of(text.decode())
    except (ValueError, RecursionError, Fault):
        return ["json"]
    try:
        certificate = Certificate(value)
        for number, (bounds, (slack, _)) in enumerate(zip(certificate.bounds, certificate.clauses)):
            need(min(bounds) >= 0 and sum(bounds) == slack, "bounds", number)
        number = None
        for number, (site, command) in enumerate(certificate.calls):
            call = Following(certificate, site)
            call.follow(command)
            call.end()
    except Fault as fault:
        name, *rest = fault.args
        return [name, number, *rest] if name in ("size", "freeze", "clause", "foreign") else fault.args
    return None


def verdict(text):
    fault = fault_of(text)
    return "valid" if fault is None else " ".join(map(str, ("invalid", *fault)))


sys.setrecursionlimit(20_000)
if __name__ == "__main__":
    print(verdict(sys.stdin.buffer.read().removesuffix(b"\n")))
