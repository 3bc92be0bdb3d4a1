"""From a program: makes a text from data, runs it, reads the report, and goes on from the database that is left.
`python3 homeo.py < REPORT` writes a report as JSON. One file of Python's standard library, to be copied; it runs $HOMEO, or ./homeo.
"""
import dataclasses
import functools
import itertools
import json
import os
import pathlib
import re
import subprocess
import sys

OWN = str(pathlib.Path(__file__).resolve().parents[2] / "homeo")
PROGRAM = os.environ.get("HOMEO") or OWN
# The last line of an answer.
LAST_LINE = r"(?:rounds \d+ calls \d+|refused E\d+ at \d+)\n"
# What docs/LANGUAGE.md says of each code.
SENTENCES = {
    "E1": "a byte that no text may have",
    "E2": "the text has more than 1,048,576 bytes",
    "E3": "no word, number or symbol begins here; or a number has more than 18 digits, or a name more than 32 characters",
    "E4": "no workload goes on with this word, number or symbol",
    "E5": "a name is declared twice, or an insert names a field twice",
    "E6": "a name is not known",
    "E7": "a name of another kind",
    "E8": "another number of arguments than there are parameters, of fields than the relation has, or of weights than there are sites",
    "E9": "a bound is too large, or above the upper one; a starting value, an argument, a site or a weight is out of its bounds",
    "E10": "an expression may get too large",
    "E11": "a call is too large or too deep, or the calls so far are too large or print too much together",
    "E12": "under tables: a call has too many rows, or the calls so far have together",
    "E13": "more than a limit allows",
    "E14": "the schedule names a client more or less often than it has calls",
    "E15": "a batch begins with none of client, schedule and end",
    "E16": "a session takes no more bytes",
    "E18": "under wire: there are more than 200 calls",
}


class Fault(Exception):
    """What goes wrong here is one of the faults below. What a store keeps is then as it was."""


class Refused(Fault):
    """A text that isn't accepted: the `code` and its `sentence`, and where: the number of the `line` and of the `column`, from 1, and `shown`,
    the line itself."""

    def __init__(self, code, text, offset):
        before = text.encode()[:offset].split(b"\n")
        self.code, self.sentence, self.line, self.column = code, SENTENCES.get(code, "refused"), len(before), len(before[-1]) + 1
        self.shown = text.split("\n")[self.line - 1]
        part = slice(max(0, self.column - 41), self.column + 39)
        mark = " " * (self.column - 1 - part.start) + "^"
        super().__init__(f"{code} at line {self.line}, column {self.column}: {self.sentence}\n    {self.shown[part]}\n    {mark}")


class NoReport(Fault):
    """What was read is no whole report: it is cut off, or lacks something."""


class Unfit(Fault):
    """What is to be kept doesn't fit what is declared."""


class Ended(Fault):
    """The program ended by itself, with this `status` and `complaint`."""

    def __init__(self, status, complaint, when=""):
        self.status, self.complaint = status, complaint.strip()
        super().__init__(": ".join(filter(None, [when, f"the program ended with status {status}", self.complaint])))


class TimedOut(Fault):
    """The program didn't answer in time, and was ended."""


@dataclasses.dataclass
class Call:
    """A call that was made. It was `closed` where it closed its round, and else its site answered alone."""
    client: str
    number: int
    transaction: str
    arguments: list
    prints: list
    round: int
    site: int
    closed: bool


@dataclasses.dataclass
class Report:
    """`relations` has the slots of each relation, with `used` and the fields by their names; `batch` is the number in a session."""
    calls: list = dataclasses.field(default_factory=list)
    rounds: int = 0
    objects: dict = dataclasses.field(default_factory=dict)
    relations: dict = dataclasses.field(default_factory=dict)
    batch: int = 0

    def json(self):
        return json.dumps(dataclasses.asdict(self), indent=1)


def read(text):
    """The report of a text, or `NoReport`."""
    found, site, closed, line = Report(), 0, False, ""
    for number, line in enumerate(text.splitlines(), 1):
        # (first of all, since a client may be called as another line begins)
        if it := re.fullmatch(r"(\w+) (\d+) (\w+)\((.*)\):(.*)", line):
            arguments, prints = ([int(part) for part in re.findall(r"-?\d+", words)] for words in (it[4], it[5]))
            found.calls.append(Call(it[1], int(it[2]), it[3], arguments, prints, found.rounds - 1, site, closed))
        elif it := re.fullmatch(r"round (\d+)", line):
            found.rounds += 1
        elif it := re.fullmatch(r"(site|close) (\d+)(?: .*)?", line):
            site, closed = int(it[2]), it[1] == "close"
        elif it := re.fullmatch(r"(\w+)\.(\d+)\.(\w+) = (-?\d+)", line):
            slots = found.relations.setdefault(it[1], [])
            slots.extend({} for _ in range(int(it[2]) + 1 - len(slots)))
            slots[int(it[2])][it[3]] = int(it[4])
        elif it := re.fullmatch(r"(\w+) = (-?\d+)", line):
            found.objects[it[1]] = int(it[2])
        elif line != "database" and not line.startswith("rounds "):
            raise NoReport(f"line {number} stands in no report: {line[:80]}")
    if line != f"rounds {found.rounds} calls {len(found.calls)}" or not text.endswith("\n"):
        raise NoReport(f"the report is cut off, or has not the calls that it counts: its last line is {line[-80:]!r}")
    return found


@functools.cache
def build():
    """Builds the program where it has to be, and says so on standard error."""
    status = subprocess.run([OWN, "steps"], input=b"workload 1 sites 1 end", stdout=subprocess.DEVNULL).returncode
    if status:
        raise Ended(status, "it could not be built")


def program():
    """The program that is run."""
    if PROGRAM == OWN:
        build()
    return PROGRAM


def output_of(text, command, timeout=None):
    """What the program writes of a text."""
    try:
        ran = subprocess.run([program(), command], input=text.encode(), capture_output=True, timeout=timeout)
    except subprocess.TimeoutExpired:
        raise TimedOut(f"no answer in {timeout} seconds") from None
    except OSError as fault:
        raise Fault(f"the program can't be run: {fault}") from None
    complaint = ran.stderr.decode(errors="replace")
    if refused := re.fullmatch(r"refused (E\d+) at (\d+)\n", complaint):
        raise Refused(refused[1], text, int(refused[2]))
    if ran.returncode:
        raise Ended(ran.returncode, complaint)
    return ran.stdout.decode()


def answered(text, answer):
    """The report with which a session answers a batch, whose text is the head and the batch."""
    if refused := re.fullmatch(r"refused (E\d+) at (\d+)\n", answer):
        raise Refused(refused[1], text, int(refused[2]))
    return read(answer)


def bounded(bounds):
    return ", ".join(f"{name} in {low}..{high}" for name, (low, high) in bounds.items())


def start_of(fields):
    """The values with which a slot begins."""
    return {field: max(low, min(0, high)) for field, (low, high) in fields.items()}


def prefix_of(words):
    """The beginning of names that none of these words has."""
    return next(it for it in (f"restore{number}_" for number in itertools.count()) if not any(word.startswith(it) for word in words))


def batch_of(clients, calls):
    """The batch of these calls, pairs of a client and a call, in this order."""
    # (in one line each, so that none of them is the line that ends a batch)
    calls = [tuple(" ".join(part.split()) for part in it) for it in calls]
    made = {name: "; ".join(call for client, call in calls if client == name) for name in clients}
    lines = [f"client {name} at {clients[name]} {{ {it} }}" for name, it in made.items() if it]
    return "\n".join([*lines, f"schedule {' '.join(client for client, _ in calls)}", "end", ""])


class Rows:
    """A relation, and how its slots are put back: by calls of one client in a batch of its own, or by commands. `prefix` begins names that
    the text doesn't have. First all slots up to the last used one are filled, then those are freed whose `mark`, a field with two values, has
    its greatest one; then the fields are set. A relation whose fields have one value each gets one more, where a slot is to be freed."""

    def __init__(self, name, size, fields, slots, prefix):
        self.name, self.size, self.fields, self.slots, self.prefix = name, size, dict(fields), slots, prefix
        filled = max((slot + 1 for slot, it in enumerate(slots) if it["used"]), default=0)
        self.is_used = [bool(it["used"]) for it in slots[:filled]]
        self.mark = next((field for field, (low, high) in fields.items() if low < high), None)
        self.is_wider = not self.mark and not all(self.is_used)
        if self.is_wider:
            self.mark = f"{prefix}mark"
            self.fields[self.mark] = (0, 1)
        self.low, self.high = self.fields.get(self.mark, (0, 0))
        self.start = start_of(self.fields)
        values = [{field: int(it.get(field, 0)) for field in self.fields} for it in slots]
        self.changed = {slot: it for slot, it in enumerate(values) if slot < filled or it != self.start}

    def declaration(self):
        return f"relation {self.name}[{self.size}] ({bounded(self.fields)})"

    def of_inserts(self, transactions):
        """The transactions, whose inserts set the field that the relation got."""
        return re.sub(rf"\binsert\s+{self.name}\s*\(", rf"\g<0>{self.mark} = 0, ", transactions) if self.is_wider else transactions

    def fill(self, value):
        values = {**self.start, **({self.mark: value} if self.mark else {})}
        return f"insert {self.name} ({', '.join(f'{field} = {it}' for field, it in values.items())}) into {self.prefix}place"

    def free(self):
        return f"delete {self.prefix}row of {self.name} when {self.prefix}row.{self.mark} = {self.high}"

    def put(self, slot, values):
        return "; ".join(f"{self.name}[{slot}].{field} := {value}" for field, value in values.items())

    def transactions(self):
        """One that fills a slot, one that frees those that are told, and one that sets the fields of a slot."""
        slot, value = f"{self.prefix}slot", f"{self.prefix}value"
        names = {field: f"{self.prefix}{at}" for at, field in enumerate(self.fields)}
        bounds = {slot: (0, self.size - 1), **{names[field]: it for field, it in self.fields.items()}}
        made = [("fill", {value: (self.low, self.high)}, self.fill(value)), ("put", bounds, self.put(slot, names))]
        made += [("free", {}, self.free())] if self.mark else []
        return [f"transaction {self.prefix}{name}({bounded(it)}) {{ {command} }}" for name, it, command in made] if self.changed else []

    def calls(self):
        filling = [f"fill({self.low if it else self.high})" for it in self.is_used]
        putting = [f"put({', '.join(map(str, [slot, *values.values()]))})" for slot, values in self.changed.items()]
        return [f"{self.prefix}{call}" for call in [*filling, *([] if all(self.is_used) else ["free()"]), *putting]]

    def batch(self):
        client = f"{self.prefix}client"
        return batch_of({client: 0}, [(client, call) for call in self.calls()])

    def commands(self):
        """The same as commands, each as often as it is to be made."""
        free = [slot for slot, it in enumerate(self.is_used) if not it]
        telling = [*(self.put(slot, {self.mark: self.high}) for slot in free), *([self.free()] if free else [])]
        putting = [self.put(slot, values) for slot, values in self.changed.items()]
        return [self.fill(self.low)] * len(self.is_used) + (["; ".join(telling + putting)] if self.changed else [])


@dataclasses.dataclass
class Store:
    """Objects with their bounds, relations with how many slots and the bounds of their fields, clients with their sites, the text of the
    transactions; what is kept: the objects' values, and the slots as a report has them, none at the start; and for version 2 the weights."""
    sites: int
    objects: dict
    relations: dict
    clients: dict
    transactions: str
    values: dict
    slots: dict = dataclasses.field(default_factory=dict)
    weights: tuple = ()

    def prefix(self):
        fields = [field for _, it in self.relations.values() for field in it]
        return prefix_of([*self.objects, *self.relations, *fields, *self.clients, *re.findall(r"\w+", self.transactions)])

    def rows(self):
        """Each relation with the slots that are kept of it."""
        found = []
        if unknown := [*(self.values.keys() - self.objects), *(self.slots.keys() - self.relations)]:
            raise Unfit(f"{unknown[0]} is kept, and not declared")
        for at, (name, (size, fields)) in enumerate(self.relations.items()):
            bounds = {"used": (0, 1), **fields}
            slots = self.slots.get(name) or [start_of(bounds)] * size
            wrong = [it for it in slots for field, (low, high) in bounds.items() if not low <= it.get(field, high + 1) <= high]
            if wrong or len(slots) != size:
                raise Unfit(f"relation {name} has {size} slots, each with {bounded(bounds)}" + (f", and not {wrong[0]}" if wrong else ""))
            found.append(Rows(name, size, fields, slots, f"{self.prefix()}{at}_"))
        return found

    def head(self, rows, restoring, objects=()):
        """The lines in front of the clients, with these transactions behind the store's own."""
        if lacking := [name for name in self.objects if not isinstance(self.values.get(name), int)]:
            raise Unfit(f"object {lacking[0]} has no value")
        if any(line.strip() == "end" for line in self.transactions.splitlines()):
            raise Unfit("the transactions have a line that ends a text")
        weights = [f"weights {', '.join(map(str, self.weights))}"] if self.weights else []
        declared = [f"object {bounded({name: it})} = {int(self.values[name])}" for name, it in self.objects.items()]
        own = functools.reduce(lambda text, it: it.of_inserts(text), rows, self.transactions)
        lines = [f"workload {1 + len(weights)}", f"sites {self.sites}", *weights, *declared, *objects, *(it.declaration() for it in rows)]
        return "".join(f"{line}\n" for line in [*lines, own, *restoring])

    def begin(self):
        """The head of a session, and a first batch for each relation, in which a client of its own puts the slots back. What later batches may do
        by themselves they may as if the slots had been there from the start."""
        rows = self.rows()
        return self.head(rows, [line for it in rows for line in it.transactions()]), [it.batch() for it in rows if it.changed]

    def text(self, calls):
        """One text that begins with what is kept and makes these calls. Under `run` nothing waits for a client, so each one first makes the calls
        that put the slots back. Each of these is done once: its test fails from then on, and binds nobody."""
        prefix, rows = self.prefix(), self.rows()
        done, commands = f"{prefix}done", [it for row in rows for it in row.commands()]
        parts = {command: [at for at, it in enumerate(commands) if it == command] for command in commands}
        tests = [f"if {at[0]} <= read({done}) and read({done}) <= {at[-1]} then" for at in parts.values()]
        restoring = [
            f"transaction {prefix}part{number}() {{ {test} {{ {command}; write({done} = read({done}) + 1) }} else skip }}"
            for number, (test, command) in enumerate(zip(tests, parts))
        ]
        clients = {name: site for name, site in self.clients.items() if name in dict(calls)} or {f"{prefix}client": 0}
        first = [(name, f"{prefix}part{number}()") for number, at in enumerate(parts.values()) for _ in at for name in clients]
        counting = [f"object {done} in 0..{len(commands)} = 0"] if commands else []
        return self.head(rows, restoring, counting) + batch_of(clients, first + calls)

    def run(self, calls, command="steps", timeout=None):
        """Makes these calls, pairs of a client and a call, keeps what they leave, and returns their report. Each fault leaves the store as it was."""
        if command != "steps":
            found = read(output_of(self.text(calls), command, timeout))
            before = sum(len(it.commands()) for it in self.rows())
            found.calls = [dataclasses.replace(it, number=it.number - before) for it in found.calls if it.number > before]
            return self.keep(found)
        head, first = self.begin()
        batches = [*first, batch_of(self.clients, calls)]
        answers = re.findall(rf"(?:(?!{LAST_LINE}).*\n)*{LAST_LINE}", output_of(f"{head}end\n{''.join(batches)}", "serve", timeout))
        if len(answers) != len(batches):
            raise NoReport(f"{len(answers)} of {len(batches)} batches were answered")
        return self.keep([answered(head + it, answer) for it, answer in zip(batches, answers)][-1])

    def keep(self, found):
        """Keeps the database of a report, which it gives back."""
        try:
            values, slots = {name: found.objects[name] for name in self.objects}, {}
            for name, (size, fields) in self.relations.items():
                slots[name] = [{field: found.relations[name][slot][field] for field in ("used", *fields)} for slot in range(size)]
        except (KeyError, IndexError) as fault:
            raise NoReport(f"the report lacks {fault}") from None
        self.values, self.slots = values, slots
        found.objects, found.relations = dict(values), {name: [dict(it) for it in of] for name, of in slots.items()}
        return found


if __name__ == "__main__":
    try:
        print(read(sys.stdin.read()).json())
    except NoReport as fault:
        sys.exit(f"homeo.py: {fault}")
