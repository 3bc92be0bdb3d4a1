"""Reads a workload text, as docs/LANGUAGE.md says what one is.

It is for texts that the program accepts: of the rules it checks those without which a text means nothing, and no limits.
"""
import dataclasses
import re

import judging.programs as p

RESERVED = set("""workload sites object in relation transaction client at schedule end if then else skip write read print foreach of
when insert into delete update set count sum used and not true""".split())
# The words that version 2 reserves besides.
RESERVED_IN_2 = {"weights", "abort"}
TOKEN = re.compile(r"[ \t\r\n]*(?:([A-Za-z][A-Za-z0-9_]*)|([0-9]+)|(:=|\.\.|<=|[<=+\-*()\[\]{},;.])|$)")


class Unreadable(Exception):
    """The text is no workload: says what is wrong and at which byte."""


@dataclasses.dataclass
class Client:
    name: str
    site: int
    calls: list


@dataclasses.dataclass
class Workload:
    """What a text says. `weights` has the weight of each site, and in version 1 none."""

    sites: int
    weights: list
    objects: dict
    relations: dict
    transactions: dict
    clients: dict
    schedule: list

    def initial(self):
        """The database that a run begins with, its numbers in the order of the report."""
        database = {it.name: it.start for it in self.objects.values()}
        for relation in self.relations.values():
            for slot in range(relation.slots):
                database[relation.used(slot)] = 0
                database.update((relation.field(slot, name), bounds.nearest_to_zero()) for name, bounds in relation.fields.items())
        return database

    def bounds(self, name):
        """The bounds of a number of the database."""
        if name in self.objects:
            return self.objects[name].bounds
        relation, _, field = name.split(".")
        return p.Bounds(0, 1) if field == "used" else self.relations[relation].fields[field]


class Words:
    """The words, numbers and symbols of a text, and where the reader stands."""

    def __init__(self, text):
        self.found, self.next, at = [], 0, 0
        while at < len(text):
            token = TOKEN.match(text, at)
            if not token:
                raise Unreadable(f"no word, number or symbol begins at {at}")
            word, at = token.group(1) or token.group(2) or token.group(3), token.end()
            if word:
                self.found.append((word, at - len(word)))
        self.found.append(("", len(text)))
        self.reserved = RESERVED | RESERVED_IN_2 if self.begins_version_2() else RESERVED

    def begins_version_2(self):
        number = self.found[1][0] if self.is_at("workload") else ""
        return number.isdigit() and int(number) == 2

    def fault(self, wanted):
        word, at = self.found[self.next]
        raise Unreadable(f"{word or 'the end'!r} at {at} stands where {wanted} is wanted")

    def is_at(self, *words):
        """Whether these words come next."""
        return [word for word, _ in self.found[self.next : self.next + len(words)]] == list(words)

    def take(self):
        self.next += 1
        return self.found[self.next - 1][0]

    def took(self, word):
        is_there = self.is_at(word)
        self.next += is_there
        return is_there

    def want(self, *words):
        for word in words:
            if not self.took(word):
                self.fault(repr(word))

    def name(self):
        word = self.found[self.next][0]
        return self.take() if word[:1].isalpha() and word not in self.reserved else self.fault("a name")

    def number(self):
        return int(self.take()) if self.found[self.next][0].isdigit() else self.fault("a number")

    def signed(self):
        return -self.number() if self.took("-") else self.number()

    def known(self, names, what):
        """What a name stands for among these names."""
        name = self.found[self.next][0]
        return names[self.name()] if name in names else self.fault(what)

    def listed(self, phrase, between, end):
        """Phrases with a symbol between them, perhaps none, up to the symbol that ends them."""
        found = []
        while not self.took(end):
            if found:
                self.want(between)
            found.append(phrase())
        return found


class Reader:
    def __init__(self, text):
        self.words = Words(text)
        self.objects, self.relations, self.transactions, self.clients = {}, {}, {}, {}
        # What a plain name may be within a transaction, and the relation of each row variable.
        self.parameters, self.temporaries, self.rows = {}, set(), {}

    def workload(self):
        words = self.words
        words.want("workload")
        version = words.number()
        if version not in (1, 2):
            raise Unreadable("the version of the language is neither 1 nor 2")
        words.want("sites")
        sites, schedule = words.number(), None
        weights = self.weights(sites) if version == 2 else []
        for word, phrase, kept in [
            ("object", self.object, self.objects),
            ("relation", self.relation, self.relations),
            ("transaction", self.transaction, self.transactions),
            ("client", self.client, self.clients),
        ]:
            while words.took(word):
                made = phrase()
                kept[made.name] = made
        if words.took("schedule"):
            schedule = []
            while not words.is_at("end"):
                schedule.append(words.known(self.clients, "a client").name)
        words.want("end", "")
        return Workload(sites, weights, self.objects, self.relations, self.transactions, self.clients, schedule)

    # ---- declarations
    def weights(self, sites):
        self.words.want("weights")
        found = [self.words.number()]
        while self.words.took(","):
            found.append(self.words.number())
        if len(found) != sites:
            raise Unreadable(f"there are {len(found)} weights for {sites} sites")
        return found

    def bounds(self):
        low = self.words.signed()
        self.words.want("..")
        return p.Bounds(low, self.words.signed())

    def declared(self):
        name = self.words.name()
        self.words.want("in")
        return name, self.bounds()

    def object(self):
        name, bounds = self.declared()
        self.words.want("=")
        return p.Object(name, bounds, self.words.signed())

    def relation(self):
        name = self.words.name()
        self.words.want("[")
        slots = self.words.number()
        self.words.want("]", "(")
        return p.Relation(name, slots, dict(self.words.listed(self.declared, ",", ")")))

    def transaction(self):
        name = self.words.name()
        self.words.want("(")
        self.parameters = dict(self.words.listed(self.declared, ",", ")"))
        self.temporaries, self.rows = set(), {}
        return p.Transaction(name, self.parameters, self.block())

    def client(self):
        name = self.words.name()
        self.words.want("at")
        site = self.words.number()
        self.words.want("{")
        return Client(name, site, self.words.listed(self.call, ";", "}"))

    def call(self):
        transaction = self.words.known(self.transactions, "a transaction")
        self.words.want("(")
        arguments = tuple(self.words.listed(self.words.signed, ",", ")"))
        if len(arguments) != len(transaction.parameters):
            raise Unreadable(f"a call of {transaction.name} has {len(arguments)} arguments")
        return p.Call(transaction, arguments)

    # ---- commands
    def block(self):
        self.words.want("{")
        return p.Block(tuple(self.words.listed(self.command, ";", "}")))

    def command(self):
        words = self.words
        if words.is_at("{"):
            return self.block()
        phrases = {
            "skip": p.Skip,
            "write": self.write,
            "print": self.print,
            "if": self.choice,
            "foreach": self.foreach,
            "insert": self.insert,
            "delete": self.delete,
            "update": self.update,
            "abort": p.Abort,
        }
        for word, phrase in phrases.items():
            if word in words.reserved and words.took(word):
                return phrase()
        return self.assignment()

    def write(self):
        self.words.want("(")
        target = self.words.known(self.objects, "an object")
        self.words.want("=")
        value = self.expression()
        self.words.want(")")
        return p.Write(target, value)

    def print(self):
        self.words.want("(")
        value = self.expression()
        self.words.want(")")
        return p.Print(value)

    def choice(self):
        condition = self.condition()
        self.words.want("then")
        then = self.command()
        self.words.want("else")
        return p.If(condition, then, self.command())

    def assignment(self):
        words = self.words
        name = words.found[words.next][0]
        if name in self.relations:
            relation, index, field = self.slot_field()
            words.want(":=")
            return p.SetSlotField(relation, index, field, self.expression())
        if name in self.rows:
            relation, row, field = self.row_field()
            words.want(":=")
            return p.SetRowField(relation, row, field, self.expression())
        name = words.name()
        words.want(":=")
        value = self.expression()
        return p.Assign(self.temporary(name), value)

    def temporary(self, name):
        """A name that is assigned, and may be read from here on."""
        if name in self.parameters or name in self.objects or name in self.relations or name in self.rows:
            raise Unreadable(f"{name} is assigned and is no temporary")
        self.temporaries.add(name)
        return name

    def row_of(self):
        """`r of R when`, from where on the row variable is known."""
        row = self.words.name()
        self.words.want("of")
        relation = self.words.known(self.relations, "a relation")
        self.words.want("when")
        self.rows[row] = relation
        return relation, row

    def foreach(self):
        relation, row = self.row_of()
        made = p.ForEach(relation, row, self.condition(), self.block())
        del self.rows[row]
        return made

    def insert(self):
        relation = self.words.known(self.relations, "a relation")
        self.words.want("(")
        values = dict(self.words.listed(lambda: self.field_value(relation), ",", ")"))
        self.words.want("into")
        return p.Insert(relation, values, self.temporary(self.words.name()))

    def field_value(self, relation):
        field = self.field(relation)
        self.words.want("=")
        return field, self.expression()

    def field(self, relation):
        name = self.words.found[self.words.next][0]
        self.words.known(relation.fields, "a field")
        return name

    def delete(self):
        relation, row = self.row_of()
        made = p.Delete(relation, row, self.condition())
        del self.rows[row]
        return made

    def update(self):
        relation, row = self.row_of()
        condition = self.condition()
        self.words.want("set")
        field = self.field(relation)
        self.words.want("=")
        made = p.Update(relation, row, condition, field, self.expression())
        del self.rows[row]
        return made

    # ---- expressions and conditions
    def expression(self):
        found = self.term()
        while self.words.is_at("+") or self.words.is_at("-"):
            kind = p.Sum if self.words.take() == "+" else p.Difference
            found = kind(found, self.term())
        return found

    def term(self):
        found = self.factor()
        while self.words.took("*"):
            found = p.Product(found, self.factor())
        return found

    def factor(self):
        words = self.words
        if words.found[words.next][0].isdigit():
            return p.Number(words.number())
        if words.took("-"):
            return p.Negation(self.factor())
        if words.took("("):
            found = self.expression()
            words.want(")")
            return found
        if words.took("read"):
            words.want("(")
            found = p.Read(words.known(self.objects, "an object").name)
            words.want(")")
            return found
        if words.took("count"):
            return self.count()
        if words.took("sum"):
            return self.total()
        return self.named()

    def named(self):
        name = self.words.found[self.words.next][0]
        if name in self.relations:
            return p.SlotField(*self.slot_field())
        if name in self.rows:
            return p.RowField(*self.row_field())
        if name in self.parameters or name in self.temporaries:
            return p.Name(self.words.name(), name in self.parameters)
        return self.words.fault("an expression")

    def slot_field(self):
        relation = self.words.known(self.relations, "a relation")
        self.words.want("[")
        index = self.expression()
        self.words.want("]", ".")
        return relation, index, self.field(relation)

    def row_field(self):
        row = self.words.name()
        self.words.want(".")
        relation = self.rows[row]
        return relation, row, self.field(relation)

    def count(self):
        self.words.want("(")
        relation, row = self.row_of()
        made = p.Count(relation, row, self.condition())
        self.words.want(")")
        del self.rows[row]
        return made

    def total(self):
        self.words.want("(")
        row = self.words.name()
        self.words.want(".")
        name = self.words.name()
        self.words.want("of")
        relation = self.words.known(self.relations, "a relation")
        self.words.want("when")
        if name not in relation.fields:
            raise Unreadable(f"{name} is no field of {relation.name}")
        self.rows[row] = relation
        made = p.Total(relation, row, name, self.condition())
        self.words.want(")")
        del self.rows[row]
        return made

    def condition(self):
        tests = [self.test()]
        while self.words.took("and"):
            tests.append(self.test())
        return tests[0] if len(tests) == 1 else p.All(tuple(tests))

    def test(self):
        if self.words.took("true"):
            return p.Always()
        if self.words.took("not"):
            self.words.want("(")
            part = self.condition()
            self.words.want(")")
            return p.Not(part)
        left = self.expression()
        for symbol, kind in (("<", p.Less), ("<=", p.AtMost), ("=", p.Equal)):
            if self.words.took(symbol):
                return kind(left, self.expression())
        return self.words.fault("a comparison")


def read(text):
    """The workload of a text, or `Unreadable`."""
    return Reader(text).workload()
