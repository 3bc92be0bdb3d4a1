"""Writes a workload as a text without relations, which starts with any database.

So the treaty of any round can be asked for: it is that of the text that starts with the round's base, and no text can start with
used slots. Relations are written out slot by slot, as docs/LANGUAGE.md says what is analysed of them, so that the clauses are the
same in the same order. Two things differ in the text and not in its clauses: each write has a test of its bounds of its own, which
gives clauses that are there already; and a search of a slot is a row of tests with a flag, and not a nest that is 64 deep.

Each different call has a transaction of its own, so that an index that its arguments tell is one slot there too, and the call can
write what it can write in the given text and no more.
"""
import re

import judging.programs as p


def name_beginning(text):
    """A beginning that no name of the text has."""
    words, beginning = set(re.findall(r"[A-Za-z]\w*", text)), "q"
    while any(word.startswith(beginning) for word in words):
        beginning += "q"
    return beginning


def block(commands):
    return commands[0] if len(commands) == 1 else "{ " + "; ".join(commands or ["skip"]) + " }"


def guarded(condition, commands):
    return f"if {condition} then {block(commands)} else skip"


class Transaction:
    """Writes the transaction of a call. `names` has the names of the database's numbers in the text that is made."""

    def __init__(self, names, beginning, call):
        self.names, self.beginning, self.slots, self.temporaries = names, beginning, {}, 0
        self.called = call.transaction
        self.parameters = dict(zip(self.called.parameters, call.arguments))

    def text(self, name):
        declared = ", ".join(f"{name} in {bounds.low}..{bounds.high}" for name, bounds in self.called.parameters.items())
        commands = [self.command(it) for it in self.called.body.commands]
        return f"transaction {name}({declared}) {{ {'; '.join(commands)} }}"

    def fresh(self):
        self.temporaries += 1
        return f"{self.beginning}t{self.temporaries}"

    def field(self, relation, slot, field):
        return self.names[relation.field(slot, field)]

    def used(self, relation, slot):
        return self.names[relation.used(slot)]

    # ---- expressions and conditions, with the commands that have to stand in front of them
    def expression(self, found, before):
        match found:
            case p.Sum(left, right):
                return f"{self.expression(left, before)} + {self.term(right, before)}"
            case p.Difference(left, right):
                return f"{self.expression(left, before)} - {self.term(right, before)}"
        return self.term(found, before)

    def term(self, found, before):
        match found:
            case p.Product(left, right):
                return f"{self.term(left, before)} * {self.factor(right, before)}"
        return self.factor(found, before)

    def factor(self, found, before):
        match found:
            case p.Number(number):
                return str(number)
            case p.Name(name):
                return name
            case p.Read(name):
                return f"read({self.names[name]})"
            case p.Negation(part):
                return f"-{self.factor(part, before)}"
            case p.RowField(relation, row, field):
                return f"read({self.field(relation, self.slots[row], field)})"
            case p.SlotField():
                return self.slot_field(found, before)
            case p.Count(relation, row, condition):
                return self.added(relation, row, condition, lambda slot: "1", before)
            case p.Total(relation, row, field, condition):
                return self.added(relation, row, condition, lambda slot: f"read({self.field(relation, slot, field)})", before)
        return f"({self.expression(found, before)})"

    def assigned(self, text, before):
        """A temporary of its own, with the value of an expression."""
        name = self.fresh()
        before.append(f"{name} := {text}")
        return name

    def slot_field(self, found, before):
        relation, field = found.relation, found.field
        slot = p.known(found.index, self.parameters)
        if slot is not None:
            return f"read({self.field(relation, slot, field)})" if relation.has(slot) else "0"
        index = self.assigned(self.expression(found.index, before), before)
        value = self.assigned("0", before)
        ways = [(f"{index} = {slot}", [f"{value} := read({self.field(relation, slot, field)})"]) for slot in range(relation.slots)]
        self.first(ways, before)
        return value

    def first(self, ways, before):
        """Commands that do what stands behind the first condition that holds."""
        flag = self.assigned("0", before)
        before.extend(guarded(f"{flag} = 0 and {condition}", [*commands, f"{flag} := 1"]) for condition, commands in ways)

    def added(self, relation, row, condition, value, before):
        total = self.assigned("0", before)
        self.visited(relation, row, condition, lambda slot: [f"{total} := {total} + {value(slot)}"], before)
        return total

    def visited(self, relation, row, condition, commands, before):
        """For each slot, commands behind the test that it is used and meets the condition."""
        for slot in range(relation.slots):
            self.slots[row] = slot
            tests = self.condition(condition, before)
            before.append(guarded(f"read({self.used(relation, slot)}) = 1 and {tests}", commands(slot)))

    def condition(self, found, before):
        match found:
            case p.Always():
                return "true"
            case p.Not(part):
                return f"not ({self.condition(part, before)})"
            case p.All(tests):
                return " and ".join(self.condition(it, before) for it in tests)
        symbol = {p.Less: "<", p.AtMost: "<=", p.Equal: "="}[type(found)]
        return f"{self.expression(found.left, before)} {symbol} {self.expression(found.right, before)}"

    # ---- commands
    def command(self, found):
        before = []
        self.add_command(found, before)
        return block(before)

    def add_command(self, found, before):
        match found:
            case p.Skip():
                before.append("skip")
            case p.Abort():
                before.append("abort")
            case p.Block(commands):
                before.append(block([self.command(it) for it in commands]))
            case p.Assign(name, value):
                before.append(f"{name} := {self.expression(value, before)}")
            case p.Write(target, value):
                before.append(f"write({self.names[target.name]} = {self.expression(value, before)})")
            case p.Print(value):
                before.append(f"print({self.expression(value, before)})")
            case p.If(condition, then, otherwise):
                test = self.condition(condition, before)
                before.append(f"if {test} then {self.command(then)} else {self.command(otherwise)}")
            case p.SetRowField(relation, row, field, value):
                before.append(f"write({self.field(relation, self.slots[row], field)} = {self.expression(value, before)})")
            case p.SetSlotField():
                self.set_slot_field(found, before)
            case p.ForEach(relation, row, condition, body):
                self.visited(relation, row, condition, lambda slot: [self.command(body)], before)
            case p.Insert():
                self.insert(found, before)
            case p.Delete(relation, row, condition):
                self.visited(relation, row, condition, lambda slot: [f"write({self.used(relation, slot)} = 0)"], before)
            case p.Update(relation, row, condition, field, value):
                self.visited(relation, row, condition, lambda slot: self.set(self.field(relation, slot, field), value), before)

    def set(self, name, value):
        before = []
        before.append(f"write({name} = {self.expression(value, before)})")
        return before

    def set_slot_field(self, found, before):
        relation, field = found.relation, found.field
        slot = p.known(found.index, self.parameters)
        if slot is None:
            self.set_searched(found, before)
        else:
            before.extend(self.set(self.field(relation, slot, field), found.value) if relation.has(slot) else ["skip"])

    def set_searched(self, found, before):
        relation, field = found.relation, found.field
        index = self.assigned(self.expression(found.index, before), before)
        value = self.assigned(self.expression(found.value, before), before)
        ways = [(f"{index} = {slot}", [f"write({self.field(relation, slot, field)} = {value})"]) for slot in range(relation.slots)]
        inner = []
        self.first(ways, inner)
        before.append(guarded(self.within(relation.fields[field], value), inner))

    def within(self, bounds, value):
        return f"{bounds.low} <= {value} and {value} <= {bounds.high}"

    def insert(self, found, before):
        relation, place = found.relation, found.place
        values = {name: self.assigned(self.expression(value, before), before) for name, value in found.values.items()}
        before.append(f"{place} := 0")
        ways = [(f"read({self.used(relation, slot)}) = 0", self.fill(relation, slot, values, place)) for slot in range(relation.slots)]
        inner = []
        self.first(ways, inner)
        before.append(guarded(" and ".join(self.within(relation.fields[name], value) for name, value in values.items()), inner))

    def fill(self, relation, slot, values, place):
        fields = [f"write({self.field(relation, slot, name)} = {value})" for name, value in values.items()]
        return [f"write({self.used(relation, slot)} = 1)", *fields, f"{place} := {slot + 1}"]


def head(workload):
    """The lines in front of the objects."""
    if not workload.weights:
        return ["workload 1", f"sites {workload.sites}"]
    return ["workload 2", f"sites {workload.sites}", f"weights {', '.join(map(str, workload.weights))}"]


def all_bounds(workload):
    """The bounds of each number of a database."""
    found = {it.name: it.bounds for it in workload.objects.values()}
    for relation in workload.relations.values():
        for slot in range(relation.slots):
            found[relation.used(slot)] = p.Bounds(0, 1)
            found.update((relation.field(slot, name), bounds) for name, bounds in relation.fields.items())
    return found


class PlainText:
    """The text of a workload without relations: `names` has what the numbers of the database are named in it."""

    def __init__(self, workload, text):
        self.bounds, beginning = all_bounds(workload), name_beginning(text)
        self.names = {name: f"{beginning}{number}" for number, name in enumerate(self.bounds)}
        self.head = head(workload)
        clients = workload.clients.values()
        calls = {str(call): call for client in clients for call in client.calls}
        called = {said: f"{beginning}c{number}" for number, said in enumerate(calls)}
        self.behind = [Transaction(self.names, beginning, calls[said]).text(name) for said, name in called.items()]
        for it in clients:
            made = "; ".join(f"{called[str(call)]}({', '.join(map(str, call.arguments))})" for call in it.calls)
            self.behind.append(f"client {it.name} at {it.site} {{ {made} }}")

    def starting_with(self, database):
        objects = [f"object {self.names[name]} in {it.low}..{it.high} = {database[name]}" for name, it in self.bounds.items()]
        return "\n".join([*self.head, *objects, *self.behind, "end", ""])
