"""What ./why says of a call with an expression that may get too large (E10): the command, how much the expression weighs, and its parts.

Weights are those of docs/LIMITS.md. A call is walked slot by slot, with the weights that its names have there.
"""
import judging.programs as p
from judging import workload
from sizing import Grouped, Reader, holds_abort
from too_large import excerpt

MOST_WEIGHT = 10**18


class TooHeavy(Exception):
    """An expression that is too heavy: its command, its weight, and those of its parts."""

    def __init__(self, command, sign, parts):
        self.command, self.sign, self.parts = command, sign, parts


def of_bounds(bounds):
    return max(1, abs(bounds.low), abs(bounds.high))


def weight_of(parts, sign):
    left, right = parts
    return left * right if sign == "product" else left + right


class Weights:
    """The weights of a call's names as it is walked, or `TooHeavy`."""

    def __init__(self, made, call):
        self.workload, self.slots, self.command = made, {}, None
        self.parameters = dict(zip(call.transaction.parameters, call.arguments))
        self.names, self.objects = {}, {}
        self.commands(call.transaction.body.commands)

    # ---- expressions
    def object(self, name):
        return self.objects.get(name) or of_bounds(self.workload.bounds(name))

    def together(self, parts, sign="sum"):
        """The weight of two parts together, in a sum or a product."""
        found = weight_of(parts, sign)
        if found > MOST_WEIGHT:
            raise TooHeavy(self.command, sign, parts)
        return found

    def value(self, found):
        match found:
            case p.Number(number):
                return max(1, number)
            case p.Name(name, is_parameter):
                return max(1, abs(self.parameters[name])) if is_parameter else self.names.get(name, 1)
            case p.Read(name):
                return self.object(name)
            case p.Negation(part) | Grouped(part):
                return self.value(part)
            case p.Sum(left, right) | p.Difference(left, right):
                return self.together((self.value(left), self.value(right)))
            case p.Product(left, right):
                return self.together((self.value(left), self.value(right)), "product")
            case p.RowField(relation, row, field):
                return self.object(relation.field(self.slots[row], field))
            case p.SlotField():
                return self.slot_field(found)
            case p.Count(relation, row, condition):
                return self.total(relation, row, condition, lambda slot: 1)
            case p.Total(relation, row, field, condition):
                return self.total(relation, row, condition, lambda slot: self.object(relation.field(slot, field)))

    def slot_field(self, found):
        relation, slot = found.relation, p.known(found.index, self.parameters)
        if slot is not None:
            return self.object(relation.field(slot, found.field)) if relation.has(slot) else 1
        self.value(found.index)
        return max(self.object(relation.field(it, found.field)) for it in range(relation.slots))

    def total(self, relation, row, condition, term):
        found = 1
        for slot in range(relation.slots):
            self.slots[row] = slot
            self.condition(condition)
            found = self.together((found, term(slot)))
        return found

    def condition(self, found):
        match found:
            case p.Always():
                pass
            case p.Not(part):
                self.condition(part)
            case p.All(tests):
                for it in tests:
                    self.condition(it)
            case _:
                self.value(found.left)
                self.value(found.right)

    # ---- commands
    def write(self, name, weight):
        self.objects[name] = max(self.object(name), weight)

    def commands(self, commands):
        is_guarded = False
        for it in commands:
            self.either(lambda: self.made(it), lambda: None) if is_guarded else self.made(it)
            is_guarded = is_guarded or holds_abort(it)

    def either(self, *branches):
        """The branches of a choice. Each name weighs the more of them behind it."""
        before, after = (self.names, self.objects), []
        for branch in branches:
            self.names, self.objects = (dict(it) for it in before)
            branch()
            after.append((self.names, self.objects))
        names, objects = ({name for kinds in after for name in kinds[place]} for place in (0, 1))
        merged = {it: max(kinds[0].get(it, 1) for kinds in after) for it in names}
        self.objects = {it: max(kinds[1].get(it) or of_bounds(self.workload.bounds(it)) for kinds in after) for it in objects}
        self.names = merged

    def made(self, found):
        outer, self.command = self.command, found
        match found:
            case p.Block(commands):
                self.command = outer
                self.commands(commands)
            case p.Assign(name, value):
                self.names[name] = self.value(value)
            case p.Print(value):
                self.value(value)
            case p.Write(target, value):
                self.write(target.name, self.value(value))
            case p.If(condition, then, otherwise):
                self.condition(condition)
                self.either(lambda: self.made(then), lambda: self.made(otherwise))
            case p.SetRowField(relation, row, field, value):
                self.write(relation.field(self.slots[row], field), self.value(value))
            case p.SetSlotField():
                self.set_slot_field(found)
            case p.ForEach(relation, row, condition, body):
                self.visits(relation, row, condition, lambda slot: self.commands(body.commands))
            case p.Delete(relation, row, condition):
                self.visits(relation, row, condition, lambda slot: None)
            case p.Update(relation, row, condition, field, value):
                self.visits(relation, row, condition, lambda slot: self.write(relation.field(slot, field), self.value(value)))
            case p.Insert():
                self.insert(found)
        self.command = outer

    def visits(self, relation, row, condition, body):
        for slot in range(relation.slots):
            self.slots[row] = slot
            self.condition(condition)
            self.either(lambda: body(slot), lambda: None)

    def set_slot_field(self, found):
        relation, known = found.relation, p.known(found.index, self.parameters)
        if known is None:
            self.value(found.index)
        weight = self.value(found.value) if known is None or relation.has(known) else 1
        for slot in range(relation.slots):
            if known in (None, slot):
                self.write(relation.field(slot, found.field), weight)

    def insert(self, found):
        for field, value in found.values.items():
            weight = self.value(value)
            for slot in range(found.relation.slots):
                self.write(found.relation.field(slot, field), weight)
        self.names[found.place] = max(1, found.relation.slots)


def is_too_heavy(made, call):
    try:
        Weights(made, call)
    except TooHeavy:
        return True
    return False


def said_of(text, reader, fault):
    place = reader.places[id(fault.command)]
    line, (left, right), weight = text.count("\n", 0, place) + 1, fault.parts, weight_of(fault.parts, fault.sign)
    head = f"line {line}, {excerpt(text, place)}: a {fault.sign} there weighs {weight:,}, and an expression weighs at most {MOST_WEIGHT:,}"
    return f"{head}; its parts weigh {left:,} and {right:,}, by the bounds and arguments that they may have"


def too_heavy(text, offset):
    """The hint for a call at an offset, None where the text can't be read."""
    try:
        reader = Reader(text)
        made = reader.workload()
        calls = [call for client in made.clients.values() for call in client.calls]
        Weights(made, next(it for it in calls if reader.places[id(it)] == offset))
    except TooHeavy as fault:
        return said_of(text, reader, fault)
    except (workload.Unreadable, StopIteration):
        pass
    return None
