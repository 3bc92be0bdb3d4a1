"""What ./why says of names: one that has a meaning already (E5), one that isn't known (E6), and one of another kind (E7)."""
import difflib
import re

TOKEN = re.compile(r"[A-Za-z]\w*|[0-9]+|:=|\.\.|<=|\S", re.A)
KINDS = ("object", "relation", "transaction", "client")
# What stands before a row variable, and how each kind of name is used.
ROWS = {"foreach", "delete", "update"}
USES = {
    "object": "it is read by read({0}) and set by write({0} = e)",
    "relation": "its fields are {0}[slot].f, or those of each row in foreach r of {0} when b {{ .. }}",
    "transaction": "clients call it, {0}(..)",
    "client": "it stands in the schedule alone",
    "parameter": "it is read by its name, and never set",
    "temporary": "it is read by its name, and set by {0} := e",
    "row variable": "its fields are {0}.f",
}
ONE_FOR_ALL = "take another one, as the names of objects, relations, transactions, clients, parameters and temporaries all differ"
MOST_LISTED = 5


def article(kind):
    return f"{'an' if kind[0] in 'aeiou' else 'a'} {kind}"


class Names:
    """The names of a text, each with where it is declared, as far as the tokens tell."""

    def __init__(self, text, offset):
        self.text, self.offset = text, offset
        found = list(TOKEN.finditer(text))
        self.tokens, self.offsets = [it.group() for it in found], [it.start() for it in found]
        self.place = next((place for place, it in enumerate(self.offsets) if it >= offset), len(found))
        # The places of the declarations, by kind and name.
        self.declared = [(self.tokens[place], self.tokens[place + 1], place + 1) for place in self.beginnings()]

    def beginnings(self):
        """The places of the words that begin declarations: no bracket is open there."""
        depth = 0
        for place, token in enumerate(self.tokens[:-1]):
            if depth == 0 and token in KINDS and self.tokens[place - 1 : place] not in (["client"], ["schedule"]):
                yield place
            depth += (token in "([{") - (token in ")]}")

    def line(self, place):
        return self.text.count("\n", 0, self.offsets[place]) + 1

    def of_kind(self, kind):
        return [name for it, name, _ in self.declared if it == kind]

    def declaration(self, name):
        """The kind and the place of the declaration of a name, other than the one at the offset."""
        return next(((kind, place) for kind, it, place in self.declared if it == name and place != self.place), None)

    def closing(self, begin):
        """The place of the bracket that closes the one at a place."""
        depth = 0
        for place in range(begin, len(self.tokens)):
            depth += (self.tokens[place] in "([{") - (self.tokens[place] in ")]}")
            if depth == 0:
                return place
        return len(self.tokens)

    def behind(self, place, bracket):
        """The next bracket of this form."""
        return next((it for it in range(place, len(self.tokens)) if self.tokens[it] == bracket), len(self.tokens))

    def declared_in(self, kind, name):
        """The parameters of a transaction or the fields of a relation."""
        place = next((place for it, found, place in self.declared if (it, found) == (kind, name)), None)
        if place is None:
            return []
        begin = self.behind(place, "(")
        return [self.tokens[it - 1] for it in range(begin, self.closing(begin)) if self.tokens[it] == "in"]

    def bounds_of(self, transaction, number):
        """A parameter of a transaction and its bounds, as the text has them."""
        place = next((place for kind, name, place in self.declared if (kind, name) == ("transaction", transaction)), None)
        begin = self.behind(place or 0, "(")
        parts = " ".join(self.tokens[begin + 1 : self.closing(begin)]).split(" , ")
        name, _, bounds = parts[number].partition(" in ") if place and number < len(parts) else ("", "", "")
        return name, bounds.replace(" ", "")

    # ---- within a transaction
    def transaction(self):
        """The transaction in which the offset lies: its name, and the places of its body."""
        for kind, name, place in self.declared:
            if kind == "transaction":
                body = self.behind(place, "{")
                if place < self.place < self.closing(body):
                    return name, body, self.closing(body)
        return None

    def assigned(self, begin, end):
        """The places where temporaries are set."""
        for place in range(begin + 1, min(end, len(self.tokens))):
            before, behind = self.tokens[place - 1], self.tokens[place + 1 : place + 2]
            if self.tokens[place][0].isalpha() and (behind == [":="] and before != "." or before == "into"):
                yield place

    def rows(self, begin, end):
        """The places where row variables are declared."""
        for place in range(begin + 1, min(end, len(self.tokens) - 1)):
            before = self.tokens[place - 2 : place]
            if self.tokens[place - 1] in ROWS or before in (["count", "("], ["sum", "("]):
                yield place

    def kind(self, name):
        """What a name is at the offset, None where it is nothing."""
        inside = self.transaction()
        if inside:
            transaction, begin, end = inside
            if name in self.declared_in("transaction", transaction):
                return "parameter"
            if any(self.tokens[it] == name for it in self.rows(begin, self.place)):
                return "row variable"
            if any(self.tokens[it] == name for it in self.assigned(begin, self.place)):
                return "temporary"
        return next((kind for kind, it, _ in self.declared if it == name), None)

    def relation_of(self, row):
        """The relation whose rows a row variable names, the last that is declared before the offset, or in the same sum."""
        places = [it for it in self.rows(0, len(self.tokens)) if self.tokens[it] == row and it <= self.place]
        of = self.behind(places[-1], "of") if places else len(self.tokens)
        return self.tokens[of + 1] if of + 1 < len(self.tokens) else None


def listed(names):
    said = ", ".join(names[:MOST_LISTED])
    return said + (f" and {len(names) - MOST_LISTED} more" if len(names) > MOST_LISTED else "")


def closest(name, names):
    """The name that is most like it, of small and capital letters alike."""
    small = {it.lower(): it for it in reversed(names)}
    like = difflib.get_close_matches(name.lower(), list(small), 1)
    return small[like[0]] if like else None


def near(what, name, names):
    """That there is no such name, and which is like it, or which there are."""
    names = list(dict.fromkeys(names))
    like = closest(name, names)
    if like:
        return f"there is no {what} {name}: is {like} meant?"
    return f"there is no {what} {name}" + (f": there is {listed(names)}" if names else f", and no {what} at all")


# ---- E5
def taken(at, text, offset):
    """Which declaration has the name at the place already, or which use in the same one."""
    names, name = Names(text, offset), at.token
    is_field = at.opener() == "]" or bool(at.brackets) and at.before[at.brackets[-1] - 2 : at.brackets[-1] - 1] == ["insert"]
    found = names.declaration(name)
    if found and not is_field:
        kind, place = found
        return f"{name} is the name of {article(kind)} in line {names.line(place)}: {ONE_FOR_ALL}"
    begin = at.brackets[-1] if is_field else max((place for _, _, place in names.declared if place <= names.place), default=0)
    places = [it for it in range(begin, names.place) if names.tokens[it] == name]
    return f"{name} has a meaning already, from line {names.line(places[0])} on: take another name here" if places else None


# ---- E6
def unknown(at, text, offset):
    """What isn't known, and what is like it."""
    names, name = Names(text, offset), at.token
    if at.is_in_client:
        return near("transaction", name, names.of_kind("transaction"))
    if "schedule" in at.before and not at.brackets:
        return near("client", name, names.of_kind("client"))
    if at.opener() in {"read", "write"} and at.last == "(":
        return near("object", name, names.of_kind("object"))
    if at.last == "of" or at.last == "insert" or at.next == "[":
        return near("relation", name, names.of_kind("relation"))
    return unknown_field(at, names, name) or unknown_row(at, names, name) or unknown_value(at, names, name)


def unknown_field(at, names, name):
    before = at.before
    if at.last == ".":
        relation = before[-2]
        if relation == "]":
            opened = max(it for it in range(len(before) - 2) if before[it] == "[" and names.closing(it) == len(before) - 2)
            relation = before[opened - 1]
        relation = relation if relation in names.of_kind("relation") else names.relation_of(relation)
    elif at.last == "set":
        relation = at.command[at.command.index("of") + 1] if "of" in at.command else None
    elif at.next == "=" and at.opener() is not None and before[at.brackets[-1] - 2 : at.brackets[-1] - 1] == ["insert"]:
        relation = before[at.brackets[-1] - 1]
    else:
        return None
    return near(f"field of {relation}", name, names.declared_in("relation", relation)).replace(f"field of {relation} {name}", f"field {name} of {relation}")


def unknown_row(at, names, name):
    if at.next != ".":
        return None
    inside = names.transaction()
    if inside and any(names.tokens[it] == name for it in names.rows(inside[1], names.place)):
        return f"{name} is known in its own foreach, delete, update, count or sum alone, which has ended here"
    return f"there is no row variable {name}: foreach {name} of R when b {{ .. }} names each row, and R[slot].f takes a slot"


def unknown_value(at, names, name):
    transaction, begin, end = names.transaction() or (None, 0, 0)
    later = [it for it in names.assigned(begin, end) if names.tokens[it] == name and it >= names.place - 2]
    if later:
        is_own = later[0] == names.place - 2 or later[0] < names.place
        where = "here, and has no value before it" if is_own or names.line(later[0]) == names.line(names.place) else f"in line {names.line(later[0])}, behind this place"
        return f"{name} is first set {where}: begin with {name} := 0"
    for kind, other, place in names.declared:
        if kind == "transaction" and other != transaction:
            body = names.behind(place, "{")
            if name in names.declared_in("transaction", other) or any(names.tokens[it] == name for it in names.assigned(body, names.closing(body))):
                return f"{name} is a name of {other}, and known there alone"
    known = [*names.declared_in("transaction", transaction), *(names.tokens[it] for it in names.assigned(begin, names.place))]
    like = closest(name, [*known, *names.of_kind("object")])
    if like:
        return f"there is no {name}: is {like if like in known else f'read({like})'} meant?"
    return f"there is no {name}: a temporary is set before it is read, {name} := 0, and a parameter is declared, {transaction}({name} in 0..9)"


# ---- E7
def of_another_kind(at, text, offset):
    """What a name is, and how it is used."""
    names, name = Names(text, offset), at.token
    kind = names.kind(name)
    if kind is None:
        return None
    if kind == "object" and not at.is_in_client and "schedule" not in at.before and at.next not in {"(", "[", "."} and at.last not in {"of", "insert", "into"}:
        return f"an object is set by write({name} = e)" if at.next == ":=" else f"an object is read by read({name})"
    return f"{name} is {article(kind)}: {USES[kind].format(name)}"
