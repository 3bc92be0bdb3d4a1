"""What ./why says of slips that come from other languages: a table, tried in order, of what the token at the place of a refusal and
those before it decide. `at` is why's Place."""
import re

DECLARATIONS = ["workload", "sites", "object", "relation", "transaction", "client", "schedule", "end"]
KINDS = {"object", "relation", "transaction", "client"}
ORDER = "declarations stand in this order: sites, object, relation, transaction, client, schedule"
NAME, NUMBER = re.compile(r"[A-Za-z]\w*", re.A), re.compile(r"\d+")
FORMS = {"N": NAME, "D": NUMBER}
TOKEN = re.compile(r"[A-Za-z]\w*|[0-9]+|:=|\.\.|<=|\S", re.A)
# What begins a command elsewhere.
NO_COMMANDS = {
    "while": "there is no while: foreach goes over the slots of a relation, and a call is made as often as its client has it",
    "for": "there is no for: foreach r of R when b { .. } goes over the slots of a relation",
    "loop": "there is no loop but foreach r of R when b { .. }",
    "return": "there is no return: what stands behind is skipped by an if",
    "break": "there is no break: a foreach goes over all slots",
    "let": "no word stands before t := e",
    "var": "no word stands before t := e",
    "int": "no word stands before t := e",
    "begin": "there is no begin: each call is one transaction",
    "commit": "there is no commit: each call is one transaction",
    "rollback": "there is no rollback: test first, write last, or abort in version 2",
    "assert": "there is no assert: if b then .. else ..",
    "select": "there is no select: foreach r of R when b { print(r.f) }",
}
FUNCTIONS = {
    "min": "there is no min: if a < b then m := a else m := b",
    "max": "there is no max: if a < b then m := b else m := a",
    "abs": "there is no abs: if a < 0 then m := -a else m := a",
    "len": "there is no len: count(r of R when true)",
}
# Behind these tokens exactly one may stand: N is a name, D a number.
ONE_TOKEN = [
    ("workload D", "sites"), ("object N", "in"), ("relation N", "["), ("relation N [ D", "]"), ("relation N [ D ]", "("),
    ("transaction N", "("), ("client N", "at"), ("client N at D", "{"), ("foreach N", "of"), ("delete N", "of"), ("update N", "of"),
    ("count ( N", "of"), ("sum ( N", "."), ("sum ( N . N", "of"), ("foreach N of N", "when"), ("delete N of N", "when"),
    ("update N of N", "when"), ("count ( N of N", "when"), ("sum ( N . N of N", "when"), ("write", "("), ("write ( N", "="),
    ("read", "("), ("read ( N", ")"), ("print", "("), ("insert N", "("), ("insert N ( N", "="), ("not", "("), ("count", "("), ("sum", "("),
]
LIMITS = {
    "sites": "there are 1 to 16 sites", "[": "a relation has 1 to 64 slots", "transaction": "there are at most 256 transactions",
    "client": "there are at most 64 clients",
    "object": "there are at most 1,024 objects, where each field of each slot counts as one, and one more for each slot",
}
LIMITS["relation"] = LIMITS["object"]
MOST_CALLS = 20_000


def ends_with(before, pattern):
    """Whether the last tokens are such ones."""
    wanted = pattern.split()
    found = before[-len(wanted) :]
    return len(found) == len(wanted) and all(FORMS[it].fullmatch(token) if it in FORMS else it == token for it, token in zip(wanted, found))


def signed_range(before):
    """The tokens before a range that stands last, as `in 0..9`, or None."""
    said = " ".join(before[-8:])
    found = re.search(r"\bin (- )?\d+ \.\. (- )?\d+$", said)
    return said[: found.start()].split() if found else None


# ---- declarations
def declaration_out_of_order(at):
    if at.token not in DECLARATIONS[1:-1] or at.brackets or at.next in {":=", "="}:
        return None
    said = [it for it in at.before if it in DECLARATIONS]
    is_behind = said and DECLARATIONS.index(at.token) <= max(map(DECLARATIONS.index, said))
    return ORDER if is_behind and at.last not in DECLARATIONS[2:-1] else None


def start_before_bounds(at):
    if at.token == "=" and ends_with(at.before, "object N"):
        return f"the bounds stand before the start: object {at.last} in 0..9 = 5"
    return None


def no_start(at):
    before = signed_range(at.before)
    if before and not at.brackets and ends_with(before, "object N"):
        return f"an object has a start: object {before[-1]} in 0..9 = 5"
    return None


def no_slots(at):
    if at.token == "(" and ends_with(at.before, "relation N"):
        return f"a relation has a number of slots: relation {at.last}[4] (f in 0..9)"
    return None


def start_of_relation(at):
    if at.token == "=" and not at.brackets and at.last == ")" and "relation" in at.before and "transaction" not in at.before:
        return "a relation has no start: all its slots are free"
    return None


def field_without_bounds(at):
    if at.token in {",", ")"} and NAME.fullmatch(at.last) and at.opener() == "]":
        return "a field has bounds: f in 0..9"
    return None


def comma_between_calls(at):
    if at.token == "," and at.is_in_client and at.is_inmost_brace and at.last == ")":
        return "between calls stands ;"
    return None


def comma_between_declarations(at):
    if at.token == "," and not at.brackets and re.search(r" \.\. (- )?\d+ = (- )?\d+$", " ".join(at.before[-8:])):
        return "each object has a declaration of its own: object x in 0..9 = 5"
    return None


def word_site(at):
    if at.token in {"site", "sites"} and ends_with(at.before, "client N at"):
        return "the number of the site stands behind at: at 0"
    return None


def fraction(at):
    if at.token == "." and at.last.isdigit() and at.next.isdigit() and not re.search(r"\bin (- )?\d+$", " ".join(at.before[-3:])):
        return "numbers are whole: count in tenths or in cents"
    return None


def dash_in_name(at):
    if at.token == "-" and NAME.fullmatch(at.last) and at.before[-2:-1] and at.before[-2] in KINDS and NAME.fullmatch(at.next):
        return f"a name has letters, digits and _: {at.last}_{at.next}"
    return None


# ---- commands
def no_command(at):
    if not at.is_inmost_brace or at.is_in_client:
        return None
    begins = "".join(at.before[-2:-1]) in {"{", ";", "then", "else"}
    word = at.last if begins and at.last in NO_COMMANDS else at.token
    return NO_COMMANDS.get(word) if word == at.last or at.next != ":=" else None


def no_function(at):
    if at.token == "(" and at.last in FUNCTIONS and not at.is_in_client:
        return FUNCTIONS[at.last]
    if at.token == "(" and NAME.fullmatch(at.last) and not at.is_in_client and at.brackets and not at.is_inmost_brace:
        is_free = at.before[-2:-1] and at.before[-2] not in {"object", "relation", "transaction", "client", "of", "insert"}
        return f"there are no functions; an object is read by read({at.last})" if is_free else None
    return None


def changed_in_place(at):
    """As x += 1 and x++."""
    sign, second = at.token, at.rest[1:2]
    if sign not in {"+", "-", "*"} or second not in {"=", sign} or not at.is_inmost_brace or not NAME.fullmatch(at.last):
        return None
    if at.command[-2:-1] == ["."]:
        return f"there is no {sign}{second}: R[e].f := R[e].f {sign} 1"
    if len(at.command) == 1:
        return f"there is no {sign}{second}: write({at.last} = read({at.last}) {sign} 1) for an object, {at.last} := {at.last} {sign} 1 for a temporary"
    return None


def write_without_equals(at):
    if at.token in {",", ")"} and ends_with(at.before, "write ( N"):
        return f"what is written stands behind =: write({at.last} = e)"
    return None


def field_equals(at):
    if at.token == "=" and at.is_inmost_brace and at.command[-2:-1] == ["."] and not {"if", "when", "set"}.intersection(at.command):
        return "a field is set by :=, R[e].f := v or r.f := v"
    return None


def insert_into(at):
    if at.token == "into" and at.last == "insert":
        return "the relation stands behind insert, and the target behind into: insert R (f = e) into t"
    return None


PHRASES = {"delete": "delete r of R when b", "update": "update r of R when b set f = e", "foreach": "foreach r of R when b { .. }"}


def phrase_over_rows(at):
    """The form of a phrase that names rows, where its `of` or `when` is missing."""
    for word, form in PHRASES.items():
        if (ends_with(at.before, f"{word} N") and at.token != "of") or (ends_with(at.before, f"{word} N of N") and at.token == "where"):
            return f"it is {form}"
    if at.token != "of" and ends_with(at.before, "count ( N") or at.token == "where" and ends_with(at.before, "count ( N of N"):
        return "it is count(r of R when b)"
    if at.token != "." and ends_with(at.before, "sum ( N") or at.token != "of" and ends_with(at.before, "sum ( N . N"):
        return "it is sum(r.f of R when b)"
    return None


def whether_used(at):
    if at.token == "used" and at.last == ".":
        return "whether a slot is used can't be read: keep a field held in 0..1 that the insert sets to 1"
    return None


SLIPS = [
    word_site, fraction, dash_in_name, comma_between_declarations, declaration_out_of_order, start_before_bounds, no_start, no_slots, start_of_relation, field_without_bounds, comma_between_calls,
    whether_used, no_command, no_function, changed_in_place, write_without_equals, field_equals, insert_into,
    phrase_over_rows,
]


def of_slip(at):
    """The first hint of the table, or None."""
    return next(filter(None, (it(at) for it in SLIPS)), None)


def expected(at):
    """The one token that may stand at the place, or None."""
    if not at.before:
        return "expected: workload"
    for pattern, token in sorted(ONE_TOKEN, key=lambda it: -len(it[0].split())):
        if ends_with(at.before, pattern) and at.token != token:
            return f"expected: {token}"
    if at.last == "]" and any(at.before[it] == "{" for it in at.brackets):
        return "expected: ."
    return "expected: .." if re.search(r"\bin (- )?\d+$", " ".join(at.before[-3:])) else None


def of_end(at):
    """What a text lacks that ends too early, or what is open before the place."""
    if at.opener() is not None and at.ends_operand(at.last) and (at.token in {"}", ";", "{", "then", "else", "into", "set", ""}):
        return "a ) is missing before it"
    if at.token:
        return None
    if not at.brackets:
        return "the last word of a text is end"
    return f"the text ends, and a {at.before[at.brackets[-1]]} is open"


# ---- limits
def limit(at):
    """Which limit is passed at the place."""
    if not at.is_in_client:
        return LIMITS.get(at.last)
    calls = at.before[at.before.index("client") :].count("(")
    different = "there are at most 1,024 different calls: a transaction with its arguments at a site"
    return different if calls < MOST_CALLS else "there are at most 20,000 calls"


# ---- counts
def times(number, word):
    return f"{number} {word}" + ("" if number == 1 else "s")


def schedule(text):
    """How often clients stand in the schedule that have another number of calls."""
    tokens = TOKEN.findall(text)
    if "schedule" not in tokens:
        return "there is no schedule: it names a client for each of its calls, schedule a b a"
    found = tokens[tokens.index("schedule") + 1 :]
    said = []
    for number, word in enumerate(tokens):
        if word == "client":
            name, calls = tokens[number + 1], tokens[number : tokens.index("}", number)].count("(")
            if found.count(name) != calls:
                said.append(f"{name} has {times(calls, 'call')} and stands {times(found.count(name), 'time')} in the schedule")
    return "; ".join(said[:3]) + (f"; and so {len(said) - 3} more" if len(said) > 3 else "")


def arguments(at, text):
    """How many parameters the called transaction has, or fields the relation of an insert."""
    tokens, kind = TOKEN.findall(text), "relation" if at.last == "insert" else "transaction"
    place = next((number for number, it in enumerate(zip(tokens, tokens[1:])) if it == (kind, at.token)), None)
    if place is None:
        return None
    begin = tokens.index("(", place)
    count = tokens[begin : tokens.index(")", begin)].count("in")
    return f"{at.token} has {times(count, 'field' if kind == 'relation' else 'parameter')}" + (", and an insert names each" if kind == "relation" else "")
