"""Where a text is refused, and what the token at that place and those before it say of the grammar. tools/hints.py has the slips that come
from other languages, tools/names.py those of names, and tools/numbers_told.py those of numbers."""
import re

TOKEN = re.compile(r"[A-Za-z]\w*|[0-9]+|:=|\.\.|<=|\S", re.A)
# The words that are no names.
RESERVED = set(
    "workload sites object in relation transaction client at schedule end if then else skip write read print foreach of when"
    " insert into delete update set count sum used and not true".split()
)
# And those that are none in version 2.
RESERVED_IN_2 = {"weights", "abort"}
COMPARISONS = {"<", "<=", "="}
OPERATORS = COMPARISONS | {"+", "-", "*", ":="}
COMMANDS = {"skip", "write", "print", "if", "foreach", "insert", "delete", "update"}
ENDS_OF_COMMANDS = {")", "}", "skip"}
# What begins no token, and what is meant by it.
NO_TOKENS = {
    ">": "there is no > and no >=: turn the sides round, b < a or b <= a",
    "!": "there is no !=: not (a = b)",
    "#": "there are no comments",
    "/": "there are no comments and no division",
    '"': "there are no texts: print takes a number",
    "'": "there are no texts: print takes a number",
    "_": "a name begins with a letter",
    "|": "there is no or: not (not (a) and not (b))",
    "&": "the word is and",
    "%": "there is no remainder",
    ":": "an assignment is t := e",
    "^": "there is no power: a * a",
    "?": "there is no ?: if b then t := 1 else t := 0",
}


def open_brackets(tokens):
    """The places of the brackets that are open behind these tokens, the inmost last."""
    found = []
    for place, token in enumerate(tokens):
        if token in {"(", "[", "{"}:
            found.append(place)
        elif token in {")", "]", "}"} and found:
            found.pop()
    return found


def last_command(tokens):
    """The tokens behind the last ; that stands in no brackets."""
    begin = depth = 0
    for place, token in enumerate(tokens):
        depth += (token in {"(", "[", "{"}) - (token in {")", "]", "}"})
        if token == ";" and depth == 0:
            begin = place + 1
    return tokens[begin:]


def open_test(command):
    """The tokens of the test that is open at the end of a command, what stands in closed brackets left out; None where none is."""
    found, depth = [], 0
    for place in range(len(command) - 1, -1, -1):
        token = command[place]
        if token in {")", "]"}:
            depth += 1
        elif token in {"(", "["}:
            if depth == 0:
                return found if command[place - 1 : place] == ["not"] else None
            depth -= 1
        elif depth == 0 and token in {"if", "when", "and"}:
            return found
        elif depth == 0 and token in {"then", "else", ":=", "{", "}"}:
            return None
        if depth == 0:
            found.append(token)
    return None


class Place:
    """The token at which a text is refused, with the tokens before it."""

    def __init__(self, text, offset):
        found = list(TOKEN.finditer(text))
        self.before = [it.group() for it in found if it.start() < offset]
        self.is_version_2 = bool(re.fullmatch(r"workload 0*2", " ".join(it.group() for it in found[:2])))
        self.rest = text[offset:]
        self.touches = text[offset - 1 : offset] if offset else ""
        behind = [it.group() for it in found if it.start() >= offset]
        self.token, self.next = (behind + ["", ""])[:2]
        self.last = self.before[-1] if self.before else ""
        self.brackets = open_brackets(self.before)
        braces = [it for it in self.brackets if self.before[it] == "{"]
        # The command in which it stands, as far as it goes in the inmost braces.
        self.command = last_command(self.before[braces[-1] + 1 if braces else 0 :])
        self.is_inmost_brace = bool(self.brackets) and self.before[self.brackets[-1]] == "{"
        self.test = open_test(self.command)
        # Whether a test is open, has its comparison, and could end here.
        self.has_test = self.ends_operand(self.last) and bool(COMPARISONS.intersection(self.test or []) or self.last == "true")
        self.is_in_client = bool(braces) and braces[-1] >= 4 and self.before[braces[-1] - 4] == "client"

    def is_reserved(self, token):
        return token in RESERVED or self.is_version_2 and token in RESERVED_IN_2

    def is_name(self, token):
        return token[:1].isalpha() and not self.is_reserved(token)

    def ends_operand(self, token):
        return token[:1].isalnum() and (self.is_name(token) or token.isdigit() or token == "true") or token in {")", "]"}

    def is_abort(self, token):
        """Whether the token is the command `abort`."""
        return self.is_version_2 and token == "abort"

    def is_weight(self):
        """Whether the place is one of the weights."""
        return self.before[4:5] == ["weights"] and all(it == "," or it.isdigit() for it in self.before[5:])

    def opener(self):
        """What stands before the inmost bracket, if that is a parenthesis."""
        if self.brackets and self.before[self.brackets[-1]] == "(":
            return self.before[self.brackets[-1] - 1] if self.brackets[-1] else ""
        return None


def hint_of_grammar(at):
    """Tries what the token at the place, with those before it, decides."""
    token, last, command = at.token, at.last, at.command
    if token == "-" and at.rest.startswith("--"):
        return "there are no comments"
    told = hint_of_versions(at)
    if told:
        return told
    if token == "}" and last == ";":
        return "no ; before }: it stands between commands, and not behind each"
    if token == ";" and not at.brackets and (last.isdigit() or last in {")", "}"}):
        return "no ; here: it stands between commands and between calls"
    if token == "or" and at.test is not None and at.has_test:
        return "there is no or: not (not (a) and not (b))"
    if token == "=" and at.touches == "=":
        return "equality is one ="
    if last in {"count", "sum", "read"} and token != "(":
        return f"{last} is a reserved word, and no name"
    if is_reserved_as_name(at):
        return f"{token} is a reserved word, and no name"
    if token == "=" and len(command) == 1 and at.is_name(last) and at.is_inmost_brace and not at.is_in_client:
        return "t := e sets a temporary, and write(x = e) an object"
    if token == ":=" and at.is_name(last) and takes_equals(at):
        return "here stands =, and := in an assignment alone"
    if last == "not" and token != "(":
        return "not takes parentheses: not (a = b)"
    if last == "false" and at.test == ["false"] and token in {"then", "and", ")", "{"}:
        return "there is no false: not (true)"
    if token in COMPARISONS and at.opener() is not None:
        if at.opener() in {"if", "and", "when", "("}:
            return "a condition has no parentheses, but those of not ( .. )"
        if at.opener() == "print":
            return "an expression holds no comparison: if a < b then t := 1 else t := 0"
    if token in COMPARISONS and at.test is not None and at.has_test:
        return "a test has one comparison: a <= b and b <= c"
    if token == "," and at.opener() == "print":
        return "print takes one number: print twice"
    if token in {")", "{", "}", ";", "set"} and lacks_when(at) and at.next != "when":
        return "write when true for all slots"
    if token in {",", ")"} and at.opener() is not None and at.is_name(last) and lacks_bounds(at):
        return "a parameter has bounds: n in 0..9"
    return hint_of_commands(at)


def hint_of_versions(at):
    """What is said otherwise in the two versions of the language."""
    token, last, before = at.token, at.last, at.before
    if before == ["workload"] and token.isdigit():
        return "the version is 1 or 2"
    if len(before) == 4 and before[0] == "workload" and before[2] == "sites" and before[3].isdigit():
        if at.is_version_2:
            return "in version 2 the weights of the sites stand here: weights 1, 1 for two"
        return "weights are of version 2: workload 2" if token == "weights" else None
    if at.is_version_2:
        if token in RESERVED_IN_2 and stands_for_name(at) or token == ":=" and last == "abort":
            return f"{'abort' if token == ':=' else token} is a reserved word in version 2, and no name"
        return "abort has no parentheses" if token == "(" and last == "abort" else None
    is_command = last == "abort" and before[-2:-1] != [] and before[-2] in {"{", ";", "then", "else"} and not at.is_in_client
    return "abort is a command of version 2: workload 2, and weights behind the sites" if is_command and token != "=" else None


def stands_for_name(at):
    """Whether a word that begins a command or a declaration stands where a name would."""
    return is_reserved_as_name(at) or bool(at.brackets) and not at.is_inmost_brace or at.last in OPERATORS or at.is_in_client


def is_reserved_as_name(at):
    """Whether a reserved word stands where a name is declared, set or used."""
    if not at.is_reserved(at.token):
        return False
    names_follow = {"object", "relation", "transaction", "client", "foreach", "delete", "update", "of", "into", "."}
    if at.last in names_follow or at.next in {"in", ":="}:
        return True
    return at.last == "(" and at.opener() in {"read", "write"}


def takes_equals(at):
    """Whether the name before is an object in a write, or a field in an insert or an update."""
    before = at.before[:-1]
    if before[-2:] == ["write", "("] or before[-1:] == ["set"]:
        return True
    is_first = before[-1:] in (["("], [","]) and at.opener() is not None
    return is_first and at.brackets[-1] >= 2 and at.before[at.brackets[-1] - 2] == "insert"


def lacks_when(at):
    """Whether the tokens before are NAME of NAME, where a condition has to follow."""
    behind = at.before[-3:]
    if len(behind) < 3 or behind[1] != "of" or not at.is_name(behind[2]):
        return False
    return at.is_name(behind[0])


def lacks_bounds(at):
    """Whether the place is in the parentheses of a transaction's declaration."""
    place = at.brackets[-1]
    return place >= 2 and at.before[place - 2] == "transaction" and at.before[place - 1] != "transaction"


def hint_of_commands(at):
    """What is missing where a command ends or another begins."""
    token, last, command = at.token, at.last, at.command
    if not at.is_inmost_brace:
        return None
    if at.is_in_client:
        return "a call has parentheses: t()" if token in {";", "}"} and at.is_name(last) else None
    if token == "(" and len(command) == 1 and at.is_name(last):
        return "a transaction calls no other; write, print and read have reserved words of their own"
    begins = token in COMMANDS | {"{"} or at.is_abort(token) or at.is_name(token) and at.next == ":="
    if command.count("if") > command.count("then") and begins and at.has_test and at.next != "then":
        return "then is missing before it"
    is_long = ":=" in command or command[:1] in (["delete"], ["update"])
    if not command or not (last in ENDS_OF_COMMANDS or at.is_abort(last) or is_long and at.ends_operand(last)):
        return None
    if token in {";", "}"} and command[0] == "insert" and "into" not in command:
        return "an insert has a target: insert R (f = e) into t"
    if token in {";", "}"} and command.count("then") > command.count("else") and at.next != "else":
        return "each if has an else: else skip"
    if begins and command.count("if") == command.count("else"):
        return "a ; is missing before it"
    return None
