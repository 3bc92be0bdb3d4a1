"""What ./why says of phrases that are written as other languages write them: a table, tried in order behind that of tools/hints.py. `at` is
the Place of tools/grammar.py."""
import re

from hints import NAME, ends_with, signed_range

DECLARING = {"object", "relation", "transaction", "client", "schedule", "end"}
NO_WORDS = {
    "elif": "there is no elif: else if", "elsif": "there is no elsif: else if", "elseif": "there is no elseif: else if",
    "mod": "there is no mod", "div": "there is no div",
}
SMALL = {"if", "then", "else", "print", "write", "read", "skip", "foreach", "insert", "delete", "update", "when", "and", "not", "count", "sum"}


def word_of_none(at):
    """A word of another language, where an operator or a command is wanted."""
    return NO_WORDS.get(at.token) if at.next != ":=" and at.is_name(at.token) else None


def capital_letters(at):
    """A reserved word in capital letters, here or just before."""
    begins = at.before[-2:-1] and at.before[-2] in {"{", ";", "then", "else"}
    for word in [at.token, *([at.last] if begins else [])]:
        if word.lower() in SMALL and word.lower() != word and at.brackets:
            return f"reserved words have small letters: {word.lower()}"
    return None


def between_declared(at):
    """Two parameters, or two fields, without their comma."""
    if not NAME.fullmatch(at.token) or not at.brackets or not signed_range(at.before) or at.opener() is None:
        return None
    return "between fields stands ," if at.opener() == "]" else "between parameters stands ,"


def body_without_braces(at):
    if at.token != "{" and at.last == ")" and not at.brackets and re.search(r"transaction \w+ \( [^{}()]*\)$", " ".join(at.before)):
        return "the commands of a transaction stand in braces: { .. }"
    return None


def bounds_otherwise(at):
    if at.last == "in" and not at.token.isdigit() and at.token != "-" or at.token == "." and at.last == "..":
        return "bounds are two numbers with two dots between: in 0..9"
    return None


def number_behind(at):
    if at.last in {"sites", "workload"} and len(at.before) in {1, 3} and not at.token.isdigit():
        return f"a number stands behind {at.last}: {at.last} {2 if at.last == 'sites' else 1}"
    return None


def schedule_otherwise(at):
    if "schedule" in at.before and not at.brackets and at.token in {",", ";", "{", "(", ":", "="}:
        return "a schedule names clients one after another: schedule a b a"
    return None


def calls_otherwise(at):
    """What stands between calls, and in their parentheses."""
    if not at.is_in_client:
        return None
    if at.is_inmost_brace and at.last == ")" and NAME.fullmatch(at.token):
        return "between calls stands ;"
    if at.opener() is not None and (at.token in {"+", "*", "-", "/"} or NAME.fullmatch(at.token)):
        return "an argument is a number"
    return None


def print_of_two(at):
    if at.opener() == "print" and at.ends_operand(at.last) and (at.token.isdigit() or at.is_name(at.token)):
        return "print takes one number: print twice"
    return None


def insert_without_names(at):
    if ends_with(at.before, "insert N (") and not NAME.fullmatch(at.token):
        return "an insert names its fields: insert R (f = e) into t"
    return None


def set_of_row(at):
    if at.token == "." and ends_with(at.before, "set N"):
        return "the field alone stands behind set: set f = e"
    return None


def brace_missing(at):
    """A declaration that begins within a transaction or a client."""
    if at.token in DECLARING and at.is_inmost_brace and at.next not in {":=", "("} and (at.last in {")", "}", "skip", "{"} or at.ends_operand(at.last)):
        return "a } is missing before it"
    return None


SLIPS = [
    word_of_none, capital_letters, between_declared, body_without_braces, bounds_otherwise, number_behind, schedule_otherwise,
    calls_otherwise, print_of_two, insert_without_names, set_of_row, brace_missing,
]


def of_slip(at):
    """The first hint of the table, or None."""
    return next(filter(None, (it(at) for it in SLIPS)), None)
