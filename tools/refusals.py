"""What ./why says of a refusal: the line, the sentence of docs/LANGUAGE.md, and a hint."""
import pathlib
import re

import hints
import names
import numbers_told
import phrases
from grammar import NO_TOKENS, Place, hint_of_grammar, is_reserved_as_name

ROOT = pathlib.Path(__file__).resolve().parent.parent
MARK = "\xef\xbb\xbf"


def hint_of_bytes(text, offset):
    """Of a byte that is no ASCII, in a text whose characters are its bytes."""
    if offset == 0 and text.startswith(MARK):
        return "the text begins with a byte order mark, three bytes that no editor shows: save it without"
    letter = text[offset : offset + 4].encode("latin-1").decode("utf-8", "ignore")[:1]
    return f"{letter or 'this byte'} is no ASCII: a name has the letters a to z and A to Z, digits and _"


def hint_of_tokens(at):
    piece = re.match(r"\w+", at.rest, re.A)
    if piece and piece.group()[0].isdigit():
        return "a number has at most 18 digits"
    if piece and piece.group()[0].isalpha():
        return "a name has at most 32 characters"
    if at.rest[:1] == ">" and at.touches == "<":
        return "there is no <>: not (a = b)"
    if at.rest[:1] == ":" and not at.is_inmost_brace:
        return "a declaration has no colon: object x in 0..9 = 5, client a at 0 { .. }"
    return NO_TOKENS.get(at.rest[:1])


def hint_of_unknown(at, text, offset):
    if at.token == "false" and "schedule" not in at.before and at.opener() != "read":
        return "there is no false: 0 as a number, not (true) as a condition"
    return names.unknown(at, text, offset)


def hint_of_call(code, text, offset):
    """Of a call that may get too large values, is too large, or branches too much."""
    # (reads the text as the judge does, which no other hint needs)
    import too_heavy
    import too_large

    return {"E10": too_heavy.too_heavy, "E11": too_large.too_large, "E12": too_large.too_branched}[code](text, offset)


# What is said of each code, by the place, the text and the offset.
HINTS = {
    "E1": lambda at, text, offset: hint_of_bytes(text, offset),
    "E3": lambda at, text, offset: hint_of_tokens(at),
    "E4": lambda at, text, offset: hints.of_slip(at) or phrases.of_slip(at) or hint_of_grammar(at) or hints.expected(at) or hints.of_end(at),
    "E5": names.taken,
    "E6": hint_of_unknown,
    "E7": names.of_another_kind,
    "E8": lambda at, text, offset: numbers_told.of_weights(at) if at.is_weight() else hints.arguments(at, text),
    "E9": lambda at, text, offset: numbers_told.of_weights(at) if at.is_weight() else numbers_told.out_of_bounds(at, text, offset),
    "E10": lambda at, text, offset: hint_of_call("E10", text, offset),
    "E11": lambda at, text, offset: hint_of_call("E11", text, offset),
    "E12": lambda at, text, offset: hint_of_call("E12", text, offset),
    "E13": lambda at, text, offset: hints.limit(at),
    "E14": lambda at, text, offset: hints.schedule(text),
}


def hint(code, text, offset):
    return HINTS[code](Place(text, offset), text, offset) if code in HINTS else None


def sentences(code):
    """What the table of refusals in docs/LANGUAGE.md says of a code."""
    document = (ROOT / "docs" / "LANGUAGE.md").read_text()
    found = re.findall(rf"^\| \[{code}\]\(#\w+\) \| (.*?) \| .*? \|$", document, re.M)
    return [re.sub(r"\[([^\]]*)\]\([^)]*\)", r"\1", it).replace("`", "") for it in found]


def is_of_names(code, text, offset):
    """Whether the whole sentence of a code is shown: of E4 what is behind its semicolon is of reserved words alone."""
    return code != "E4" or is_reserved_as_name(Place(text, offset))


def explain(name, text, code, offset):
    """The lines that say what a refusal means."""
    line = text.count("\n", 0, offset) + 1
    start = text.rfind("\n", 0, offset) + 1
    column = offset - start + 1
    shown = text[start:].split("\n", 1)[0].rstrip("\r")
    printed = "".join(it if " " <= it <= "~" else " " if it in "\t\r" else "?" for it in shown)
    # A long line is shown around the place alone.
    cut = max(0, column - 100)
    said = [f"{name}:{line}:{column}"]
    said += [f"    {printed[cut : cut + 140]}", f"    {' ' * (column - 1 - cut)}^"]
    said += [f"{code}: {'; or '.join(it if is_of_names(code, text, offset) else it.split('; ')[0] for it in sentences(code))}"]
    told = hint(code, text, offset)
    said += [f"hint: {told}"] if told else []
    return said + [f"see docs/LANGUAGE.md#{code.lower()}"]
