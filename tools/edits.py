"""Edits of a crate, as the kit's `rt must-fail` reads them: a line `file: PATH`, and then pairs of lines `old: TEXT` and `new: TEXT`, where
each old text stands in that file exactly once."""
import collections
import re

Pair = collections.namedtuple("Pair", "path old new")
FN = re.compile(r"^( *)(?:pub(?:\([^)]*\))? )?(?:const )?fn (\w+)")
CYCLE = re.compile(r"^ *#\[cycle\((\w+)\)\]")
CONST = re.compile(r"^(?:pub(?:\([^)]*\))? )?const (\w+)")


class Misfit(Exception):
    """Why an edit can't be made."""


def pairs_of(edit):
    pairs, path, old = [], "", None
    for line in edit.read_text().splitlines():
        word, _, rest = line.partition(":")
        if word == "file":
            path = rest.strip()
        elif word == "old":
            old = rest.removeprefix(" ")
        elif word == "new":
            pairs.append(Pair(path, old, rest.removeprefix(" ")))
    return pairs


def is_of_code(edit):
    """Whether an edit turns code alone, and no definition or proof."""
    return all(pair.path.startswith("src/") for pair in pairs_of(edit))


def applied(edit, folder, texts=None):
    """The texts of the files of the crate in this folder, by their paths, as the edit makes them of these texts or else of the files."""
    texts = dict(texts or {})
    for pair in pairs_of(edit):
        text = text_in(folder, pair.path, texts)
        if text.count(pair.old) != 1:
            raise Misfit(f"{edit.name}: {pair.old!r} stands {text.count(pair.old)} times in {pair.path}, and not once")
        texts[pair.path] = text.replace(pair.old, pair.new)
    if not texts:
        raise Misfit(f"{edit.name} has no pair of lines `old:` and `new:`")
    return texts


def text_in(folder, path, texts):
    try:
        return texts[path] if path in texts else (folder / path).read_text()
    except OSError:
        raise Misfit(f"there is no file {path}") from None


def functions_of(edit, folder):
    """The functions that an edit of code turns, as rattle names them behind the crate: those around its lines. Where a line is of a
    constant, those that name it."""
    found, texts = set(), {}
    for pair in pairs_of(edit):
        text = text_in(folder, pair.path, texts)
        rows, at = text.split("\n"), text[: text.index(pair.old)].count("\n")
        around = function_at(folder, pair.path, rows, at)
        found |= {around} if around else users_of(folder, constant_at(rows, at))
        texts[pair.path] = text.replace(pair.old, pair.new)
    return found


def cycles(folder):
    """The cycle of each function that has one: functions that call one another, and are proved together or not at all."""
    found = {}
    for file in sorted((folder / "src").rglob("*.rt")):
        rows, path = file.read_text().split("\n"), str(file.relative_to(folder))
        for at, cycle in enumerate(map(CYCLE.match, rows)):
            if cycle:
                head = next(row for row in range(at, len(rows)) if FN.match(rows[row]))
                found[function_at(folder, path, rows, head)] = cycle[1]
    return found


def function_at(folder, path, rows, at):
    """The function around a row of a file, or None. (The layout of `rt fmt` ends it by a brace as far in as it begins.)"""
    for row in range(at, -1, -1):
        found = FN.match(rows[row])
        if found and is_inside(rows, row, at, found[1]):
            owner = next(it for it in reversed(rows[: row + 1]) if it[:1].isalpha()) if found[1] else ""
            module, name = owner_of(folder, path, owner) if owner.startswith("impl") else (module_of(path), "")
            return "::".join(part for part in (module, name, found[2]) if part)
    return None


def is_inside(rows, first, at, indent):
    """Whether a row is of the function whose first row is this one."""
    is_last = lambda row: rows[row] in (f"{indent}}}", f"{indent}{{}}") or row == first and rows[row].endswith("}")
    return at <= next(filter(is_last, range(first, len(rows))), -1)


def module_of(path):
    inside = path.removeprefix("src/").removesuffix(".rt").removesuffix("/mod")
    return "" if inside in ("lib", "main") else inside.replace("/", "::")


def owner_of(folder, path, head):
    """The module and the name that rattle gives an impl: of a type's own those of the type, and of a trait's the type and behind it
    the trait with the words of its arguments."""
    head = head.removeprefix("impl").rstrip(" {")
    trait, _, kind = (without_arguments(head) if head.startswith("<") else head).strip().rpartition(" for ")
    kind = re.match(r"(?:\w+::)*(\w+)", kind)[1]
    words = re.findall(r"\w+", re.sub(r"\w+::", "", trait))
    module = module_of(path) if words else declaring(folder, path, kind)
    return module, kind + "".join(word[:1].upper() + word[1:] for word in words)


def declaring(folder, path, kind):
    """The module that declares a type, this file's where it does."""
    files = [folder / path, *sorted((folder / "src").rglob("*.rt"))]
    found = (file for file in files if re.search(rf"^(?:pub(?:\([^)]*\))? )?(?:struct|enum) {kind}\b", file.read_text(), re.M))
    return module_of(str(next(found).relative_to(folder)))


def without_arguments(text):
    """The text behind the arguments in angle brackets with which it begins."""
    depth = 0
    for place, mark in enumerate(text):
        depth += {"<": 1, ">": -1}.get(mark, 0)
        if not depth:
            return text[place + 1 :]
    return text


def constant_at(rows, at):
    """The constant whose value stands on a row or begins above it, or None."""
    return next((found[1] for found in map(CONST.match, reversed(rows[: at + 1])) if found), None)


def users_of(folder, constant):
    """The functions whose code names a constant."""
    found = set()
    for file in sorted((folder / "src").rglob("*.rt")) if constant else []:
        rows, path = file.read_text().split("\n"), str(file.relative_to(folder))
        naming = (at for at, row in enumerate(rows) if re.search(rf"\b{constant}\b", row))
        found |= {function_at(folder, path, rows, at) for at in naming} - {None}
    return found
