#!/usr/bin/env python3
"""How much of the definitions in specs/ the public contracts reach: what a reader has to believe.

.ci/reach.py              prints the figures, and the files of specs/ that no public contract reaches and no other crate names
.ci/reach.py --misplaced  prints each definition of specs/ that no public contract reaches, and each of specs/inner/ that one does
.ci/reach.py --inner      prints each definition of specs/inner/ that a caller has to believe, and each line that takes one from another crate
.ci/reach.py DEFINITION   prints by which names a definition, as homeo_meaning.specs.Weights.number_weight, is reached

A line counts if it is no comment, no import, no `mod` line and not blank. Lines are counted by definition: a `data` or `record`
is one, with its constructors and fields, and so is a function with its equations.

Reached are the definitions that are named in
- a clause (`requires`, `ensures`) of a function that its crate exports, of a public method of a type that it exports, of a method
  of an exported trait, and of a trait's method at an exported type;
- the `impl Model` and the ghost items of an exported type or trait, and of each type that a reached definition names by
  `specs.declared`;
- the body, equations or type of a definition that is reached.
What stands in specs/formers belongs to the type of its name. `.inner` in a path is nothing special: a definition there can be reached.

What a caller has to believe is what is reached without what speaks of the fields of types that a crate keeps to itself: an
invariant says what it keeps of them, and the view of a type that shows none how they stand for the value, of which the clauses speak.
These may name a definition of specs/inner/, and nothing else that is public may.

It is read by names, and not by the prover, so it is right to a few lines in a hundred: a variable that is spelled as an imported
name counts as that name, of a name behind a dot only the front counts, unless that is a module, and an operator of this project's
own that is written between its arguments isn't seen.
"""
import collections
import pathlib
import re
import sys

ROOT = pathlib.Path(__file__).resolve().parent.parent
TOP = ("homeo", "run")
# What a name is made of in antt: all but spaces, brackets and marks that end a name.
NAME = re.compile(r"[^\s()\[\]{},;:λ→×⊎=|.]+(?:\.[^\s()\[\]{},;:λ→×⊎=|.]+)*")
IMPORT = re.compile(r"^(?P<is_pub>pub\s+)?(?:unfoldable\s+)?(?:ghost\s+)?use\s+(?P<path>[\w.◌-]+?)(?:\.\{(?P<names>[^}]*)\})?(?:\s+as\s+(?P<alias>\w+))?\s*;?\s*$", re.M)
HEAD = re.compile(r"(?P<indent> *)(?:(?:pub|abbrev|unfoldable|opaque)\s+)*(?P<kind>data\s+|record\s+)?(?P<name>[^\s(){}:=,]+)\s*(?:[({][^=]*)?:(?=\s|$)")
BLOCK = re.compile(r"(?P<indent> *)(?:(?:pub|abbrev|unfoldable|opaque)\s+)*(?:mutual\s*$|module\s.*\bwhere\s*$)")
SKIPPED = re.compile(r"\s*(?:--.*|(?:pub\s+)?(?:unfoldable\s+)?use\b.*|(?:pub\s+)?mod\s+\w+)?\s*")


class Definition:
    """A definition of a module: the numbers of its lines, and its text."""

    def __init__(self, module, name, kind):
        self.module, self.name, self.kind, self.lines, self.text = module, name, kind, set(), ""

    def add(self, number, row):
        self.lines.add(number)
        self.text += row.partition("-- ")[0] + "\n"


class Imports:
    """What the `use` lines of a text bring in: names with where they come from, and other names of modules."""

    def __init__(self, text):
        self.names, self.modules, self.again = {}, {}, {}
        for found in IMPORT.finditer(re.sub(r"\{[^}]*\}", lambda it: " ".join(it[0].split()), text)):
            path, names, alias = found["path"], found["names"], found["alias"]
            if names is None:
                self.modules[alias or path.rpartition(".")[2]] = path
                continue
            for word in filter(None, (it.strip() for it in names.split(","))):
                name, _, other = word.partition(" as ")
                self.names[(other or name).strip()] = (path, name.strip())
                if found["is_pub"]:
                    self.again[(other or name).strip()] = (path, name.strip())


class Module:
    """A file of specs/: its definitions by name, constructors under the name of their data type too."""

    def __init__(self, crate, path, file):
        self.crate, self.path, self.file, self.own, self.definitions = crate, path, file, [], {}
        text = file.read_text()
        self.imports = Imports(text)
        self.read(text.split("\n"))

    def read(self, rows):
        # the indentation at which definitions stand; the rows of the heads of the blocks round them; what is being read
        depth, heads, now, is_import = 0, [], None, False
        for number, row in enumerate(rows):
            is_import = is_import or bool(re.match(r"(pub\s+)?(unfoldable\s+)?use\b.*\{[^}]*$", row))
            if is_import or SKIPPED.fullmatch(row):
                is_import = is_import and "}" not in row
                continue
            indent = len(row) - len(row.lstrip())
            if indent < depth:
                depth, heads = indent, [it for it in heads if it[0] < indent]
            head = HEAD.match(row)
            if BLOCK.fullmatch(row) and indent == depth:
                heads.append((depth, number, row))
                depth, now = depth + 2, None
            elif head and indent == depth and (now is None or head["kind"] or not row.lstrip().startswith(now.name + " ")):
                now = Definition(self.path, head["name"], (head["kind"] or "").strip())
                for _, at, above in heads:
                    now.add(at, above)
                now.add(number, row)
                self.own.append(now)
                self.definitions[now.name] = now
            elif now is None:
                # (of a block's head, as `unfolding definitions`)
                heads.append((depth - 1, number, row))
            else:
                now.add(number, row)
                constructor = re.match(r"\s+(?:pub\s+)?([^\s(){}:]+)\s*:", row) if now.kind == "data" else None
                if constructor:
                    self.definitions.setdefault(constructor[1], now)


def crates_of(root):
    lines = (line.partition("#")[0].partition(":")[0].split() for line in (root / "crates.txt").read_text().splitlines())
    return [line[0] for line in lines if line]


def modules_of(root, crates):
    found = {}
    for crate in crates:
        top = root / "crates" / crate / "specs"
        for file in sorted(top.rglob("*.antt")):
            path = ".".join(["Rattle", crate, "specs", *file.relative_to(top).with_suffix("").parts])
            found[path] = Module(crate, path, file)
    return found


# ---- the Rust side
def plain_rust(text):
    """The text without comments, texts and tests."""
    text = re.sub(r'//[^\n]*|"(?:\\.|[^"\\])*"|\'(?:\\.|[^\'\\\n])\'', lambda it: "" if it[0].startswith("//") else '""', text)
    tests = re.search(r"#\[cfg\(test\)\]\s*mod\s+\w+\s*\{", text)
    return text[: tests.start()] + text[closed(text, tests.end() - 1) :] if tests else text


def closed(text, at):
    """The place behind the bracket that closes the one at this place."""
    depth = 0
    for place in range(at, len(text)):
        depth += {"{": 1, "}": -1}.get(text[place], 0)
        if depth == 0:
            return place + 1
    return len(text)


def items_of(text):
    """The items of a text: for each its head, and what stands in its brackets, those of its clauses apart."""
    at, start, clauses, found = 0, 0, [], []
    while at < len(text):
        if text[at] == ";":
            found.append((text[start:at], "", clauses))
            at, start, clauses = at + 1, at + 1, []
        elif text[at] == "{":
            end, head = closed(text, at), text[start:at]
            clause = re.search(r"\b(?:requires|ensures)\*?\s*\w*\s*$", head)
            if clause:
                clauses.append(text[at:end])
                # (so that the next bracket is not taken for this clause's)
                word = start + clause.start()
                text = text[:word] + " " * (end - word) + text[end:]
            elif re.match(r"\s*(?:pub\s+)?(?:ghost\s+)?use\b", head) or re.search(r"\bghost\b[^;{}]*$", head):
                # an import or a ghost item: its brackets belong to it
                rest = re.match(r"[^;{}]*[;,]?", text[end:]).end()
                found.append((text[start : end + rest], text[at:end], []))
                end, start = end + rest, end + rest
            else:
                found.append((head, text[at + 1 : end - 1], clauses))
                start, clauses = end, []
            at = end
        else:
            at += 1
    return found


def exported(root, crate):
    """The names that a crate exports, and its public modules."""
    file = root / "crates" / crate / "src" / "lib.rt"
    if not file.exists():
        return set(), set()
    text = plain_rust(file.read_text())
    names = set(re.findall(r"\bpub\s+(?:fn|struct|enum|trait)\s+(\w+)", text))
    for path, many in re.findall(r"^\s*pub\s+use\s+([\w:]+?)(?:::\{([^}]*)\})?\s*;", text, re.M):
        names |= {it.split(" as ")[0].strip() for it in many.split(",")} if many else {path.rpartition("::")[2]}
    return names - {""}, set(re.findall(r"^\s*pub\s+mod\s+(\w+)\s*;", text, re.M))


class Promise:
    """A text with clauses or ghost items, what it is of, and the imports under which it is read."""

    def __init__(self, crate, owner, name, text, imports, is_of_fields=False):
        self.crate, self.owner, self.name, self.text, self.imports, self.is_of_fields = crate, owner, name, text, imports, is_of_fields


def promises_of(root, crate):
    """The public contracts of a crate, and the ghost items of each of its types."""
    names, modules = exported(root, crate)
    public, ghosts = [], collections.defaultdict(list)
    for file in sorted((root / "crates" / crate / "src").rglob("*.rt")):
        text = plain_rust(file.read_text())
        items = items_of(text)
        is_open = file.stem in modules or file.stem == "lib"
        imports = [head.strip() for head, _, _ in items if re.match(r"\s*ghost\s+use\b", head)]
        structs = {re.search(r"\bstruct\s+(\w+)", head)[1]: body for head, body, _ in items if re.search(r"\bstruct\s+\w+", head)}
        closed_structs = {name for name, body in structs.items() if not re.search(r"\bpub\s+\w+\s*:", body)}
        is_public = lambda name, head: name in names or is_open and re.search(r"\bpub\s", head)
        for head, body, clauses in items:
            if re.match(r"\s*(?:pub\s+)?(?:ghost\s+)?use\b", head):
                continue
            function = re.search(r"\bfn\s+(\w+)", head)
            kind = re.search(r"\b(struct|enum|trait)\s+(\w+)", head)
            of = re.search(r"\bimpl\b(?:\s*<[^{]*?>)?\s+(?:(?P<trait>\w+)(?:<[^{]*?>)?\s+for\s+)?(?:&\s*)?(?P<type>\w+)", head)
            scope = Imports("\n".join(imports))
            if function and not kind and not of:
                if re.search(r"\bpub\s", head) and is_public(function[1], head):
                    public.append(Promise(crate, None, function[1], " ".join(clauses), scope))
            elif kind:
                inside = items_of(body) if kind[1] == "trait" else []
                ghost = re.findall(r"\bghost\b[^;]*", body) if kind[1] != "trait" else [it[0] for it in inside if "ghost" in it[0]]
                # (a ghost field of a struct is an invariant, if others may not read it)
                kept = [it for it in ghost if kind[1] == "struct" and not re.search(r"\bpub\s+" + re.escape(it), body)]
                ghosts[kind[2]].append(Promise(crate, kind[2], "ghost fields", " ".join(kept), scope, True))
                ghosts[kind[2]].append(Promise(crate, kind[2], "ghost items", " ".join(it for it in ghost if it not in kept), scope))
                if is_public(kind[2], head):
                    public += [Promise(crate, kind[2], it[0], " ".join(it[2]), scope) for it in inside]
            elif of:
                inside = items_of(body)
                local = Imports("\n".join(imports + [it[0].strip() for it in inside if re.match(r"\s*ghost\s+use\b", it[0])]))
                hidden = "(?:invariant|view)" if of["type"] in closed_structs else "invariant"
                for is_of_fields in (False, True):
                    word = hidden if is_of_fields else f"(?!use|{hidden})"
                    ghost = " ".join(it[0] for it in inside if re.match(r"\s*(?:pub\s+)?ghost\s+" + word, it[0]))
                    ghosts[of["type"]].append(Promise(crate, of["type"], f"impl {of['trait'] or ''}", ghost, local, is_of_fields))
                if of["type"] in names or of["trait"] in names or is_open:
                    for inner, _, clauses in inside:
                        method = re.search(r"\bfn\s+(\w+)", inner)
                        if method and (of["trait"] or re.search(r"\bpub\s+fn", inner)):
                            public.append(Promise(crate, of["type"], method[1], " ".join(clauses), local))
    public += [it for name in ghosts if name in names for it in ghosts[name]]
    return public, ghosts


class Reach:
    def __init__(self, root):
        self.root, self.crates = root, crates_of(root)
        self.modules = modules_of(root, self.crates)
        promises = {crate: promises_of(root, crate) for crate in self.crates}
        self.public = [it for crate in self.crates for it in promises[crate][0]]
        self.ghosts = {(crate, name): its for crate in self.crates for name, its in promises[crate][1].items()}

    def definition(self, path, name):
        """The definition of a name of a module, through what the module hands on."""
        module = self.modules.get(path)
        if module is None:
            return None
        return module.definitions.get(name) or (self.definition(*module.imports.again[name]) if name in module.imports.again else None)

    def named(self, text, imports, module=None):
        """The definitions and types that a text names."""
        text = re.sub(r"(?<=[{;])(\s*)[^\s{};=]+(?=\s*=\s)", r"\1", text)
        for word in {*NAME.findall(text)}:
            front, _, rest = word.partition(".")
            if module and front in module.definitions:
                yield module.definitions[front]
            elif front in imports.names:
                path, name = imports.names[front]
                yield self.definition(path, name)
                yield self.type(f"{path}.{name}")
            elif front in imports.modules:
                path = imports.modules[front]
                yield self.definition(path, rest.partition(".")[0])
                yield self.type(path)

    def type(self, path):
        found = re.match(r"Rattle\.(\w+)\.specs\.declared\.(?:\w+\.)*?([A-Z]\w*)", path)
        return (found[1], found[2]) if found else None

    def formers(self):
        """The definitions that belong to a type by their place."""
        return [it for path, module in self.modules.items() if ".specs.formers." in path for it in module.own]

    def reached(self, promises, with_formers=False, with_fields=True):
        """What these promises reach: each definition with the one that named it."""
        found, types, left = {}, set(), []

        def add(thing, by):
            if isinstance(thing, Definition) and thing not in found:
                found[thing] = by
                left.append((thing.text, self.modules[thing.module].imports, self.modules[thing.module], thing))
            elif isinstance(thing, tuple) and thing not in types:
                types.add(thing)
                left.extend((it.text, it.imports, None, by) for it in self.ghosts.get(thing, []) if with_fields or not it.is_of_fields)

        for it in promises if with_fields else [it for it in promises if not it.is_of_fields]:
            for thing in self.named(it.text, it.imports):
                add(thing, it)
        for it in self.formers() if with_formers else []:
            add(it, None)
        while left:
            text, imports, module, by = left.pop()
            for thing in self.named(text, imports, module):
                add(thing, by)
        return found

    def of_top(self):
        return self.reached([it for it in self.public if (it.crate, it.name) == TOP])

    def of_all(self):
        return self.reached(self.public, with_formers=True)

    def of_callers(self):
        """What the callers of public contracts have to believe."""
        return self.reached(self.public, with_fields=False)


def lines_of(definitions):
    """How many lines these definitions have, by module."""
    lines = collections.defaultdict(set)
    for it in definitions:
        lines[it.module] |= it.lines
    return collections.Counter({module: len(its) for module, its in lines.items()})


def sources(reach):
    """The text of each source file, with its crate."""
    for crate in reach.crates:
        for folder in ("src", "specs", "proofs"):
            for file in sorted((reach.root / "crates" / crate / folder).rglob("*.*t*")):
                yield crate, file, file.read_text()


def cited(reach):
    """The modules of specs/ that another crate's sources name: what lemmas say of a definition is of use where its body is handed on."""
    return {found[0] for crate, _, text in sources(reach) for found in re.finditer(r"\bRattle\.(\w+)\.specs\.[A-Z]\w*", text) if found[1] != crate}


def table(reach):
    """The figures, crate by crate, and the files of specs/, without specs/inner/, of which no public contract reaches a line, and that no
    other crate names."""
    reached, rows, unreached = lines_of(reach.of_all()), collections.defaultdict(lambda: [0, 0, 0, 0]), []
    others = cited(reach)
    for path, module in reach.modules.items():
        whole, is_inner = lines_of(module.own)[path], ".specs.inner." in path
        for name in (module.crate, "all"):
            rows[name][2 * is_inner] += whole
            rows[name][2 * is_inner + 1] += reached[path]
        if whole and not is_inner and not reached[path] and path not in others:
            unreached.append(str(module.file.relative_to(reach.root)))
    said = [f"{'definitions, in lines':24}{'specs':>10}{'reached':>10}{'inner':>10}{'reached':>10}"]
    said += ["".join([f"{name:24}", *(f"{it:>10}" for it in rows[name])]) for name in [*reach.crates, "all"]]
    return said, unreached


def top_line(reach):
    return f"reached by {'::'.join(TOP)}: {sum(lines_of(reach.of_top()).values())}"


def chain(reach, word):
    """By which names a definition is reached, the last of them in a contract."""
    found = reach.of_all()
    path, _, name = word.rpartition(".")
    thing = reach.definition(path if path.startswith("Rattle.") else f"Rattle.{path}", name)
    if thing not in found:
        return [f"{word} is not reached"]
    said = []
    while isinstance(thing, Definition):
        said.append(f"{thing.module}.{thing.name}")
        thing = found[thing]
    return [*said, f"{thing.crate}: {thing.owner or ''} {thing.name.strip()}" if thing else "by its place"]


def misplaced(reach):
    found = reach.of_all()
    every = [it for module in reach.modules.values() for it in module.own]
    return [f"{'unreached' if it not in found else 'reached'}: {it.module}.{it.name}" for it in every if (it in found) == (".specs.inner." in it.module)]


def inner_reached(reach):
    """Each definition of specs/inner/ that a caller has to believe."""
    return sorted(f"{it.module}.{it.name}" for it in reach.of_callers() if ".specs.inner." in it.module)


def inner_taken(reach):
    """Each line of a crate that takes a definition from another crate's specs/inner/."""
    inner = re.compile(r"\bRattle\.(\w+)\.specs\.inner\.\w+")
    return [f"{file.relative_to(reach.root)}: {found[0]}" for crate, file, text in sources(reach) for found in inner.finditer(text) if found[1] != crate]


def main():
    reach = Reach(ROOT)
    if sys.argv[1:] == ["--inner"]:
        print("\n".join([*inner_reached(reach), *inner_taken(reach)]))
        return
    if sys.argv[1:] == ["--misplaced"]:
        print("\n".join(misplaced(reach)))
        return
    if len(sys.argv) > 1:
        print("\n".join(chain(reach, sys.argv[1])))
        return
    said, unreached = table(reach)
    said += [top_line(reach), *(f"reached by no public contract: {it}" for it in unreached)]
    print("\n".join(said))


if __name__ == "__main__":
    main()
