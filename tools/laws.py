#!/usr/bin/env python3
"""tools/laws.py

Writes into docs/PROOFS.md, between the marker lines of `laws`, the names of the laws: functions without code, in the files src/laws*.rt,
whose clauses say what is true of definitions; a line for each crate, which leads to its files. The gate compares, and refuses a law over
which no sentence stands.
"""
import pathlib
import re
import sys

sys.dont_write_bytecode = True
sys.path.insert(0, str(pathlib.Path(__file__).resolve().parent))
import crates
import marked

DOCUMENT = crates.ROOT / "docs" / "PROOFS.md"
LAW = re.compile(r"((?:^/// .*\n)*)(?:^#\[.*\n)*^pub fn (\w+)\(", re.M)


def laws(crate):
    """Of each file of a crate that has laws, in the order of their names: the file, and of each law the lines above it and its name."""
    for file in sorted((crates.ROOT / "crates" / crate / "src").glob("laws*.rt")):
        yield file, LAW.findall(file.read_text())


def line(crate):
    """The names of a crate's laws, behind a link to their file."""
    said = []
    for file, found in laws(crate):
        names = ", ".join(f"`{name}`" for _, name in found)
        said.append(f"([{file.name}](../{file.relative_to(crates.ROOT)})): {names}")
    return f"- `{crate}` {'; '.join(said)}"


def listed():
    """A line for each crate that has laws, in the order of crates.txt."""
    return [line(crate) for crate in crates.named() if any(laws(crate))]


def check(verdict):
    """docs/PROOFS.md has the laws as they stand in the sources, and over each stands a sentence there."""
    part = DOCUMENT.read_text().partition(marked.begin_of("laws"))[2].partition(marked.end_of("laws"))[0]
    verdict("PROOFS.md: laws", None if part.strip().splitlines() == listed() else "not those of the sources: run tools/laws.py")
    bare = [f"{file}: {name}" for crate in crates.named() for file, found in laws(crate) for said, name in found if not said]
    verdict("laws: sentences", f"none stands over {', '.join(bare)}" if bare else None)


def main():
    print("\n".join(listed()))
    sys.exit(marked.put(DOCUMENT, "laws", listed()))


if __name__ == "__main__":
    main()
