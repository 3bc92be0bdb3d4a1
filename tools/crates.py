"""What crates.txt says: the crates, and the libraries that each names."""
import pathlib

ROOT = pathlib.Path(__file__).resolve().parent.parent


def named():
    """The libraries that each crate names, by its name, in the order of the lines."""
    rows = (line.partition("#")[0].partition(":") for line in (ROOT / "crates.txt").read_text().splitlines())
    return {crate.split()[0]: libraries.split() for crate, _, libraries in rows if crate.strip()}


def below(crate, lines):
    """The crates that one stands on, lowest first."""
    found = []
    for library in lines[crate]:
        if library in lines:
            found += [it for it in [*below(library, lines), library] if it not in found]
    return found
