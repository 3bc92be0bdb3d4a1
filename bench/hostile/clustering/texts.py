"""Texts for clusters: those of examples/, random ones, and hot stocks, where most calls meet at a few numbers."""
import pathlib
import random

from judging import random_texts

ROOT = pathlib.Path(__file__).resolve().parents[3]
HOT = """workload {version}
sites 3
{weights}{objects}
transaction buy(n in 1..4) {{
  left := read({first});
  if n <= left then {{ write({first} = left - n); print(n) }} else print(0)
}}
transaction refill() {{ left := read({last}); if left < {few} then {{ write({last} = left + {most}); print(left) }} else print(-1) }}
{clients}
end
"""


def examples():
    return [(it.name, it.read_text()) for it in sorted((ROOT / "examples").glob("*.homeo"))]


def hot(seed):
    """Three sites that sell one or two small stocks, and fill them up again."""
    chosen = random.Random(seed)
    first, last = chosen.choice([("stock", "stock"), ("stock", "stock"), ("stock", "store")])
    most = chosen.choice([6, 12, 30, 100])
    names = sorted({first, last})
    lists = ["buy(1); buy(2); buy(3); buy(4)", "buy(1); buy(1); buy(3)", "buy(2); refill()"]
    clients = [(f"c{site}{number}", site, chosen.choice(lists)) for site in range(3) for number in range(chosen.choice([1, 2, 3, 8]))]
    version = chosen.choice([1, 2])
    return HOT.format(
        version=version,
        weights="" if version == 1 else f"weights {', '.join(str(chosen.choice([0, 1, 3])) for _ in range(2))}, 2\n",
        objects="\n".join(f"object {name} in 0..1000 = {chosen.choice([1, most, 2 * most])}" for name in names),
        first=first,
        last=last,
        few=chosen.choice([1, 4]),
        most=most,
        clients="\n".join(f"client {name} at {site} {{ {calls} }}" for name, site, calls in clients),
    )


def chosen(kind, seed):
    """The name and the text of a kind and a seed."""
    if kind == "examples":
        found = examples()
        return found[seed % len(found)]
    return f"{kind} text {seed}", {"random": random_texts.text, "hot": hot}[kind](seed)


KINDS = ["examples", "random", "hot"]
