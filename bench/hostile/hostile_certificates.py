"""Certificates that are made to be dear or to be taken wrongly, for bench/hostile/at-limits: each with its name and with what `verify` has to say."""
import json

MOST = 16_777_216
KEYS = ("base", "bounds", "calls", "clauses", "freezes", "sites", "version")
SIZE, WORD = 4 * 10**18, 2**63


def certificate(nodes=(), base=(5,), sites=1, clauses=(), bounds=None, freezes=(), calls=None):
    """The text of a certificate, of one call at site 0 with these nodes or of these calls."""
    calls = [{"command": [*nodes], "site": 0}] if calls is None else calls
    bounds = [[it["slack"], *[0] * (sites - 1)] for it in clauses] if bounds is None else bounds
    parts = dict(zip(KEYS, (base, bounds, calls, clauses, freezes, sites, 1)))
    return json.dumps(parts, separators=(",", ":")).encode()


def printed(*expression):
    return certificate([["print"], *expression])


def clause(slack, *terms):
    return {"slack": slack, "terms": terms}


# A small one that is valid.
SMALL = certificate(
    [["if", 1], ["<="], ["delta", 0, 0], ["lit", 3], ["write", 0, 0], ["neg"], ["delta", 0, 0], ["skip"]], clauses=[clause(3, (0, 0, 1))]
)


# ---- what they are of
def deep():
    """Nodes within one another, and JSON values that are."""
    for kind, opened in (("signs", [["neg"]]), ("sums", [["sum", 1]])):
        yield f"{kind} 1,000 deep", printed(*opened * 998, ["lit", 1]), "valid"
        yield f"{kind} 1,001 deep", printed(*opened * 999, ["lit", 1]), "invalid shape"
    yield "commands 1,000 deep", certificate([*[["seq", 1]] * 999, ["skip"]]), "valid"
    yield "commands 1,001 deep", certificate([*[["seq", 1]] * 1_000, ["skip"]]), "invalid shape"
    test = [["not", 1]] * 998
    yield "tests 1,000 deep", certificate([["if", 1], *test, ["true"], ["skip"], ["skip"]]), "valid"
    yield "signs a million deep", printed(*[["neg"]] * 1_000_000, ["lit", 1]), "invalid shape"
    yield "lists 127 deep", b"[" * 127 + b"]" * 127, "invalid shape"
    yield "lists 128 deep", b"[" * 128 + b"]" * 128, "invalid json"
    yield "lists as deep as there may be bytes", b"[" * MOST, "invalid json"
    yield "objects as deep as there may be bytes", b'{"":' * (MOST // 4), "invalid json"


def counted():
    """As many as there may be, and one more, and counts of more than there are."""
    skip = {"command": [["skip"]], "site": 0}
    for count, said in ((1_024, "valid"), (1_025, "invalid shape")):
        yield f"{count:,} objects", certificate([["skip"]], base=[0] * count), said
        yield f"{count:,} calls", certificate(calls=[skip] * count), said
    for count, said in ((16, "valid"), (17, "invalid shape"), (0, "invalid shape")):
        yield f"{count} sites", certificate([["skip"]], sites=count), said
    yield "no calls", certificate(calls=[]), "valid"
    for name in ("sum", "product", "seq", "if", "not"):
        for count in (10**18, WORD - 1, WORD, -1):
            yield f"{name} of {count}", certificate([["print"], [name, count]]), "invalid shape"
    yield "object 1", printed(["base", 1]), "invalid shape"
    yield "site 1", printed(["delta", 0, 1]), "invalid shape"
    for number, said in ((2**32 - 1, "valid"), (2**32, "invalid shape"), (-1, "invalid shape")):
        yield f"temporary {number}", printed(["named", number]), said


def numbered():
    """Numbers at their limits."""
    for number, said in ((SIZE, "valid"), (-SIZE, "valid"), (SIZE + 1, "invalid size 0"), (-SIZE - 1, "invalid size 0")):
        yield f"the number {number}", printed(["lit", number]), said
    for number, said in ((WORD - 1, "invalid size 0"), (-WORD, "invalid size 0"), (WORD, "invalid shape"), (-WORD - 1, "invalid shape")):
        yield f"the number {number}", printed(["lit", number]), said
        yield f"the base {number}", certificate([["print"], ["base", 0]], base=[number]), said
        yield f"the base {number} that is not read", certificate([["skip"]], base=[number]), "valid" if "size" in said else said
    yield "a partial sum above the limit", printed(["sum", 3], ["lit", SIZE], ["lit", 1], ["lit", -1]), "invalid size 0"
    yield "a partial product above the limit", printed(["product", 3], ["lit", SIZE], ["lit", 2], ["lit", 0]), "invalid size 0"
    yield "a factor above the limit", printed(["product", 3], ["delta", 0, 0], ["lit", SIZE], ["lit", 2]), "invalid size 0"
    yield "a product of 2 to the 60th, twice", printed(["product", 120], *[["lit", 2]] * 120), "invalid size 0"
    most = WORD - 1
    yield "bounds that come to 2 to the 64th", certificate([["skip"]], sites=2, clauses=[clause(0)], bounds=[[most, most]]), "invalid bounds 0"
    yield "bounds that come to the largest slack", certificate([["skip"]], sites=2, clauses=[clause(most)], bounds=[[most - 1, 1]]), "valid"
    yield "a bound below 0", certificate([["skip"]], sites=2, clauses=[clause(0)], bounds=[[1, -1]]), "invalid bounds 0"
    test = [["if", 1], ["<="], ["delta", 0, 0], ["lit", 3], ["skip"], ["skip"]]
    for slack, said in ((3, "valid"), (4, "invalid clause 0"), (-WORD, "invalid bounds 0")):
        yield f"a slack of {slack}", certificate(test, clauses=[clause(slack, (0, 0, 1))]), said
    yield "a factor of 0", certificate([["skip"]], clauses=[clause(3, (0, 0, 0))]), "invalid shape"
    yield "the largest factor", certificate([["skip"]], clauses=[clause(3, (0, 0, most))]), "valid"


def repeated():
    """Keys and spaces again and again, strings and numbers as long as there may be bytes."""
    keys = b'"version":1,' * ((MOST - len(SMALL)) // 12)
    yield "a key again and again", SMALL[:1] + keys + SMALL[1:], "valid"
    yield "a key with another value first", b'{"version":2,' + SMALL[1:], "valid"
    yield "a key with another value last", SMALL[:-1] + b',"version":2}', "invalid shape"
    others = ",".join(f'"{it:x}":0' for it in range(1_200_000)).encode()
    yield "a million keys", b"{" + others + b"}", "invalid shape"
    yield "spaces", b" " * MOST, "invalid json"
    yield "spaces around", b" " * ((MOST - len(SMALL)) // 2) + SMALL + b"\n" * ((MOST - len(SMALL)) // 2), "valid"
    yield "a long string", b'"' + b"a" * (MOST - 2) + b'"', "invalid shape"
    yield "a string without an end", b'"' + b"\\\\" * (MOST // 2 - 1), "invalid json"
    yield "a long number", b"1" * MOST, "invalid json"
    yield "a long fraction", b"0." + b"1" * (MOST - 2), "invalid shape"
    yield "a long exponent", b"1e" + b"0" * (MOST - 3) + b"1", "invalid shape"
    yield "zeros", b"[" + b"0," * (MOST // 2 - 2) + b"0]", "invalid shape"


def cut():
    """The small one, and each beginning of it."""
    yield "a small one", SMALL, "valid"
    for length in range(len(SMALL)):
        yield f"{length} of {len(SMALL)} bytes", SMALL[:length], "invalid json"


def wide():
    """A long list, and what takes longer than its bytes say: long forms, and many clauses or freezes under many calls for them."""
    yield "a sum of 1,000,000 numbers", printed(["sum", 1_000_000], *[["lit", 1]] * 1_000_000), "valid"
    own = [["delta", x, 0] for x in range(1_024)]
    for name, deltas in (("in order", own), ("backwards", own[::-1])):
        yield f"a sum of the deltas of 1,024 objects, {name}", certificate([["print"], ["sum", 1_024], *deltas], base=[0] * 1_024), "valid"
    frozen = [[x, j] for x in range(1_024) for j in range(16)]
    nodes = [["seq", 1_000], *[["print"], ["delta", 1_023, 15]] * 1_000]
    yield "1,000 prints of the last of 16,384 frozen deltas", certificate(nodes, base=[0] * 1_024, sites=16, freezes=frozen), "valid"
    test = [["if", 1], ["<="], ["delta", 0, 0], ["lit", 3], ["skip"], ["skip"]]
    clauses = [*[clause(0, (0, 0, 2))] * 5_000, clause(3, (0, 0, 1))]
    yield "1,000 tests that the last of 5,001 clauses keeps", certificate([["seq", 1_000], *test * 1_000], clauses=clauses), "valid"


def certificates():
    """All of them."""
    yield from deep()
    yield from counted()
    yield from numbered()
    yield from repeated()
    yield from cut()
    yield from wide()
