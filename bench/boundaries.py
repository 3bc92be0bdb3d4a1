"""The texts at each limit of docs/LIMITS.md, and one past it.

`boundaries()` gives a `Boundary` for each: its name, the code of the refusal, a text at the limit, and a text one past it, in which a
backquote stands before the place of the refusal. Each text has a schedule, so that it may be read under each command. A text at the
limit is accepted under all of them; one past it is refused under those that `refusing` gives, and accepted under the others.

`certified()` gives a text whose certificate is as long as it may be, and one whose certificate has a byte more.
`streams()` gives a `Stream` for each limit of `serve`, and one past it: its name, its bytes, the complaint and the answers.
`joint_texts()` gives those at the limit of the joint table, which refuses nothing. `long_texts()` gives texts of 1 MB that are refused
under each command, for one thing again and again, or for a fault behind as much as may stand before it.
"""
import collections
import itertools
import string

Boundary = collections.namedtuple("Boundary", "name code within past")
Stream = collections.namedtuple("Stream", "name stream said answers")

# The commands that read a text.
COMMANDS = ("steps", "run", "tables", "treaty", "forecast")
# The limits.
MOST_BYTES, MOST_SITES, MOST_SLOTS, MOST_OBJECTS, MOST_TRANSACTIONS, MOST_CLIENTS = 1_048_576, 16, 64, 1_024, 256, 64
MOST_CALLS, MOST_DIFFERENT, MOST_DIGITS, LONGEST_NAME, GREATEST_BOUND, MOST_DEEP = 20_000, 1_024, 18, 32, 10**12, 32
MOST_SIZE, MOST_SIZES, MOST_DEPTH, MOST_PRINTS, MOST_ROWS, MOST_ROWS_TIMES_SIZES = 200_000, 2_000_000, 1_000, 1_000_000, 4_096, 8_000_000
GREATEST_WEIGHT, MOST_CERTIFICATE, MOST_STREAM = 1_000, 16_777_216, 67_108_864
END = "end\n"


def refusing(code):
    """The commands under which texts are refused with this code: for their rows under `tables` alone, for their calls under `wire`."""
    return {"E12": ("tables",), "E18": ("wire 1",)}.get(code, COMMANDS)


def begin(sites):
    return f"workload 1\nsites {sites}\n"


def begin_weighed(sites, weights):
    """The lines in front of the objects in version 2, with these weights."""
    return f"workload 2\nsites {sites}\nweights {', '.join(map(str, weights))}\n"


def client_calling(calls, mark=None):
    """A client that makes these calls, the one of the number `mark` with a backquote before it, in a schedule."""
    marked = "; ".join(("`" if n == mark else "") + call for n, call in enumerate(calls))
    return f"client c at 0 {{ {marked} }}\nschedule {'c ' * len(calls)}\n"


def joined(commands):
    return "; ".join(commands)


def boundary(name, code, within, past):
    return Boundary(name, code, within.encode(), past.encode())


# ---- letters
def letters():
    """Bytes, names and numbers."""
    plain = begin(1) + END
    room = MOST_BYTES - len(plain)
    yield boundary("bytes", "E2", plain + " " * room, plain + " " * room + "` ")
    name, number = "a" * LONGEST_NAME, "9" * MOST_DIGITS
    object_named = begin(1) + "object {} in 0..1 = 0\n" + END
    yield boundary("characters of a name", "E3", object_named.format(name), object_named.format("`" + name + "a"))
    printing = begin(1) + "transaction t() {{ print({}) }}\n" + END
    yield boundary("digits of a number", "E3", printing.format(number), printing.format("`" + number + "9"))
    zeros = "0" * (MOST_DIGITS - 1) + "1"
    yield boundary("digits of a number, leading zeros too", "E3", printing.format(zeros), printing.format("`0" + zeros))


# ---- phrases
def nested(opened, inmost, closed, levels, is_past):
    return opened * (levels - 1) + ("`" if is_past else "") + opened + inmost + closed * levels


def depths():
    """Commands, factors and tests within one another, the command that they are of counted too. Only an empty block has nothing in it."""
    text = begin(1) + "transaction t() {{ {} }}\n" + END
    forms = [
        ("blocks", "{}", ("{ ", "", "} "), MOST_DEEP),
        ("branches", "{}", ("if true then ", "skip", " else skip"), MOST_DEEP - 1),
        ("signs", "print({})", ("- ", "1", ""), MOST_DEEP - 2),
        ("brackets", "print({})", ("(", "1", ")"), MOST_DEEP - 2),
        ("nots", "if {} then skip else skip", ("not (", "true", ")"), MOST_DEEP - 2),
    ]
    for what, around, parts, most in forms:
        inside = [nested(*parts, most, False), nested(*parts, most + 1, True)]
        yield boundary(f"depth of {what}", "E4", *(text.format(around.format(it)) for it in inside))


# ---- what is declared and called
def counted(count, form, mark=None):
    """That many pieces, the one of the number `mark` with a backquote where the form has its name."""
    return "".join(form.format(n=n, name=("`" if n == mark else "") + f"a{n}") for n in range(count))


def declared():
    """Sites, slots, objects, transactions, clients and bounds."""
    sites = "workload 1\nsites {}\n" + END
    yield boundary("sites, the most", "E13", sites.format(MOST_SITES), sites.format(f"`{MOST_SITES + 1}"))
    yield boundary("sites, the least", "E13", sites.format(1), sites.format("`0"))
    slots = begin(2) + "relation R[{}] (f in 0..9)\n" + END
    yield boundary("slots, the most", "E13", slots.format(MOST_SLOTS), slots.format(f"`{MOST_SLOTS + 1}"))
    yield boundary("slots, the least", "E13", slots.format(1), slots.format("`0"))
    for what, most, form in [
        ("objects", MOST_OBJECTS, "object {name} in 0..1 = 0\n"),
        ("transactions", MOST_TRANSACTIONS, "transaction {name}() {{ skip }}\n"),
        ("clients", MOST_CLIENTS, "client {name} at 0 {{ }}\n"),
    ]:
        yield boundary(what, "E13", begin(2) + counted(most, form) + END, begin(2) + counted(most + 1, form, most) + END)
    relation = "relation {mark}R[{slots}] ({fields})\n"
    fields = ", ".join(f"f{n} in 0..9" for n in range(MOST_OBJECTS // MOST_SLOTS - 1))
    full = relation.format(mark="", slots=MOST_SLOTS, fields=fields)
    marked = relation.format(mark="`", slots=MOST_SLOTS, fields=fields)
    yield boundary("objects, by slots and fields", "E13", begin(2) + full + END, begin(2) + "object x in 0..1 = 0\n" + marked + END)
    wide = ", ".join(f"f{n} in 0..9" for n in range(MOST_OBJECTS - 1))
    of_fields = [relation.format(mark=mark, slots=1, fields=wide + more) for mark, more in (("", ""), ("`", ", g in 0..9"))]
    yield boundary("objects, by fields", "E13", *(begin(2) + it + END for it in of_fields))
    for what, form in [("an upper bound", "0..{}"), ("a lower bound", "{}..0")]:
        sign = "-" if what == "a lower bound" else ""
        ranges = form.format(f"{sign}{GREATEST_BOUND}"), form.format(f"`{sign}{GREATEST_BOUND + 1}")
        yield boundary(what, "E9", *(begin(2) + f"object x in {it} = 0\n" + END for it in ranges))


def weighed():
    """The weights of sites, and how many there are."""
    greatest, past = [begin_weighed(2, [0, it]) + END for it in (GREATEST_WEIGHT, f"`{GREATEST_WEIGHT + 1}")]
    yield boundary("weight of a site, the most", "E9", greatest, past)
    yield boundary("weight of a site, the least", "E9", begin_weighed(2, [0, 1]) + END, begin_weighed(2, ["`0", 0]) + END)
    whole = begin_weighed(MOST_SITES, [1] * MOST_SITES) + END
    for what, count in (("too many", MOST_SITES + 1), ("too few", MOST_SITES - 1)):
        yield boundary(f"weights, {what}", "E8", whole, begin_weighed(MOST_SITES, ["`1"] + [1] * (count - 1)) + END)


def called():
    """Calls, and different calls."""
    body = begin(2) + "transaction t(p in 0..99999) { skip }\n"

    def text(count, distinct, mark=None):
        return body + client_calling([f"t({n % distinct})" for n in range(count)], mark) + END

    yield boundary("calls", "E13", text(MOST_CALLS, 1), text(MOST_CALLS + 1, 1, MOST_CALLS))
    most, more = MOST_DIFFERENT, MOST_DIFFERENT + 1
    yield boundary("different calls", "E13", text(most, most), text(more, more, most))
    late = [f"t({n % most})" for n in range(MOST_CALLS - 1)] + [f"t({most})"]
    yield boundary("different calls, at the last call", "E13", text(MOST_CALLS, most), body + client_calling(late, MOST_CALLS - 1) + END)


# ---- what a call may do
HEAD = begin(1) + "object x in 0..9 = 0\nrelation R[5] (f in 0..9)\n"
EMPTY = "transaction empty() { }\n"


def once(body):
    """A text with one call of this body; the number `mark` says which call has a backquote."""
    return lambda mark=None: HEAD + f"transaction t() {{ {body} }}\n" + client_calling(["t()"], mark) + END


def once_ending(body):
    """A text of version 2 with one call of this body."""
    head = begin_weighed(1, [1]) + "object x in 0..9 = 0\n"
    return lambda mark=None: head + f"transaction t() {{ {body} }}\n" + client_calling(["t()"], mark) + END


def often(body, count):
    return lambda mark=None: HEAD + f"transaction t() {{ {body} }}\n" + client_calling(["t()"] * count, mark) + END


def with_arguments(body, count, *more):
    """A text with that many different calls of this body, and more calls."""
    calls = [f"t({n})" for n in range(count)] + list(more)
    return lambda mark=None: HEAD + f"transaction t(n in 0..9999) {{ {body} }}\n" + EMPTY + client_calling(calls, mark) + END


def looped(command, count):
    return "foreach r of R when true { " + joined([command] * count) + " }"


def heavy():
    """How large values may get."""
    product = "print(1000000000 * 1000000000{})"
    yield boundary("weight of an expression", "E10", once(product.format(""))(), once(product.format(" + 1"))(0))
    # (an object in 0..9 weighs 9)
    of_temporary, most = "v := read(x) * 100000000; print(v * {})", 10**18 // (9 * 10**8)
    yield boundary("weight of a temporary's product", "E10", once(of_temporary.format(most))(), once(of_temporary.format(most + 1))(0))


def sizes():
    """How large and how deep calls may be, one and together."""
    doubled = "v := 1; " + joined(["v := v + v"] * 15)
    negated = "v := 1; " + joined(["v := " + "- " * 30 + "v"] * 33)
    skips = ";".join(["skip"] * (MOST_SIZE - 1))
    yield boundary("size of a call, of assignments", "E11", once(doubled)(), once(doubled + "; v := v + v")(0))
    yield boundary("size of a call, to the unit", "E11", once(skips)(), once(skips + ";skip")(0))
    loop = looped("skip", 39_988) + "; skip; skip; skip"
    yield boundary("size of a call, of a loop", "E11", once(loop)(), once(loop + "; skip")(0))
    # Beside its commands a call that can end itself has size 12, and for each object that it writes 13 more on one site.
    ending = ";".join(["skip"] * (MOST_SIZE - 12 - 2 - 8)) + "; abort; skip"
    yield boundary("size of a call that can end itself, to the unit", "E11", once_ending(ending)(), once_ending("skip; " + ending)(0))
    undone = ";".join(["skip"] * (MOST_SIZE - 12 - 13 - 17 - 2)) + "; write(x = 1); abort"
    yield boundary("size of a call that can undo a write, to the unit", "E11", once_ending(undone)(), once_ending("skip; " + undone)(0))
    yield boundary("depth of a call", "E11", once(negated)(), once(negated + "; v := " + "- " * 30 + "v")(0))
    to_the_unit = negated + "; v := " + "- " * (MOST_DEPTH - 991) + "v"
    yield boundary("depth of a call, to the unit", "E11", once(to_the_unit)(), once(to_the_unit + "; v := - v")(0))
    yield boundary("sizes of calls", "E11", with_arguments(doubled, 15)(), with_arguments(doubled, 16)(15))
    count = MOST_SIZES // MOST_SIZE
    yield boundary("sizes of calls, to the unit", "E11", with_arguments(skips, count)(), with_arguments(skips, count, "empty()")(count))


def printed():
    """How much all calls may print."""
    prints = joined(["print(1)"] * 50)
    in_loop = looped("print(r.f)", 10)
    late = MOST_PRINTS // 51
    yield boundary("prints", "E11", often(prints, MOST_CALLS)(), often(prints + "; print(1)", MOST_CALLS)(late))
    yield boundary("prints of loops", "E11", often(in_loop, MOST_CALLS)(), often(in_loop + "; print(1)", MOST_CALLS)(late))
    two = f"transaction t() {{ {prints} }}\ntransaction u() {{ {prints}; print(1) }}\n"
    calls = ["t()"] * (MOST_CALLS - 1)
    texts = [HEAD + two + client_calling(calls + [last], mark) + END for last, mark in (("t()", None), ("u()", MOST_CALLS - 1))]
    yield boundary("prints, to the unit", "E11", *texts)


def branched():
    """How many rows a table may have, and how large all tables may be."""
    writes = joined(["write(x = 1)"] * 12)
    ending = joined(["write(x = 1)"] * 11) + "; abort"
    loops = looped("skip", 1) + "; delete r of R when r.f = 1; write(x = 1); write(x = 2)"
    yield boundary("rows of a call", "E12", once(writes)(), once(writes + "; write(x = 1)")(0))
    yield boundary("rows of a call that can end itself", "E12", once_ending(ending)(), once_ending("write(x = 1); " + ending)(0))
    one_more = f"if read(x) = 3 then skip else {{ {writes} }}"
    yield boundary("rows of a call, to the unit", "E12", once(writes)(), once(one_more)(0))
    yield boundary("rows of a call, of loops", "E12", once(loops)(), once(loops + "; write(x = 1)")(0))
    yield boundary("rows times sizes", "E12", with_arguments(writes, 9)(), with_arguments(writes, 10)(9))
    # Nine writes have 512 rows, and with so many more commands they have size 15625: together 8000000.
    nine = ";".join(["write(x = 1)"] * 9 + ["skip"] * (MOST_ROWS_TIMES_SIZES // 512 - 1 - 9 * 17))
    yield boundary("rows times sizes, to the unit", "E12", with_arguments(nine, 1)(), with_arguments(nine, 1, "empty()")(1))


def boundaries():
    """A boundary for each limit."""
    for kind in (letters, depths, declared, weighed, called, heavy, sizes, printed, branched):
        yield from kind()


def joint_texts():
    """Texts with as many rows of the joint table as are written, and with one more, and what stands behind `joint`."""
    ten = joined(["write(x = 1)"] * 10)
    one_more = f"if read(x) = 3 then skip else {{ {ten} }}"
    within, past = once(ten)().encode(), once(one_more)().encode()
    return [("joint rows, at the limit", within, b"1024"), ("joint rows, past the limit", past, b"too many")]


# ---- long texts that are refused
def short_names(count):
    """Different names of three characters."""
    word = string.ascii_letters + string.digits
    made = ("".join(it) for it in itertools.product(string.ascii_letters, word, word))
    return list(itertools.islice((name for name in made if name not in ("and", "end", "not", "set", "sum")), count))


def repeated():
    """A megabyte of one thing."""
    within = begin(1) + "transaction t() { "
    for what, before, piece, allowed in [
        ("opening brackets", within + "print(", "(", MOST_DEEP - 2),
        ("signs", within + "print(", "-", MOST_DEEP - 2),
        ("opening braces", within, "{", MOST_DEEP),
        ("nots", within + "if ", "not(", MOST_DEEP - 2),
    ]:
        room = (MOST_BYTES - len(before)) // len(piece) - allowed
        yield what, "E4", before + piece * allowed + "`" + piece * room
    alone = {"brackets alone": "(", "signs alone": "-", "braces alone": "{", "names": "a ", "numbers": "1 ", "semicolons": ";"}
    for what, piece in alone.items():
        yield what, "E4", "`" + piece * (MOST_BYTES // len(piece))
    yield "one name", "E3", "`" + "a" * MOST_BYTES
    yield "one number", "E3", "`" + "1" * MOST_BYTES
    yield "one mark that begins nothing", "E3", "`" + "%" * MOST_BYTES
    yield "zero bytes", "E1", "`" + "\0" * MOST_BYTES
    yield "spaces", "E4", " " * MOST_BYTES + "`"
    plain = begin(1) + END
    yield "a mark that begins nothing, at the last byte", "E3", plain + " " * (MOST_BYTES - len(plain) - 1) + "`%"
    yield "a bad byte, at the last byte", "E1", plain + "%" * (MOST_BYTES - len(plain) - 1) + "`\x7f"
    yield "a word behind the end", "E4", plain + " " * (MOST_BYTES - len(plain) - 3) + "`end"


def twice():
    """A name that is declared twice, the second time behind all others."""
    for what, form, between, around, count in [
        ("objects", "object {} in 0..1=0", "\n", "{}", 47_000),
        ("transactions", "transaction {}(){{}}", "\n", "{}", 52_000),
        ("clients", "client {} at 0{{}}", "\n", "{}", 58_000),
        ("relations", "relation {}[1](f in 0..1)", "\n", "{}", 38_000),
        ("fields", "{} in 0..1", ",", "relation R[1]({})", 80_000),
        ("parameters", "{} in 0..1", ",", "transaction t({}){{}}", 80_000),
        ("fields of an insert", "{}=1", ",", "relation R[1](f in 0..1)\ntransaction t(){{insert R({}) into t}}", 80_000),
    ]:
        names = short_names(count)
        pieces = [form.format(name) for name in names] + [form.format("`" + names[0])]
        yield f"a name declared twice behind {count} {what}", "E5", begin(1) + around.format(between.join(pieces)) + "\n" + END
    names = short_names(30_000)
    loops = ";".join(f"foreach {name} of R when true{{}}" for name in names)
    body = f"relation R[1](f in 0..1)\ntransaction t(){{ v := 1; {loops}; foreach `v of R when true{{}} }}\n"
    yield "a row variable of a temporary's name behind 30000 others", "E5", begin(1) + body + END
    parameters = ",".join(f"{name} in 0..1" for name in [*names, "`last"])
    declared_before = f"transaction t({parameters}){{}}\nclient last at 0{{}}\n"
    yield "a parameter of a client's name behind 30000 others", "E5", begin(1) + declared_before + END


def late():
    """A fault in the last call, or behind all calls."""
    head = begin(2) + "transaction t(p in 0..9999) { skip }\ntransaction u(p in 0..999999999999) { print(p * 1000001) }\n"
    many = 140_000
    for what, code, last in [
        ("an unknown transaction", "E6", "`v(1)"),
        ("a client that is called", "E7", "`c(1)"),
        ("too few arguments", "E8", "`t()"),
        ("an argument out of bounds", "E9", "t(`10000)"),
    ]:
        calls = ";".join(["t(1)"] * many + [last])
        yield f"{what}, behind {many} calls", code, head + f"client c at 0 {{{calls}}}\n" + END
    calls = ";".join(["t(1)"] * MOST_CALLS + ["`t(1)"] + ["t(1)"] * (many - MOST_CALLS))
    yield f"{many} calls", "E13", head + f"client c at 0 {{{calls}}}\n" + END
    different = [f"t({n % (MOST_DIFFERENT - 1)})" for n in range(MOST_CALLS - 1)]
    heaviest = different + ["u(999999999999)"]
    yield "a call that weighs too much, behind all others", "E10", head + client_calling(heaviest, MOST_CALLS - 1) + END
    calls = ";".join(["t(1)"] * MOST_CALLS)
    client = head + f"client c at 0 {{{calls}}}\nschedule "
    yield "a schedule that is far too long", "E14", client + "c " * MOST_CALLS + "`" + "c " * 400_000 + "\n" + END
    yield "a schedule that lacks one", "E14", client + "c " * (MOST_CALLS - 1) + "\n`" + END


def long_texts():
    """Each text's name, the code of its refusal, and the text."""
    for kind in (repeated, twice, late):
        for name, code, text in kind():
            yield name, code, text.encode("latin-1")


# ---- certificates
def certified():
    """The first transaction prints many numbers, and is called with 13 arguments; the second one fills up what is left."""
    calls, many, digits = 13, 34_600, 18
    a_print, a_call = len(',["print"],["lit",]'), len('{"command":[["seq",34600]],"site":0},')
    room = MOST_CERTIFICATE - len('{"base":[],"bounds":[],"calls":[],"clauses":[],"freezes":[],"sites":1,"version":1}')
    room -= calls * (a_call + many * (a_print + digits)) + len('{"command":[["seq",1000]],"site":0}')
    more = (room - 3 * a_print - 3) // (a_print + digits)
    left = room - more * (a_print + digits) - 3 * a_print

    def text(left):
        printed = [digits] * more + [left // 3, (left + 1) // 3, (left + 2) // 3]
        first, second = (joined(f"print({'1' * it})" for it in counts) for counts in ([digits] * many, printed))
        client = "; ".join([*(f"t({n})" for n in range(1, calls + 1)), "u()"])
        transactions = f"transaction t(n in 1..{calls}) {{ {first} }}\ntransaction u() {{ {second} }}\n"
        return (begin(1) + transactions + f"client a at 0 {{ {client} }}\n" + END).encode()

    return text(left), text(left + 1)


# ---- streams
LINES = (begin(1) + "object x in 0..1 = 0\n").encode()
STREAM_HEAD, EMPTY_REPORT = LINES + END.encode(), b"round 0\nsite 0\ndatabase\nx = 0\nrounds 1 calls 0\n"
LONG_FRAME, LONG_STREAM = f"refused E2 at {MOST_BYTES}\n", f"refused E16 at {MOST_STREAM}\n"


def batch_of(size):
    """A batch of so many bytes, with no call."""
    ended = b"schedule\nend\n"
    return b" " * (size - len(ended)) + ended


def streams():
    most, line = MOST_BYTES - len(LINES), LONG_FRAME.encode()
    yield Stream("a batch's text at the limit", STREAM_HEAD + batch_of(most) + batch_of(20), "", 2 * EMPTY_REPORT)
    yield Stream("a batch's text past the limit", STREAM_HEAD + batch_of(most + 1) + batch_of(20), "", line + EMPTY_REPORT)
    yield Stream("a frame at the limit", STREAM_HEAD + batch_of(MOST_BYTES) + batch_of(20), "", line + EMPTY_REPORT)
    yield Stream("a frame past the limit", STREAM_HEAD + batch_of(20) + batch_of(MOST_BYTES + 1), LONG_FRAME, EMPTY_REPORT)
    yield Stream("a head at the limit", b" " * (MOST_BYTES - len(STREAM_HEAD)) + STREAM_HEAD + b"schedule\nend\n", "", line)
    yield Stream("a head past the limit", b" " * (MOST_BYTES - len(STREAM_HEAD) + 1) + STREAM_HEAD, LONG_FRAME, b"")
    full = STREAM_HEAD + batch_of(MOST_BYTES) * (MOST_STREAM // MOST_BYTES - 1)
    full += batch_of(MOST_STREAM - len(full) - 20) + batch_of(20)
    answers = line * (MOST_STREAM // MOST_BYTES - 1) + 2 * EMPTY_REPORT
    yield Stream("a stream at the limit", full, "", answers)
    yield Stream("a stream past the limit", full + b"\n", LONG_STREAM, answers)
