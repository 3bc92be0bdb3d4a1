"""The texts that bench/measure runs. Each function makes one, of the size that it is given; bench/measure says what they are."""
import functools
import random
import string

from boundaries import short_names

WORD = string.ascii_letters + string.digits


def long_name(number):
    """A name of 32 characters, which differs from others at its end alone."""
    return f"o{number:031}"


# The kit's `FoldHasher`, with which the tables of names and of clauses hash. Its seed is fixed.
SEED, MULTIPLIER = 0x243F_6A88_85A3_08D3, 0x9E37_79B9_7F4A_7C15


def folded_multiply(a, b):
    product = a * b
    return product % 2**64 ^ product >> 64


def hashed(state, number, size):
    """The state of the hasher after it takes a number of 4, 8 or 16 bytes, which isn't negative."""
    if size == 16:
        return folded_multiply(number % 2**64 ^ (state + 16) % 2**64, number >> 64 ^ MULTIPLIER)
    taken = number | number << 32 if size == 4 else number
    return folded_multiply(state ^ taken, MULTIPLIER ^ 2 * size)


def colliding_factors(count):
    """Pairs of factors of two deltas, of forms that all have one hash: the second is chosen so that the hasher's state is 0 behind it."""
    found, first = [], 0
    while len(found) < count:
        first += 1
        state = SEED
        for number, size in ((2, 8), (0, 4), (0, 4), (first, 16), (1, 4), (0, 4)):
            state = hashed(state, number, size)
        second = (state + 16) % 2**64
        second -= 2**64 if second >= 2**63 else 0
        if 0 < abs(second) < 9 * 10**17:
            found.append((first, second))
    return found


@functools.lru_cache
def colliding_front():
    """A front of 16 characters behind which the hasher's state is 8 characters of a name, and these."""
    draw = random.Random(1)
    while True:
        front = "".join(draw.choices(string.ascii_letters, k=16)).encode()
        low, high = (int.from_bytes(front[at : at + 8], "little") for at in (0, 8))
        state = folded_multiply(low ^ (SEED + 32), high ^ MULTIPLIER).to_bytes(8, "little")
        if all(chr(byte) in WORD for byte in state):
            return (front + state).decode()


def colliding_names(count):
    """Names of 32 characters that all have one hash.

    The hasher takes 16 bytes at a time, xors the first 8 with its state, and multiplies. Where they are the state, the product is 0
    whatever the other 8 are.
    """
    return [f"{colliding_front()}{number:08}" for number in range(count)]


def calls_text(calls, objects):
    lines = ["workload 1", "sites 4"]
    lines += [f"object o{i} in 0..1000000 = {i}" for i in range(objects)]
    lines += [f"transaction t{k}() {{ write(o{k} = read(o{k}) + 1); print(read(o{k})) }}" for k in range(0, objects, objects // 200)]
    names = [f"t{k}" for k in range(0, objects, objects // 200)]
    lists = [[] for _ in range(64)]
    for k in range(calls):
        lists[k % 64].append(f"{names[k % 64 * 3 % len(names)]}()")
    lines += [f"client c{j} at {j % 4} {{ {'; '.join(made)} }}" for j, made in enumerate(lists)]
    order = " ".join(f"c{k % 64}" for k in range(calls))
    return "\n".join(lines + [f"schedule {order}", "end", ""])


def ground_text(ground):
    calls = "; ".join(f"t({k % ground})" for k in range(20_000))
    lines = ["workload 1", "sites 1", "object x in 0..1000000000 = 0", "transaction t(n in 0..9999) { write(x = read(x) + n) }"]
    return "\n".join(lines + [f"client a at 0 {{ {calls} }}", "schedule " + "a " * 20_000, "end", ""])


def long_text(size):
    command = "if read(x) < 5 then write(x = read(x) + 1 * (2 - 1)) else { y := read(x) - 5; write(x = y) }"
    body = ";\n".join([command] * max(1, (size - 200) // (len(command) + 2)))
    return f"workload 1\nsites 1\nobject x in 0..9 = 0\ntransaction t() {{\n{body}\n}}\nend\n"


def run_text(commands):
    body = ";\n".join(["v := 1"] * commands)
    return f"workload 1\nsites 1\ntransaction t() {{\n{body}\n}}\nclient a at 0 {{ t() }}\nschedule a\nend\n"


def refused_text(size):
    body = ";\n".join(["v := 1"] + ["v := v + v"] * ((size - 20_000) // 12))
    calls = "; ".join(f"t({k})" for k in range(1_024))
    return f"workload 1\nsites 1\ntransaction t(n in 0..9999) {{\n{body}\n}}\nclient a at 0 {{ {calls} }}\nschedule {'a ' * 1_024}\nend\n"


def branches_text(temporaries):
    body = "; ".join([f"v{k} := 1" for k in range(temporaries)] + ["if v0 < 2 then v1 := 1 else skip"] * (temporaries // 2))
    return f"workload 1\nsites 1\ntransaction t() {{ {body} }}\nclient a at 0 {{ t() }}\nschedule a\nend\n"


def names_text(transactions, temporaries):
    lines = ["workload 1", "sites 1", "object x in 0..9 = 0"]
    for t in range(transactions):
        commands = "; ".join(f"v{t}x{k} := {k}" for k in range(temporaries))
        lines.append(f"transaction t{t}() {{ {commands}; print(v{t}x0) }}")
    lines.append("client a at 0 { " + "; ".join(f"t{t}()" for t in range(transactions)) + " }")
    return "\n".join(lines + ["schedule " + "a " * transactions, "end", ""])


def slots_text(slots):
    lines = ["workload 1", "sites 1", f"relation R[{slots}] (f in 0..1000, g in 0..1000)"]
    lines += ["transaction put() { insert R (f = 1, g = 2) into place; print(place) }"]
    lines += ["transaction get(p in 1..64) { print(R[p - 1].f) }", "transaction set_to(p in 1..64) { R[p - 1].f := p }"]
    lines += ["transaction look() { print(count(r of R when r.f = 1)) }", "transaction total() { print(sum(r.g of R when r.f = 1)) }"]
    lines += ["transaction clear() { delete r of R when r.f = 1 }"]
    names = ["put()"] + [f"{name}({p})" for p in range(1, 5) for name in ("get", "set_to")] + ["look()", "total()", "clear()"]
    calls = "; ".join(names[k % len(names)] for k in range(20_000))
    return "\n".join(lines + [f"client a at 0 {{ {calls} }}", "schedule " + "a " * 20_000, "end", ""])


def side_by_side(lines, sites, calls, call):
    """A text of these lines with a client at each site; all clients make the same calls, and take turns."""
    each = "; ".join(call(k) for k in range(calls // sites))
    clients = [f"client w{site} at {site} {{ {each} }}" for site in range(sites)]
    order = " ".join(f"w{k % sites}" for k in range(calls))
    return "\n".join(lines + clients + [f"schedule {order}", "end", ""])


def orders_text(calls):
    lines = ["workload 1", "sites 4", "relation R[16] (item in 0..100, amount in 0..100)"]
    lines += ["transaction order(i in 0..100, n in 1..9) { insert R (item = i, amount = n) into place; print(place) }"]
    return side_by_side(lines, 4, calls, lambda k: f"order({k % 5}, {k % 9 + 1})")


def turnover_text(slots):
    lines = ["workload 1", "sites 4", f"relation R[{slots}] (f in 0..1000, g in 0..1000)"]
    lines += ["transaction put(v in 0..1000) { insert R (f = v, g = 1) into place; print(place) }"]
    lines += ["transaction look(v in 0..1000) { print(count(r of R when r.f = v)) }"]
    lines += ["transaction total() { print(sum(r.g of R when 3 < r.f)) }"]
    lines += ["transaction clear(v in 0..1000) { delete r of R when r.f = v }"]
    names = ["put({0})", "look({0})", "total()", "clear({1})", "put({2})"]
    return side_by_side(lines, 4, 1_200, lambda k: names[k % 5].format(k % 5, k % 3, (k + 1) % 5))


def nested_text(depth):
    body = "skip"
    for k in range(depth):
        body = f"foreach r{k} of R when true {{ {body} }}"
    return f"workload 1\nsites 1\nrelation R[64] (f in 0..9)\ntransaction t() {{ {body} }}\nclient a at 0 {{ t() }}\nschedule a\nend\n"


def fields_text(fields):
    declared = ", ".join(f"f{k} in 0..9" for k in range(fields))
    return f"workload 1\nsites 1\nrelation R[1] ({declared})\ntransaction t() {{ print(R[0].f{fields - 1}) }}\nend\n"


def table_text(branches):
    lines = ["workload 1", "sites 2"] + [f"object o{k} in 0..9 = 0" for k in range(branches + 2)]
    body = [f"if read(o{k}) < 5 then write(o{k} = read(o{k}) + 1) else print(0)" for k in range(branches)]
    body += [f"write(o{k} = {k})" for k in range(branches, branches + 2)]
    return "\n".join(lines + [f"transaction t() {{ {'; '.join(body)} }}", "client a at 0 { t() }", "end", ""])


def writes_text(writes):
    body = "; ".join([f"v{k} := {k}" for k in range(writes)] + ["if read(x) < 5 then print(v0) else skip"])
    return f"workload 1\nsites 1\nobject x in 0..9 = 0\ntransaction t() {{ {body} }}\nclient a at 0 {{ t() }}\nend\n"


def tables_text(calls):
    lines = ["workload 1", "sites 2", "object x in 0..9999 = 0", "object y in 0..9999 = 0"]
    lines += ["transaction t(n in 0..9999) { if read(x) < n then write(x = read(x) + n) else skip; write(y = n) }"]
    return "\n".join(lines + ["client a at 0 { " + "; ".join(f"t({n})" for n in range(calls)) + " }", "end", ""])


def adding(sites, calls, objects):
    """Clients, one at each site, that add to eight objects in turn, which have room for it."""
    lines = ["workload 1", f"sites {sites}"] + [f"object c{k} in 0..1000000000000 = 500000000000" for k in range(8)]
    lines += [f"object o{k} in 0..9 = 0" for k in range(objects)]
    lines += [f"transaction add{k}(n in 1..9) {{ write(c{k} = read(c{k}) + n); print(n) }}" for k in range(8)]
    made = [[f"add{k % 8}({k % 9 + 1})" for k in range(calls) if k % sites == site] for site in range(sites)]
    return lines, [f"client w{site} at {site} {{ {'; '.join(each)} }}" for site, each in enumerate(made)]


def local_text(sites, objects):
    lines, clients = adding(sites, 20_000, objects)
    return "\n".join(lines + clients + ["schedule " + " ".join(f"w{k % sites}" for k in range(20_000)), "end", ""])


def work_text(sites):
    """Clients, one at each site, whose calls make a thousand assignments and write an object that has room for it."""
    lines = ["workload 1", f"sites {sites}"] + [f"object c{k} in 0..1000000000000 = 500000000000" for k in range(sites)]
    counting = "; ".join(["v := 1; v := v + 1"] * 500)
    lines += [f"transaction work{k}() {{ {counting}; write(c{k} = read(c{k}) + 1); print(v) }}" for k in range(sites)]
    made = [len(range(site, 20_000, sites)) for site in range(sites)]
    lines += [f"client w{site} at {site} {{ {'; '.join([f'work{site}()'] * count)} }}" for site, count in enumerate(made)]
    return "\n".join(lines + ["schedule " + " ".join(f"w{k % sites}" for k in range(20_000)), "end", ""])


def under_text(clauses):
    lines, clients = adding(2, 19_000, 0)
    lines.insert(2, "object y in 0..1000000000000 = 500000000000")
    lines.append("transaction look() { " + "; ".join(f"if read(y) < {k} then print(1) else skip" for k in range(clauses)) + " }")
    order = " ".join(f"w{k % 2}" for k in range(19_000))
    return "\n".join(lines + clients + ["client v at 0 { look() }", f"schedule v {order}", "end", ""])


def closing_text(calls, sites):
    lines = ["workload 1", f"sites {sites}", "object x in 0..1000000 = 0", "transaction up() { write(x = read(x) + 1); print(read(x)) }"]
    made = [len(range(site, calls, sites)) for site in range(sites)]
    clients = [f"client w{site} at {site} {{ {'; '.join(['up()'] * count)} }}" for site, count in enumerate(made)]
    return "\n".join(lines + clients + ["schedule " + " ".join(f"w{k % sites}" for k in range(calls)), "end", ""])


def plans_text(calls):
    lines = ["workload 1", "sites 2", "object x in 0..1000000 = 0"] + [f"object o{k} in 0..1000000 = 500000" for k in range(10)]
    lines += ["transaction up() { write(x = read(x) + 1); print(read(x)) }"]
    lines += ["transaction t(n in 0..9999) { " + "; ".join(f"write(o{k} = read(o{k}) + n)" for k in range(10)) + " }"]
    ups = ["; ".join(["up()"] * (calls // 2))] * 2
    others = "; ".join(f"t({n})" for n in range(200))
    lines += [f"client a at 0 {{ {ups[0]} }}", f"client b at 1 {{ {ups[1]} }}", f"client c at 0 {{ {others} }}"]
    return "\n".join(lines + ["schedule " + "a b " * (calls // 2) + "c " * 200, "end", ""])


def wide_text(calls):
    lines = ["workload 1", "sites 16"] + [f"object o{k} in 0..1000000 = 500000" for k in range(13)]
    lines += ["transaction t(n in 0..9999) { " + "; ".join(f"write(o{k} = read(o{k}) + n)" for k in range(13)) + " }"]
    for site in range(16):
        lines.append(f"client c{site} at {site} {{ " + "; ".join(f"t({n})" for n in range(site, calls, 16)) + " }")
    return "\n".join(lines + ["end", ""])


def walk_text(choices):
    lines = ["workload 1", "sites 2", "object x in 0..9 = 5"]
    lines += ["transaction t() { " + "; ".join(["if read(x) < 1 then print(1) else print(0)"] * choices) + " }"]
    return "\n".join(lines + ["client a at 0 { t() }", "end", ""])


# ---- deep texts
def deep_text(chains):
    """A call of chains of 29 `if`s within one another, each of which assigns a temporary of its own."""
    lines = ["workload 1", "sites 2", "object x in 0..9 = 5"]
    names = short_names(chains * 29)
    parts = []
    for chain in range(chains):
        made = "skip"
        for name in names[chain * 29 : chain * 29 + 29]:
            made = f"if 9<v then {name}:=1 else {made}"
        parts.append(made)
    return "\n".join(lines + [f"transaction t() {{v:=1;{';'.join(parts)}}}", "client a at 0 { t() }", "schedule a", "end", ""])


def deep_factors_text(size):
    body = ";".join(["print(" + "(" * 30 + "1" + ")" * 30 + ")", "print(" + "-" * 30 + "1)"] * (size // 112))
    return f"workload 1\nsites 1\ntransaction t() {{\n{body}\n}}\nend\n"


def depth_text(calls):
    """Different calls, each nearly as deep as may be: signs before signs, through a temporary."""
    lines = ["workload 1", "sites 2", "object x in 0..9 = 5"]
    body = "v := read(x); " + "; ".join(["v := " + "-" * 30 + "v"] * 33) + "; if v < n then print(1) else skip"
    lines += [f"transaction t(n in 0..9999) {{ {body} }}"]
    made = "; ".join(f"t({n})" for n in range(calls))
    return "\n".join(lines + [f"client a at 0 {{ {made} }}", "schedule " + "a " * calls, "end", ""])


def nots_text(nots, calls):
    """Different calls, each with a test of so many `not`s, 30 within one another."""
    test = " and ".join(["not(" * 30 + "true" + ")" * 30] * (nots // 30))
    return condition_text(test, calls)


def signs_text(signs, calls):
    """Different calls, each with a test of a sum of so many signs, 28 before each number, in brackets of 32 each."""
    group = "(" + "+".join(["-" * 28 + "1"] * 32) + ")"
    test = "+".join([group] * (signs // (28 * 32))) + " < 0"
    return condition_text(test, calls)


def condition_text(test, calls):
    made = "; ".join(f"t({n})" for n in range(calls))
    head = f"workload 1\nsites 1\ntransaction t(n in 0..9999) {{ if {test} then print(n) else skip }}"
    return f"{head}\nclient a at 0 {{ {made} }}\nschedule {'a ' * calls}\nend\n"


def long_nots_text(tests):
    """A call of 512 rows, which all have the formula of so many tests of 30 `not`s each."""
    test = " and ".join(["not(" * 30 + "true" + ")" * 30] * tests)
    body = [f"if {test} then print(1) else skip"] + ["if read(x) < 1 then print(1) else skip"] * 8
    lines = ["workload 1", "sites 1", "object x in 0..9 = 5", f"transaction t() {{ {'; '.join(body)} }}"]
    return "\n".join(lines + ["client a at 0 { t() }", "end", ""])


# ---- wide texts
def closing_on_text(calls, sites, objects):
    """Calls that each close their round, with so many objects besides."""
    text = closing_text(calls, sites)
    return text.replace("object x", "".join(f"object o{k} in 0..9 = 0\n" for k in range(objects)) + "object x", 1)


def closing_after_text(calls, names):
    """Calls that each close their round, of a transaction that stands behind one with so many temporaries."""
    body = ";".join(f"{name}:=1" for name in short_names(names))
    return closing_text(calls, 2).replace("transaction up", f"transaction before(){{{body}}}\ntransaction up", 1)


def roomy(text):
    """The text with so much room in its objects that its other calls close no round."""
    return text.replace("in 0..1000000 = 500000", "in 0..1000000000000 = 500000000000")


def others_text(calls, others):
    """Calls that each close their round, where the plan has so many other calls of 10 writes each, as many at each of 2 sites."""
    text = roomy(plans_text(calls))
    client = "client c at 0 { " + "; ".join(f"t({n})" for n in range(200)) + " }"
    made = "client c at 0 { " + "; ".join(f"t({n})" for n in range(others)) + " }"
    return text.replace(client, made).replace("c " * 200, "c " * others)


def wide_rounds_text(calls, others):
    """The calls of `wide`, and calls before them that each close their round."""
    text = roomy(wide_text(others)).replace("transaction t", "object x in 0..1000000 = 0\ntransaction t", 1)
    up = "transaction up() { write(x = read(x) + 1); print(read(x)) }\n"
    ups = "".join(f"client u{site} at {site} {{ {'; '.join(['up()'] * (calls // 2))} }}\n" for site in range(2))
    order = "u0 u1 " * (calls // 2) + "".join(f"c{site} " * len(range(site, others, 16)) for site in range(16))
    return text.replace("client c0", up + ups + "client c0", 1).replace("end\n", f"schedule {order}\nend\n")


def printing_text(calls, transactions):
    """Calls that each close their round, and so many transactions of 10 writes each that print what these change, called at each of 16 sites."""
    lines = ["workload 1", "sites 16", "object hot in 0..1000000 = 0"] + [f"object o{k} in 0..1000000 = 500000" for k in range(64)]
    for t in range(transactions):
        places = [(7 * t + 3 * k) % 64 for k in range(10)]
        writes = "; ".join(f"write(o{place} = read(o{place}) + {t + k + 1})" for k, place in enumerate(places))
        lines.append(f"transaction t{t}() {{ {writes}; print(read(hot)) }}")
    lines.append("transaction up() { write(hot = read(hot) + 1); print(read(hot)) }")
    ups, others = "; ".join(["up()"] * (calls // 2)), "; ".join(f"t{t}()" for t in range(transactions))
    lines += [f"client u{site} at {site} {{ {ups} }}" for site in range(2)] + [f"client c{site} at {site} {{ {others} }}" for site in range(16)]
    order = "u0 u1 " * (calls // 2) + "".join(f"c{site} " * transactions for site in range(16))
    return "\n".join(lines + [f"schedule {order}", "end", ""])


def sum_of(objects):
    """A sum of objects in brackets of 32 each, so that it isn't deep."""
    groups = [objects[at : at + 32] for at in range(0, len(objects), 32)]
    return " + ".join("(" + " + ".join(f"read({name})" for name in group) + ")" for group in groups)


def tested_text(names, test, calls, command="print(1)"):
    """Different calls at 16 sites, the first at site 0 and so on, that each make a test of objects, of a weight of 1 each."""
    lines = ["workload 1", "sites 16"] + [f"object {name} in 0..1 = 0" for name in names]
    lines += [f"transaction t(n in 0..9999) {{ if {test} then {command} else skip }}"]
    made = [range(site, calls, 16) for site in range(16)]
    lines += [f"client c{site} at {site} {{ {'; '.join(f't({n})' for n in each)} }}" for site, each in enumerate(made) if each]
    return "\n".join(lines + ["schedule " + " ".join(f"c{n % 16}" for n in range(calls)), "end", ""])


def forms_text(calls, objects):
    names = [f"o{k}" for k in range(objects)]
    return tested_text(names, f"{sum_of(names)} < n", calls)


def long_forms_text(calls):
    """Equations of 1,024 objects with long names, each of which makes two clauses."""
    names = [long_name(k) for k in range(1_024)]
    return tested_text(names, f"{sum_of(names)} + n * read({names[0]}) = 0", calls)


def chain_text(objects, calls):
    """A sum from left to right, without brackets."""
    names = [f"o{k}" for k in range(objects)]
    return tested_text(names, " + ".join(f"read({name})" for name in names) + " < n", calls)


def tail_text(numbers, calls):
    """A sum of 512 objects, which is multiplied by one again and again."""
    names = [f"o{k}" for k in range(512)]
    return tested_text(names, f"({sum_of(names)})" + " * 1" * numbers + " < n", calls)


def falling_text(objects, calls):
    """A sum of objects in the order that is the reverse of their declarations'."""
    names = [f"o{k}" for k in range(objects)]
    return tested_text(names, f"{sum_of(names[::-1])} < n", calls)


def single_prints_text(objects, calls):
    """A print for each object, in the order of their declarations."""
    names = [f"o{k}" for k in range(objects)]
    return tested_text(names, "n = n", calls, "{ " + "; ".join(f"print(read({name}))" for name in names) + " }")


def mixed_text(calls, objects):
    """A product of the sums of both halves of the objects."""
    names, half = [f"o{k}" for k in range(objects)], objects // 2
    return tested_text(names, f"({sum_of(names[:half])}) * ({sum_of(names[half:])}) < n", calls)


def frozen_text(calls):
    """A print of the sum of 1,024 objects."""
    names = [f"o{k}" for k in range(1_024)]
    return tested_text(names, "n = n", calls, f"print({sum_of(names)})")


def form_rounds_text(calls, others):
    """The calls of `forms`, and calls before them that each close their round."""
    text = forms_text(others, 1_000).replace("transaction t", "object x in 0..1000000 = 0\ntransaction t", 1)
    up = "transaction up() { write(x = read(x) + 1); print(read(x)) }\n"
    ups = "".join(f"client u{site} at {site} {{ {'; '.join(['up()'] * (calls // 2))} }}\n" for site in range(2))
    return text.replace("client c0", up + ups + "client c0", 1).replace("schedule ", "schedule " + "u0 u1 " * (calls // 2))


# ---- many clauses
def touched_text(clauses, calls):
    """Local calls at 2 sites, each of which touches so many clauses."""
    lines = ["workload 1", "sites 2", "object y in 0..1000000000000 = 500000000000"]
    lines += ["transaction add(n in 1..9) { write(y = read(y) + n); print(n) }"]
    lines += ["transaction look() { " + "; ".join(f"if read(y) < {k} then print(1) else skip" for k in range(clauses)) + " }"]
    made = "; ".join(f"add({k % 9 + 1})" for k in range(calls // 2))
    lines += [f"client a at 0 {{ {made} }}", f"client b at 1 {{ {made} }}", "client v at 0 { look() }"]
    return "\n".join(lines + ["schedule v " + "a b " * (calls // 2), "end", ""])


def rewritten_text(writes, clauses):
    """A call that writes one object again and again, where so many clauses have a term on it."""
    lines = ["workload 1", "sites 1", "object y in 0..1000000000000 = 500000000000"]
    lines += [f"transaction again() {{ {';'.join(['write(y=1)'] * writes)} }}"]
    each = clauses // 10
    lines.append("transaction look(p in 0..999999) { " + ";".join(f"if read(y)<p+{k} then print(1) else skip" for k in range(each)) + " }")
    looks = "; ".join(f"look({n * each})" for n in range(10))
    return "\n".join(lines + [f"client v at 0 {{ {looks}; again() }}", "schedule " + "v " * 11, "end", ""])


def many_rounds_text(clauses, sites, calls):
    """So many clauses at these sites, and calls that each close their round."""
    lines = ["workload 1", f"sites {sites}", "object x in 0..1000000 = 0", "object y in 0..1000000000000 = 500000000000"]
    lines += ["transaction up() { write(x = read(x) + 1); print(read(x)) }"]
    each = clauses // 20
    lines.append("transaction look(p in 0..999999) { " + ";".join(f"if read(y)<p+{k} then print(1) else skip" for k in range(each)) + " }")
    looks = "; ".join(f"look({n * each})" for n in range(20))
    lines += [f"client u{site} at {site} {{ {'; '.join(['up()'] * (calls // 2))} }}" for site in range(2)]
    return "\n".join(lines + [f"client v at 0 {{ {looks} }}", "schedule " + "u0 u1 " * (calls // 2) + "v " * 20, "end", ""])


def weighed(text, weights):
    """A text of version 1 as one of version 2, with these weights."""
    head, sites, rest = text.split("\n", 2)
    assert head == "workload 1" and sites == f"sites {len(weights)}"
    return "\n".join(["workload 2", sites, f"weights {', '.join(map(str, weights))}", rest])


def weighed_rounds_text(clauses):
    """The same as `many clauses`, at sites of different weights, of which two write."""
    return weighed(many_rounds_text(clauses, 16, 4), range(985, 1_001))


def weighed_wide_text(calls):
    """The same as `wide`, at sites of different weights, all of which write."""
    return weighed(wide_text(calls), range(985, 1_001))


def undone_text(objects, calls):
    """Calls that each write so many objects, the last one first, and then end themselves."""
    lines = ["workload 1", "sites 2"] + [f"object o{k} in 0..1000000 = 500000" for k in range(objects)]
    writes = ";".join(f"write(o{k} = read(o{k}) + 1)" for k in reversed(range(objects)))
    lines.append(f"transaction t() {{ {writes}; abort }}")
    lines += [f"client u{site} at {site} {{ {'; '.join(['t()'] * (calls // 2))} }}" for site in range(2)]
    return weighed("\n".join(lines + ["schedule " + "u0 u1 " * (calls // 2), "end", ""]), [3, 1])


def ending_text(objects, command):
    """20,000 local calls at 2 sites that each write so many objects, where every other call of a site does this command behind them."""
    lines = ["workload 1", "sites 2"] + [f"object o{k} in 0..1000000000000 = 500000000000" for k in range(objects)]
    writes = "; ".join(f"write(o{k} = read(o{k}) + n)" for k in range(objects))
    lines.append(f"transaction t(n in 1..2) {{ {writes}; if n = 1 then {command} else skip; print(n) }}")
    lines += [f"client u{site} at {site} {{ {'; '.join(['t(1)', 't(2)'] * 5_000)} }}" for site in range(2)]
    return weighed("\n".join(lines + ["schedule " + "u0 u1 " * 10_000, "end", ""]), [1, 1])


def under_many_text(clauses):
    """The same as `under`, with the clauses from ten calls of one transaction."""
    lines, clients = adding(2, 19_000, 0)
    lines.insert(2, "object y in 0..1000000000000 = 500000000000")
    each = clauses // 10
    lines.append("transaction look(p in 0..999999) { " + ";".join(f"if read(y)<p+{k} then print(1) else skip" for k in range(each)) + " }")
    looks = "; ".join(f"look({n * each})" for n in range(10))
    order = "v " * 10 + " ".join(f"w{k % 2}" for k in range(19_000))
    return "\n".join(lines + clients + [f"client v at 0 {{ {looks} }}", f"schedule {order}", "end", ""])


def colliding_clauses_text(clauses):
    """Four calls with so many clauses together, which all have one hash."""
    lines = ["workload 1", "sites 1", "object x in 0..1 = 0", "object y in 0..1 = 0"]
    tests = [
        f"{first}*read(x)+{second}*read(y)<1" if second > 0 else f"{first}*read(x)<1+{-second}*read(y)"
        for first, second in colliding_factors(clauses)
    ]
    for quarter in range(4):
        body = ";".join(f"if {test} then print(1) else skip" for test in tests[quarter::4])
        lines.append(f"transaction t{quarter}() {{{body}}}")
    return "\n".join(lines + ["client a at 0 { t0(); t1(); t2(); t3() }", "schedule a a a a", "end", ""])


# ---- slots
def loops_text(slots, body, calls):
    """A relation of which all slots are filled, and so many different calls of a command over them, at 2 sites."""
    lines = ["workload 1", "sites 2", f"relation R[{slots}] (f in 0..1000, g in 0..1000)"]
    lines += ["transaction put(p in 0..63) { insert R (f = p, g = 2) into place; print(place) }"]
    lines += [f"transaction t(q in 0..1023) {{ {body} }}"]
    lines += ["client a at 0 { " + "; ".join(f"put({n})" for n in range(slots)) + " }"]
    lines += ["client b at 1 { " + "; ".join(f"t({n})" for n in range(calls)) + " }"]
    return "\n".join(lines + ["schedule " + "a " * slots + "b " * calls, "end", ""])


LOOPS = {
    "foreach in foreach": "foreach r of R when true { foreach s of R when s.f = q { print(s.g) } }",
    "count in foreach": "foreach r of R when count(s of R when s.f = r.f) = q { print(r.f) }",
    "sum in update": "update r of R when sum(s.g of R when s.f = q) < 9 set g = 5",
    "insert": "insert R (f = q, g = 2) into place; print(place)",
    "delete": "delete r of R when r.f = q",
    "update": "update r of R when r.f = q set g = r.g + 1",
}


# ---- names, numbers and prints
def uncalled(commands):
    return "workload 1\nsites 1\ntransaction t() {" + ";".join(commands) + "}\nend\n"


def short_names_text(size):
    return uncalled(f"{name}:=1" for name in short_names(size // 7 - 20))


def long_names_text(size):
    return uncalled(f"{long_name(number)}:=1" for number in range(size // 36 - 20))


def colliding_text(size):
    return uncalled(f"{name}:=1" for name in colliding_names(size // 36 - 20))


def digits_text(size):
    return uncalled(["v:=" + "+".join(["123456789012345678"] * 30)] * (size // 573 - 1))


def temporaries_text(temporaries, calls):
    """A call that assigns so many different temporaries, made again and again."""
    body = ";".join(f"{name}:=1" for name in short_names(temporaries))
    client = f"client a at 0 {{ {'; '.join(['t()'] * calls)} }}"
    return f"workload 1\nsites 1\ntransaction t() {{{body}}}\n{client}\nschedule {'a ' * calls}\nend\n"


def untaken_text(temporaries):
    """20,000 calls that don't take the branch in which so many temporaries are assigned."""
    text = temporaries_text(temporaries, 20_000)
    return text.replace("{", "{if true then skip else {", 1).replace("}", "}}", 1)


def prints_text(prints):
    body = "; ".join(["print(999999999999999999)"] * (prints // 20_000))
    lines = ["workload 1", "sites 4", f"transaction t() {{ {body} }}"]
    lines += [f"client c{j} at {j % 4} {{ {'; '.join(['t()'] * 2_500)} }}" for j in range(8)]
    return "\n".join(lines + ["schedule " + "c0 c1 c2 c3 c4 c5 c6 c7 " * 2_500, "end", ""])


def clients_text(clients, sites):
    """20,000 local calls of so many clients."""
    lines, _ = adding(sites, 0, 0)
    each = 20_000 // clients
    made = [[f"add{j % 8}({k % 9 + 1})" for k in range(each)] for j in range(clients)]
    lines += [f"client v{j} at {j % sites} {{ {'; '.join(calls)} }}" for j, calls in enumerate(made)]
    return "\n".join(lines + ["schedule " + " ".join(f"v{k % clients}" for k in range(each * clients)), "end", ""])


def closing_by_text(calls, clients):
    """Calls of so many clients at 2 sites, nearly each of which closes its round."""
    lines = ["workload 1", "sites 2", "object x in 0..1000000 = 0", "transaction up() { write(x = read(x) + 1); print(read(x)) }"]
    lines += [f"client w{j} at {j % 2} {{ {'; '.join(['up()'] * (calls // clients))} }}" for j in range(clients)]
    order = " ".join(f"w{k % clients}" for k in range(calls // clients * clients))
    return "\n".join(lines + [f"schedule {order}", "end", ""])


# ---- long tables
def joint_text(calls):
    """Calls of which ten have two rows and the others one, so that there are 1,024 joint rows."""
    lines = ["workload 1", "sites 1", "object x in 0..9999 = 0"]
    lines += ["transaction two(n in 0..9) { write(x = n) }", "transaction one(n in 0..1023) { print(n) }"]
    made = [f"one({n})" for n in range(calls - 10)] + [f"two({n})" for n in range(10)]
    return "\n".join(lines + ["client a at 0 { " + "; ".join(made) + " }", "end", ""])


def long_rows_text(prints):
    """A call at 16 sites of 512 rows, each with so many prints of an object with a long name."""
    lines = ["workload 1", "sites 16", "object x in 0..9 = 0", f"object {long_name(0)} in 0..9 = 0"]
    body = ["write(x = 1)"] * 9 + [f"print(read({long_name(0)}))"] * prints
    return "\n".join(lines + [f"transaction t() {{ {'; '.join(body)} }}", "client a at 0 { t() }", "end", ""])


def long_formulas_text(objects):
    """A call at 16 sites of 1,024 rows, each with ten tests of a sum of so many objects with long names."""
    lines = ["workload 1", "sites 16"] + [f"object {long_name(k)} in 0..9 = 0" for k in range(objects)]
    test = "if " + " + ".join(f"read({long_name(k)})" for k in range(objects)) + " < {} then print(1) else skip"
    body = "; ".join(test.format(k) for k in range(10))
    return "\n".join(lines + [f"transaction t() {{ {body} }}", "client a at 0 { t() }", "end", ""])
