"""What ./why says of whole reports and sessions: the sums, the rules of docs/LOCALITY.md, and how much work it is."""
import collections
import pathlib
import re
import subprocess
import tempfile

from judging import causes, report, rules, sessions, summary, workload

ROOT = pathlib.Path(__file__).resolve().parent.parent
BUILT = str(ROOT / ".build" / "homeo")
# The most tests that may be walked of the long text below, which has some 2,500 closings.
MOST_TESTS = 5_000


def steps(text):
    return subprocess.run([BUILT, "steps"], input=text.encode(), capture_output=True).stdout.decode()


def why(*words):
    return subprocess.run([str(ROOT / "why"), *map(str, words)], capture_output=True, text=True)


def summed(text, told):
    made, history = workload.read(text), report.read(told)
    return summary.Summary([summary.Part(made, history, causes.Causes(made, history))])


def check(verdict):
    check_rules(verdict)
    check_shares(verdict)
    check_long(verdict)
    check_starts(verdict)
    check_sessions(verdict)


def check_rules(verdict):
    """Each rule is a heading of docs/LOCALITY.md, and is named of the first text that stands there."""
    sections = re.split(r"^## ", (ROOT / "docs" / "LOCALITY.md").read_text(), flags=re.M)[1:]
    first = {it.split("\n")[0]: re.search(r"^```homeo\n(.*?)^```$", it, re.M | re.S) for it in sections}
    for rule in rules.ALL:
        found = first.get(rule)
        named = {it for kind in summed(found[1], steps(found[1])).by_kind() for it in kind.rules} if found else set()
        verdict(f"./why: rule: {rule}", None if rule in named else f"names {sorted(named)}" if found else "is no heading of docs/LOCALITY.md")


def check_shares(verdict):
    for part, whole, wanted in [(6, 9, "66.7 %"), (9, 9, "100 %"), (0, 9, "0 %"), (2_999, 3_000, "more than 99.9 %"), (1, 3_000, "less than 0.1 %"), (998, 1_000, "99.8 %")]:
        verdict(f"./why: a share of {part} in {whole}", None if summary.percent(part, whole) == wanted else f"is told as {summary.percent(part, whole)}")


def long_text():
    """Points of forty members at five sites, which are set anew by one call."""
    calls = [[f"earn({(7 * number + 3 * site) % 40}, {(number * number + site) % 9 + 1})" for number in range(600)] for site in range(5)]
    calls[0] += ["midnight()"]
    anew = "; ".join(f"member[{it}].today := 0" for it in range(40))
    head = f"workload 1\nsites 5\nrelation member[40] (points in 0..100000, today in 0..500)\ntransaction midnight() {{ {anew} }}\n"
    head += "transaction earn(m in 0..39, n in 1..9) { if member[m].today + n <= 500 then { member[m].today := member[m].today + n; print(n) } else print(0) }\n"
    clients = "".join(f"client s{site} at {site} {{ {'; '.join(it)} }}\n" for site, it in enumerate(calls))
    return f"{head}{clients}schedule {' '.join(['s0 s1 s2 s3 s4'] * 600)} s0\nend\n"


def check_long(verdict):
    """A report of some thousand closings is told at once, and what is left out where it would be too much is said."""
    text = long_text()
    told = steps(text)
    closings, history = told.count("\nclose "), report.read(told)
    found = causes.Causes(workload.read(text), history)
    fault = f"{closings} closings, {len(found.found)} causes, {found.asking.tests} tests"
    verdict("./why: a long report", None if closings > 1_500 and len(found.found) == closings and found.asking.tests < MOST_TESTS else fault)
    with tempfile.TemporaryDirectory() as folder:
        files = [pathlib.Path(folder) / it for it in ("text", "report")]
        files[0].write_text(text)
        files[1].write_text(told)
        short, whole = why(*files).stdout, why("--all", *files).stdout
    verdict("./why: a short and a long answer", None if len(short.splitlines()) < 20 and whole.count(" closed: ") == closings else f"{len(short.splitlines())} lines")
    sites = collections.Counter(it.split()[1] for it in told.splitlines() if it.startswith("close "))
    wanted = "closings by site: " + ", ".join(f"site {site} ({number:,})" for site, number in sites.most_common())
    verdict("./why: closings by site", None if wanted in short.splitlines() else f"{short!r} lacks {wanted!r}")
    verdict("./why: closings by object", None if re.search(rf"^closings by object: member\[\]\.today, of 40 slots .* \({closings:,}\)$", short, re.M) else f"{short!r}")
    most, causes.MOST_TESTS = causes.MOST_TESTS, 200
    made = summed(text, told)
    causes.MOST_TESTS = most
    is_told = made.left_out and f"of the {len(made.found):,} whose causes were looked for" in "\n".join(made.lines(False))
    verdict("./why: causes that are left out", None if is_told else f"{made.left_out} are left out")


def check_starts(verdict):
    """A report that begins with another database than its text."""
    text = "workload 1\nsites 2\nobject x in 0..99 = {}\ntransaction t() {{ write(x = read(x) - 1) }}\nclient a at 0 {{ t() }}\nschedule a\nend\n"
    with tempfile.TemporaryDirectory() as folder:
        files = [pathlib.Path(folder) / it for it in ("text", "report")]
        files[0].write_text(text.format(40))
        files[1].write_text(steps(text.format(50)))
        run = why(*files)
    wanted = f"why: {files[1]} is no report of {files[0]}: it begins or ends with another database: the database: x = 49, and the calls leave 39\n"
    verdict("./why: a report that begins otherwise", None if (run.returncode, run.stderr) == (1, wanted) else f"{run}")


def check_sessions(verdict):
    """A session whose batches go on with the rows of those before."""
    head = "workload 1\nsites 2\nobject left in 0..20 = 12\nrelation rows[4] (n in 0..9)\n"
    head += "transaction take(n in 1..4) { if n <= read(left) then { write(left = read(left) - n); insert rows (n = n) into t; print(t) } else print(0) }\nend\n"
    frames = ["client a at 0 { take(2); take(3) }\nclient b at 1 { take(1) }\nschedule a b a\nend\n", "client a at 0 { take(9) }\nschedule a\nend\n"]
    frames += ["client c at 1 { take(2); take(4) }\nschedule c c\n  end \r\n", "schedule end\nend\n", "client a at 1 { take(1) }\nschedule a\nend\n"]
    told = subprocess.run([BUILT, "serve"], input=(head + "".join(frames)).encode(), capture_output=True).stdout.decode()
    with tempfile.TemporaryDirectory() as folder:
        files = [pathlib.Path(folder) / it for it in ("head", "batches", "answers")]
        for file, text in zip(files, (head, "".join(frames), told)):
            file.write_text(text)
        found = sessions.Session((head + "".join(frames)).encode(), told)
        sums, run = summary.Summary(found.parts), why("--all", *files)
        verdict("./why: a session", None if run.returncode == 0 and found.head() in run.stdout and found.refused == 2 else f"{run}")
        counts = len(sums.closings), sums.calls, run.stdout.count(" closed: ")
        wanted = told.count("close "), sum(int(it) for it in re.findall(r"^rounds \d+ calls (\d+)$", told, re.M)), told.count("close ")
        verdict("./why: the closings of a session", None if counts == wanted and wanted[0] else f"{counts}, not {wanted}")
        for name, changed, part in [
            ("cut off", told[:-20], "the last answer is cut off"),
            ("other", told.replace("left = 6", "left = 5"), "batch 0: it begins or ends with another database"),
            ("too many", told + told, "answers to 5 batches"),
        ]:
            files[2].write_text(changed)
            run = why(*files)
            verdict(f"./why: answers that are {name}", None if run.returncode == 1 and part in run.stderr else f"{run}")
