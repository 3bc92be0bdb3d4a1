"""The status of a cluster as one page for a browser: sites, what was answered at once, why rounds were closed in the last hour, how long calls
took. It has no script and takes nothing from elsewhere; who writes it again and again has it shown anew each ten seconds."""
import collections
import html
import time

import advice
import status

STYLE = """
body { font: 15px/1.45 system-ui, sans-serif; color: #243044; background: #f6f8fb; margin: 0 auto; max-width: 64rem; padding: 1.5rem }
h1 { font-size: 1.4rem; margin: 0 } h2 { font-size: 1.05rem; margin: 2rem 0 .5rem } p { margin: .3rem 0 } small, .muted { color: #66748a }
.figures { display: flex; flex-wrap: wrap; gap: .8rem; margin-top: 1rem }
.figures div { background: #fff; border: 1px solid #d5deea; border-radius: 6px; padding: .6rem 1rem; min-width: 8rem }
.figures b { display: block; font-size: 1.5rem }
table { border-collapse: collapse; background: #fff; border: 1px solid #d5deea; width: 100% }
th, td { text-align: left; padding: .35rem .7rem; border-top: 1px solid #e7edf5; vertical-align: top } th { font-weight: 600 }
.number { text-align: right; font-variant-numeric: tabular-nums }
.bar { display: inline-block; height: .75rem; border-radius: 2px; background: #89abd2; max-width: 12rem }
.wrong { color: #a12a2a; font-weight: 600 }
"""
# The parts of all calls within whose times the page tells, the rows that a table has at most, and the calls that a row names.
PARTS, MOST_ROWS, MOST_CALLS = (50, 95, 99), 20, 5


def escaped(value):
    return html.escape(str(value))


def row(cells, numbers, tag="td"):
    """A row of cells, those of numbers to the right."""
    return "<tr>" + "".join(f"<{tag}{' class=number' if is_number else ''}>{it}</{tag}>" for it, is_number in zip(cells, numbers)) + "</tr>"


def table(heads, rows):
    numbers = [all(isinstance(it[place], int) for it in rows) for place in range(len(heads))]
    more = f"<p><small>and {len(rows) - MOST_ROWS} more</small></p>" if len(rows) > MOST_ROWS else ""
    return f"<table>{row(heads, numbers, 'th')}{''.join(row(it, numbers) for it in rows[:MOST_ROWS])}</table>{more}"


def bar(part, whole):
    return f'<span class=bar style="width:{12 * part / max(whole, 1):.2f}rem"></span>'


def section(title, body):
    return f"<h2>{escaped(title)}</h2>{body}"


# ---- its parts
def figures(body):
    answered = status.total(body, "local") + status.total(body, "closing")
    shown = {
        "answered at once": status.share(status.total(body, "at_once"), answered),
        "calls answered": f"{answered:,}",
        "rounds closed in the last hour": f"{sum(body['closings_of_last_hour'].values()):,}",
        "calls without an answer yet": f"{body['open']:,}",
    }
    return "<div class=figures>" + "".join(f"<div><b>{escaped(value)}</b>{escaped(name)}</div>" for name, value in shown.items()) + "</div>"


def sites(body):
    calls = {it["site"]: it for it in body["calls"]}
    rows = []
    for it in body["sites"]:
        made = calls.get(it["site"], {"local": 0, "closing": 0, "at_once": 0})
        answered = made["local"] + made["closing"]
        at_once = status.share(made["at_once"], answered)
        rows.append([it["site"], mode(it), it.get("round", "-"), it.get("waiting", "-"), answered, made["closing"], at_once, it["restarts"]])
    return table(["site", "is", "round", "calls that wait", "answered", "of them closed a round", "at once", "restarts"], rows)


def mode(site):
    if not site.get("has_runner", True):
        return f"<span class=wrong>{escaped(site['mode'])}, its runner is silent</span>"
    return escaped(site["mode"]) if site["mode"] != "silent" else "<span class=wrong>silent</span>"


def by_object(reasons):
    most = max((it.count for it in reasons), default=0)
    rows = [[escaped(it.subject), it.count, bar(it.count, most), why(it)] for it in reasons]
    return table(["object", "closings", "", "asked of it now, and the rules of docs/LOCALITY.md"], rows)


def why(reason):
    """What is asked, the calls, and the rules."""
    calls = ", ".join(call for call, _ in reason.calls.most_common(MOST_CALLS)) + (", .." if len(reason.calls) > MOST_CALLS else "")
    rules = "".join(f"<p><b>{escaped(it)}</b></p>" for it in reason.rules)
    return f"<p>{escaped(reason.words)}</p><p class=muted>by {escaped(calls)}</p>{rules}"


def by_transaction(body):
    counts = collections.Counter()
    for call, count in body["closings_of_last_hour"].items():
        counts[call.partition("(")[0]] += count
    most = max(counts.values(), default=0)
    return table(["transaction", "closings", ""], [[escaped(name), count, bar(count, most)] for name, count in counts.most_common()])


def objects(body):
    if body["sum"] is None:
        return "<p>The sites aren't seen in one round now, so there is no sum.</p>"
    heads = ["object", "base", *(f"at {it['site']}" for it in body["sites"]), "sum"]
    first = body["sites"][0]["base"]
    return table(heads, [[escaped(name), first[name], *(it["deltas"][name] for it in body["sites"]), value] for name, value in body["sum"].items()])


def seconds(bucket):
    return "more" if bucket is None else f"{bucket * 1_000:g} ms" if bucket < 1 else f"{bucket:g} s"


def within(buckets, part):
    """The time within which so many of a hundred calls were answered, in words."""
    whole, count = sum(count for _, count in buckets), 0
    for bucket, more in buckets:
        count += more
        if 100 * count >= part * whole:
            return f"within {seconds(bucket)}" if bucket is not None else f"in more than {seconds(buckets[-2][0])}"
    return "-"


def times(body):
    buckets = body["seconds"]["buckets"]
    whole, most = sum(count for _, count in buckets), max(count for _, count in buckets)
    if not whole:
        return "<p>No call was answered yet.</p>"
    told = "; ".join(f"{part} of 100 {within(buckets, part)}" for part in PARTS)
    rows = [[f"up to {seconds(bucket)}" if bucket else "more", count, bar(count, most)] for bucket, count in buckets]
    return f"<p>{escaped(told)}</p>" + table(["answered in", "calls", ""], rows)


# ---- the page
def page(cluster):
    """The page of a cluster's status."""
    body, name = status.told(cluster), escaped(cluster.name())
    hour = body["closings_of_last_hour"]
    reasons = advice.reasons(cluster.text().decode("ascii", "replace"), hour, status.database_of(body))
    parts = [
        figures(body),
        section("Sites", sites(body)),
        section("Rounds closed in the last hour, by what these calls are nearest to break", by_object(reasons)) if reasons else "",
        section("By transaction", by_transaction(body)) if hour else "",
        section("How long calls took", times(body)),
        section("Objects", objects(body)),
    ]
    head = f"<!doctype html><html lang=en><meta charset=utf-8><meta http-equiv=refresh content=10><title>{name}</title><style>{STYLE}</style>"
    said = f"<p class=muted>as of {time.strftime('%Y-%m-%d %H:%M:%S %Z')}; counts are of the runners since they were begun</p>"
    return f"{head}<h1>{name}</h1>{said}{''.join(parts)}</html>\n"
