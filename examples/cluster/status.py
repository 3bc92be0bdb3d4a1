"""What a cluster tells of itself, for who asks: for people, as JSON, and its database; prometheus.py and dashboard.py have two more forms."""
import collections
import json
import pathlib
import socket
import sys
import time

import counts
import prometheus
from nodes import ROOT

# The objects and the calls that people are shown, and the seconds within which a cluster answers.
MOST_OBJECTS, MOST_CALLS, PATIENCE = 30, 5, 10
# How often a cluster is asked whose sites aren't in one round, and the seconds between.
MOST_ASKED, BETWEEN = 5, 0.1


class Folder:
    """A cluster that runs on this machine."""

    def __init__(self, folder):
        self.folder = pathlib.Path(folder)

    def name(self):
        return str(self.folder)

    def text(self):
        return (self.folder / "text").read_bytes()

    def told_now(self):
        with socket.socket(socket.AF_UNIX) as asking:
            asking.settimeout(PATIENCE)
            asking.connect(str(self.folder / "socket"))
            asking.sendall(b'{"body":{"type":"status","msg_id":1}}\n')
            with asking.makefile("rb") as lines:
                return json.loads(lines.readline())["body"]


class Kept:
    """A cluster over an engine. What its nodes are is what is kept of them, of all at one moment, whether their runners are there or not."""

    def __init__(self, engine):
        self.engine = engine

    def name(self):
        return self.engine.where

    def text(self):
        return self.engine.text()

    def told_now(self):
        objects, found = self.engine.seen()
        sites = [site_of(objects, site, state, told) for site, (state, told) in enumerate(found)]
        return {"sites": sites, "sum": counts.sum_of(sites), **counts.together([told for _, told in found if told])}


def site_of(objects, site, state, told):
    """What a node would tell that has this state, and its runner."""
    found = {"site": site, "restarts": told["restarts"] if told else 0, "has_runner": bool(told)}
    if not state:
        return found | {"mode": "silent"}
    return found | counts.of_node({**state, "waiting": len(state["queue"]), "base": dict(zip(objects, state["base"]))})


def found(cluster, redis=None):
    """The cluster in a folder, or the one of this name over Redis."""
    if not redis:
        return Folder(cluster)
    from redis_engine import RedisEngine

    return Kept(RedisEngine(redis, cluster))


def told(cluster):
    """The status of a cluster. Sites that are on their way to one round are asked again for a while."""
    for _ in range(MOST_ASKED):
        body = cluster.told_now()
        if body["sum"] is not None or any(it["mode"] == "silent" for it in body["sites"]):
            break
        time.sleep(BETWEEN)
    return body


class Noted(dict):
    """A database that notes which of its numbers are asked for."""

    def __init__(self, database):
        super().__init__(database)
        self.asked = []

    def __getitem__(self, name):
        self.asked.append(name)
        return super().__getitem__(name)


def objects_of(text, calls, database):
    """The objects, or the slots of relations, that each call changes on a database, and where it changes none those that it asks for."""
    sys.path.append(str(ROOT / "tools"))
    try:
        from judging import workload
    except ImportError:
        return {}
    listed = {str(call): call for client in workload.read(text).clients.values() for call in client.calls}
    found = {}
    for name in calls:
        if name in listed:
            numbers = Noted(database)
            changed = listed[name].run_on(numbers).written
            found[name] = sorted({".".join(it.split(".")[:2]) for it in (changed or numbers.asked)})
    return found


def database_of(body):
    """The sum, or where there is none the base of a last round; empty where no node tells one."""
    return body["sum"] or max((it for it in body["sites"] if "base" in it), key=lambda it: it["round"], default={"base": {}})["base"]


def closings_by_object(cluster, body, closings):
    """How many rounds were closed by calls of each object, of closings by calls."""
    database, found = database_of(body), collections.Counter()
    if database and closings:
        for name, objects in objects_of(cluster.text().decode("ascii", "replace"), closings, database).items():
            for it in objects:
                found[it] += closings[name]
    return dict(found.most_common())


def said(cluster, form):
    """The status of a cluster, in a form."""
    body = told(cluster)
    body["closings_by_object"] = closings_by_object(cluster, body, body["closings"])
    return {"json": as_json, "prometheus": prometheus.page, "table": as_table, "database": as_database}[form](body)


def as_json(body):
    return json.dumps({key: value for key, value in body.items() if key not in ("type", "in_reply_to")}, indent=1) + "\n"


class Busy(Exception):
    """The cluster isn't at rest: calls are open, or nodes aren't all running in one round."""


def as_database(body):
    """The database of a cluster at rest, as a report has it, but for relations, and the round that all nodes are in."""
    if body["sum"] is None or body["open"] or any(it["mode"] != "running" for it in body["sites"]):
        raise Busy("calls are open, or nodes aren't all running in one round, so there is no last database")
    values = "".join(f"{name} = {value}\n" for name, value in body["sum"].items())
    return f"database\n{values}round {body['sites'][0]['round']}\n"


def total(body, what):
    return sum(it[what] for it in body["calls"])


def share(part, whole):
    return f"{100 * part // whole} %" if whole else "-"


def named(counts):
    more = len(counts) - MOST_CALLS
    shown = [f"{name} {count}" for name, count in list(counts.items())[:MOST_CALLS]]
    return ", ".join(shown + ([f"and {more} more"] if more > 0 else []))


def as_table(body):
    """For people."""
    lines = []
    for it in body["sites"]:
        waits = f", calls that wait: {it['waiting']}" if it.get("waiting") else ""
        again = f"; restarts: {it['restarts']}" if it["restarts"] else ""
        absent = "" if it.get("has_runner", True) else "; its runner is silent"
        lines.append(f"site {it['site']}: {it['mode']}" + (f" in round {it['round']}{waits}" if "round" in it else "") + again + absent)
    lines += objects_table(body)
    answered = total(body, "local") + total(body, "closing")
    ways = f"{total(body, 'local')} by their site alone, {total(body, 'closing')} closed a round"
    lines.append(f"{answered} calls answered: {ways}; {body['open']} open")
    lines.append(f"answered at once: {share(total(body, 'at_once'), answered)}")
    if body["closings"]:
        lines.append(f"closings by object: {named(body['closings_by_object'])}")
        lines.append(f"closings by call: {named(body['closings'])}")
    return "\n".join(lines) + "\n"


def objects_table(body):
    """Each object with its base, the sites' deltas, and the sum."""
    sites = [it for it in body["sites"] if "base" in it]
    if body["sum"] is None:
        return ["the sites aren't seen in one round now, so there is no sum"]
    rows = [["object", "base", *(f"at {it['site']}" for it in sites), "sum"]]
    for name, value in list(body["sum"].items())[:MOST_OBJECTS]:
        rows.append([name, sites[0]["base"][name], *(it["deltas"][name] for it in sites), value])
    widths = [max(len(str(row[place])) for row in rows) for place in range(len(rows[0]))]
    lines = ["  ".join([f"{row[0]:<{widths[0]}}", *(f"{it:>{width}}" for it, width in zip(row[1:], widths[1:]))]) for row in rows]
    more = len(body["sum"]) - MOST_OBJECTS
    return lines + ([f"and {more} objects more"] if more > 0 else [])
