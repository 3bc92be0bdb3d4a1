"""What a runner counts of calls that were answered, and what a node tells of itself, as `--status --json` has it."""
import collections
import time

# A call counts as answered at once within half a round trip, and within so many seconds where that is less.
AT_ONCE = 0.005
BUCKETS = [0.0005, 0.001, 0.0025, 0.005, 0.01, 0.025, 0.05, 0.1, 0.25, 0.5, 1, 2.5]
# The minutes of an hour.
MINUTES = 60


class LastHour:
    """Counts of the last hour, minute by minute."""

    def __init__(self):
        self.minutes = collections.deque(maxlen=MINUTES)

    def add(self, name):
        minute = time.monotonic() // 60
        if not self.minutes or self.minutes[-1][0] != minute:
            self.minutes.append((minute, collections.Counter()))
        self.minutes[-1][1][name] += 1

    def sum(self):
        least = time.monotonic() // 60 - MINUTES
        return sum((counts for minute, counts in self.minutes if minute > least), collections.Counter())


class Counts:
    """What was answered since the runner began."""

    def __init__(self, round_trip):
        self.limit = max(AT_ONCE, round_trip / 2)
        self.open, self.by_site = {}, collections.defaultdict(collections.Counter)
        self.closings, self.errors, self.slower = collections.Counter(), collections.Counter(), collections.Counter()
        self.seconds, self.hour = 0.0, LastHour()

    def asked(self, client, body):
        """A request; one that comes again counts from its first time."""
        number, arguments = body.get("msg_id"), body.get("args")
        name = f"{body.get('transaction')}({', '.join(map(str, arguments)) if isinstance(arguments, list) else arguments})"
        if self.open.get(client, (None,))[0] != number:
            self.open[client] = number, time.monotonic(), name

    def answered(self, site, client, body):
        """An answer. One that comes again doesn't count."""
        if body["type"] == "error":
            self.errors[body["code"]] += 1
        if client not in self.open or self.open[client][0] != body.get("in_reply_to") or body.get("code") == 11:
            return
        _, began, name = self.open.pop(client)
        if body["type"] == "call_ok":
            self.count(site, body["path"], time.monotonic() - began, name)

    def count(self, site, path, took, name):
        self.by_site[site].update([path, *(["at_once"] if took <= self.limit else [])])
        self.seconds += took
        self.slower[next((it for it in BUCKETS if took <= it), None)] += 1
        if path == "closing":
            self.closings[name] += 1
            self.hour.add(name)

    def told(self):
        calls = [{"site": site, **{it: counts[it] for it in ("local", "closing", "at_once")}} for site, counts in sorted(self.by_site.items())]
        buckets = [[bucket, self.slower[bucket]] for bucket in [*BUCKETS, None]]
        return {
            "calls": calls,
            "open": len(self.open),
            "closings": dict(self.closings.most_common()),
            "closings_of_last_hour": dict(self.hour.sum().most_common()),
            "errors": {str(code): count for code, count in sorted(self.errors.items())},
            "seconds": {"sum": self.seconds, "buckets": buckets},
        }


def together(all_told):
    """What several runners have counted, each of other sites, in one."""
    found = Counts(0).told()
    for told in all_told:
        found["calls"] = sorted(found["calls"] + told["calls"], key=lambda it: it["site"])
        found["open"] += told["open"]
        for name in ("closings", "closings_of_last_hour", "errors"):
            found[name] = dict((collections.Counter(found[name]) + collections.Counter(told[name])).most_common())
        found["seconds"]["sum"] += told["seconds"]["sum"]
        pairs = zip(found["seconds"]["buckets"], told["seconds"]["buckets"])
        found["seconds"]["buckets"] = [[bucket, count + more] for (bucket, count), (_, more) in pairs]
    return found


def of_node(body):
    """What a node tells, its deltas by the names of the objects."""
    return {
        "round": body["round"],
        "mode": body["mode"],
        "waiting": body["waiting"],
        "base": body["base"],
        "deltas": dict(zip(body["base"], body["deltas"])),
    }


def sum_of(sites):
    """Base and deltas of all sites added up, which is a state that the history passes; None where they aren't all seen in one round."""
    if not sites or len({it.get("round") for it in sites}) != 1 or sites[0].get("round") is None:
        return None
    return {name: value + sum(it["deltas"][name] for it in sites) for name, value in sites[0]["base"].items()}
