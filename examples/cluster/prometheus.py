"""The status of a cluster as a page in the text form of Prometheus."""


class Page:
    """A page in the text form of Prometheus."""

    def __init__(self):
        self.lines = []

    def add(self, name, kind, what, rows):
        """A measure with what it is, and rows of labels and values."""
        self.lines += [f"# HELP homeo_{name} {what}", f"# TYPE homeo_{name} {kind}"]
        for labels, value in rows:
            self.row(name, labels, value)

    def row(self, name, labels, value):
        within = ",".join(f'{label}="{it}"' for label, it in labels.items())
        self.lines.append(f"homeo_{name}{{{within}}} {value}" if labels else f"homeo_{name} {value}")


def page(body):
    found, sites = Page(), body["sites"]
    of = lambda it, **more: {"site": it["site"], **more}
    seen = [it for it in sites if "round" in it]
    answering = [(of(it), int(it in seen and it.get("has_runner", True))) for it in sites]
    found.add("site_answers", "gauge", "Whether the site tells its status.", answering)
    found.add("site_running", "gauge", "Whether the site answers calls alone now.", [(of(it), int(it["mode"] == "running")) for it in seen])
    found.add("site_round", "gauge", "The round of the site.", [(of(it), it["round"]) for it in seen])
    found.add("site_waiting_calls", "gauge", "Calls that wait at the site.", [(of(it), it["waiting"]) for it in seen])
    found.add("site_restarts_total", "counter", "How often the site was begun again.", [(of(it), it["restarts"]) for it in sites])
    values = [({"object": name}, value) for name, value in (body["sum"] or {}).items()]
    found.add("object", "gauge", "Base and deltas of all sites, while they are in one round.", values)
    deltas = [(of(it, object=name), delta) for it in seen for name, delta in it["deltas"].items()]
    found.add("delta", "gauge", "What a site has changed in its round.", deltas)
    paths = [(of(it, path=path), it[path]) for it in body["calls"] for path in ("local", "closing")]
    found.add("calls_total", "counter", "Answered calls.", paths)
    found.add("calls_at_once_total", "counter", "Calls that were answered at once.", [(of(it), it["at_once"]) for it in body["calls"]])
    found.add("open_calls", "gauge", "Calls that have no answer yet.", [({}, body["open"])])
    closings = [({"object": name}, count) for name, count in body["closings_by_object"].items()]
    found.add("closings_total", "counter", "Rounds that calls of an object closed.", closings)
    found.add("errors_total", "counter", "Errors that were answered.", [({"code": code}, count) for code, count in body["errors"].items()])
    add_seconds(found, body["seconds"])
    return "\n".join(found.lines) + "\n"


def add_seconds(page, seconds):
    """How long calls took, as a histogram."""
    page.add("answer_seconds", "histogram", "How long calls took.", [])
    count = 0
    for bucket, more in seconds["buckets"]:
        count += more
        page.row("answer_seconds_bucket", {"le": "+Inf" if bucket is None else bucket}, count)
    page.row("answer_seconds_sum", {}, f"{seconds['sum']:.6f}")
    page.row("answer_seconds_count", {}, count)
