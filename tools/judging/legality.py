"""Whether a report's history is legal for a workload: the five things of docs/PROTOCOL.md, each checked as it is said there."""
import dataclasses

from judging.merges import Merges, check_prints
from judging.report import Illegal


@dataclasses.dataclass
class Verdict:
    """What was checked of a legal history."""

    rounds: int
    local: int
    closing: int
    whole: int
    sampled: int
    treaties: int
    asked: int
    refused: int


def check_shape(workload, history):
    for number, found in enumerate(history.rounds):
        if len(found.segments) != workload.sites:
            raise Illegal(f"round {number}: there are {len(found.segments)} sites, and not {workload.sites}")
    for what, said, count in [
        ("rounds", history.rounds_said, len(history.rounds)),
        ("calls", history.calls_said, history.calls()),
    ]:
        if said != count:
            raise Illegal(f"the last line says {what} {said}, and there are {count}")


def client_of(workload, where, site, entry):
    """The client of an entry, which stands at its site."""
    client = workload.clients.get(entry.client)
    if client is None:
        raise Illegal(f"{where}: there is no client {entry.client}")
    if client.site != site:
        raise Illegal(f"{where}: {entry.client} stands at site {client.site}")
    return client


def entries_with_clients(workload, history):
    """All entries in their order, each with where it stands and its client."""
    for number, found in enumerate(history.rounds):
        for site, entry in found.entries():
            where = f"round {number}, site {site}: {entry}"
            yield where, entry, client_of(workload, where, site, entry)


def check_first_calls(workload, history):
    """The calls of each client that stand are its first ones, once and in order, at their site; returns how many they are."""
    made = dict.fromkeys(workload.clients, 0)
    for where, entry, client in entries_with_clients(workload, history):
        if made[entry.client] == len(client.calls):
            raise Illegal(f"{where}: {entry.client} has made all its calls before")
        if entry.number != made[entry.client] + 1:
            raise Illegal(f"{where}: call {made[entry.client] + 1} of {entry.client} is next")
        wanted = client.calls[entry.number - 1]
        if entry.call != str(wanted):
            raise Illegal(f"{where}: this call of {entry.client} is {wanted}")
        made[entry.client] += 1
    return made


def check_all_calls(workload, history):
    """Each client's calls stand once and in order, at their site."""
    for name, made in check_first_calls(workload, history).items():
        if made < len(workload.clients[name].calls):
            raise Illegal(f"{name} makes {made} of its {len(workload.clients[name].calls)} calls")


def check_listed_calls(workload, history):
    """Each entry is a call that its client lists, at their site, and its number is the first place there, from 1."""
    for where, entry, client in entries_with_clients(workload, history):
        places = [place for place, call in enumerate(client.calls, 1) if str(call) == entry.call]
        if not places:
            raise Illegal(f"{where}: {entry.client} doesn't list {entry.call}")
        if entry.number != places[0]:
            raise Illegal(f"{where}: the place of {entry.call} in the list of {entry.client} is {places[0]}")


def check_schedule(workload, history):
    """The schedule is cut into parts: those of a round are its calls, each site's in order, and its closing call stands last."""
    order, next_call = workload.schedule or [], 0
    for number, found in enumerate(history.rounds):
        part = order[next_call : next_call + len(found.entries())]
        next_call += len(part)
        for site, segment in enumerate(found.segments):
            entries = segment + ([found.closing.entry] if found.closing and found.closing.site == site else [])
            scheduled = [name for name in part if workload.clients[name].site == site]
            if scheduled != [entry.client for entry in entries]:
                raise Illegal(f"round {number}, site {site}: the schedule has other calls or another order here: {' '.join(scheduled) or 'none'}")
        if found.closing and part[-1] != found.closing.entry.client:
            raise Illegal(f"round {number}: the schedule has {part[-1]} last, and not {found.closing.entry}")


def bases_of(history, merges, initial):
    """The base of each round, by running the source programs, and then the last database."""
    database, bases = initial, []
    for number, found in enumerate(history.rounds):
        where = f"round {number}"
        bases.append(database)
        database = dict(merges.last_database(where, database, found.segments))
        if found.closing:
            run = merges.calls[found.closing.entry.call].run_on(database)
            check_prints(where, found.closing.entry, run.prints, "behind the merges")
    return bases, database


def check_database(history, database):
    for number, (name, value) in enumerate(database.items()):
        if number == len(history.database):
            raise Illegal(f"the database lacks {name}")
        said, number_said = history.database[number]
        if said != name:
            raise Illegal(f"the database: {said} stands where {name} is wanted")
        if number_said != value:
            raise Illegal(f"the database: {name} = {number_said}, and the calls leave {value}")
    if len(history.database) > len(database):
        raise Illegal(f"the database: there is no {history.database[len(database)][0]}")


class Local:
    """A site by itself in a round: the base with its own deltas, on which its local steps are made.

    A local step does what the row does that the base picks. While the treaties are kept each row's formula stays true, so a call
    makes the same choices here as at the base, and its program does what that row does.
    """

    def __init__(self, where, site, base, treaty, calls, choices):
        self.where, self.site, self.base, self.treaty, self.calls = f"{where}, site {site}", site, base, treaty, calls
        self.choices, self.database = choices, dict(base)

    def base_choices(self, call):
        """What a call chooses at the base. It is kept for the round."""
        if call not in self.choices:
            self.choices[call] = self.calls[call].run_on(dict(self.base)).choices
        return self.choices[call]

    def step(self, entry):
        """The prints of a local step, and what breaks at the deltas behind it, None where nothing does."""
        run = self.calls[entry.call].run_on(self.database)
        if run.choices != self.base_choices(entry.call):
            raise Illegal(f"{self.where}: {entry} goes another way than at the base, and the treaty is kept")
        return run.prints, self.treaty.broken(self.site, self.base, self.database, run.written)

    def check_kept(self, entry):
        prints, broken = self.step(entry)
        check_prints(self.where, entry, prints, "by itself")
        if broken:
            number, found, bound = broken
            raise Illegal(f"{self.where}: {entry} breaks the treaty, clause {number} with sum {found} and bound {bound}, and closes no round")

    def check_broken(self, closing):
        _, broken = self.step(closing.entry)
        if broken is None:
            raise Illegal(f"{self.where}: {closing.entry} closes the round and breaks nothing of the treaty")
        said = (closing.clause, closing.sum, closing.bound)
        if broken != said:
            found, told = ("clause {} sum {} bound {}".format(*it) for it in (broken, said))
            raise Illegal(f"{self.where}: {closing.entry} breaks {found}, and not {told}")


def check_treaty(where, found, base, treaty, calls):
    choices = {}
    sites = [Local(where, site, base, treaty, calls, choices) for site in range(len(found.segments))]
    for local, segment in zip(sites, found.segments):
        for entry in segment:
            local.check_kept(entry)
    if found.closing:
        sites[found.closing.site].check_broken(found.closing)


def check_treaties(history, bases, treaties, calls):
    for number, (found, base) in enumerate(zip(history.rounds, bases)):
        treaty = treaties.at(number, base)
        if treaty is not None:
            check_treaty(f"round {number}", found, base, treaty, calls)


# What holds of the calls in a report of each command.
CHECKS = {
    "run": [check_all_calls],
    "steps": [check_all_calls, check_schedule],
    "wire": [check_first_calls],
    "nodes": [check_listed_calls],
}


def checked(workload, history, treaties, count, seed, command):
    """The verdict on a legal history that a command tells, and the base of each round; or `Illegal`."""
    check_shape(workload, history)
    for check in CHECKS[command]:
        check(workload, history)
    calls = {str(call): call for client in workload.clients.values() for call in client.calls}
    merges = Merges(calls, count, seed)
    bases, database = bases_of(history, merges, workload.initial())
    check_database(history, database)
    check_treaties(history, bases, treaties, calls)
    closing = len(history.rounds) - 1
    local = history.calls() - closing
    return Verdict(len(bases), local, closing, merges.whole, merges.sampled, treaties.derived, treaties.asked, treaties.refused), bases


def judge(*given):
    """The verdict on a legal history that a command tells, or `Illegal`."""
    return checked(*given)[0]
