"""The treaties of a run's rounds: each is derived, and the program is asked for those of the first rounds, which must be the same."""
import subprocess

import program
from judging import derivation, treaty
from judging.plain_text import PlainText
from judging.report import Illegal


# The most walks of ground calls that are made for the treaties of one run.
MOST_WALKS = 50_000


class Refused(Exception):
    """The program refuses a text of which the treaty is asked for."""


def difference(found, told):
    """What is first another in two treaties."""
    for what, ours, theirs in [("clause", found.clauses, told.clauses), ("freeze", found.freezes, told.freezes)]:
        for number in range(max(len(ours), len(theirs))):
            pair = [str(it[number]) if number < len(it) else "none" for it in (ours, theirs)]
            if pair[0] != pair[1]:
                return f"{what} {number} of the derived treaty is {pair[0]}, and that of the program {pair[1]}"
    return None


def renamed(found, names):
    clauses = [treaty.Clause(it.slack, it.bounds, [(factor, names[name], site) for factor, name, site in it.form]) for it in found.clauses]
    return treaty.Treaty(clauses, [(names[name], site) for name, site in found.freezes])


class Treaties:
    """Those of a workload's first `most` rounds; for `most_asked` of them the program is asked too.

    The treaty of a later round is that of the text that starts with its base. As no text starts with used slots, it is asked for
    by a text without relations, and so are the treaties of texts with relations from the first round on.
    """

    def __init__(self, program, workload, text, most, most_asked):
        self.program, self.workload, self.text, self.most_asked = program, workload, text, most_asked
        self.derivation, self.plain, self.kept = derivation.Derivation(workload), None, {}
        self.most = min(most, MOST_WALKS // max(1, len(self.derivation.calls)))
        self.derived, self.asked, self.refused = 0, 0, 0

    def at(self, number, base):
        """The treaty of a round with this base, None for a round past the first ones."""
        if number >= self.most:
            return None
        key = tuple(base.values())
        if key not in self.kept:
            self.kept[key] = self.derivation.treaty(base)
            if number < self.most_asked:
                self.compare(number, base, self.kept[key])
        self.derived += 1
        return self.kept[key]

    def compare(self, number, base, derived):
        told = []
        self.asked += 1
        try:
            if number == 0:
                told.append(self.ask(self.text))
            if number or self.workload.relations:
                told.append(self.ask_plain(base))
        except Refused:
            self.refused += 1
        for it in told:
            fault = difference(derived, it)
            if fault:
                raise Illegal(f"round {number}: {fault}")

    def ask_plain(self, base):
        if self.plain is None:
            self.plain = PlainText(self.workload, self.text)
        return renamed(self.ask(self.plain.starting_with(base)), {made: name for name, made in self.plain.names.items()})

    def ask(self, text):
        run = program.run([self.program, "treaty"], input=text.encode(), stdout=subprocess.PIPE, stderr=subprocess.PIPE)
        if run.returncode == 2 and run.stderr.startswith(b"refused E"):
            raise Refused
        if run.returncode or run.stderr:
            raise Illegal(f"homeo treaty ends with status {run.returncode}, {run.stderr!r}")
        return treaty.read(run.stdout.decode("ascii", "replace"))
