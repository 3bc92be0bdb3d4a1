"""What ./why says of reports and of sessions."""
import pathlib
import signal
import sys

import progress
from judging import ahead, causes, report, sessions, summary, workload


def bytes_of(name):
    return sys.stdin.buffer.read() if name == "-" else pathlib.Path(name).read_bytes()


def explain_report(name, report_name, shows_all):
    """Why the rounds of a report were closed."""
    text, told = (bytes_of(it).decode("ascii", "replace") for it in (name, report_name))
    made, history = workload.read(text), report.read(told)
    with progress.Progress("why: round", len(history.rounds)) as said:
        found = causes.Causes(made, history, say=said)
    return summary.Summary([summary.Part(made, history, found)]).lines(shows_all)


def explain_session(head, batches, told, shows_all):
    """Why the rounds of a session's batches were closed."""
    stream, told = bytes_of(head) + bytes_of(batches), bytes_of(told).decode("ascii", "replace")
    with progress.Progress("why: batch", told.count("\nrounds ")) as said:
        found = sessions.Session(stream, told, said)
    return [found.head(), *summary.Summary(found.parts).lines(shows_all)]


def explained(name, names, shows_all):
    """Prints what is said of a text and its report, or of a head, batches and answers, or why it can't be; gives the exit status."""
    signal.signal(signal.SIGPIPE, signal.SIG_DFL)
    try:
        print("\n".join((explain_report if len(names) == 1 else explain_session)(name, *names, shows_all)))
        return 0
    except OSError as fault:
        print(f"why: {fault}", file=sys.stderr)
    except workload.Unreadable as fault:
        print(f"why: {name} is no text that is accepted: {fault} (./why {name} says more)", file=sys.stderr)
    except report.Illegal as fault:
        print(f"why: {names[-1]} is no report of {name}: {fault}", file=sys.stderr)
    return 1


def explain_treaty(text, shows_all):
    """What may happen before the first round of an accepted text closes."""
    signal.signal(signal.SIGPIPE, signal.SIG_DFL)
    print("\n".join(ahead.Ahead(workload.read(text.decode("ascii"))).lines(shows_all)))
