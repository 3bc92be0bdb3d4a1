"""The stream and the answers of a session of `serve`, as docs/SERVING.md says how they are cut, and the parts of its summary."""
import re

from judging import causes, report, summary, workload

END = re.compile(rb"^[ \t\r]*end[ \t\r]*(?:\n|\Z)", re.M)
LAST_LINE = re.compile(r"^(?:rounds|refused) .*\n?", re.M)


def frames(stream):
    """The frames of a stream: each ends with a line that is `end`, and what stands behind the last one is one more."""
    ends = [it.end() for it in END.finditer(stream)]
    found = [stream[begin:end] for begin, end in zip([0, *ends], ends)]
    rest = stream[ends[-1] if ends else 0 :]
    return found + ([rest] if rest else [])


def answers(told):
    """The answers, each up to its last line."""
    ends = [it.end() for it in LAST_LINE.finditer(told)]
    if told[ends[-1] if ends else 0 :]:
        raise report.Illegal("the last answer is cut off: it has no line of rounds and calls")
    return [told[begin:end] for begin, end in zip([0, *ends], ends)]


def text_of(head, frame):
    """The text of a batch: the head without its last line, and the frame."""
    *_, last = END.finditer(head)
    return (head[: last.start()] + frame).decode("ascii", "replace")


class Session:
    """A session's batches with the answers to them. `parts` has those that were made, `refused` counts the others."""

    def __init__(self, stream, told, say=lambda done: None):
        head, *batches = frames(stream)
        found = answers(told)
        if len(found) > len(batches):
            raise report.Illegal(f"there are {len(found)} answers to {len(batches)} batches")
        self.batches, self.answered, self.refused, self.parts = len(batches), len(found), 0, []
        self.database = workload.read(head.decode("ascii", "replace")).initial()
        for number, (frame, answer) in enumerate(zip(batches, found)):
            say(number)
            if answer.startswith("refused "):
                self.refused += 1
            else:
                self.parts.append(self.part(number, text_of(head, frame), answer))

    def part(self, number, text, answer):
        try:
            made, history = workload.read(text), report.read(answer)
            found = causes.Causes(made, history, initial=self.database)
        except (report.Illegal, workload.Unreadable) as fault:
            raise report.Illegal(f"batch {number}: {fault}") from None
        self.database = found.last
        return summary.Part(made, history, found, number)

    def head(self):
        """What there was of batches, and how often all sites came to one state."""
        said = [summary.counted(self.batches, "batch").replace("batchs", "batches")]
        said += [f"{self.refused} refused"] if self.refused else []
        said += [f"{self.batches - self.answered} not answered"] if self.answered < self.batches else []
        states, ends = sum(len(it.history.rounds) for it in self.parts), len(self.parts)
        closings = f"{summary.counted(states - ends, 'closing')} and {summary.counted(ends, 'end')} of batches"
        return f"{', '.join(said)}; all sites came to one state {summary.counted(states, 'time')}, at {closings}"
