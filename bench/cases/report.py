"""The lines of the report and the status that goes with each."""
from dataclasses import dataclass


@dataclass(frozen=True)
class Kind:
    """A kind of stop."""
    status: int
    line: str


USAGE = Kind(2, "usage\n")
READ_FAULT = Kind(3, "read fault\n")
WRITE_FAULT = Kind(4, "write fault\n")
BAD_INPUT = Kind(5, "bad input {name} at {offset}\n")
NOT_RISING = Kind(5, "not rising {name} row {at}\n")
PRUNED = Kind(5, "pruned {name} row {at} by {by}\n")
MISSING = Kind(5, "missing {name}\n")
TAKEN = Kind(5, "taken {name}\n")
SESSION_REFUSED = Kind(6, "session refused: {text}\n")
LOG_FULL = Kind(8, "log full\n")
KEY_SPENT = Kind(9, "key spent\n")

REFUSED = "refused: {text}\n"


class Stop(Exception):
    """What ends a run before its command came to its end."""

    def __init__(self, kind: Kind, **fields):
        super().__init__(kind.line)
        self.kind = kind
        self.fields = fields
        self.behind = ""  # what a log file keeps that was open as the run stopped

    def line(self) -> str:
        return self.kind.line.format(**self.fields) + self.behind


def first_refused(refusals: list) -> str:
    """The line of the first row that was left out; none where all were taken."""
    if not refusals:
        return ""
    at, text = refusals[0]
    return f"first refused row {at}: {text}\n"
