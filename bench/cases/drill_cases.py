"""Cases of `drill`."""
from situations import *


def drill(name: str, rows: int, **rest) -> Case:
    return Case(f"drill-{name}", words_of("drill", rows=rows), **rest)


DRILLED = [
    drill("of-one-row-meets-a-store-without-rows", 1),
    drill("of-two-rows", 2),
    drill("of-an-odd-number-gives-the-right-side-fewer-than-half", 9),
    drill("of-few-rows-sends-all-in-one-turn", 33),
    drill("of-rows-that-are-cut-by-subspace", 40),
    drill("of-rows-that-prune-each-other", 120),
    drill("of-a-thousand-rows", 1000),
    drill("of-twenty-thousand-rows", 20_000),
    drill("of-as-many-rows-as-a-log-takes", 65_536),
]

DRILL_FAULTS = [
    drill("leaves-nothing-where-the-first-write-fails", 2, fails="o1"),
    drill("keeps-the-status-of-a-write-fault-where-the-report-fails", 2, fails="o1 r1"),
    drill("calls-nothing-but-the-output", 3, given=b"\x01", names={"k": b""}, fails="i1 s1 n1 r1"),
]

GROUPS = {"generated stores": DRILLED, "faults": DRILL_FAULTS}
