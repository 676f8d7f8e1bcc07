"""Cases of `gen`."""
from situations import *


def gen(name: str, rows: int, **rest) -> Case:
    return Case(f"gen-{name}", words_of("gen", rows=rows), **rest)


GENERATED = [
    gen("makes-the-first-row", 1),
    gen("makes-rows-of-each-writer", 10),
    gen("makes-a-row-of-a-short-path", 50),
    gen("leaves-nothing-where-the-first-write-fails", 2, fails="o1"),
    gen("leaves-a-front-of-the-rows-where-the-second-write-fails", 2, fails="o2"),
    gen("keeps-the-status-of-a-write-fault-where-the-report-fails", 2, fails="o1 r1"),
    gen("calls-nothing-but-the-output", 1, given=b"\x01", names={"k": b""}, fails="i1 s1 n1 r1"),
]

GROUPS = {"generated rows": GENERATED}
