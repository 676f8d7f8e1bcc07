"""Cases of `key`."""
from situations import *

FIRST_DRAW, SECOND_DRAW = bytes(range(1, 33)), K.seed
DRAWS = FIRST_DRAW, SECOND_DRAW


def key(name: str, *, file: str = "k", height: int = 5, draws=DRAWS, **rest) -> Case:
    return Case(f"key-{name}", words_of("key", name=file, height=height), draws=draws, **rest)


KEYS = [
    key("takes-the-identifier-and-the-seed-of-two-draws"),
    key("of-height-10-takes-them-alike", height=10, draws=(TALL.identifier * 2, TALL.seed)),
    Case("key-leaves-other-names-and-draws-alone", words_of("key", height=5, name="0.A_z-9"),
         names={"k": b"\x01\x02", "z": b""}, draws=(b"!" * 32, b"!" * 32, b"\x03" * 32)),
    key("finds-its-name-taken-by-a-key", names={"k": at(K, 7).file()}),
    key("finds-its-name-taken-by-no-bytes", names={"k": b""}),
    key("keeps-the-status-of-a-taken-name-where-the-report-fails", names={"k": b""}, fails="r1"),
    key("finds-the-longest-name-taken", file="n" * 128, height=10, draws=(), names={"n" * 128: b"\x00"}),
    key("stops-at-a-fault-of-the-shelf", fails="s1"),
    key("stops-at-a-fault-of-the-first-draw", fails="n1"),
    key("stops-at-a-fault-of-the-second-draw", fails="n2"),
    key("stops-where-there-is-no-draw", draws=()),
    key("stops-where-there-is-one-draw", draws=(FIRST_DRAW,)),
    key("tells-a-fault-of-the-put", fails="s2"),
    key("keeps-the-file-where-the-output-fails", given=b"\x01", fails="o1 i1"),
]

GROUPS = {"keys": KEYS}
