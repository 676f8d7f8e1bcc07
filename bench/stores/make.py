"""Prints what becomes of lists of rows that look random, offered to a store one after the other.

It goes by what it means that a row dominates another, over plain sorted lists, and shares no code with the stores.
The tables are those of the tests of `store_trials`: for each list how many rows are kept out, the sum of the positions
of the rows that they are kept out by, how many rows are pruned, and how many are left. With `--check` it compares its
tables with those of the tests.
"""
import os
import re
import sys

PARTS = (b"a", b"b", b"ab", b"")
WORD = 1 << 64


def path_of(number):
    first, second = PARTS[number % 4], PARTS[number // 8 % 4]
    kind = number // 64 % 8
    if kind == 0:
        return ()
    return (first,) if kind <= 3 else (first, second)


def row_of(number):
    """A subspace, a path, a rank (time, digest, length) and a token."""
    high = number >> 32
    rank = (high // 8 % 8, 0x11 if high // 4 % 2 == 0 else 0x12, high // 64 % 2)
    return 1 + high % 2, path_of(high // 128), rank, 0 if high // 2 % 2 == 0 else 7


def wide_row_of(number):
    high = number >> 32
    first, second = bytes([97 + high // 2 % 3]), bytes([high // 8 % 128])
    path = (first,) if high // 8192 % 64 == 0 else (first, second)
    return 1 + high % 2, path, (high // 1024 % 8, 0x11, 1), 0


def dominates(row, other):
    if row[0] != other[0] or other[1][: len(row[1])] != row[1]:
        return False
    if row[2] != other[2]:
        return row[2] > other[2]
    return row[1] == other[1] and row[3] > other[3]


def outcome(number, length, made):
    """How many are kept out, the sum of the positions that tell why, how many are pruned, and how many are left."""
    rows, kept, by, pruned = [], 0, 0, 0
    for _ in range(length):
        number = (number * 6364136223846793005 + 1442695040888963407) % WORD
        row = made(number)
        covering = [i for i, held in enumerate(rows) if held == row or dominates(held, row)]
        if covering:
            kept, by = kept + 1, by + covering[0]
            continue
        left = [held for held in rows if not dominates(row, held)]
        pruned += len(rows) - len(left)
        rows = sorted(left + [row], key=lambda held: held[:2])
    return kept, by, pruned, len(rows)


def main():
    tables = {
        "LISTS": [outcome(number, 40, row_of) for number in range(1, 25)],
        "WIDE_LISTS": [outcome(number, 400, wide_row_of) for number in range(1, 5)],
    }
    if sys.argv[1:] != ["--check"]:
        for name, rows in tables.items():
            print(name, *rows, sep="\n    ")
        return 0
    here = os.path.dirname(os.path.abspath(__file__))
    with open(os.path.join(here, "../../crates/store_trials/src/tests.rt"), encoding="utf-8") as tests:
        text = tests.read()
    wrong = 0
    for name, rows in tables.items():
        stored = re.search(rf"(?:const|static) {name}: .*? = \[(.*?)\];", text, re.S).group(1)
        found = [tuple(map(int, row.split(","))) for row in re.findall(r"\(([^)]*)\)", stored)]
        wrong += found != rows
        print(name, "as stored" if found == rows else "DIFFERENT")
    return wrong


if __name__ == "__main__":
    sys.exit(main())
