"""Prints what is said in exchanges of two stores: how long each turn is, and the SHA-256 digest of all of them together.

It goes by docs/FORMATS.md and by what it means that a side answers an ask, over plain sorted lists, and shares no code
with the crates. The table is that of the pairs of `exchange_trials`: for each case the version, how many rows are made, from
which number and how far apart, for which area, the lengths of the turns, the number of items, how many rows each side gets,
and the digest. With `--check` it compares its table with that of the tests.

usage: python3 bench/exchange/make.py [--check]
"""
import hashlib
import re
import sys
from pathlib import Path

FEW = 16
WORD = 1 << 64
TESTS = Path(__file__).resolve().parents[2] / "crates" / "exchange_trials" / "src" / "pairs.rt"


def key(byte):
    """An open key with this byte throughout its body."""
    return b"\x00" + bytes([byte]) * 32


def number(width, value):
    return value.to_bytes(width, "big")


# ---- rows


class Row:
    """A row in the namespace of N, with a token of 102 bytes."""

    def __init__(self, subspace, path, time, token):
        self.subspace, self.path, self.time = key(subspace), path, time
        spelled = bytes([len(path)]) + b"".join(bytes([len(part)]) + part for part in path)
        self.entry = key(ord("N")) + self.subspace + spelled + number(8, time) + number(8, 1) + b"\x11" * 32
        self.token = bytes([token]) * 102

    def place(self):
        return self.subspace, self.path

    def values(self):
        """Its values in the three dimensions."""
        return self.subspace, self.path, self.time

    def body(self):
        return self.entry + self.token

    def frame(self):
        return number(4, len(self.body())) + self.body()

    def dominates(self, other):
        if self.subspace != other.subspace or other.path[: len(self.path)] != self.path:
            return False
        if self.time != other.time:
            return self.time > other.time
        return self.entry == other.entry and self.token > other.token


def live(rows):
    """The rows that no row of the list dominates, each once, in order."""
    kept = {row.body(): row for row in rows if not any(other.dominates(row) for other in rows)}
    return sorted(kept.values(), key=Row.place)


def made(count, seed, spread):
    """So many rows that look random, those of the left side and those of the right: two in `spread` are of one alone."""
    left, right, at = [], [], seed
    for _ in range(count):
        at = (at * 6364136223846793005 + 1442695040888963407) % WORD
        high = at >> 32
        subspace = ord("U") if high % 2 == 0 else ord("V")
        first, second = bytes([high // 2 % 64]), bytes([high // 128 % 16])
        path = (first,) if high // 2048 % 32 == 0 else (first, second)
        row = Row(subspace, path, 100 + high // 65536 % 64, high // 4194304 % 2)
        side = high // 8388608 % spread
        if side != 0:
            left.append(row)
        if side != 1:
            right.append(row)
    return live(left), live(right)


# ---- boxes


class Box:
    """Ranges of subspaces, paths and times, each with its start and its end; None is no end."""

    def __init__(self, subspaces, paths, times):
        self.ranges = subspaces, paths, times

    def has(self, row):
        return all(start <= value and (end is None or value < end) for (start, end), value in zip(self.ranges, row.values()))

    def rows(self, rows):
        return [row for row in rows if self.has(row)]

    def between(self, dimension, start, end):
        """The same box with another range in the dimension."""
        ranges = list(self.ranges)
        ranges[dimension] = start, end
        return Box(*ranges)

    def cut(self, dimension, points):
        """The parts below the first point, between the points, and from the last on."""
        start, end = self.ranges[dimension]
        starts, ends = [start, *points], [*points, end]
        return [self.between(dimension, low, high) for low, high in zip(starts, ends)]


def box_of(subspace, times):
    """The box of all paths of a subspace, or of any, and of these times."""
    keys = (bytes(33), None) if subspace is None else (key(subspace), key(subspace)[:-1] + bytes([subspace + 1]))
    return Box(keys, ((), None), times)


# ---- what is said


def fingerprint(rows):
    sums = [0, 0, 0, 0]
    for row in rows:
        leaf = hashlib.sha256(row.body()).digest()
        for i in range(4):
            sums[i] = (sums[i] + int.from_bytes(leaf[8 * i:8 * i + 8], "big")) % WORD
    return hashlib.sha256(b"".join(number(8, n) for n in [len(rows)] + sums)).digest()


def middle_point(rows):
    """Where version 1 cuts many rows: at a subspace (0) or a path (1)."""
    first, middle = rows[0], rows[len(rows) // 2]
    above = [row.subspace for row in rows if row.subspace > first.subspace]
    if middle.subspace > first.subspace:
        return 0, [middle.subspace]
    return (0, [min(above)]) if above else (1, [middle.path])


def quarter_points(rows, dimension):
    """The distinct values at the quarters that are above the least; where none is, the least value that is above it."""
    values = sorted(row.values()[dimension] for row in rows)
    above = {values[n * len(values) // 4] for n in (1, 2, 3)} - {values[0]}
    return sorted(above) or sorted(set(values) - {values[0]})[:1]


def load(rows, dimension, points):
    """The greatest number of rows in one part."""
    places = [sum(point <= row.values()[dimension] for point in points) for row in rows]
    return max(places.count(place) for place in places)


def even_points(rows):
    """Where version 2 cuts many rows: by time (2) where that is far more even."""
    base = 0 if len({row.subspace for row in rows}) > 1 else 1
    points, times = quarter_points(rows, base), quarter_points(rows, 2)
    return (2, times) if 2 * load(rows, 2, times) < load(rows, base, points) else (base, points)


def cut_of(version, rows):
    """The dimension and the points at which the box of these rows is cut; None where they are few."""
    if len(rows) <= FEW:
        return None
    return middle_point(rows) if version == 1 else even_points(rows)


def spelled_point(dimension, point):
    if dimension == 0:
        return point
    if dimension == 2:
        return number(8, point)
    return bytes([len(point)]) + b"".join(bytes([len(part)]) + part for part in point)


def spelled_cut(version, dimension, points):
    """A Split or a Parts up to its fingerprints."""
    head = b"\x03" + number(1, dimension) if version == 1 else b"\x08" + number(1, dimension) + number(1, len(points))
    return head + b"".join(spelled_point(dimension, point) for point in points)


class Turn:
    """The bytes of a turn, how many items count in it, its rows, and the asks that it opens to the other side."""

    def __init__(self):
        self.bytes, self.items, self.rows, self.opens = b"", 0, [], []

    def say(self, text, rows=(), opens=()):
        self.bytes += text + b"".join(row.frame() for row in rows)
        self.items += 1
        self.rows += rows
        self.opens += opens

    def end(self):
        self.bytes += b"\x06" if self.opens else b"\x07"
        return self


def answer(version, turn, rows, ask):
    """Says the answer of a side with these rows to a box with a fingerprint, or with the rows that were sent."""
    box, told = ask
    own = box.rows(rows)
    if isinstance(told, list):
        sent = {row.body() for row in told}
        rest = [row for row in own if row.body() not in sent]
        turn.say(b"\x05" + number(4, len(rest)), rest)
    elif told == fingerprint(own):
        turn.say(b"\x02")
    elif cut_of(version, own) is None:
        turn.say(b"\x04" + number(1, len(own)), own, [(box, own)])
    else:
        dimension, points = cut_of(version, own)
        parts = box.cut(dimension, points)
        prints = [fingerprint(part.rows(rows)) for part in parts]
        turn.say(spelled_cut(version, dimension, points) + b"".join(prints), opens=list(zip(parts, prints)))


def exchange(version, left, right, box):
    """The turns by the rules of a version, left and right by turns."""
    first = Turn()
    if box is not None:
        print_of_left = fingerprint(box.rows(left))
        first.say(b"\x01" + print_of_left, opens=[(box, print_of_left)])
    turns = [first.end()]
    while turns[-1].opens:
        turn = Turn()
        for ask in turns[-1].opens:
            answer(version, turn, right if len(turns) % 2 == 1 else left, ask)
        turns.append(turn.end())
    return turns + [Turn().end()]


# ---- the table

# so many rows, from a number on, of which two in so many are of one side alone, with the subspace of an area, if it has
# one, and its times
CASES = [
    (60, 1, 16, "U", (0, None)),
    (300, 2, 4, None, (0, None)),
    (300, 3, 128, "V", (0, None)),
    (300, 4, 16, None, (120, 150)),
    (700, 5, 128, None, (0, None)),
    (700, 6, 512, None, (0, None)),
]


def rust(value):
    return "None" if value is None else f"Some({value})"


def line(version, case):
    count, seed, spread, subspace, times = case
    left, right = made(count, seed, spread)
    byte = None if subspace is None else ord(subspace)
    turns = exchange(version, left, right, box_of(byte, times))
    lengths = ", ".join(str(len(turn.bytes)) for turn in turns)
    to_left = sum(len(turn.rows) for turn in turns[1::2])
    to_right = sum(len(turn.rows) for turn in turns[0::2])
    items = sum(turn.items for turn in turns)
    digest = hashlib.sha256(b"".join(turn.bytes for turn in turns)).hexdigest()
    place = rust(None if byte is None else f"b'{subspace}'")
    return (f"({version}, ({count}, {seed}, {spread}), ({place}, {times[0]}, {rust(times[1])}), &[{lengths}], "
            f"{items}, ({to_left}, {to_right}), \"{digest}\")")


def words(text):
    return re.findall(r"[A-Za-z0-9']+", text)


def main():
    lines = [line(version, case) for version in (1, 2) for case in CASES]
    if sys.argv[1:] != ["--check"]:
        print(",\n".join(lines))
        return 0
    table = re.search(r"(?:const|static) MADE: .*?= \[(.*?)\n\];", TESTS.read_text(), re.S)
    same = table is not None and words(table.group(1)) == words(" ".join(lines))
    print("the table is the same" if same else "the table differs")
    return 0 if same else 1


if __name__ == "__main__":
    sys.exit(main())
