"""Two stores that compare what they hold: fingerprints, cuts, answers, turns, and how they are spelled, in each version."""
from bisect import bisect_right
from collections import Counter
from dataclasses import dataclass, field, replace
from hashlib import sha256
from typing import Optional

from capabilities import Area
from entries import KEY_LENGTH, is_prefix, path_bytes
from octets import number

HIGHEST = 2  # the versions are 1 and this one
FEW = 16  # so many rows are sent without a cut
WORDS = 4  # of eight bytes, in a leaf
SUBSPACE, PATH, TIME = range(3)  # the dimensions
MOST_POINTS = 3  # of a cut of version 2

AGREE, ENTRIES, REST, END_TURN, BYE = b"\x02", b"\x04", b"\x05", b"\x06", b"\x07"
FIRST, SPLIT, PARTS = b"\x01", b"\x03", b"\x08"


def value_of(row, dimension: int):
    return (row.entry.subspace, row.entry.path, row.entry.timestamp)[dimension]


@dataclass(frozen=True)
class Cut:
    """Where a box is cut: at points of one dimension."""
    dimension: int
    points: tuple

    def spelled(self, version: int) -> bytes:
        """The front of the item that says it, up to the fingerprints."""
        count = b"" if version == 1 else number(1, len(self.points))
        points = b"".join(spelled_point(self.dimension, point) for point in self.points)
        return (SPLIT if version == 1 else PARTS) + number(1, self.dimension) + count + points

    def rises(self) -> bool:
        return all(low < high for low, high in zip(self.points, self.points[1:]))


def spelled_point(dimension: int, point) -> bytes:
    if dimension == SUBSPACE:
        return point
    return path_bytes(point) if dimension == PATH else number(8, point)


@dataclass(frozen=True)
class Box:
    """Part of an area: in each dimension the values from one on and below another, where there are such."""
    area: Area
    starts: tuple = (None, None, None)
    ends: tuple = (None, None, None)

    def has(self, row) -> bool:
        return self.area.includes(row.entry) and all(
            (start is None or value_of(row, at) >= start) and (end is None or value_of(row, at) < end)
            for at, (start, end) in enumerate(zip(self.starts, self.ends)))

    def rows(self, rows: list) -> list:
        return [row for row in rows if self.has(row)]

    def is_cut_by(self, cut: Cut) -> bool:
        """Whether the points rise, and each lies above where the box starts and below where it ends."""
        start, end = self.starts[cut.dimension], self.ends[cut.dimension]
        return cut.rises() and all(
            lies_within(self.area, cut.dimension, point)
            and (start is None or point > start) and (end is None or point < end) for point in cut.points)

    def parts(self, cut: Cut) -> list:
        """What is below the first point, between two of them, and from the last on."""
        at = cut.dimension
        bounds = (self.starts[at], *cut.points, self.ends[at])
        return [replace(self, starts=placed(self.starts, at, low), ends=placed(self.ends, at, high))
                for low, high in zip(bounds, bounds[1:])]


def placed(values: tuple, at: int, value) -> tuple:
    return values[:at] + (value,) + values[at + 1:]


def lies_within(area: Area, dimension: int, point) -> bool:
    """Whether the area reaches from below the point to above it. Of the paths of an area the first is its own."""
    if dimension == SUBSPACE:
        return area.subspace is None and point > bytes(KEY_LENGTH)
    if dimension == PATH:
        return is_prefix(area.path, point) and point != area.path
    return area.start < point and (area.end is None or point < area.end)


def fingerprint(rows: list) -> bytes:
    sums = [0] * WORDS
    for row in rows:
        leaf = sha256(row.body()).digest()
        for at in range(WORDS):
            sums[at] += int.from_bytes(leaf[8 * at:8 * at + 8], "big")
    return sha256(b"".join(number(8, value % 2 ** 64) for value in (len(rows), *sums))).digest()


def choice(version: int, rows: list) -> Optional[Cut]:
    """Where the rows of a box are cut; nowhere if they are few."""
    if len(rows) <= FEW:
        return None
    return halved(rows) if version == 1 else quartered(rows)


def halved(rows: list) -> Cut:
    """The cut of version 1."""
    first, middle = rows[0].entry, rows[len(rows) // 2].entry
    if middle.subspace > first.subspace:
        return Cut(SUBSPACE, (middle.subspace,))
    greater = [row.entry.subspace for row in rows if row.entry.subspace > first.subspace]
    return Cut(SUBSPACE, (min(greater),)) if greater else Cut(PATH, (middle.path,))


def quartered(rows: list) -> Cut:
    """The cut of version 2: by time where twice the load of that is less than that of the base dimension."""
    base = cut_of(SUBSPACE if len({row.entry.subspace for row in rows}) > 1 else PATH, rows)
    times = cut_of(TIME, rows)
    return times if 2 * load(times, rows) < load(base, rows) else base


def cut_of(dimension: int, rows: list) -> Cut:
    """At the values at the quarters that are above the least; where none is, at the least that is."""
    values = sorted(value_of(row, dimension) for row in rows)
    above = sorted(set(values) - {values[0]})
    at_quarters = {values[part * len(values) // 4] for part in (1, 2, 3)} & set(above)
    return Cut(dimension, tuple(sorted(at_quarters) or above[:1]))


def load(cut: Cut, rows: list) -> int:
    """How many rows the part has that has the most."""
    return max(Counter(bisect_right(cut.points, value_of(row, cut.dimension)) for row in rows).values())


@dataclass(frozen=True)
class Print:
    """An ask: what the other side's fingerprint of a box is."""
    box: Box
    told: bytes

    def answer(self, version: int, rows: list):
        own = self.box.rows(rows)
        if fingerprint(own) == self.told:
            return AGREE, [], []
        cut = choice(version, own)
        if cut is None:
            return ENTRIES + number(1, len(own)) + frames(own), own, [Sent(self.box, own)]
        asks = [Print(part, fingerprint(part.rows(own))) for part in self.box.parts(cut)]
        return cut.spelled(version) + b"".join(ask.told for ask in asks), [], asks


@dataclass(frozen=True)
class Sent:
    """An ask: which rows of a box the other side has."""
    box: Box
    told: list

    def answer(self, _version: int, rows: list):
        known = {row.body() for row in self.told}
        own = [row for row in self.box.rows(rows) if row.body() not in known]
        return REST + number(4, len(own)) + frames(own), own, []


def frames(rows: list) -> bytes:
    return b"".join(row.frame() for row in rows)


@dataclass
class Run:
    """What was said, the rows that came to either side, and the number of counted items."""
    turns: list = field(default_factory=list)
    came: tuple = field(default_factory=lambda: ([], []))
    items: int = 0

    def transcript(self) -> bytes:
        return b"".join(bytes((at % 2,)) + number(4, len(turn)) + turn for at, turn in enumerate(self.turns))


def exchange(left: list, right: list, area: Optional[Area], version: int = HIGHEST) -> Run:
    """The turns of two sides with rows by rising subspace and path; the left one begins."""
    run = Run()
    if area is None:
        run.turns = [BYE, BYE]
        return run
    box = Box(area)
    told = fingerprint(box.rows(left))
    run.turns.append(FIRST + told + END_TURN)
    run.items, asks = 1, [Print(box, told)]
    sides = (left, right)
    while asks:
        side = len(run.turns) % 2
        answers = [ask.answer(version, sides[side]) for ask in asks]
        asks = [ask for _, _, opened in answers for ask in opened]
        run.items += len(answers)
        for _, rows, _ in answers:
            run.came[1 - side].extend(rows)
        run.turns.append(b"".join(item for item, _, _ in answers) + (END_TURN if asks else BYE))
    run.turns.append(BYE)
    return run
