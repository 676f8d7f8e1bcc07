"""Keys, paths, entries and rows; which of two rows drops the other; stores.

A key is 33 bytes, the first of which is 0 (an open key) or 1 (an LMS key). A path is a tuple of byte strings, so that
Python's order of tuples is the order of paths: by components, each as a byte string.
"""
from dataclasses import dataclass

from octets import NotSpelled, Reader, number

KEY_LENGTH = 33
MOST_COMPONENTS, LONGEST_COMPONENT, LONGEST_PATH = 255, 255, 4096


def is_communal(namespace: bytes) -> bool:
    return namespace[-1] & 1 == 0


def read_key(reader: Reader) -> bytes:
    key = reader.take(KEY_LENGTH)
    if key[0] > 1:
        raise NotSpelled
    return key


def within_limits(path: tuple) -> bool:
    return (len(path) <= MOST_COMPONENTS and all(len(part) <= LONGEST_COMPONENT for part in path)
            and sum(map(len, path)) <= LONGEST_PATH)


def path_bytes(path: tuple) -> bytes:
    return number(1, len(path)) + b"".join(number(1, len(part)) + part for part in path)


def read_path(reader: Reader) -> tuple:
    count = reader.number(1)
    if count > MOST_COMPONENTS:
        raise NotSpelled
    path = tuple(reader.take(reader.number(1)) for _ in range(count))
    if not within_limits(path):
        raise NotSpelled
    return path


def is_prefix(path: tuple, other: tuple) -> bool:
    return other[:len(path)] == path


def path_word(path: tuple) -> str:
    """The path as it is printed."""
    return "".join("/" + part.hex() for part in path) or "."


@dataclass(frozen=True)
class Entry:
    namespace: bytes
    subspace: bytes
    path: tuple
    timestamp: int
    length: int
    digest: bytes

    def place(self):
        return self.subspace, self.path

    def rank(self):
        """The newer of two entries has the greater rank."""
        return self.timestamp, self.digest, self.length

    def spelled(self) -> bytes:
        return (self.namespace + self.subspace + path_bytes(self.path)
                + number(8, self.timestamp) + number(8, self.length) + self.digest)

    def line(self) -> str:
        """The entry's line in a listing."""
        return (f"{self.subspace.hex()} {path_word(self.path)} {self.timestamp} {self.length} "
                f"{self.digest.hex()}\n")


def read_entry(reader: Reader) -> Entry:
    return Entry(read_key(reader), read_key(reader), read_path(reader), reader.number(8), reader.number(8),
                 reader.take(32))


def dominates(row, other) -> bool:
    """Whether the row drops the other one. A row has an `entry` and `token_bytes`."""
    entry, dropped = row.entry, other.entry
    return (entry.namespace == dropped.namespace and entry.subspace == dropped.subspace
            and is_prefix(entry.path, dropped.path)
            and (entry.rank() > dropped.rank() or entry == dropped and row.token_bytes > other.token_bytes))


def equal(row, other) -> bool:
    return row.entry == other.entry and row.token_bytes == other.token_bytes


class Store:
    """The rows that came, all of one namespace: of each place the best one, and how many were new when they came.

    A row is dropped by one at a prefix of its path that is newer, and at its own place also by one that is the same
    entry under a greater token. So what was dropped drops nothing that the best rows would not drop, too.
    """

    def __init__(self):
        self.best = {}
        self.stored = 0
        self.kept = 0

    @staticmethod
    def strength(row):
        return row.entry.rank(), row.token_bytes

    def _dropped_from_above(self, row) -> bool:
        subspace, path = row.entry.place()
        above = (self.best.get((subspace, path[:count])) for count in range(len(path)))
        return any(found is not None and found.entry.rank() > row.entry.rank() for found in above)

    def covers(self, row) -> bool:
        """Whether some row that came equals or dominates it."""
        found = self.best.get(row.entry.place())
        return (found is not None and self.strength(found) >= self.strength(row)
                or self._dropped_from_above(row))

    def take(self, row):
        if self.covers(row):
            self.kept += 1
        else:
            self.best[row.entry.place()] = row
            self.stored += 1

    def live(self) -> list:
        """The rows that no other one drops, by rising subspace and path."""
        return [self.best[place] for place in sorted(self.best)
                if not self._dropped_from_above(self.best[place])]


def by_recency(rows: list) -> list:
    """The rows, the greater rank first, and of equal ranks the lower subspace and path."""
    return sorted(sorted(rows, key=lambda row: row.entry.place()), key=lambda row: row.entry.rank(), reverse=True)


def live(rows: list) -> list:
    """The rows that no row of the list drops, each once, by rising subspace and path: the definition itself."""
    found = []
    for row in rows:
        if not any(dominates(other, row) for other in rows) and not any(equal(row, other) for other in found):
            found.append(row)
    return sorted(found, key=lambda row: row.entry.place())
