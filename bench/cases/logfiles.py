"""Log files: what they hold, and a keeper of one.

The bytes of a file, the order of writes and syncs and what a fault is told as are docs/FORMATS.md's and docs/USAGE.md's. Taken
from the program is how it reads: a sync, the length and one read of all as a file is opened, and the length once more as a log is
begun. Only cases in which a call of the disk fails rest on that. A write that fails leaves the bytes as they were.
"""
from octets import NotSpelled, Reader, number
from outside import Fault
from report import BAD_INPUT, READ_FAULT, WRITE_FAULT, Stop
from rows import WrongFrame, read_frame

MARK, OPEN, SHUT = b"WLG1", b"\x01", b"\x00"
LEAST = 39
SLICE = 256


def header(namespace: bytes) -> bytes:
    return OPEN + MARK + namespace


def record(rows: list) -> bytes:
    frames = b"".join(row.frame() for row in rows)
    return OPEN + number(4, len(frames)) + frames


def log_file(namespace: bytes, *slices: list) -> bytes:
    """The file of a log with a record for each slice."""
    return header(namespace) + b"".join(map(record, slices)) + SHUT


class BadLog(Exception):
    """The log goes wrong at this place."""

    def __init__(self, at: int):
        super().__init__(at)
        self.at = at


def rows_of(frames: bytes) -> list:
    reader, rows = Reader(frames), []
    while reader.left() > 0:
        rows.append(read_frame(reader))
    return rows


def held(data: bytes, namespace: bytes):
    """The rows that a file holds and the place of its closed gate; None where it holds no log."""
    if len(data) < LEAST or data[:1] != OPEN:
        return None
    if data[:LEAST - 1] != header(namespace):
        raise BadLog(0)
    at, rows = LEAST - 1, []
    while True:
        if at == len(data):
            raise BadLog(at)
        if data[at:at + 1] != OPEN:
            return rows, at
        try:
            reader = Reader(data[at + 1:])
            frames = reader.take(reader.number(4))
            rows += rows_of(frames)
        except (NotSpelled, WrongFrame):
            raise BadLog(at) from None
        at += 5 + len(frames)


class Keeper:
    """A log file that is open, of a disk that was handed out."""

    def __init__(self, disk, namespace: bytes):
        self.disk, self.broken = disk, False
        disk.sync()
        disk.length()
        found = held(disk.read(), namespace)
        if found is None:
            self.begin(namespace)
            found = [], LEAST - 1
        self.rows, self.end = found
        self.kept = len(self.rows)

    def begin(self, namespace: bytes) -> None:
        if self.disk.length() < LEAST:
            self.disk.write(0, SHUT)
            self.disk.sync()
        self.gate_last(0, header(namespace) + SHUT)

    def gate_last(self, at: int, piece: bytes) -> None:
        self.disk.write(at + 1, piece[1:])
        self.disk.sync()
        self.disk.write(at, piece[:1])
        self.disk.sync()

    def keep(self, rows: list) -> None:
        """Keeps these rows, unless a write failed before, or fails."""
        for begin in range(0, len(rows), SLICE):
            if self.broken:
                return
            piece = record(rows[begin:begin + SLICE])
            try:
                self.gate_last(self.end, piece + SHUT)
            except Fault:
                self.broken = True
                return
            self.end += len(piece)
            self.kept += len(rows[begin:begin + SLICE])


def opened(objects, name: str, namespace: bytes) -> Keeper:
    """The log file of the name. A disk that is refused is given back."""
    try:
        disk = objects.bay.open(name)
    except Fault:
        raise Stop(READ_FAULT) from None
    try:
        return Keeper(disk, namespace)
    except BadLog as bad:
        objects.bay.give_back(disk)
        raise Stop(BAD_INPUT, name=name, offset=bad.at) from None
    except Fault:
        objects.bay.give_back(disk)
        raise Stop(READ_FAULT if disk.failed_reading else WRITE_FAULT) from None
