"""Images of both versions: what is written, what is read, and where their bytes go wrong."""
from capabilities import read_capability, read_signature, signature_field
from entries import dominates, read_entry, read_key
from octets import NotSpelled, Reader, number, whole
from rows import LONGEST_BODY, BadBytes, Row, frame_at

LETTERS, OLD_LETTERS = b"WIM2", b"WIM1"
HEAD_LENGTH, OLD_HEAD_LENGTH = 41, 37  # letters and a key; in version 2 a number, too
END_OF_ROWS = bytes(4)


def counted(data: bytes) -> bytes:
    """The bytes behind their length."""
    return number(4, len(data)) + data


def trailer(count: int) -> bytes:
    return END_OF_ROWS + number(4, count)


def image(namespace: bytes, rows: list) -> bytes:
    """What is written: version 2, which tells each capability once."""
    spelled = [row.capability.spelled() for row in rows]
    told = sorted(set(spelled))
    places = {capability: place for place, capability in enumerate(told)}
    return b"".join((LETTERS, namespace, number(4, len(told)), *map(counted, told),
                     *(numbered(row, places[capability]) for row, capability in zip(rows, spelled)),
                     trailer(len(rows))))


def numbered(row: Row, place: int) -> bytes:
    """A row that tells its capability by a number."""
    return counted(row.entry.spelled() + number(4, place) + signature_field(row.signature))


def old_image(namespace: bytes, rows: list) -> bytes:
    """Version 1, which is still read."""
    return b"".join((OLD_LETTERS, namespace, *(row.frame() for row in rows), trailer(len(rows))))


class NotRising(Exception):
    """A row, counted from 1, is not above the one before it."""


class Pruned(Exception):
    """A row, counted from 1, is dropped by an earlier one."""


def read_image(data: bytes):
    """The namespace and the rows of an image."""
    namespace, rows = spelled_image(data)
    for at in range(1, len(rows)):
        if not rows[at].entry.place() > rows[at - 1].entry.place():
            raise NotRising(at + 1)
    for at, row in enumerate(rows):
        for by in range(at):
            if dominates(rows[by], row):
                raise Pruned(at + 1, by + 1)
    return namespace, rows


def spelled_image(data: bytes):
    reader = Reader(data)
    try:
        letters, namespace = reader.take(4), read_key(reader)
        if letters not in READ_BEHIND:
            raise NotSpelled
        return namespace, READ_BEHIND[letters](reader)
    except NotSpelled:
        raise BadBytes(0) from None


def rows_to_the_end(reader: Reader, read_next) -> list:
    """The rows up to the four zero bytes. Where the image ends before a length begins, the length's place is the image's
    own length."""
    rows = []
    while reader.data[reader.taken:reader.taken + 4] != END_OF_ROWS:
        rows.append(read_next())
    return rows


def demand_end(reader: Reader, count: int) -> None:
    if reader.data[reader.taken + 4:] != number(4, count):
        raise BadBytes(reader.taken)


def old_rows(reader: Reader) -> list:
    rows = rows_to_the_end(reader, lambda: frame_at(reader))
    demand_end(reader, len(rows))
    return rows


def new_rows(reader: Reader) -> list:
    told = capabilities(reader, reader.number(4))
    used = set()

    def read_numbered(body: Reader) -> Row:
        entry, place = read_entry(body), body.number(4)
        row = Row(entry, capability_at(told, place), read_signature(body))
        used.add(place)
        return row

    rows = rows_to_the_end(reader, lambda: behind_length(reader, read_numbered)[0])
    if len(used) < len(told):
        raise BadBytes(reader.taken)
    demand_end(reader, len(rows))
    return rows


def capability_at(told: list, place: int):
    if place >= len(told):
        raise NotSpelled
    return told[place]


def capabilities(reader: Reader, count: int) -> list:
    """So many capabilities, each above the one before it by its bytes."""
    told, last = [], b""
    while len(told) < count:
        offset = reader.taken
        capability, spelled = behind_length(reader, read_capability)
        if spelled <= last:
            raise BadBytes(offset)
        told.append(capability)
        last = spelled
    return told


def behind_length(reader: Reader, read):
    """What stands behind its length, and its bytes. What is wrong is told at the length."""
    offset = reader.taken
    try:
        length = reader.number(4)
        if not 1 <= length <= LONGEST_BODY:
            raise NotSpelled
        data = reader.take(length)
        return whole(read, data), data
    except NotSpelled:
        raise BadBytes(offset) from None


READ_BEHIND = {OLD_LETTERS: old_rows, LETTERS: new_rows}
