"""Feeds: the rows that came into a log since a session began, for the one at the other end of it."""
from typing import Optional

from capabilities import Area
from octets import NotSpelled, number
from rows import Row
from sessions import Early, Messages, Refused, Wrong, read_framed

ROW, END = b"\x0a", b"\x0b"
MOST = 65_536


def fed(log: list, area: Area, own: int, start: int) -> list:
    """Of a log of numbered rows those from a position on that the area includes and that are not of the own number."""
    return [row for number_of, row in log[start:] if number_of != own and area.includes(row.entry)]


def feed(rows: list) -> bytes:
    return b"".join(ROW + row.frame() for row in rows) + END + number(4, len(rows))


class Feed:
    """What stands in the bytes of a feed: the rows inside of an area, and how it ends; None while more is due."""

    def __init__(self, data: bytes, area: Area):
        self.rows, self.end = [], None
        messages = Messages(data)
        try:
            while (row := messages.next(lambda reader: read_message(reader, len(self.rows)))) is not None:
                if not area.includes(row.entry):
                    raise Refused("EntryOutside")
                self.rows.append(row)
            self.end = "done"
        except Early:
            pass
        except Wrong as wrong:
            self.end = f"BadMessage {wrong.args[0]}"
        except Refused as refused:
            self.end = refused.args[0]


def read_message(reader, count: int) -> Optional[Row]:
    """The next row of a feed behind so many; none is its end. A wrong number is wrong at its first wrong byte."""
    kind = reader.take(1)
    if kind == ROW and count < MOST:
        return read_framed(reader)
    if kind != END:
        raise NotSpelled
    for byte in number(4, count):
        if reader.number(1) != byte:
            raise NotSpelled
    return None
