"""Bytes: how numbers stand in them, and how a front of them is read."""


class NotSpelled(Exception):
    """No value of the format is spelled by these bytes."""


class Short(NotSpelled):
    """The bytes end before a value does."""


def number(width: int, value: int) -> bytes:
    """A number in `width` bytes, the greatest place first."""
    return value.to_bytes(width, "big")


class Reader:
    """Bytes that are read from the front. What asks for more than there is, is not spelled."""

    def __init__(self, data: bytes, taken: int = 0):
        self.data = data
        self.taken = taken

    def take(self, count: int) -> bytes:
        if count > self.left():
            raise Short
        piece = self.data[self.taken:self.taken + count]
        self.taken += count
        return piece

    def number(self, width: int) -> int:
        return int.from_bytes(self.take(width), "big")

    def left(self) -> int:
        return len(self.data) - self.taken


def whole(read, data: bytes):
    """The value that all of the bytes spell."""
    reader = Reader(data)
    value = read(reader)
    if reader.left() > 0:
        raise NotSpelled
    return value
