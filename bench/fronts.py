"""Bytes that are read from the left, judged at the first that is missing or that nothing can begin with.

It shares no code with the crates.
"""

MAX_FRAME = 131_072
MAX_PART, MAX_PARTS, MAX_TOTAL = 255, 255, 4096  # of a path: bytes of a component, components, bytes of all


class More(Exception):
    """The bytes end inside what is read."""


class Bad(Exception):
    """Nothing begins with the bytes."""


class Bytes:
    """Bytes that are read from the left."""

    def __init__(self, text):
        self.text = text
        self.taken = 0

    def byte(self, most=255):
        if self.taken == len(self.text):
            raise More
        value = self.text[self.taken]
        if value > most:
            raise Bad
        self.taken += 1
        return value

    def some(self, count):
        front = self.text[self.taken:self.taken + count]
        if len(front) < count:
            raise More
        self.taken += count
        return front

    def number(self, most):
        """Four bytes, the highest first: bad at the first byte behind which every number is above `most`."""
        value = 0
        for place in (24, 16, 8, 0):
            value += self.byte() << place
            if value > most:
                raise Bad
        return value

    def key(self):
        return bytes([self.byte(most=1)]) + self.some(32)

    def path(self):
        room = MAX_TOTAL
        for _ in range(self.byte(most=MAX_PARTS)):
            length = self.byte(most=min(MAX_PART, room))
            room -= length
            self.some(length)
