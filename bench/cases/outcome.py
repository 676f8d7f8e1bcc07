"""What comes of words over an input that gives all that there is room for, with nothing on the shelf and no fault."""
from commands import run
from outside import ROOM, Objects


class Outcome:
    def __init__(self, words: tuple, given: bytes = b""):
        objects = Objects({}, (), given, {}, ROOM)
        self.status = run(list(words), objects)
        self.output = bytes(objects.output.held)
        self.report = objects.report.held.decode()
