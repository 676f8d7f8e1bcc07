"""Rows with their tokens, frames, and the rows of the generator."""
from dataclasses import dataclass
from functools import cached_property

from capabilities import (WRITE, Capability, accepts, entry_message, initial_message, open_signature,
                          read_capability, read_signature, signature_field)
from entries import Entry, read_entry
from octets import NotSpelled, Reader, number, whole

LONGEST_BODY = 131_072
OWNED = b"\x00" + b"O" * 32  # the namespace of the generator's rows


@dataclass(frozen=True)
class Row:
    entry: Entry
    capability: Capability
    signature: bytes

    @cached_property
    def token_bytes(self) -> bytes:
        return self.capability.spelled() + signature_field(self.signature)

    @cached_property
    def body_bytes(self) -> bytes:
        return self.entry.spelled() + self.token_bytes

    def body(self) -> bytes:
        return self.body_bytes

    def frame(self) -> bytes:
        return number(4, len(self.body())) + self.body()

    def refusal(self, namespace: bytes):
        """Why the row is not authorised in the namespace: what fails first."""
        if self.entry.namespace != namespace or self.capability.namespace != namespace:
            return "WrongNamespace"
        if self.capability.mode != WRITE:
            return "NotWrite"
        chain = self.capability.refusal()
        if chain is not None:
            return f"Chain {chain}"
        if not self.capability.grant().includes(self.entry):
            return "OutsideGrant"
        if not accepts(self.capability.receiver(), entry_message(self.entry), self.signature):
            return "BadEntrySignature"
        return None


def read_row(reader: Reader) -> Row:
    return Row(read_entry(reader), read_capability(reader), read_signature(reader))


class WrongFrame(Exception):
    """A frame is wrong or ends early."""


def read_frame(reader: Reader) -> Row:
    try:
        length = reader.number(4)
        if not 1 <= length <= LONGEST_BODY:
            raise NotSpelled
        return whole(read_row, reader.take(length))
    except NotSpelled:
        raise WrongFrame from None


class BadBytes(Exception):
    """Bytes go wrong at an offset."""

    def __init__(self, offset: int):
        super().__init__(offset)
        self.offset = offset


def frame_at(reader: Reader) -> Row:
    """The row of the next frame. A wrong frame is told at its length."""
    offset = reader.taken
    try:
        return read_frame(reader)
    except WrongFrame:
        raise BadBytes(offset) from None


class Frames:
    """A stream of frames that comes in pieces."""

    def __init__(self):
        self.begun = b""  # the frame that is not whole
        self.offset = 0  # its place in the stream

    def feed(self, piece: bytes) -> list:
        """The rows of the frames that are whole with this piece."""
        reader, rows = Reader(self.begun + piece), []
        begin = 0
        while self.is_whole(reader):
            try:
                rows.append(read_frame(reader))
            except WrongFrame:
                raise BadBytes(self.offset + begin) from None
            begin = reader.taken
        self.begun = reader.data[begin:]
        self.offset += begin
        return rows

    @staticmethod
    def is_whole(reader: Reader) -> bool:
        """Whether a frame is whole, or its length is one that no frame has."""
        length = int.from_bytes(reader.data[reader.taken:reader.taken + 4], "big")
        return reader.left() >= 4 and (length > LONGEST_BODY or reader.left() >= 4 + length)

    def finish(self) -> None:
        if self.begun:
            raise BadBytes(self.offset)


def generated(index: int) -> Row:
    """A row of the generator."""
    number_of_writer = index % 8
    first, second = divmod(index // 8, 32)
    writer = b"\x00" + b"U" * 31 + bytes((number_of_writer,))
    path = (number(2, first),) if index % 50 == 49 else (number(2, first), number(1, second))
    entry = Entry(OWNED, writer, path, 1_700_000_000_000_000 + index, index % 4096, number(8, index) * 4)
    initial = open_signature(OWNED, initial_message(WRITE, writer))
    capability = Capability(WRITE, OWNED, writer, initial)
    return Row(entry, capability, open_signature(writer, entry_message(entry)))
