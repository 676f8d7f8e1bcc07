"""A session of a caller or an answerer, as a function of the bytes that are read: hellos, proofs, and the turns of an
exchange, in the version that both hellos give."""
from dataclasses import dataclass, field
from functools import lru_cache
from typing import Optional

from capabilities import Area, Capability, accepts, read_area, read_capability, read_signature, signature_field
from entries import read_key, read_path
from exchange import (BYE, END_TURN, FIRST, HIGHEST, MOST_POINTS, PATH, SUBSPACE, TIME, Box, Cut, Print, Sent,
                      fingerprint)
from interest import UNLIMITED, Interest
from octets import NotSpelled, Reader, Short, number, whole
from rows import LONGEST_BODY, Row, WrongFrame, read_frame

CALLER, ANSWERER = 0, 1
PRINT = 32
CUT_KINDS = {1: 3, 2: 8}  # what the item is with which each version cuts
MOST_ROWS = {4: 16, 5: 65_536}  # behind an item


class Early(Exception):
    """The bytes end in the midst of a message."""


class Wrong(Exception):
    """What begins at an offset is no message."""


class Refused(Exception):
    """A message is refused."""


@dataclass(frozen=True)
class Hello:
    version: int
    nonce: bytes
    ask: Area
    capability: Capability

    def spelled(self) -> bytes:
        capability = self.capability.spelled()
        return (b"WSY" + number(1, self.version) + self.nonce + self.ask.spelled() + number(4, len(capability))
                + capability)

    def refusal(self, namespace: bytes) -> Optional[str]:
        if self.version == 0:
            return "VersionUnknown"
        return self.capability.hello_refusal(namespace, self.ask)


def spoken(one: Hello, other: Hello) -> int:
    """The version of the session of two who said these hellos."""
    return min(HIGHEST, one.version, other.version)


def proof_message(role: int, caller: Hello, answerer: Hello) -> bytes:
    return b"\x53" + number(1, role) + caller.spelled() + answerer.spelled()


class Messages:
    """The messages at the front of some bytes. Behind the hellos the items are those of a version."""

    def __init__(self, data: bytes):
        self.data, self.at, self.version = data, 0, None

    def next(self, read):
        reader = Reader(self.data, self.at)
        try:
            value = read(reader)
        except Short:
            raise Early from None
        except NotSpelled:
            raise Wrong(self.at) from None
        self.at = reader.taken
        return value

    def item(self):
        """The kind of the next item, and what it says."""
        return self.next(lambda reader: read_item(reader, self.version))


def inner(read, data: bytes):
    """What all of some bytes in the midst of a message spell."""
    try:
        return whole(read, data)
    except (NotSpelled, WrongFrame):
        raise NotSpelled from None


def read_hello(reader: Reader) -> Hello:
    if reader.take(3) != b"WSY":
        raise NotSpelled
    version, nonce = reader.number(1), reader.take(16)
    ask = read_area(reader)
    return Hello(version, nonce, ask, inner(read_capability, reader.take(read_length(reader))))


def read_length(reader: Reader) -> int:
    """It is judged before what stands behind it is there."""
    length = reader.number(4)
    if length > LONGEST_BODY:
        raise NotSpelled
    return length


def read_framed(reader: Reader) -> Row:
    length = read_length(reader)
    return framed(number(4, length) + reader.take(length))


@lru_cache(maxsize=1 << 17)
def framed(data: bytes) -> Row:
    return inner(read_frame, data)


def read_point(reader: Reader, dimension: int):
    if dimension == SUBSPACE:
        return read_key(reader)
    return read_path(reader) if dimension == PATH else reader.number(8)


def read_cut(reader: Reader, version: int):
    """A cut, and the fingerprint of each part."""
    dimension = reader.number(1)
    if dimension > (PATH if version == 1 else TIME):
        raise NotSpelled
    count = 1 if version == 1 else reader.number(1)
    if not 1 <= count <= MOST_POINTS:
        raise NotSpelled
    points = tuple(read_point(reader, dimension) for _ in range(count))
    return Cut(dimension, points), [reader.take(PRINT) for _ in range(count + 1)]


def read_item(reader: Reader, version: int):
    """The kind of an item, and what it says."""
    kind = reader.number(1)
    if kind == 1:
        return kind, reader.take(PRINT)
    if kind == CUT_KINDS[version]:
        return kind, read_cut(reader, version)
    if kind in MOST_ROWS:
        count = reader.number(1 if kind == 4 else 4)
        if count > MOST_ROWS[kind]:
            raise NotSpelled
        return kind, count
    if kind in (2, 6, 7):
        return kind, None
    raise NotSpelled


@dataclass
class Stand:
    """What is written and taken, and how it stands: None while more is due."""
    out: bytes = b""
    came: list = field(default_factory=list)
    sent: int = 0
    read: int = 0
    end: Optional[str] = None
    area: Optional[Area] = None  # which both sides may read


@dataclass(frozen=True)
class Side:
    """One side of a session, with the rows that it has as the session begins, and how many of them it offers."""
    namespace: bytes
    hello: Hello
    sign: object
    rows: list
    interest: Interest = UNLIMITED

    def after(self, data: bytes) -> Stand:
        """How it stands behind these bytes."""
        stand = Stand(self.opening())
        try:
            self.talk(Messages(data), stand)
            stand.end = "done"
        except Early:
            pass
        except Wrong as wrong:
            stand.end = f"BadMessage {wrong.args[0]}"
        except Refused as refused:
            stand.end = refused.args[0]
        return stand

    def heard_hello(self, messages: Messages) -> Hello:
        other = messages.next(read_hello)
        if (refusal := other.refusal(self.namespace)) is not None:
            raise Refused(refusal)
        return other

    def prove(self, stand: Stand, message: bytes) -> None:
        stand.out += signature_field(self.sign(message))

    @staticmethod
    def heard_proof(messages: Messages, other: Hello, message: bytes) -> None:
        if not accepts(other.capability.receiver(), message, messages.next(read_signature)):
            raise Refused("BadProof")

    def take_turns(self, messages: Messages, stand: Stand, own: list, asks: list) -> None:
        """From an own turn on, which answers by the own rows what the other side asked."""
        while asks:
            answers = [ask.answer(messages.version, own) for ask in asks]
            asks = [ask for _, _, opened in answers for ask in opened]
            stand.sent += len(answers)
            stand.out += b"".join(item for item, _, _ in answers) + (END_TURN if asks else BYE)
            if not asks:
                return self.farewell(messages)
            asks = self.hear(messages, stand, asks)
        stand.out += BYE
        return None

    @staticmethod
    def farewell(messages: Messages) -> None:
        if messages.item()[0] != 7:
            raise Refused("ItemMismatch")

    @staticmethod
    def hear(messages: Messages, stand: Stand, asks: list) -> list:
        """A turn of the other side: its answers to what was asked, and what it asks."""
        opened = []
        for ask in asks:
            kind, told = messages.item()
            allowed = (2, CUT_KINDS[messages.version], 4) if isinstance(ask, Print) else (5,)
            if kind not in allowed:
                raise Refused("ItemMismatch")
            stand.read += 1
            if kind in (4, 5):
                rows = heard_rows(messages, stand, ask.box, told)
                opened += [Sent(ask.box, rows)] if kind == 4 else []
            elif kind != 2:
                opened += heard_cut(ask.box, *told)
        kind = messages.item()[0]
        if kind != (6 if opened else 7):
            raise Refused("ItemMismatch")
        return opened


class Caller(Side):
    """It says hello first, and its turn is the first one."""

    def opening(self) -> bytes:
        return self.hello.spelled()

    def talk(self, messages: Messages, stand: Stand) -> None:
        other = self.heard_hello(messages)
        self.heard_proof(messages, other, proof_message(ANSWERER, self.hello, other))
        self.prove(stand, proof_message(CALLER, self.hello, other))
        messages.version = spoken(self.hello, other)
        self.exchange(messages, stand, self.hello.ask.common(other.ask))

    def exchange(self, messages: Messages, stand: Stand, area: Optional[Area]) -> None:
        stand.area = area
        if area is None:
            stand.out += BYE
            return self.farewell(messages)
        own, box = self.interest.offered(self.rows, area), Box(area)
        told = fingerprint(box.rows(own))
        stand.out += FIRST + told + END_TURN
        stand.sent = 1
        return self.take_turns(messages, stand, own, self.hear(messages, stand, [Print(box, told)]))


class Answerer(Side):
    """It says nothing before it has heard a hello that passes; to that one it says its hello and proof at once."""

    def opening(self) -> bytes:
        return b""

    def talk(self, messages: Messages, stand: Stand) -> None:
        other = self.heard_hello(messages)
        stand.out += self.hello.spelled()
        self.prove(stand, proof_message(ANSWERER, other, self.hello))
        self.heard_proof(messages, other, proof_message(CALLER, other, self.hello))
        messages.version = spoken(other, self.hello)
        self.exchange(messages, stand, other.ask.common(self.hello.ask))

    def exchange(self, messages: Messages, stand: Stand, area: Optional[Area]) -> None:
        stand.area = area
        if area is None:
            self.farewell(messages)
            stand.out += BYE
            return None
        kind, told = messages.item()
        if kind != 1:
            raise Refused("ItemMismatch")
        stand.read = 1
        if messages.item()[0] != 6:
            raise Refused("ItemMismatch")
        return self.take_turns(messages, stand, self.interest.offered(self.rows, area), [Print(Box(area), told)])


def heard_cut(box: Box, cut: Cut, prints: list) -> list:
    """What the other side asks for where it cuts the box."""
    if not box.is_cut_by(cut):
        raise Refused("BadCut")
    return [Print(part, told) for part, told in zip(box.parts(cut), prints)]


def heard_rows(messages: Messages, stand: Stand, box: Box, count: int) -> list:
    rows = []
    for _ in range(count):
        row = messages.next(read_framed)
        if not box.has(row):
            raise Refused("EntryOutside")
        if rows and row.entry.place() <= rows[-1].entry.place():
            raise Refused("RowsOutOfOrder")
        rows.append(row)
        stand.came.append(row)
    return rows
