"""What cases are made of: keys, capabilities, rows, and the case itself. The modules of cases take all of it."""
from dataclasses import dataclass, field, replace
from pathlib import Path
from typing import Optional

import lms
from capabilities import (READ, WRITE, Area, Capability, Delegation, entry_message, initial_message,
                          open_signature, signature_field)
from commands import run
from entries import Entry, Store, path_bytes
from images import image, old_image
from octets import Reader, number
from outside import PIECE, Objects, one_by_one
from rows import Row, generated

GREATEST = 2 ** 64 - 1
SAMPLES = Path(__file__).resolve().parents[2] / "samples"


def open_key(letter: str) -> bytes:
    return b"\x00" + letter.encode() * 32


N = open_key("N")  # a communal namespace
OTHER = open_key("^")  # another one
P = open_key("P")  # and a third
O = open_key("O")  # an owned namespace
T, U, V, W = open_key("T"), open_key("U"), open_key("V"), open_key("W")  # authors

K = lms.LmsKey(5, bytes(range(1, 17)), bytes(range(101, 133)))  # an author's key
OWN = lms.LmsKey(5, b"!" * 16, b"!" * 32)  # its user key is an owned namespace
COMMON = lms.LmsKey(5, b"8" * 16, b"8" * 32)  # its user key is a communal namespace
TALL = lms.LmsKey(10, b"w" * 16, b"x" * 32)


def at(key: lms.LmsKey, index: int) -> lms.LmsKey:
    return replace(key, next=index)


def signed(by, message: bytes) -> bytes:
    """The message's signature by an open key or by an LMS key's next index."""
    return by.sign(message) if isinstance(by, lms.LmsKey) else open_signature(by, message)


def key_of(signer) -> bytes:
    return signer.user() if isinstance(signer, lms.LmsKey) else signer


def flipped(data: bytes, place: int, bits: int = 1) -> bytes:
    """The bytes with some bits of one of them turned over."""
    place %= len(data)
    return data[:place] + bytes((data[place] ^ bits,)) + data[place + 1:]


def replaced(data: bytes, old: bytes, new: bytes) -> bytes:
    """The bytes with the one place of `old` replaced."""
    assert data.count(old) == 1, old
    return data.replace(old, new)


# Capabilities

def communal(user: bytes = U, mode: int = WRITE, space: bytes = N) -> Capability:
    return Capability(mode, space, user)


def owned(user: bytes = U, mode: int = WRITE, space=O, by=None) -> Capability:
    """Signed by the namespace, or by another signer."""
    initial = signed(by or space, initial_message(mode, user))
    return Capability(mode, key_of(space), user, initial)


GRANTED = object()  # as it was granted


def handed(capability: Capability, to: bytes, by=None, subspace=GRANTED, under=GRANTED, start=GRANTED, end=GRANTED,
           signature=None) -> Capability:
    """The capability handed over by its receiver, or by another signer; of the area what is not said stays."""
    grant = capability.grant()
    area = Area(grant.subspace if subspace is GRANTED else subspace, grant.path if under is GRANTED else under,
                grant.start if start is GRANTED else start, grant.end if end is GRANTED else end)
    if signature is None:
        signature = signed(by or capability.receiver(), capability.handover(area, to))
    return capability.delegated(Delegation(area, to, signature))


def handed_on(capability: Capability, *users: bytes, **area) -> Capability:
    """Handed from user to user."""
    for user in users:
        capability = handed(capability, user, **area)
    return capability


def ending(end: int) -> Capability:
    """A capability of a delegation from 4 on, of which another end was signed."""
    signed_one = handed(communal(), U, start=4, end=9)
    delegation = signed_one.chain[0]
    return replace(signed_one, chain=(replace(delegation, area=replace(delegation.area, end=end)),))


# Rows

def path(*parts: str) -> tuple:
    return tuple(part.encode() for part in parts)


A, B, AB = path("a"), path("b"), path("a", "b")


def row(at_path: tuple = A, time: int = 5, length: int = 1, digest: int = 0x11, author: bytes = U, capability=None,
        by=None, subspace=None, space=None, signature=None) -> Row:
    """A row. By default its author writes to the own subspace of N, and the receiver of the capability signs."""
    capability = capability or communal(author)
    entry = Entry(space or capability.namespace, subspace or capability.user, at_path, time, length,
                  bytes((digest,)) * 32)
    if signature is None:
        signature = signed(by or capability.receiver(), entry_message(entry))
    return Row(entry, capability, signature)


def spoilt(whole_row: Row, place: int = 0, bits: int = 1) -> Row:
    """The row with another signature."""
    return replace(whole_row, signature=flipped(whole_row.signature, place, bits))


def body_frame(body: bytes) -> bytes:
    """A frame around any bytes."""
    return number(4, len(body)) + body


def image_of(*rows: Row, space: bytes = N) -> bytes:
    return image(space, rows)


def old_image_of(*rows: Row, space: bytes = N) -> bytes:
    """The image of version 1."""
    return old_image(space, rows)


def joined(pieces) -> bytes:
    """Rows as frames and bytes as they are."""
    return b"".join(piece.frame() if isinstance(piece, Row) else piece for piece in pieces)


# Cases

ORDERS = (
    one_by_one,
    lambda count: one_by_one(count)[::-1],
    lambda count: [*range(count)] * 2,
    lambda count: [*range(count), *reversed(range(count))],
)


def listed(items) -> str:
    """The items of a field; `-` for none."""
    return ",".join(items) or "-"


def hexadecimal(data: bytes) -> str:
    return data.hex() or "-"


@dataclass(frozen=True)
class ByHand:
    """What was reckoned by hand: the status, the report, how many bytes each link holds that came back, and how long the turns
    of a meeting are."""
    status: int
    report: str
    held: tuple = ()
    turns: tuple = ()


def turn_lengths(transcript: bytes) -> tuple:
    reader, lengths = Reader(transcript), []
    while reader.left() > 0:
        reader.take(1)
        lengths.append(reader.number(4))
        reader.take(lengths[-1])
    return tuple(lengths)


@dataclass(frozen=True)
class Case:
    """A run: the words, what lies on the shelf, the draws of noise, the input, and the calls that fail."""
    name: str
    words: tuple
    given: bytes = b""
    names: dict = field(default_factory=dict)
    draws: tuple = ()
    fails: str = ""  # as `i1 l2 l3:4`: a letter for the object, of a further link which one, and the number of its call
    links: Optional[tuple] = None  # what the links give to which the door leads, if it leads to any
    by_hand: Optional[ByHand] = None
    files: Optional[dict] = None  # what the names of the bay hold, where a log file is named
    piece = PIECE  # the most bytes that a call of the input, the output or a link moves

    def situation(self) -> str:
        """The fields of the case's line that say what is run."""
        return " ".join((
            listed(self.words), listed(f"{name}:{data.hex()}" for name, data in sorted(self.names.items())),
            listed(draw.hex() for draw in self.draws), self.told_input(), listed(self.fails.split())))

    def input(self) -> bytes:
        return self.given

    def told_input(self) -> str:
        return hexadecimal(self.input())

    def told_output(self, output: bytes) -> str:
        return hexadecimal(output)

    def told_held(self, data: bytes) -> str:
        """What lies under a name behind the run."""
        return data.hex()

    def told_links(self) -> str:
        """What each link gives."""
        return listed(map(hexadecimal, self.links))

    def objects(self, order) -> Objects:
        fails = {}
        for call in self.fails.split():
            link, _, number = call[1:].rpartition(":")
            fails.setdefault(call[0] + link, []).append(int(number))
        return Objects(self.names, self.draws, self.input(), fails, self.piece, self.links or (), order, self.files or {})

    def line(self) -> str:
        """The case's line: its name, what is run, and what comes of it, in whatever order sessions begin and end."""
        outcomes = {self.outcome(order) for order in (ORDERS if self.links and len(self.links) > 1 else ORDERS[:1])}
        assert len(outcomes) == 1, f"{self.name} rests on the order of its sessions"
        return " ".join((self.name, self.situation(), *outcomes))

    def outcome(self, order) -> str:
        objects = self.objects(order)
        status = run(list(self.words), objects)
        if self.by_hand is not None:
            turns = turn_lengths(bytes(objects.output.held)) if self.words[0] == "meet" else ()
            came = ByHand(status, objects.report.held.decode(), tuple(len(link.held) for link in objects.door.back), turns)
            assert self.by_hand == came, f"{self.name}: {came}"
        names = sorted(objects.shelf.names.items())
        return " ".join((
            self.told_output(objects.output.held), hexadecimal(objects.report.held), str(status),
            listed(f"{name}:{self.told_held(data)}" for name, data in names), *self.traffic(objects)))

    def traffic(self, objects: Objects) -> list:
        """What each link gives, and what each that came back holds; nothing where the door leads to none."""
        if self.links is None and self.files is None:
            return []
        links = [self.told_links() if self.links else "-", listed(hexadecimal(link.held) for link in objects.door.back)]
        return links + self.disks(objects)

    def disks(self, objects: Objects) -> list:
        """What the names of the bay hold, and what each disk that came back holds, or that none did; nothing where no log file is named."""
        if self.files is None:
            return []
        return [listed(f"{name}:{data.hex()}" for name, data in sorted(self.files.items())),
                ",".join(disk.data.hex() or "-" for disk in objects.bay.back) or "none"]


def word_of(value) -> str:
    """A key as its word is; any other value as its text."""
    return value.hex() if isinstance(value, bytes) else str(value)


def words_of(command: str, **options) -> tuple:
    """The words of a command with its options in order."""
    return (command, *(word for name, value in options.items() for word in (f"--{name}", word_of(value))))


def open_signer(key: bytes) -> str:
    return "open:" + key[1:].hex()


# What `delegate` and `write` are tried with

BY_U, BY_V = open_signer(U), open_signer(V)
D_WORD = "11" * 32  # a digest
PLAIN = communal().spelled()
UNSIGNED = handed(handed(communal(), V), U, by=U)  # the second delegation is not V's
GROWN = handed(handed(communal(), V, under=A), U, under=(), by=U)  # nor is this one, and its path is shorter
OF_K = communal(K.user())
FROM_K = handed(OF_K, V, by=K)
WITH_K = {"k": K.file()}


def bytes_of(given) -> bytes:
    return given.spelled() if isinstance(given, Capability) else given
