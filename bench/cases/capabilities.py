"""Areas, capabilities and the signatures under them; what makes a capability valid."""
from dataclasses import dataclass, replace
from hashlib import sha256
from typing import Optional

import lms
from entries import Entry, is_communal, is_prefix, path_bytes, read_key, read_path
from octets import NotSpelled, Reader, number

LONGEST_SIGNATURE = 1508
MOST_DELEGATIONS = 16
READ, WRITE = 0, 1
MODES = {"read": READ, "write": WRITE}


@dataclass(frozen=True)
class Area:
    """`None` for the subspace is any of them, for the end no end."""
    subspace: Optional[bytes]
    path: tuple
    start: int
    end: Optional[int]

    def includes(self, entry: Entry) -> bool:
        return (self.subspace in (None, entry.subspace) and is_prefix(self.path, entry.path)
                and self.start <= entry.timestamp and (self.end is None or entry.timestamp < self.end))

    def includes_area(self, other: "Area") -> bool:
        ends_within = self.end is None or other.end is not None and other.end <= self.end
        return (self.subspace in (None, other.subspace) and is_prefix(self.path, other.path)
                and self.start <= other.start and ends_within)

    def is_empty(self) -> bool:
        return self.end is not None and self.end <= self.start

    def common(self, other: "Area") -> Optional["Area"]:
        """The area of what is in both; None where nothing is."""
        subspaces = {area.subspace for area in (self, other)} - {None}
        short, long = sorted((self.path, other.path), key=len)
        ends = [area.end for area in (self, other) if area.end is not None]
        both = Area(min(subspaces, default=None), long, max(self.start, other.start), min(ends, default=None))
        if len(subspaces) > 1 or not is_prefix(short, long) or both.is_empty():
            return None
        return both

    def spelled(self) -> bytes:
        subspace = b"\x00" if self.subspace is None else b"\x01" + self.subspace
        end = b"\x00" if self.end is None else b"\x01" + number(8, self.end)
        return subspace + path_bytes(self.path) + number(8, self.start) + end


FULL = Area(None, (), 0, None)


def whole_subspace(user: bytes) -> Area:
    return Area(user, (), 0, None)


def read_choice(reader: Reader, read):
    """Nothing behind a byte 0, a value behind a byte 1."""
    choice = reader.number(1)
    if choice > 1:
        raise NotSpelled
    return read(reader) if choice == 1 else None


def read_area(reader: Reader) -> Area:
    area = Area(read_choice(reader, read_key), read_path(reader), reader.number(8),
                read_choice(reader, lambda rest: rest.number(8)))
    if area.is_empty():
        raise NotSpelled
    return area


def signature_field(signature: bytes) -> bytes:
    return number(2, len(signature)) + signature


def read_signature(reader: Reader) -> bytes:
    length = reader.number(2)
    if length > LONGEST_SIGNATURE:
        raise NotSpelled
    return reader.take(length)


def open_signature(key: bytes, message: bytes) -> bytes:
    """The signature of an open key. Anyone can make it."""
    return sha256(key + message).digest()


def accepts(key: bytes, message: bytes, signature: bytes) -> bool:
    if key[0] == 0:
        return signature == open_signature(key, message)
    public, rest = signature[:56], signature[56:]
    return len(public) == 56 and sha256(public).digest() == key[1:] and lms.verify(public, message, rest)


@dataclass(frozen=True)
class Delegation:
    area: Area
    user: bytes
    signature: bytes

    def spelled(self) -> bytes:
        return self.area.spelled() + self.user + signature_field(self.signature)


def initial_message(mode: int, user: bytes) -> bytes:
    return b"I" + bytes((mode,)) + user


def entry_message(entry: Entry) -> bytes:
    return b"E" + entry.spelled()


@dataclass(frozen=True)
class Capability:
    """Owned exactly where it has an initial signature, else communal."""
    mode: int
    namespace: bytes
    user: bytes
    initial: Optional[bytes] = None
    chain: tuple = ()

    def upto(self, count: int) -> "Capability":
        """The capability with its first delegations only."""
        return replace(self, chain=self.chain[:count])

    def receiver(self) -> bytes:
        return self.chain[-1].user if self.chain else self.user

    def grant(self) -> Area:
        if self.chain:
            return self.chain[-1].area
        return whole_subspace(self.user) if self.initial is None else FULL

    def spelled(self) -> bytes:
        kind = self.mode + (0 if self.initial is None else 2)
        initial = b"" if self.initial is None else signature_field(self.initial)
        return (bytes((kind,)) + self.namespace + self.user + initial + number(1, len(self.chain))
                + b"".join(delegation.spelled() for delegation in self.chain))

    def handover(self, area: Area, user: bytes) -> bytes:
        """What the receiver signs to hand the area over."""
        return b"H" + self.spelled() + area.spelled() + user

    def hello_refusal(self, namespace: bytes, ask: Area) -> Optional[str]:
        """Why a hello that shows this capability and asks for the area is refused: what fails first."""
        if self.namespace != namespace:
            return "WrongNamespace"
        if self.mode != READ:
            return "NotRead"
        chain = self.refusal()
        if chain is not None:
            return f"Chain {chain}"
        # An area without times can stand in no hello; one that is asked for counts as one outside the grant.
        if ask.is_empty() or not self.grant().includes_area(ask):
            return "AskOutsideGrant"
        return None

    def delegated(self, delegation: Delegation) -> "Capability":
        return replace(self, chain=self.chain + (delegation,))

    def refusal(self) -> Optional[str]:
        """Why the capability is not valid: what fails first."""
        if len(self.chain) > MOST_DELEGATIONS:
            return "TooManyDelegations"
        communal = is_communal(self.namespace)
        if self.initial is None and not communal:
            return "NotCommunal"
        if self.initial is not None and communal:
            return "NotOwned"
        message = initial_message(self.mode, self.user)
        if self.initial is not None and not accepts(self.namespace, message, self.initial):
            return "BadInitial"
        for at, delegation in enumerate(self.chain, 1):
            before = self.upto(at - 1)
            # An empty area of times stands in no capability; one that was asked for counts as one that grows.
            if delegation.area.is_empty() or not before.grant().includes_area(delegation.area):
                return f"AreaGrows {at}"
            message = before.handover(delegation.area, delegation.user)
            if not accepts(before.receiver(), message, delegation.signature):
                return f"BadSignature {at}"
        return None


def read_capability(reader: Reader) -> Capability:
    kind = reader.number(1)
    if kind > 3:
        raise NotSpelled
    namespace, user = read_key(reader), read_key(reader)
    initial = read_signature(reader) if kind > 1 else None
    chain = tuple(Delegation(read_area(reader), read_key(reader), read_signature(reader))
                  for _ in range(reader.number(1)))
    return Capability(kind % 2, namespace, user, initial, chain)
