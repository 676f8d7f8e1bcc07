"""Prints the table of hellos that `crates/answer_cases` reads; `bench/answers.py` puts it there. Bytes are in hexadecimal.

    read BYTES ANSWER                           what is answered to the bytes: `more`, `bad`, or of a hello its version,
                                                the first byte of its nonce, the start of its ask, how many delegations
                                                there are, and behind a colon how many bytes are taken
    check NAMESPACE HELLO REFUSAL               why the hello is refused in the namespace, or `passes`
    proof SIDE CALLER ANSWERER SIGNATURE REFUSAL    why the signature is refused as that side's proof
    common HELLO HELLO AREA                     what both ask for, or `none`

The answers are those of a reader that goes over the bytes from the left (`bench/fronts.py`) and of the model of
capabilities in `bench/cases/`. They share no code with the crates.

usage: python3 bench/hellos/make.py
"""
import sys
from dataclasses import dataclass, replace
from pathlib import Path

BENCH = Path(__file__).resolve().parents[1]
sys.path[:0] = [str(BENCH), str(BENCH / "cases")]
from capabilities import (FULL, LONGEST_SIGNATURE, READ, WRITE, Area, Capability, Delegation, initial_message,
                          open_signature, whole_subspace)
from entries import is_prefix
from fronts import MAX_FRAME, Bad, Bytes, More
from octets import number

GREATEST = 2 ** 64 - 1
CALLER, ANSWERER = 0, 1
SIDES = ("caller", "answerer")


def open_key(letter):
    return b"\x00" + letter.encode() * 32


N, OTHER, O = open_key("N"), open_key("^"), open_key("O")  # two communal namespaces and an owned one
U, V = open_key("U"), open_key("V")


@dataclass(frozen=True)
class Hello:
    ask: Area
    capability: Capability
    version: int = 1
    nonce: bytes = bytes(range(0x20, 0x30))

    def spelled(self):
        text = self.capability.spelled()
        return b"WSY" + bytes([self.version]) + self.nonce + self.ask.spelled() + number(4, len(text)) + text

    def refusal(self, namespace):
        if self.version == 0:
            return "VersionUnknown"
        if self.capability.namespace != namespace:
            return "WrongNamespace"
        if self.capability.mode != READ:
            return "NotRead"
        if self.capability.refusal() is not None:
            return "Chain." + self.capability.refusal().replace(" ", ".")
        if not self.capability.grant().includes_area(self.ask):
            return "AskOutsideGrant"
        return "passes"


# ---- what is made

def communal(user=U, mode=READ):
    return Capability(mode, N, user)


def owned(user=U, mode=READ, signer=O):
    return Capability(mode, O, user, open_signature(signer, initial_message(mode, user)))


def handed(capability, area, user, signer=None):
    signature = open_signature(signer or capability.receiver(), capability.handover(area, user))
    return capability.delegated(Delegation(area, user, signature))


def under(*path, subspace=U, start=0, end=None):
    return Area(subspace, path, start, end)


PLAIN = Hello(under(), communal())
RICH = Hello(under(b"a", b"", b"bc", start=5, end=0x0105), handed(owned(), FULL, V), version=255)


# ---- what is read

class Hellos(Bytes):
    """Hellos from the left."""

    def above(self, start):
        """Eight bytes, the highest first: bad at once where every number that begins so is at most the start."""
        value = 0
        for left in range(8, -1, -1):
            if (value + 1) * 256 ** left - 1 <= start:
                raise Bad
            if left > 0:
                value = value * 256 + self.byte()

    def area(self):
        if self.byte(most=1) == 1:
            self.key()
        self.path()
        start = int.from_bytes(self.some(8), "big")
        if self.byte(most=1) == 1:
            self.above(start)
        return start

    def signature(self):
        length = int.from_bytes(self.some(2), "big")
        if length > LONGEST_SIGNATURE:
            raise Bad
        self.some(length)

    def capability(self):
        form = self.byte(most=3)
        self.key(), self.key()
        if form >= 2:
            self.signature()
        count = self.byte()
        for _ in range(count):
            self.area(), self.key(), self.signature()
        return count

    def whole_capability(self):
        """It is looked at once all its bytes are there."""
        text = Hellos(self.some(self.number(most=MAX_FRAME)))
        try:
            count = text.capability()
        except More:
            raise Bad from None
        if text.taken < len(text.text):
            raise Bad
        return count

    def hello(self):
        for letter in b"WSY":
            if self.byte() != letter:
                raise Bad
        version, nonce = self.byte(), self.some(16)
        start, count = self.area(), self.whole_capability()
        return f"{version}.{nonce[0]}.{start}.{count}:{self.taken}"


def answer(text):
    try:
        return Hellos(text).hello()
    except More:
        return "more"
    except Bad:
        return "bad"


def read(text):
    print("read", text.hex() or "-", answer(text))


def cuts(text, places):
    for place in places:
        read(text[:place])


def changes(text, places):
    for place in places:
        read(text[:place] + bytes([(text[place] + 1) % 256]) + text[place + 1:])


def with_length(hello, length, text):
    """The hello with this length in front of these bytes in the place of its capability."""
    whole, capability = hello.spelled(), hello.capability.spelled()
    return whole[:len(whole) - len(capability) - 4] + number(4, length) + text


def reads():
    plain, rich = PLAIN.spelled(), RICH.spelled()
    read(plain)
    read(plain + b"WS")
    cuts(plain, range(len(plain)))
    changes(plain, range(len(plain)))
    read(rich)
    ask = range(20, 20 + len(RICH.ask.spelled()) + 4)
    cuts(rich, [*ask, len(rich) - 1])
    changes(rich, [*ask, *range(len(rich) - 40, len(rich) - 30)])
    text = PLAIN.capability.spelled()
    for length, behind in (
        (0, b""), (0, text), (1, b""), (1, b"\x04"), (1, b"\x00"), (67, text[:67]), (67, text), (68, b"\xff" * 67),
        (68, b"\x04" + text[1:]), (69, text), (69, text + b"\x00"), (MAX_FRAME, b""), (MAX_FRAME, text),
        (MAX_FRAME + 1, b""), (MAX_FRAME + 1, text), (GREATEST >> 32, b""),
    ):
        read(with_length(PLAIN, length, behind))
    front = plain[:20]
    for cut in (b"\x00\x01", b"\x00\x02", b"\x00\x03", b"\x01", b"\x00\x02\x00\x01", b"\x00\x02\x01"):
        read(front + FULL.spelled() + cut)
    for ask in (
        b"\x02", b"\x01\x02", b"\x00\xff", b"\x00\x10", b"\x00\x11" + b"\xff" + b"c" * 255,
        b"\x00\x11" + (b"\xff" + b"c" * 255) * 16 + b"\x10", b"\x00\x11" + (b"\xff" + b"c" * 255) * 16 + b"\x11",
        b"\x00\x00" + number(8, GREATEST) + b"\x00", b"\x00\x00" + number(8, GREATEST) + b"\x01",
        b"\x00\x00" + number(8, 5) + b"\x01" + number(8, 5), b"\x00\x00" + number(8, 5) + b"\x01" + number(8, 5)[:7],
        b"\x00\x00" + number(8, 5) + b"\x01" + number(8, 6), b"\x00\x00" + number(8, 255) + b"\x01" + bytes(7),
        b"\x00\x00" + number(8, 1 << 56) + b"\x01\x00", b"\x00\x00" + number(8, 1 << 56) + b"\x01\x01",
    ):
        read(front + ask)


# ---- what is refused

def check(hello, namespace=None):
    namespace = hello.capability.namespace if namespace is None else namespace
    print("check", namespace.hex(), hello.spelled().hex(), hello.refusal(namespace))


def checks():
    later = handed(owned(), under(subspace=None, start=5), V)  # a grant from 5 on
    long = owned()
    for _ in range(8):
        long = handed(long, under(b"a"), U)
    check(PLAIN)
    check(replace(PLAIN, version=0))
    check(replace(PLAIN, version=2))
    check(replace(PLAIN, version=255))
    check(replace(PLAIN, version=0, capability=communal(mode=WRITE)), OTHER)
    check(PLAIN, OTHER)
    check(replace(PLAIN, capability=communal(mode=WRITE)))
    check(replace(PLAIN, capability=communal(mode=WRITE)), OTHER)
    check(replace(PLAIN, ask=FULL))
    check(replace(PLAIN, ask=under(subspace=V)))
    check(replace(PLAIN, ask=under(b"a", start=7, end=9)))
    check(Hello(FULL, owned()))
    check(Hello(FULL, owned(signer=U)))
    check(Hello(FULL, owned(mode=WRITE, signer=U)))
    check(Hello(FULL, replace(owned(), initial=None)))
    check(Hello(FULL, replace(owned(), namespace=N)))
    check(Hello(under(subspace=None, start=5), later))
    check(Hello(under(subspace=None, start=0), later))
    check(Hello(under(subspace=None, start=4), later))
    check(Hello(under(subspace=V, start=5, end=6), later))
    check(Hello(FULL, handed(owned(), FULL, V, signer=O)))
    check(Hello(FULL, handed(later, FULL, U)))
    check(Hello(under(b"a"), long))
    check(Hello(under(b"b"), long))
    check(Hello(under(b"a"), handed(long, under(b"a"), U)))
    check(Hello(FULL, handed(handed(owned(), under(b"a"), V), under(b"a", b"b"), U)))
    check(Hello(under(b"a", b"b", b"c"), handed(handed(owned(), under(b"a"), V), under(b"a", b"b"), U)))


# ---- what is proved

def proof_message(side, caller, answerer):
    return b"S" + bytes([side]) + caller.spelled() + answerer.spelled()


def proof(side, caller, answerer, signature):
    receiver = (caller, answerer)[side].capability.receiver()
    accepted = signature == open_signature(receiver, proof_message(side, caller, answerer))
    print("proof", SIDES[side], caller.spelled().hex(), answerer.spelled().hex(), signature.hex() or "-",
          "passes" if accepted else "BadProof")


def proofs():
    one, two = PLAIN, Hello(FULL, handed(owned(), FULL, V), nonce=b"\x01" * 16)
    for side in (CALLER, ANSWERER):
        receiver = (one, two)[side].capability.receiver()
        signature = open_signature(receiver, proof_message(side, one, two))
        proof(side, one, two, signature)
        proof(1 - side, one, two, signature)
        proof(side, two, one, signature)
        proof(side, one, replace(two, nonce=b"\x02" + b"\x01" * 15), signature)
        proof(side, replace(one, version=2), two, signature)
        proof(side, one, two, signature[:31])
        proof(side, one, two, signature + b"\x00")
        proof(side, one, two, b"")
        proof(side, one, two, open_signature(receiver, proof_message(side, two, one)))
        proof(side, one, two, open_signature(receiver, proof_message(1 - side, one, two)))
        proof(side, one, two, open_signature(U if receiver == V else V, proof_message(side, one, two)))
    alike = open_signature(U, proof_message(CALLER, one, one))  # both hellos the same: the side still tells
    proof(CALLER, one, one, alike)
    proof(ANSWERER, one, one, alike)


# ---- what is common

def meet(one, other):
    if None not in (one.subspace, other.subspace) and one.subspace != other.subspace:
        return None
    if not is_prefix(one.path, other.path) and not is_prefix(other.path, one.path):
        return None
    ends = [area.end for area in (one, other) if area.end is not None]
    both = Area(one.subspace or other.subspace, max(one.path, other.path, key=len), max(one.start, other.start),
                min(ends, default=None))
    return None if both.is_empty() else both


def common():
    asks = (FULL, under(), under(subspace=V), under(b"a"), under(b"a", b"b", start=3), under(b"c", end=9),
            under(subspace=None, start=9), under(subspace=None, start=2, end=4))
    for one in asks:
        for other in asks:
            both = meet(one, other)
            print("common", replace(PLAIN, ask=one).spelled().hex(), replace(PLAIN, ask=other).spelled().hex(),
                  "none" if both is None else both.spelled().hex())


def main():
    reads()
    checks()
    proofs()
    common()


main()
