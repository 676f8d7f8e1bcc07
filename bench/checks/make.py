"""Writes the rows of crates/checker_trials, by the model of capabilities and rows in bench/cases/, which shares no code
with the crates.

    python3 bench/checks/make.py > crates/checker_trials/src/texts.rt
"""
import sys
from dataclasses import dataclass
from pathlib import Path

sys.dont_write_bytecode = True
sys.path.insert(0, str(Path(__file__).resolve().parents[1] / "cases"))

from capabilities import (READ, WRITE, Area, Capability, Delegation, entry_message, initial_message,  # noqa: E402
                          open_signature, whole_subspace)
from entries import Entry  # noqa: E402
from rows import Row  # noqa: E402


def open_key(letter: str) -> bytes:
    return b"\x00" + letter.encode() * 32


N, O = open_key("N"), open_key("O")  # a communal namespace and an owned one
U, V, W = open_key("U"), open_key("V"), open_key("W")
MOST = 16  # delegations of a valid capability


INSIDE = Area(U, (b"a",), 3, 9)


def entry(namespace=N, subspace=U, path=(b"a",), time=5) -> Entry:
    return Entry(namespace, subspace, path, time, 1, b"\x11" * 32)


def communal(namespace=N, mode=WRITE) -> Capability:
    return Capability(mode, namespace, U)


def owned(namespace: bytes) -> Capability:
    return Capability(WRITE, namespace, U, open_signature(namespace, initial_message(WRITE, U)))


def handed(capability: Capability, user: bytes, area=whole_subspace(U)) -> Capability:
    """The capability, handed on by its receiver."""
    signature = open_signature(capability.receiver(), capability.handover(area, user))
    return capability.delegated(Delegation(area, user, signature))


def handed_often(times: int) -> Capability:
    """The owned capability of U, handed on for /61 to V, to W, to V and so on."""
    capability = owned(O)
    for user in ((V, W) * times)[:times]:
        capability = handed(capability, user, INSIDE)
    return capability


def misbegun() -> Capability:
    """An owned capability with another signature in place of the namespace's."""
    return Capability(WRITE, O, U, b"\x22" * 32)


def exchanged() -> Capability:
    """An owned capability that is handed on to W by the signature that hands it on to V."""
    return owned(O).delegated(Delegation(INSIDE, W, handed(owned(O), V, INSIDE).chain[-1].signature))


def spoilt(capability: Capability) -> Capability:
    """The capability with another signature under its last delegation."""
    last = capability.chain[-1]
    return capability.upto(len(capability.chain) - 1).delegated(Delegation(last.area, last.user, b"\x22" * 32))


def row(capability=communal(), by=None, **of) -> Row:
    """The row of an entry, signed by the receiver or by another."""
    written = entry(**of)
    return Row(written, capability, open_signature(by or capability.receiver(), entry_message(written)))


def unsigned() -> Row:
    return Row(entry(), communal(), open_signature(U, b"another message"))


@dataclass(frozen=True)
class Text:
    name: str
    note: str
    row: Row

    def lines(self) -> str:
        return f'// {self.note}\npub(crate) const {self.name}: &str =\n    "{self.row.body().hex()}";\n'


TEXTS = (
    Text("PLAIN", "/61 in N by U, under its communal capability", row()),
    Text("DEEPER", "/61/62 in N by U", row(path=(b"a", b"b"))),
    Text("EARLIER", "the first at time 4", row(time=4)),
    Text("DELEGATED", "the first under a delegation from U to U", row(handed(communal(), U))),
    Text("OWNED", "the same under an owned capability, though N is communal", row(owned(N))),
    Text("BY_RECEIVER", "the same under a delegation from U to V, signed by V", row(handed(communal(), V))),
    Text("BY_GIVER", "the same, signed by U, who handed it on", row(handed(communal(), V), by=U)),
    Text("SPOILT", "the same under that delegation with other bytes for its signature", row(spoilt(handed(communal(), V)))),
    Text("READING", "under a capability for reading", row(communal(mode=READ))),
    Text("OTHER", "under a capability of the namespace O", row(communal(O))),
    Text("OUTSIDE", "in the subspace of V, under the capability of U", row(subspace=V)),
    Text("UNSIGNED", "with a signature of another message", unsigned()),
    Text("IN_OWNED", "/61 in O by U, under a communal capability", row(communal(O), namespace=O)),
    Text("OWNED_ON", "/61 in O by U, under an owned capability of U that was handed on to V for /61 at times from 3 to 8",
         row(handed(owned(O), V, INSIDE), namespace=O)),
    Text("OWNED_PLAIN", "/61 in O by U, under an owned capability", row(owned(O), namespace=O)),
    Text("MISBEGUN", "the same under a capability that O did not begin", row(misbegun(), namespace=O)),
    Text("OWNED_TWICE", "the same under an owned capability that was handed on to V and to W",
         row(handed_often(2), namespace=O)),
    Text("SECOND_SPOILT", "the same with other bytes for the second signature", row(spoilt(handed_often(2)), namespace=O)),
    Text("FIRST_SPOILT", "the same with other bytes for the first",
         row(handed(spoilt(handed_often(1)), W, INSIDE), namespace=O)),
    Text("EXCHANGED", "/61 in O by U, under a capability that is handed on to W by the signature for V",
         row(exchanged(), namespace=O)),
    Text("OFTEN", "the same under one that was handed on as often as may be", row(handed_often(MOST), namespace=O)),
    Text("TOO_OFTEN", "the same under one that was handed on once more", row(handed_often(MOST + 1), namespace=O)),
    *(Text(f"TO_{letter.upper()}", f"the first under a delegation from U to {letter}, signed by it",
           row(handed(communal(), open_key(letter)))) for letter in "abcde"),
)


if __name__ == "__main__":
    print("//! Rows under open keys, as `bench/checks/make.py` makes them: N is a communal namespace, O an owned one.\n")
    print("\n".join(text.lines() for text in TEXTS), end="")
