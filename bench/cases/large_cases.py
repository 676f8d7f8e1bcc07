"""Cases of `gen` and `join` over more rows than a line could hold: the input is told by how many rows `gen` makes of it,
and the output by its digest and length."""
from functools import lru_cache
from hashlib import sha256

from outcome import Outcome
from outside import LARGE_PIECE
from rows import OWNED
from situations import *

FEW, FULL, AGAIN = 20_000, 65_536, 300  # so many rows again are more than what one read gives
WRONG = bytes(4)  # a frame without a body


@lru_cache
def made(rows: int) -> bytes:
    """What `gen` puts out for so many rows."""
    return Outcome(words_of("gen", rows=rows)).output


@dataclass(frozen=True)
class LargeCase(Case):
    pieces: tuple = ()  # of the input: bytes, or how many rows are generated
    length: Optional[int] = None  # of the output, reckoned by hand
    piece = LARGE_PIECE

    def input(self) -> bytes:
        return b"".join(made(each) if isinstance(each, int) else each for each in self.pieces)

    def told_input(self) -> str:
        return "+".join(f"gen:{each}" if isinstance(each, int) else each.hex() for each in self.pieces) or "-"

    def told_output(self, output: bytes) -> str:
        assert self.length in (None, len(output)), f"{self.name}: {len(output)}"
        return f"sha256:{sha256(output).hexdigest()}:{len(output)}"


def gen(name: str, rows: int, **rest) -> Case:
    return LargeCase(f"gen-{name}", words_of("gen", rows=rows), **rest)


def join(name: str, *pieces, **rest) -> Case:
    return LargeCase(f"join-{name}", words_of("join", namespace=OWNED), pieces=pieces, **rest)


def further_row() -> bytes:
    """A row of another author, which is new in any store of generated rows."""
    signer = open_signer(OWNED)
    grant = Outcome(words_of("grant", namespace=OWNED, mode="write", user=U, key=signer)).output
    words = words_of("write", key=open_signer(U), path="/61", time=5, length=1, digest=D_WORD)
    return Outcome(words, grant).output


ROW = further_row()

# A frame has 260 bytes, and 258 where the path has one component. An image has 49 bytes, those of the eight writers'
# capabilities, 4 + 102 each, and of each row what a frame has but for its capability, and 4 bytes more.
LARGE = [
    gen("makes-twenty-thousand-rows", FEW, length=20_000 * 260 - 400 * 2),
    join("takes-twenty-thousand-rows", FEW, length=49 + 8 * 106 + 14_051 * (260 - 102 + 4) - 313 * 2),
    gen("makes-as-many-rows-as-a-log-takes", FULL),
    join("takes-as-many-rows-as-a-log-takes", FULL),
    join("keeps-out-a-row-that-a-full-log-has", FULL, 1),
    join("tells-a-full-log-at-one-row-more", FULL, ROW),
    join("tells-a-wrong-frame-of-the-read-that-has-one-row-too-many", FULL, ROW, WRONG),
    join("tells-a-full-log-before-a-wrong-frame-of-a-later-read", FULL, ROW, AGAIN, WRONG),
]

GROUPS = {"more rows than a line could hold": LARGE}
