"""Cases of `sync` and `serve` in which more rows come over a link than a log takes. The rows are told by how many `write`
makes, and the image that is put by its digest and length."""
from functools import lru_cache
from hashlib import sha256

from commands import LOG_LIMIT
from exchange import BYE, END_TURN
from outcome import Outcome
from outside import LARGE_PIECE
from serve_cases import DRAWS, FIRST, calls
from serve_cases import WORDS as SERVE
from situations import *
from sync_cases import DRAW, R, answer_to, at_path, parts
from sync_cases import WORDS as SYNC

LARGE = 1 << 16  # more bytes than this are told by their digest


@lru_cache
def written(rows: int) -> bytes:
    """The frames of the first rows that `write` makes by U."""
    frames = [row((number(4, index),)).frame() for index in range(rows)]
    words = words_of("write", key=BY_U, path="/00000001", time=5, length=1, digest=D_WORD)
    assert Outcome(words, PLAIN).output == frames[1]
    return b"".join(frames)


@dataclass(frozen=True)
class FullLogCase(Case):
    said: tuple = ()  # over the one link: bytes, or how many rows are written
    piece = LARGE_PIECE

    def told_held(self, data: bytes) -> str:
        return f"sha256:{sha256(data).hexdigest()}:{len(data)}" if len(data) > LARGE else data.hex()

    def told_links(self) -> str:
        return "+".join(f"write:{each}:{U[1:].hex()}:{PLAIN.hex()}" if isinstance(each, int) else each.hex()
                        for each in self.said)


# A row that is not asked for.
OWN = [row(A, author=V)]


def full_log(name: str, words: tuple, draw: bytes, *said, by_hand: ByHand) -> Case:
    """A session of one whose log has OWN, over a link that gives these bytes and rows."""
    names = {"i": old_image_of(*OWN), "c": R.spelled()}
    link = b"".join(written(each) if isinstance(each, int) else each for each in said)
    return FullLogCase(name, words, b"", names, (draw,), links=(link,), by_hand=by_hand, said=said)


def rest(count: int) -> bytes:
    """The head of rows that answer some."""
    return b"\x05" + number(4, count)


# A cut above all the rows, between parts with fingerprints that no rows have.
CUT = parts(1, at_path(0xff)) + END_TURN

# Each says hello and proof, 136 and 34 bytes, and that it has no row, in three bytes, or of both parts in five; the
# caller its fingerprint, in 34; and both farewell.
FULL_LOGS = [
    full_log("sync-tells-a-full-log-and-puts-the-rows-before", words_of("sync", **SYNC), DRAW,
             answer_to(OWN, [], answers=CUT + rest(LOG_LIMIT)), LOG_LIMIT, rest(0) + BYE,
             by_hand=ByHand(8, "log full\n", (136 + 34 + 34 + 5 + 1,))),
    full_log("serve-tells-a-full-log-and-puts-the-rows-before", words_of("serve", **SERVE, links=1), DRAWS[0],
             calls(OWN, [], said=FIRST + rest(LOG_LIMIT)), LOG_LIMIT, BYE,
             by_hand=ByHand(8, "link 1: log full\n", (136 + 34 + 3 + 1,))),
]

GROUPS = {"more rows than a log takes": FULL_LOGS}
