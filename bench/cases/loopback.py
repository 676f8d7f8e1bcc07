"""What crates/loopback reads and prints: a server and its peers, who talk over links of three kinds.

The program runs them at the same time. Here each runs alone, over the bytes that the other says; `talk` asserts that
these are the same.
"""
import re
from dataclasses import dataclass, replace
from hashlib import sha256

from capabilities import Area
from commands import run
from entries import Store
from meet_cases import FORTY, ONE_LATER, R
from outside import Objects, one_by_one
from serve_cases import DRAWS, GREETED, HELLO, calls
from situations import BY_U, U, image_of, old_image_of, row, words_of
from sync_cases import OTHER_NONCE, live_of

CALLER_DRAW = OTHER_NONCE + bytes(16)
PLACE = "127.0.0.1:1"  # whichever it is, it is not told
OPTIONS = {"image": "i", "cap": "c", "key": BY_U}
SYNC = words_of("sync", **OPTIONS, to=PLACE)


@dataclass(frozen=True)
class Came:
    """What comes of a run over links."""
    status: int
    image: bytes
    report: str
    held: tuple  # what each link holds that came back
    opening: int | None = None  # how many rows a server's log has before its first link

    def heard(self) -> str:
        """What one who watches hears of: in a server of each row that is stored behind the opening ones, and nobody else tells."""
        stored = 0 if self.opening is None else sum(int(number) for number in re.findall(r"stored (\d+)", self.report))
        return f"heard {stored} rows from {self.opening if stored else 0} on\n"

    def told(self, title: str) -> str:
        return f"{title}: status {self.status}, image {measure(self.image)}\n{self.heard()}{self.report}"

    def without_fronts(self) -> "Came":
        """The same, but for how many rows the log had, which may rest on what runs at the same time."""
        return replace(self, report=re.sub(r"opened \d+ closed \d+ ", "", self.report))


def measure(data: bytes) -> str:
    return f"{len(data)} bytes sha256 {sha256(data).hexdigest()}"


def run_over(words: tuple, rows: list, draws: tuple, links: tuple, order=one_by_one, opening=None) -> Came:
    objects = Objects({"i": image_of(*rows), "c": R.spelled()}, draws, b"", {}, links=links, order=order)
    status = run(list(words), objects)
    return Came(status, objects.shelf.names["i"], objects.report.held.decode(),
                tuple(bytes(link.held) for link in objects.door.back), opening)


def served(rows: list, links: tuple, order=one_by_one) -> Came:
    words = words_of("serve", **OPTIONS, at=PLACE, links=len(links))
    return run_over(words, rows, DRAWS[:len(links)], links, order, len(rows))


def talk(rows: list, said: bytes, answers: bytes) -> Came:
    """One who calls with these rows says just these bytes to one who answers so."""
    caller = run_over(SYNC, rows, (CALLER_DRAW,), (answers,))
    assert caller.held == (said,)
    return caller


def joined(*sides: list) -> bytes:
    store = Store()
    for each in sum(sides, []):
        store.take(each)
    return image_of(*store.live())


# Over a link between two threads

def pair_lines() -> str:
    said = calls(ONE_LATER, FORTY)
    server = served(ONE_LATER, (said,))
    caller = talk(FORTY, said, *server.held)
    assert caller.image == server.image == joined(FORTY, ONE_LATER)
    # The caller says First, Agree, Agree, Entries of ten and Agree, the server Parts and Rest of the one row that is later.
    assert caller.report == "opened 40 closed 41 stored 1 kept 0 refused 0 sent 5 read 2\n"
    assert server.report == "link 1: opened 40 closed 40 stored 0 kept 10 refused 0 sent 2 read 5\n"
    return caller.told("over a pair, the caller") + server.told("over a pair, the server")


# Over links of one gate: the first one reads nothing before all is written to the second one

EARLY, LATE = Area(U, (), 0, 120), Area(U, (), 120, None)
NEW, OLD, LATER = row((b"\x32",), 110), row((b"\x1e",), 125), row((b"\x33",), 145)
EARLY_ROWS = [*FORTY[:20], NEW]  # all that is there, and one row more
LATE_ROWS = [*FORTY[20:30], OLD, *FORTY[31:], LATER]  # one row is older than that which is there, and one is new
EARLY_PEER = calls(FORTY, EARLY_ROWS, 1, other_ask=EARLY)
LATE_PEER = calls(FORTY, LATE_ROWS, 2, other_ask=LATE)

# The first session (0) ends behind the last write of the second one (1), be it before or behind that one's own end.
GATED = ((0, 1, 1, 0), (1, 0, 1, 0), (1, 1, 0, 0))


def gated() -> Came:
    servers = {served(FORTY, (EARLY_PEER, LATE_PEER), lambda _, order=order: order).without_fronts() for order in GATED}
    assert len(servers) == 1, "what comes rests on the order of the sessions"
    server, = servers
    assert EARLY.common(LATE) is None
    # Each caller says First and answers four parts of five rows of the server: the first one the last part, with a row
    # more, the second one the last two. Sent are Parts and as many Rests.
    assert server.report == ("link 1: stored 1 kept 5 refused 0 sent 2 read 5\n"
                             "link 2: stored 1 kept 10 refused 0 sent 3 read 5\n")
    assert server.image == joined(FORTY, [NEW, LATER])
    return server


def gate_lines(server: Came) -> str:
    return server.told("over two links of one gate") + "".join(
        f"link {at} holds {measure(held)}\n" for at, held in enumerate(server.held, 1))


# Over TCP: eight peers, who come one after the other, the first of whom goes last

FRONT, MIDDLE, BACK = FORTY[:30], FORTY[10:], ONE_LATER[20:]
ALL = joined(FORTY, ONE_LATER)
NOISE, OTHER_NOISE = b"\xff" * 250, b"WSX" + bytes(range(256)) * 8
CUT = calls(FRONT, MIDDLE, 5)[:HELLO - 20]
CUT_BEHIND = calls(FRONT, MIDDLE, 6)[:GREETED + 20]
FIRST = calls(FRONT, BACK, 7)
SECOND = calls([*FRONT[:20], *BACK], MIDDLE, 8)
PEERS = (b"", b"", NOISE, OTHER_NOISE, CUT, CUT_BEHIND, FIRST, SECOND)
FIRST_GOES_LAST = (0, *(at for peer in range(1, 8) for at in (peer, peer)), 0)


def tcp_server() -> Came:
    server = served(FRONT, PEERS, lambda _: FIRST_GOES_LAST)
    assert server == served(FRONT, PEERS) and server.status == 6 and server.image == ALL
    return server


def tcp_lines(server: Came) -> str:
    callers = [talk(rows, said, answers) for rows, said, answers in
               ((BACK, FIRST, server.held[6]), (MIDDLE, SECOND, server.held[7]))]
    assert all(caller.status == 0 and caller.image == ALL for caller in callers)
    return "".join((
        server.told("over TCP, the server"),
        callers[0].told("the seventh of its peers"),
        callers[1].told("the eighth one"),
        f"the sixth one heard {measure(server.held[5])}\n",
    ))


# Over links between three threads: who calls stays, and is fed what another brought since its own session began

@dataclass(frozen=True)
class Three:
    """Who stay together: what is printed of where they are, and the rows that each begins with."""
    title: str
    server: list
    one: list
    other: list

    def met(self) -> dict:
        """The sessions run one before the other, or both at once: with what the server's log has as each begins. What each
        reads rests on that, and what comes of it all does not."""
        return {(0, 0, 1, 1): (self.server, live_of([*self.server, *self.one])),
                (1, 1, 0, 0): (live_of([*self.server, *self.other]), self.server),
                (0, 1, 0, 1): (self.server, self.server)}

    def come(self, order: tuple, met: tuple) -> tuple:
        """What comes of the server and of the two who call it."""
        said = calls(met[0], self.one, 1), calls(met[1], self.other, 2)
        server = run_over(words_of("serve", **OPTIONS, at=PLACE, links=2, follow="yes"), self.server, DRAWS[:2], said,
                          lambda _: order, len(self.server))
        callers = [run_over(words_of("sync", **OPTIONS, to=PLACE, follow="yes"), rows, (CALLER_DRAW,), (answers,))
                   for rows, answers in zip((self.one, self.other), server.held)]
        assert tuple(held for caller in callers for held in caller.held) == said
        return tuple(replace(came, report="", held=()) for came in (server, *callers))

    def lines(self) -> str:
        came = {self.come(order, met) for order, met in self.met().items()}
        assert len(came) == 1, "what comes rests on the order of the sessions"
        (server, one, other), = came
        assert {each.image for each in (server, one, other)} == {joined(self.server, self.one, self.other)}
        assert server.status == one.status == other.status == 0
        heard = f"heard 2 rows from {len(self.server)} on\n", one.heard(), other.heard()
        return "".join(f"{self.title}, the {who}: status {each.status}, image {measure(each.image)}\n{told}"
                       for who, each, told in zip(("server", "first", "second"), (server, one, other), heard))


MANY = Three("where both stay", FORTY, live_of([*FORTY, NEW]), live_of([*FORTY, LATER]))
ONE_EACH = Three("where both stay with one row each", [], [row()], [row((b"\x62",))])


def files() -> dict:
    """The program's input and output, by name. Of its images two are of version 1."""
    gates, server = gated(), tcp_server()
    given = {
        "cap": R.spelled(), "server-draws": b"".join(DRAWS[:8]), "caller-draw": CALLER_DRAW,
        "forty": old_image_of(*FORTY), "later": image_of(*ONE_LATER),
        "early-peer": EARLY_PEER, "late-peer": LATE_PEER, "late-answers": gates.held[1],
        "one-new": image_of(*MANY.one), "other-new": image_of(*MANY.other),
        "no-row": old_image_of(), "one-row": image_of(*ONE_EACH.one), "other-row": image_of(*ONE_EACH.other),
        "front": image_of(*FRONT), "middle": old_image_of(*MIDDLE), "back": image_of(*BACK),
        "noise": NOISE, "other-noise": OTHER_NOISE, "cut": CUT, "cut-behind": CUT_BEHIND, "greeting": server.held[5],
    }
    lines = "".join(f"{name} {data.hex()}\n" for name, data in given.items())
    return {"stdin": lines.encode(), "stdout": (pair_lines() + gate_lines(gates) + MANY.lines() + ONE_EACH.lines() + tcp_lines(server)).encode()}
