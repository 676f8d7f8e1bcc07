"""Cases of `sync` and `serve` that follow: behind a session the one who answers feeds the one who calls."""
from feeds import END, ROW, feed
from meet_cases import FORTY, ONE_LATER, numbered
from serve_cases import calls, serve
from situations import *
from sync_cases import ALL, R, answer_to, sync

YES = {"follow": "yes"}
NONE_FED = feed([])
NOISE = b"\xff" * 250
FIRST, SECOND = row(path("a")), row(path("b"))
OUTSIDE = row(author=V)
SPOILT = spoilt(row(path("c")))


def follows(name: str, own: list, others: list, fed: bytes, **options) -> Case:
    """A call that follows, to one who has other rows and then feeds so."""
    return sync(f"follows-{name}", own, answer_to(own, others) + fed, options=YES, **options)


def ends(status: int, *lines: str) -> ByHand:
    """The session of nothing and nothing, and what is told behind it."""
    return ByHand(status, "opened 0 closed 0 stored 0 kept 0 refused 0 sent 1 read 1\n" + "".join(f"{line}\n" for line in lines),
                  (136 + 34 + 34 + 1,))


FOLLOWED = [
    follows("a-feed-of-nothing", [], [], NONE_FED, by_hand=ends(0, "followed 0 stored 0 kept 0 refused 0")),
    follows("a-feed-of-one-row", [], [], feed([FIRST]), by_hand=ends(0, "followed 1 stored 1 kept 0 refused 0")),
    follows("a-feed-of-rows-of-which-it-has-some", [FIRST], [SECOND], feed([FIRST, row(path("b", "c"), 4), row(A, 9), FIRST])),
    follows("a-feed-of-forty-rows", [], FORTY, feed(ONE_LATER)),
    follows("a-feed-behind-which-more-stands", FORTY, ONE_LATER, feed([row(A, 900)]) + b"\xff" * 300),
    sync("follows-a-feed-below-a-path", [row(A, 5)], answer_to([row(A, 5)], [], ask=Area(U, A, 0, None)) + feed([row(AB, 7)]),
         options=YES, under="/61"),
    sync("follows-nothing-where-no-area-is-common", FORTY[:2], answer_to(FORTY[:2], [], other_cap=communal(V, mode=READ)) + NONE_FED,
         options=YES),
    sync("follows-a-feed-of-version-1", FORTY, answer_to(FORTY, ONE_LATER, version=1) + feed([row(A, 900)]), options=YES),
    sync("follows-in-an-owned-namespace", [], answer_to([], [], ALL, ALL) + NONE_FED, ALL, O, options=YES),
    sync("follows-nothing-behind-a-session-that-is-refused", [], answer_to([], [], answers=b"\xff"), options=YES),
]

# The feed is refused, or is none.
WRONG = [
    follows("a-number-that-is-too-great", [], [], END + number(4, 1), by_hand=ends(6, "session refused: BadMessage 0")),
    follows("a-number-that-is-too-small", [], [], ROW + FIRST.frame() + END + bytes(4)),
    follows("a-row-that-is-cut", [], [], ROW, by_hand=ends(6, "session refused: ClosedEarly 1")),
    follows("no-byte", [], [], b"", by_hand=ends(6, "session refused: ClosedEarly 0")),
    follows("a-number-that-is-cut", [], [], NONE_FED[:-1], by_hand=ends(6, "session refused: ClosedEarly 4")),
    follows("a-byte-that-begins-nothing", [], [], b"\x0c", by_hand=ends(6, "session refused: BadMessage 0")),
    follows("a-row-and-a-byte-that-begins-nothing", [], [], ROW + FIRST.frame() + b"\x01"),
    follows("a-row-of-no-byte", [], [], ROW + bytes(4)),
    follows("a-row-of-131073-bytes", [], [], ROW + number(4, 131_073)),
    follows("a-row-outside-of-the-area", [], [], ROW + FIRST.frame() + ROW + OUTSIDE.frame() + ROW + SECOND.frame() + END + number(4, 3)),
]

# A row that is not authorised is left out, and numbered behind those of the image and of the session.
REFUSED = [
    follows("a-row-that-is-not-authorised", [], [], feed([FIRST, SPOILT, SECOND]), by_hand=ends(
        1, "followed 3 stored 2 kept 0 refused 1", "first refused row 2: BadEntrySignature")),
    follows("a-row-that-is-not-authorised-behind-others", FORTY[:3], ONE_LATER, feed([FIRST, SPOILT])),
    follows("such-a-row-behind-one-of-the-session", [], [FIRST], feed([SPOILT])),
]

# The server feeds nothing new to a single link, for all that came is its own.
FED = [
    serve("feeds-nothing-to-one-who-called-alone", [FIRST], calls([FIRST], [SECOND]), options=YES),
    serve("feeds-nothing-to-forty-rows", FORTY, calls(FORTY, ONE_LATER), options=YES),
    serve("feeds-no-link-without-a-common-area", FORTY[:2], calls(FORTY[:2], [], other_cap=communal(V, mode=READ)), options=YES),
    serve("feeds-no-link-whose-session-is-refused", FORTY[:2], NOISE, options=YES),
    serve("feeds-two-links", FORTY, calls(FORTY, FORTY), calls(FORTY, FORTY, 2), options=YES),
    serve("feeds-the-second-link-alone", FORTY, NOISE, calls(FORTY, FORTY, 2), options=YES),
    serve("feeds-who-came-where-fewer-came", FORTY, calls(FORTY, FORTY), count=2, options=YES),
]

GROUPS = {"what is followed": FOLLOWED, "feeds that are none": WRONG, "rows that are refused": REFUSED, "what is fed": FED}
