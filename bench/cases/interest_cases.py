"""Cases of `meet`, `sync` and `serve` with `--newest` and `--bytes`."""
import meet_cases
import serve_cases
import sync_cases
import words_cases
from entries import by_recency
from exchange import HIGHEST
from interest import Interest
from meet_cases import ALL, FEW_BESIDE, FORTY, LONG, MANY, ONE_LATER, R, lacking, numbered, told_of
from serve_cases import calls
from situations import *
from sync_cases import answer_to

GREATEST_OF_32 = 2 ** 32 - 1


def meet(name: str, left, right, *caps, **options) -> Case:
    return meet_cases.meet(f"offering-{name}", left, right, *caps, **options)


def meet_in_o(name: str, left, right, **options) -> Case:
    return meet(name, left, right, ALL, ALL, O, **options)


def sized(*lengths: int, author: bytes = U) -> list:
    """A row of each of these payload lengths, from the most recent one back, at falling paths."""
    return [row((bytes((at,)),), 100 + at, length, author=author)
            for at, length in enumerate(reversed(lengths))]


# By recency their sums are 50, 90, 120, 140 and 150.
FIVE = sized(50, 40, 30, 20, 10)
# The most recent first, these are at the paths of 3, 0, 4, 1 and 2.
SHUFFLED = [row((bytes((at,)),), time, 10) for at, time in enumerate((108, 103, 101, 109, 105))]
assert [each.entry.path[0][0] for each in by_recency(SHUFFLED)] == [3, 0, 4, 1, 2]
SEVENTEEN = numbered(range(17))


def to_nothing(name: str, rows: list, **options) -> Case:
    """One side has rows and the other none, which gets what is offered."""
    return meet(name, rows, [], **options)


def sends(name: str, rows: list, count: int, **options) -> Case:
    """The same, where so many rows are offered, 16 at most; each is a frame of 223 bytes. They are sent for an equal
    number of none."""
    if count == 0:
        by_hand = told_of((len(rows), 0, 0), (0, 0, 0), 2, 34, 2, 1)
    else:
        by_hand = told_of((len(rows), 0, 0), (0, count, 0), 3, 34, 3, 5 + 223 * count + 1, 1)
    return to_nothing(name, rows, by_hand=by_hand, **options)


NEWEST = [
    # Of the left side the last row is offered, and of the right one that which is later.
    meet("the-newest-row-of-each-side", FORTY, ONE_LATER, newest=1,
         by_hand=told_of((40, 1, 0), (40, 0, 1), 3, 34, 226, 229, 1)),
    sends("the-newest-row-to-nothing", FIVE, 1, newest=1),
    sends("four-of-five-rows", FIVE, 4, newest=4),
    sends("as-many-rows-as-there-are", FIVE, 5, newest=5),
    sends("fewer-rows-than-would-be", FIVE, 5, newest=6),
    sends("fewer-rows-than-the-greatest-number", FIVE, 5, newest=65_536),
    sends("rows-by-rising-path-whatever-their-times", SHUFFLED, 3, newest=3),
    sends("the-greater-digest-first-at-one-time", [row(A, 5, 9, 0x11), row(B, 5, 1, 0x12)], 1, newest=1),
    sends("the-greater-length-first-at-one-time-and-digest", [row(A, 5, 1), row(B, 5, 2)], 1, newest=1),
    sends("the-lower-path-first-of-one-rank", [row(A, 5), row(B, 5)], 1, newest=1),
    meet_in_o("the-newest-rows-of-two-authors", [row(path, time, author=author, capability=owned(author))
                                                for author, path, time in ((U, A, 7), (U, B, 5), (V, A, 6), (V, B, 8))],
              [], newest=3),
    meet_in_o("the-lower-author-first-of-one-rank", [row(B, author=U, capability=owned(U)), row(A, author=V, capability=owned(V))],
              [], newest=1),
    meet("an-older-row-that-is-known-to-be-covered", [row(A, 6), row(B, 4)], [row(AB, 5), row(B, 7)], newest=1),
    meet("equal-rows-beside-others-that-are-not-offered", FORTY, [*lacking(FORTY, 3, 5), row((b"\x03",), 50)], newest=30),
    meet("a-front-in-which-the-sides-differ", FORTY, lacking(FORTY, 38), newest=2),
]

BYTES = [
    meet("no-byte-of-forty-rows-a-side", FORTY, ONE_LATER, bytes=0,
         by_hand=told_of((40, 0, 0), (40, 0, 0), 2, 34, 2, 1)),
    sends("a-byte-less-than-the-newest-has", FIVE, 0, bytes=49),
    sends("as-many-bytes-as-the-newest-has", FIVE, 1, bytes=50),
    sends("no-smaller-row-behind-one-that-is-too-large", FIVE, 1, bytes=89),
    sends("as-many-bytes-as-two-rows-have", FIVE, 2, bytes=90),
    sends("a-byte-less-than-all-rows-have", FIVE, 4, bytes=149),
    sends("as-many-bytes-as-all-rows-have", FIVE, 5, bytes=150),
    sends("a-byte-more-than-all-rows-have", FIVE, 5, bytes=151),
    sends("the-greatest-number-of-bytes", FIVE, 5, bytes=GREATEST),
    sends("nothing-behind-a-large-row-that-is-the-newest", sized(1_000, 1, 1, 1), 0, bytes=999),
    sends("a-row-before-a-large-one-and-none-behind-it", sized(1, 100, 1, 1), 1, bytes=100),
    sends("no-byte-of-rows-without-any", sized(0, 0, 0), 3, bytes=0),
    sends("no-byte-of-rows-up-to-one-that-has-some", sized(0, 0, 1, 0), 2, bytes=0),
    sends("a-byte-of-rows-of-which-two-have-one", sized(0, 1, 0, 1, 0), 3, bytes=1),
    sends("the-greatest-sum-of-32-bits", sized(GREATEST_OF_32, 1), 1, bytes=GREATEST_OF_32),
    sends("a-sum-of-33-bits", sized(GREATEST_OF_32, 1), 2, bytes=GREATEST_OF_32 + 1),
    sends("rows-up-to-a-sum-past-64-bits", sized(GREATEST, 1), 1, bytes=GREATEST),
    sends("rows-whose-sum-is-that-of-64-bits", sized(GREATEST - 1, 1), 2, bytes=GREATEST),
    sends("one-of-two-halves-past-64-bits", sized(2 ** 63, 2 ** 63, 0), 1, bytes=GREATEST),
    sends("one-of-two-rows-of-the-greatest-length", sized(GREATEST, GREATEST), 1, bytes=GREATEST),
    sends("a-byte-less-than-the-greatest-length", sized(GREATEST, 0), 0, bytes=GREATEST - 1),
    to_nothing("bytes-of-seventeen-of-forty-rows-which-are-cut", FORTY, bytes=17),
]

BOTH = [
    sends("two-rows-where-the-bytes-would-leave-five", FIVE, 2, newest=2, bytes=150),
    sends("bytes-of-two-rows-where-the-number-would-leave-five", FIVE, 2, newest=5, bytes=90),
    sends("two-rows-by-both-limits", FIVE, 2, newest=2, bytes=90),
    sends("two-rows-whose-sum-passes-64-bits-but-for-the-limit", sized(GREATEST, GREATEST, 1), 1, newest=2, bytes=GREATEST),
    sends("rows-whose-sum-passes-64-bits-by-their-number-alone", sized(GREATEST, GREATEST, 1), 2, newest=2),
    meet("two-rows-of-each-side-by-the-lower-limit", FORTY, ONE_LATER, newest=3, bytes=2,
         by_hand=told_of((40, 1, 1), (40, 0, 1), 3, 34, 449, 229, 1)),
]

AREAS = [
    sends("nothing-of-an-area-that-has-no-row", FIVE, 0, newest=1, until=100),
    sends("the-newest-row-of-some-times", FIVE, 1, newest=1, until=103),
    sends("bytes-of-rows-of-some-times-alone", FIVE, 2, bytes=50, until=103),
    meet("the-newest-row-below-a-path", [row(A, 5), row(AB, 4), row(B, 9)], [], newest=1, under="/61"),
    meet("the-newest-rows-of-the-times-that-both-grants-share", FORTY, ONE_LATER[20:], handed(R, U, start=110, end=130),
         handed(R, V, start=120, end=300), newest=2),
    meet("nothing-where-two-subspaces-are-asked-for", FORTY, numbered(range(3), author=V), R, communal(V, mode=READ), newest=1,
         by_hand=told_of((40, 0, 0), (3, 0, 0), 0, 1, 1)),
    meet("what-is-cut-into-four", FORTY, lacking(FORTY, 30, 31, 2), newest=20),
    meet("what-is-sent-whole-of-seventeen-rows", SEVENTEEN, lacking(SEVENTEEN, 3), newest=16),
    meet_in_o("what-is-cut-by-subspace", MANY, MANY[7:50] + MANY[55:], newest=50),
    meet_in_o("what-is-cut-by-time", lacking(FEW_BESIDE, 38), FEW_BESIDE, newest=37),
    meet_in_o("some-of-the-longest-in-the-order-of-their-paths", lacking(LONG, *range(0, 101, 3)),
              lacking(LONG, *range(1, 101, 3)), newest=40),
]

IMAGES = [
    meet("rows-of-images-of-version-2", image_of(*FORTY), image_of(*ONE_LATER), newest=1,
         by_hand=told_of((40, 1, 0), (40, 0, 1), 3, 34, 226, 229, 1)),
    meet("rows-of-images-of-both-versions", FIVE, image_of(*SHUFFLED), bytes=60),
    meet("no-row-that-is-not-authorised", [*FIVE[:4], spoilt(FIVE[4])], [], newest=1),
    meet("none-where-both-images-are-empty", [], [], newest=1, bytes=1,
         by_hand=told_of((0, 0, 0), (0, 0, 0), 2, 34, 2, 1)),
    meet("rows-and-puts-both-images-under-one-name", FORTY[:3], FORTY[2:5], newest=1, options={"right-out": "l.new"}),
    meet("rows-and-leaves-a-front-of-the-transcript", FORTY, ONE_LATER, newest=1, fails="o2"),
    meet("rows-and-tells-a-refused-hello", FORTY, ONE_LATER, R, communal(), newest=1),
    Case("meet-offering-by-options-before-the-others",
         ("meet", "--bytes", "90", *words_of("meet", **meet_cases.WORDS)[1:], "--newest", "4"), b"",
         {"l": old_image_of(*FIVE), "r": old_image_of(), "l.cap": R.spelled(), "r.cap": R.spelled()},
         by_hand=told_of((5, 0, 0), (0, 2, 0), 3, 34, 3, 452, 1)),
]


def sync(name: str, own: list, others: list, other: Interest = Interest(), version: int = HIGHEST, cap=R, other_cap=R,
         ask=None, by_hand=None, newest=None, bytes=None, **options) -> Case:
    """A call of one who offers by these limits to one who offers by others."""
    limits = {name: value for name, value in (("newest", newest), ("bytes", bytes)) if value is not None}
    said = answer_to(own, others, cap, other_cap, ask, version, interest=Interest(newest, bytes), other_interest=other)
    return sync_cases.sync(f"offering-{name}", own, said, cap, cap.namespace, by_hand=by_hand, **limits, **options)


SYNCS = [
    # Sent are First and the Rest that is the last row; read is the later one.
    sync("the-newest-row-to-one-who-does-so", FORTY, ONE_LATER, Interest(1), newest=1, by_hand=ByHand(
        0, "opened 40 closed 41 stored 1 kept 0 refused 0 sent 2 read 1\n", (170 + 34 + 229,))),
    # Sent are First, three times Entries of none, and of one; read are Parts and four times Rest, but for the row sent.
    sync("the-newest-row-to-one-who-offers-all", FORTY, ONE_LATER, newest=1, by_hand=ByHand(
        0, "opened 40 closed 41 stored 1 kept 38 refused 0 sent 5 read 5\n", (170 + 34 + 3 * 2 + 225 + 1 + 1,))),
    sync("all-to-one-who-offers-the-newest-row", FORTY, ONE_LATER, Interest(1)),
    sync("no-byte-to-one-who-does-so", FORTY, ONE_LATER, Interest(bytes=0), bytes=0, by_hand=ByHand(
        0, "opened 40 closed 40 stored 0 kept 0 refused 0 sent 1 read 1\n", (170 + 34 + 1,))),
    sync("no-byte-to-one-who-offers-all", FORTY, SEVENTEEN, bytes=0),
    sync("as-much-as-there-is", FORTY, ONE_LATER, newest=40, bytes=40, by_hand=ByHand(
        0, "opened 40 closed 41 stored 1 kept 0 refused 0 sent 5 read 2\n", (170 + 34 + 2_236 + 1,))),
    sync("the-newest-row-to-one-of-version-1", FORTY, ONE_LATER, Interest(1), 1, newest=1, by_hand=ByHand(
        0, "opened 40 closed 41 stored 1 kept 0 refused 0 sent 2 read 1\n", (170 + 34 + 229,))),
    sync("the-newest-rows-to-one-of-version-1-who-offers-all", FORTY, ONE_LATER, version=1, newest=18),
    sync("the-newest-row-of-the-area-that-the-other-side-grants", FORTY, [], cap=R, other_cap=handed(R, V, end=120), newest=1,
         by_hand=ByHand(0, "opened 40 closed 40 stored 0 kept 0 refused 0 sent 2 read 1\n", (170 + 34 + 229,))),
    sync("the-newest-row-of-the-area-that-it-asks-for", FIVE, [], ask=Area(U, (), 0, 103), newest=1, until=103,
         by_hand=ByHand(0, "opened 5 closed 5 stored 0 kept 0 refused 0 sent 2 read 1\n", (136 + 8 + 34 + 34 + 229,))),
    sync("nothing-where-two-subspaces-are-asked-for", FORTY, [], other_cap=communal(V, mode=READ), newest=1),
    sync("two-rows-by-the-bytes-and-sends-no-row-that-came", FIVE, SHUFFLED, newest=5, bytes=90),
]


def serve(name: str, own: list, *others, cap=R, by_hand=None, newest=None, bytes=None, **options) -> Case:
    """A server that offers by these limits, for some who call: the rows of each, and what else `calls` is told of it."""
    limits = {name: value for name, value in (("newest", newest), ("bytes", bytes)) if value is not None}
    said = [calls(own, rows, link, cap, interest=Interest(newest, bytes), **more)
            for link, (rows, more) in enumerate(others, 1)]
    return serve_cases.serve(f"offering-{name}", own, *said, cap=cap, space=cap.namespace, by_hand=by_hand, **limits, **options)


ONE, NO_BYTE = {"other_interest": Interest(1)}, {"other_interest": Interest(bytes=0)}
SERVES = [
    # Read are First and the Rest that is the later row; sent is the last one.
    serve("the-newest-row-to-one-who-does-so", FORTY, (ONE_LATER, ONE), newest=1, by_hand=ByHand(
        0, "link 1: opened 40 closed 41 stored 1 kept 0 refused 0 sent 1 read 2\n", (170 + 226 + 1,))),
    serve("the-newest-row-to-one-who-offers-all", FORTY, (ONE_LATER, {}), newest=1),
    serve("all-to-one-who-offers-the-newest-row", FORTY, (ONE_LATER, ONE)),
    serve("no-byte-to-one-who-does-so", FORTY, (ONE_LATER, NO_BYTE), bytes=0, by_hand=ByHand(
        0, "link 1: opened 40 closed 40 stored 0 kept 0 refused 0 sent 1 read 1\n", (170 + 2,))),
    serve("the-newest-row-to-one-of-version-1", FORTY, (ONE_LATER, {**ONE, "version": 1}), newest=1, by_hand=ByHand(
        0, "link 1: opened 40 closed 41 stored 1 kept 0 refused 0 sent 1 read 2\n", (170 + 226 + 1,))),
    # Each gets the newest row that it may read: the one at 124 and the one at 139.
    serve("each-the-newest-row-that-it-may-read", FORTY, ([], {"other_ask": Area(U, (), 0, 125)}), ([], {}), newest=1,
          by_hand=ByHand(0, "link 1: opened 40 closed 40 stored 0 kept 0 refused 0 sent 1 read 2\n"
                            "link 2: opened 40 closed 40 stored 0 kept 0 refused 0 sent 1 read 2\n", (170 + 226 + 1,) * 2)),
    serve("bytes-to-three-of-both-versions-who-bring-nothing-new", FIVE, (FIVE, {"version": 1}), (FIVE[1:3], {}),
          (FIVE[:1], {"version": 1}), bytes=120),
    serve("the-newest-rows-and-is-brought-more-than-it-offers", FIVE, (numbered(range(5, 40)), {}), newest=2),
    serve("the-newest-rows-of-some-times", FORTY, (ONE_LATER[20:], {"ask": Area(U, (), 0, 130)}), newest=4, until=130),
    serve("no-row-that-is-not-authorised", [*FIVE[:4], spoilt(FIVE[4])], ([], {}), newest=1),
    serve("as-much-as-there-is", FORTY, (ONE_LATER, {}), newest=65_536, bytes=GREATEST, by_hand=ByHand(
        0, "link 1: opened 40 closed 41 stored 1 kept 9 refused 0 sent 2 read 5\n", (170 + 141 + 229,))),
    serve("what-is-cut-by-time", FEW_BESIDE, (lacking(FEW_BESIDE, 38), {"other_cap": ALL}), cap=ALL, newest=37),
]

WRONG_COUNTS = {"no": "0", "65537": "65537", "a-count-of-33-bits": str(2 ** 32 + 1), "a-count-of-65-bits": str(2 ** 64 + 1),
                "a-count-behind-a-zero": "01", "a-count-behind-a-plus": "+1", "a-count-behind-a-minus": "-1",
                "a-count-in-words": "all", "an-empty-count": "", "a-count-with-a-fraction": "1.0"}
WRONG_NUMBERS = {"a-number-of-65-bits": str(GREATEST + 1), "a-number-of-40-digits": "9" * 40, "a-double-zero": "00",
                 "a-number-in-hexadecimal": "0x10", "a-number-behind-a-minus": "-1", "a-number-in-words": "none",
                 "an-empty-number": "", "a-number-with-a-unit": "1k"}
MEET = words_of("meet", **words_cases.SIX)
WORDS = [
    *(words_cases.meet(f"of-meet-with-{name}-for-the-newest", newest=word) for name, word in WRONG_COUNTS.items()),
    *(words_cases.meet(f"of-meet-with-{name}-for-the-bytes", bytes=word) for name, word in WRONG_NUMBERS.items()),
    *(words_cases.words(f"of-meet-with-{name}", *MEET, *words) for name, words in (
        ("the-newest-twice", ("--newest", "1", "--newest", "1")), ("the-bytes-twice", ("--bytes", "1", "--bytes", "1")),
        ("the-newest-without-a-count", ("--newest",)), ("the-bytes-without-a-number", ("--bytes",)),
        ("the-newest-joined-by-a-sign", ("--newest=1",)), ("the-newest-in-upper-case", ("--Newest", "1")),
        ("the-bytes-for-one", ("--byte", "1")))),
    words_cases.serve("of-serve-with-none-of-the-newest", newest="0"),
    words_cases.serve("of-serve-with-65537-of-the-newest", newest="65537"),
    words_cases.serve("of-serve-with-bytes-of-65-bits", bytes=str(GREATEST + 1)),
    *(words_cases.words(f"of-sync-with-{name}", *words_of("sync", **sync_cases.WORDS), *words) for name, words in (
        ("none-of-the-newest", ("--newest", "0")), ("bytes-of-65-bits", ("--bytes", str(GREATEST + 1))),
        ("the-newest-twice", ("--newest", "2", "--newest", "2")))),
    words_cases.words("of-drill-with-the-newest", "drill", "--rows", "5", "--newest", "1"),
    words_cases.words("of-show-with-the-bytes", "show", "--bytes", "1"),
    words_cases.words("of-gen-with-the-newest", "gen", "--rows", "5", "--newest", "1"),
    words_cases.delegate("of-delegate-with-the-newest", "--newest", "1"),
]

GROUPS = {
    "so many rows of a meeting": NEWEST,
    "so many bytes of a meeting": BYTES,
    "both limits of a meeting": BOTH,
    "areas of a meeting": AREAS,
    "images of a meeting": IMAGES,
    "one who calls": SYNCS,
    "a server": SERVES,
    "words": WORDS,
}
