"""Cases of `meet`."""
from situations import *

R = communal(mode=READ)  # U's own subspace of N
ALL = owned(mode=READ)  # all of O


def numbered(numbers, time=lambda i: 100 + i, author: bytes = U) -> list:
    """A row at the path of each number, one byte long."""
    return [row((bytes((i,)),), time(i), author=author) for i in numbers]


FORTY = numbered(range(40))
ONE_LATER = numbered(range(40), lambda i: 200 if i == 25 else 100 + i)
OUT = {"left-out": "l.new", "right-out": "r.new"}
WORDS = {"left": "l", "right": "r", "left-cap": "l.cap", "right-cap": "r.cap", **OUT}


def meet(name: str, left, right, left_cap=R, right_cap=R, space: bytes = N, given=b"", fails="", gone=(), also=None,
         options=None, by_hand=None, **area) -> Case:
    """Two images, be they rows or bytes, under two capabilities. Names that are gone are not there."""
    images = [each if isinstance(each, bytes) else old_image_of(*each, space=space) for each in (left, right)]
    names = {"l": images[0], "r": images[1], "l.cap": bytes_of(left_cap), "r.cap": bytes_of(right_cap), **(also or {})}
    kept = {name: data for name, data in names.items() if name not in gone}
    return Case(f"meet-{name}", words_of("meet", **{**WORDS, **(options or {})}, **area), given, kept, fails=fails,
                by_hand=by_hand)


def told_of(left: tuple, right: tuple, items: int, *turns: int) -> ByHand:
    """A meeting in which each side has so many rows and stores and keeps so many, and so many items and turns are said."""
    lines = "".join(f"{side} rows {rows} stored {stored} kept {kept}\n"
                    for side, (rows, stored, kept) in (("left", left), ("right", right)))
    return ByHand(0, f"{lines}items {items} turns {len(turns)}\n", turns=turns)


def of_space(space: bytes, *rows: Row) -> bytes:
    return old_image_of(*rows, space=space)


def writer(author: bytes) -> Capability:
    return owned(author)


IN_O = [row(A, 5, author=U, capability=writer(U)), row(AB, 5, author=U, capability=writer(U)),
        row(A, 5, author=V, capability=writer(V)), row(B, 7, author=V, capability=writer(V))]
MANY = [row((number(2, i),), 1000 + i, author=author, capability=writer(author)) for author in (U, V, W)
        for i in range(30)]


def timed(times, author: bytes = U, under: tuple = ()) -> list:
    """A row of O at each of these times, at the paths of the numbers from 0 on, below a path."""
    return [row((*under, number(2, i)), time, author=author, capability=writer(author))
            for i, time in enumerate(times)]


def lacking(rows: list, *places: int) -> list:
    """The rows but for those at some places."""
    return [each for at, each in enumerate(rows) if at not in places]


# Almost all rows are one author's.
FEW_BESIDE = [*timed(range(100, 140)), *timed((105,), V)]
LONG = [*timed((500 + 37 * i % 101 for i in range(101))), *timed((540, 550), W)]
# By subspace a part has 16 rows: where one has 8 by time that is not far more even, and with 7 it is.
AT_EDGE = [*timed((100,) * 4 + (101,) * 8 + (102,) * 4), *timed((102,), V)]
PAST_EDGE = [*timed((100,) * 4 + (101,) * 7 + (102,) * 5), *timed((102,), V)]
THREE_TIMES = [*timed((100,) * 10 + (200,) * 10 + (300,) * 10), *timed((300,), V)]
LAST_TIMES = [*timed((GREATEST - 2,) * 5 + (GREATEST - 1,) * 5 + (GREATEST,) * 6), *timed((0,), V)]

MEETINGS = [
    # First; four parts; agreement on three, and ten rows of the third; the one that differs; farewell.
    meet("of-forty-rows-a-side-of-which-one-is-later", FORTY, ONE_LATER,
         by_hand=told_of((40, 1, 0), (40, 0, 10), 7, 34, 141, 2_236, 229, 1)),
    meet("of-nothing-and-seventeen-rows", [], numbered(range(17)),
         by_hand=told_of((0, 17, 0), (17, 0, 0), 10, 34, 141, 9, 3_812, 1)),
    meet("of-seventeen-rows-and-nothing", numbered(range(17)), []),
    meet("of-sixteen-rows-and-nothing", numbered(range(16)), []),
    meet("of-nothing-and-nothing", [], [], by_hand=told_of((0, 0, 0), (0, 0, 0), 2, 34, 2, 1)),
    meet("of-equal-rows", FORTY, FORTY),
    meet("of-rows-that-differ-throughout", numbered(range(0, 40, 2)), numbered(range(1, 40, 2))),
    meet("sends-what-prunes-and-what-is-pruned", [row(A, 6)], [row(AB, 5), row(B, 5)]),
    meet("keeps-the-greater-token-of-one-entry", [row(A)],
         [row(A, capability=handed(communal(), U))]),
    meet("of-three-authors-is-cut-by-subspace", MANY, MANY[7:50] + MANY[55:], ALL, ALL, O),
    meet("of-two-authors-of-whom-one-has-one-row", MANY[:1] + MANY[30:60], MANY[30:60], ALL, ALL, O),
    meet("of-four-authors-is-cut-into-four-by-subspace",
         [each for author in (T, U, V, W) for each in timed(range(6), author)],
         [each for author in (T, U, V, W) for each in timed(range(1, 7), author)], ALL, ALL, O),
    meet("of-one-author-is-cut-by-path-though-all-times-differ", LONG[:101], lacking(LONG[:101], 5, 60), ALL, ALL, O),
    meet("in-an-owned-namespace", IN_O[:2], IN_O[1:], ALL, ALL, O),
    meet("puts-both-images-under-one-name", FORTY[:3], FORTY[2:5], options={"right-out": "l.new"}),
    meet("puts-an-image-over-its-own", FORTY[:3], FORTY[2:5], options={"left-out": "l", "right-out": "r"}),
    meet("takes-both-sides-from-one-name", FORTY[:3], FORTY[:3], options={"right": "l", "right-cap": "l.cap"}),
]

def of_generator(rows: int) -> list:
    """What is live of so many rows of the generator."""
    store = Store()
    for index in range(rows):
        store.take(generated(index))
    return store.live()


CUT_BY_TIME = [
    meet("of-rows-almost-all-of-one-author-is-cut-by-time", lacking(FEW_BESIDE, 3, 40), FEW_BESIDE, ALL, ALL, O),
    meet("of-rows-almost-all-of-the-later-author-is-cut-by-time", FEW_BESIDE[1:40],
         [*timed((105,), T), *FEW_BESIDE[:40]], ALL, ALL, O),
    meet("of-nothing-and-rows-almost-all-of-one-author", [], FEW_BESIDE, ALL, ALL, O),
    meet("cuts-a-part-by-time-again", lacking(LONG, 0, 33, 34, 77, 102), LONG, ALL, ALL, O),
    meet("brings-rows-of-a-part-by-time-in-the-order-of-their-paths", lacking(LONG, *range(0, 101, 3)),
         lacking(LONG, *range(1, 101, 3)), ALL, ALL, O),
    meet("is-cut-by-subspace-where-times-are-not-far-more-even", lacking(AT_EDGE, 0), AT_EDGE, ALL, ALL, O),
    meet("is-cut-by-time-where-times-are-just-far-more-even", lacking(PAST_EDGE, 0), PAST_EDGE, ALL, ALL, O),
    meet("is-cut-by-subspace-where-all-times-are-one", timed((7,) * 20),
         [*timed((7,) * 20), *timed((7,) * 2, V), *timed((7,) * 2, W)], ALL, ALL, O),
    meet("is-cut-by-time-into-three", lacking(THREE_TIMES, 4), lacking(THREE_TIMES, 24), ALL, ALL, O),
    meet("of-the-last-times-that-there-are", lacking(LAST_TIMES, 15), LAST_TIMES, ALL, ALL, O),
    meet("cuts-an-area-of-some-times-by-time", lacking(FEW_BESIDE, 7), FEW_BESIDE, ALL, ALL, O, **{"from": 103}, until=135),
    meet("cuts-by-time-below-a-path", [*timed(range(100, 120), under=A), *timed((105,), V, A)],
         [*timed((99,) * 20), *timed(range(100, 140), under=A), *timed((105,), V, A)], ALL, ALL, O, under="/61"),
    meet("of-generated-rows-is-cut-in-every-dimension", of_generator(300), of_generator(400), ALL, ALL, O),
    meet("agrees-on-the-parts-by-time-that-are-equal", FEW_BESIDE, [*FEW_BESIDE, *timed((141,), V, B)], ALL, ALL, O),
]

AREAS = [
    meet("of-two-subspaces-says-farewell", FORTY, numbered(range(3), author=V), R, communal(V, mode=READ),
         by_hand=told_of((40, 0, 0), (3, 0, 0), 0, 1, 1)),
    meet("of-one-subspace-of-an-owned-namespace", IN_O[:2], IN_O[1:], ALL, handed(ALL, V, subspace=V), O),
    meet("below-a-path", [row(A, 5), row(B, 5)], [row(AB, 7), row(B, 7)], under="/61"),
    meet("below-two-paths-of-which-one-extends-the-other", IN_O[:2], IN_O[1:], handed(ALL, U, under=A),
         handed(ALL, V, under=AB), O),
    meet("below-two-paths-of-which-none-extends-the-other", IN_O[:2], IN_O[1:], handed(ALL, U, under=A),
         handed(ALL, V, under=B), O),
    meet("of-some-times", FORTY, ONE_LATER[20:], **{"from": 120}, until=130),
    meet("of-times-that-both-grants-share", FORTY, ONE_LATER[20:], handed(R, U, start=110, end=130),
         handed(R, V, start=120, end=300)),
    meet("of-times-that-the-grants-do-not-share", FORTY, ONE_LATER, handed(R, U, end=120), handed(R, V, start=120)),
    meet("leaves-what-is-outside-as-it-was", [row(A, 9), row(B, 1)], [row(AB, 5), row(B, 2)], under="/62"),
    meet("brings-a-row-that-one-outside-the-area-drops", [row(A, 9)], [row(AB, 5)], until=6),
    meet("asks-for-any-subspace-of-an-owned-namespace", IN_O[:2], IN_O[1:], ALL, ALL, O, subspace="any", until=7),
    meet("asks-for-one-subspace-of-it", IN_O[:2], IN_O[1:], ALL, ALL, O, subspace=V),
]

LEFT_OUT = [
    meet("leaves-out-a-row-of-the-left-image", [row(A), spoilt(row(B))], [row(AB)]),
    meet("leaves-out-a-row-of-the-right-image", [row(A), row(B)], [row(AB), spoilt(row(B))]),
    meet("counts-rows-left-out-over-both-images", [row(A), spoilt(row(B))], [row(A, capability=R), row(B)]),
    meet("leaves-out-a-row-of-another-namespace", [row(A)], [row(A, space=OTHER, capability=communal(space=OTHER))]),
    meet("leaves-out-all-rows", [spoilt(row(A))], [spoilt(row(B))]),
    meet("tells-a-fault-of-the-report-in-place-of-rows-left-out", [spoilt(row(A))], [], fails="r1"),
]

REFUSED_HELLOS = [
    meet("refuses-images-of-two-namespaces", [row(A)], of_space(OTHER)),
    meet("tells-two-namespaces-before-a-capability-of-another", [row(A)], of_space(OTHER), communal(space=OTHER)),
    meet("refuses-a-left-capability-of-another-namespace", [], [], communal(mode=READ, space=OTHER)),
    meet("refuses-a-right-capability-of-another-namespace", [], [], R, communal(mode=READ, space=OTHER)),
    meet("refuses-a-left-capability-to-write", [], [], communal()),
    meet("refuses-a-right-capability-to-write", [], [], R, communal()),
    meet("tells-the-left-hello-first", [], [], communal(), communal(mode=READ, space=OTHER)),
    meet("refuses-a-chain-that-its-giver-did-not-sign", [], [], R,
         handed(handed(R, V), U, by=U)),
    meet("refuses-an-owned-capability-in-a-communal-namespace", [], [], owned(mode=READ, space=N)),
    meet("refuses-a-communal-capability-in-an-owned-namespace", [], [], R, ALL, O, also={
        "l.cap": communal(mode=READ, space=O).spelled()}),
    meet("refuses-a-capability-that-its-namespace-did-not-sign", [], [], owned(mode=READ, by=U), ALL, O),
    meet("refuses-an-ask-from-before-the-right-grant", [], [], R, handed(R, U, start=5), **{"from": 0}),
    meet("refuses-an-ask-until-behind-the-left-grant", [], [], handed(R, U, end=9), R, until=10),
    meet("refuses-an-ask-for-any-subspace-under-a-communal-capability", [], [], subspace="any"),
    meet("refuses-an-ask-for-another-subspace", [], [], subspace=V),
    meet("refuses-an-ask-for-a-shorter-path", [], [], R, handed(R, U, under=A), under="."),
    meet("refuses-an-ask-without-times", [], [], R, handed(R, U, start=5), until=5),
    meet("refuses-an-ask-without-times-on-the-left", [], [], handed(R, U, start=5), R, until=5),
    meet("without-times-tells-a-capability-to-write-first", [], [], handed(communal(), U, start=5), R, until=5),
    meet("without-times-tells-a-chain-first", [], [], handed(R, U, start=5, by=V), R, until=5),
    meet("without-times-tells-the-namespace-first", [], [], handed(communal(mode=READ, space=OTHER), U, start=5), R,
         until=5),
    meet("tells-a-refused-hello-before-rows-left-out", [spoilt(row(A))], [], R, communal()),
]

PAIR = (row(A), row(AB))
CUT = old_image_of(*PAIR)[:-1]

WRONG_FILES = [
    meet("misses-the-left-image", [], [], gone=("l",)),
    meet("misses-the-right-image", [], [], gone=("r",)),
    meet("misses-the-left-capability", [], [], gone=("l.cap",)),
    meet("misses-the-right-capability", [], [], gone=("r.cap",)),
    meet("tells-the-left-image-first", CUT, [], gone=("r", "l.cap")),
    meet("tells-the-right-image-before-a-capability", [], CUT, b"", b""),
    meet("tells-the-left-capability-before-the-right-one", [], [], PLAIN[:-1], b""),
    meet("tells-a-missing-capability-before-two-namespaces", [], of_space(OTHER), gone=("r.cap",)),
    meet("finds-no-image-in-nothing", b"", []),
    meet("finds-no-image-in-rows", [], row(A).frame()),
    meet("finds-rows-of-the-left-image-out-of-order", old_image(N, PAIR[::-1]), []),
    meet("finds-rows-of-the-right-image-pruned", [], old_image(N, [row(A, 6), row(AB, 5)])),
    meet("finds-no-capability-where-a-byte-follows", [], [], R, R.spelled() + b"\x00"),
    meet("finds-no-capability-in-an-image", [], [], old_image_of()),
]

MEET_FAULTS = [
    *(meet(f"stops-at-a-fault-of-get-{call}", FORTY[:2], FORTY[1:3], fails=f"s{call}") for call in range(1, 5)),
    meet("tells-a-fault-of-the-left-put", FORTY[:2], FORTY[1:3], fails="s5"),
    meet("tells-a-fault-of-the-right-put", FORTY[:2], FORTY[1:3], fails="s6"),
    meet("leaves-both-images-where-the-first-write-fails", FORTY[:2], FORTY[1:3], fails="o1"),
    meet("leaves-a-front-of-the-transcript-where-the-second-write-fails", FORTY[:2], FORTY[1:3], fails="o2"),
    meet("tells-a-fault-of-the-report", FORTY[:2], FORTY[1:3], fails="r1"),
    meet("tells-a-fault-of-the-report-in-its-midst", FORTY[:2], FORTY[1:3], fails="r3"),
    meet("keeps-the-status-of-a-refused-hello-where-the-report-fails", [], [], communal(), fails="r1"),
    meet("calls-nothing-but-shelf-and-output", FORTY[:2], FORTY[1:3], given=b"\x01", fails="i1 n1"),
]

GROUPS = {
    "what comes to either side": MEETINGS,
    "cuts by time": CUT_BY_TIME,
    "areas": AREAS,
    "rows that are not authorised": LEFT_OUT,
    "what is refused": REFUSED_HELLOS,
    "files that are missing or wrong": WRONG_FILES,
    "faults": MEET_FAULTS,
}
