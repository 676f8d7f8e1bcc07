"""Cases of `sync`."""
from meet_cases import FEW_BESIDE, FORTY, IN_O, LONG, MANY, ONE_LATER, lacking, numbered
from sessions import ANSWERER, Hello, proof_message, spoken
from exchange import END_TURN, HIGHEST, exchange
from interest import UNLIMITED, Interest
from situations import *

R = communal(mode=READ)
ALL = owned(mode=READ)
DRAW, OTHER_NONCE = bytes(range(32)), b"a" * 16
WORDS = {"image": "i", "cap": "c", "key": BY_U, "to": "host:1"}


def answer_to(own: list, others: list, cap=R, other_cap=R, ask=None, version: int = HIGHEST, by=None,
              answers=None, interest: Interest = UNLIMITED, other_interest: Interest = UNLIMITED) -> bytes:
    """All that one who answers, and speaks up to this version, says to a caller with these rows. Each side offers what its
    interest leaves."""
    caller = Hello(HIGHEST, DRAW[:16], ask or cap.grant(), cap)
    answerer = Hello(version, OTHER_NONCE, other_cap.grant(), other_cap)
    proof = signed(by or other_cap.receiver(), proof_message(ANSWERER, caller, answerer))
    area = caller.ask.common(answerer.ask)
    offers = interest.offered(live_of(own), area), other_interest.offered(live_of(others), area)
    turns = exchange(*offers, area, spoken(caller, answerer)).turns[1::2]
    return answerer.spelled() + signature_field(proof) + (b"".join(turns) if answers is None else answers)


def live_of(rows: list) -> list:
    store = Store()
    for each in rows:
        if each.refusal(each.entry.namespace) is None:
            store.take(each)
    return store.live()


def sync(name: str, own: list, link, cap=R, space: bytes = N, fails="", gone=(), also=None, options=None, draws=(DRAW,),
         by_hand=None, **area) -> Case:
    """A call with an image of these rows, over a link that gives these bytes."""
    names = {"i": old_image_of(*own, space=space), "c": bytes_of(cap), **(also or {})}
    kept = {name: data for name, data in names.items() if name not in gone}
    words, links = words_of("sync", **{**WORDS, **(options or {})}, **area), None if link is None else (link,)
    return Case(f"sync-{name}", words, b"", kept, draws, fails, links, by_hand)


def meets(name: str, own: list, others: list, version: int = HIGHEST, **options) -> Case:
    return sync(name, own, answer_to(own, others, version=version), **options)


def meets_in_o(name: str, own: list, others: list, version: int = HIGHEST) -> Case:
    return sync(name, own, answer_to(own, others, ALL, ALL, version=version), ALL, O)


def told(name: str, answers: bytes, own=FORTY[:2], version: int = HIGHEST, ask=None, **area) -> Case:
    """The answerer says this where its first turn is due, in the area asked for."""
    return sync(f"tells-{name}", own, answer_to([], [], ask=ask, version=version, answers=answers), **area)


def split(at_path: bytes) -> bytes:
    """A cut of version 1 at a path, with fingerprints that no rows have."""
    return b"\x03\x01" + at_path + b"." * 64


def parts(dimension: int, *points: bytes) -> bytes:
    """A cut of version 2 at points, with such fingerprints."""
    return bytes((8, dimension, len(points))) + b"".join(points) + b"." * 32 * (len(points) + 1)


def at_path(*bytes_of_path: int) -> bytes:
    """A path of one byte each, as a point."""
    return path_bytes(tuple(bytes((each,)) for each in bytes_of_path))


def at_time(time: int) -> bytes:
    return number(8, time)


NO_PATH = path_bytes(())
WHOLE = answer_to(FORTY, ONE_LATER)
OLD_WHOLE = answer_to(FORTY, ONE_LATER, version=1)
GREETED = len(answer_to([], [], answers=b""))
SPOILT = [*numbered(range(3)), spoilt(row(path("z")))]

# Each says hello and proof, 136 and 34 bytes, and the caller its fingerprint, in 34.
SESSIONS = [
    # Read are Parts and Rest; sent are First, Agree, Agree, Entries of ten and Agree, and a farewell.
    sync("of-forty-rows-a-side-of-which-one-is-later", FORTY, WHOLE, by_hand=ByHand(
        0, "opened 40 closed 41 stored 1 kept 0 refused 0 sent 5 read 2\n", (170 + 34 + 2_236 + 1,))),
    meets("of-nothing-and-seventeen-rows", [], numbered(range(17))),
    meets("of-seventeen-rows-and-nothing", numbered(range(17)), []),
    meets("of-nothing-and-nothing", [], []),
    meets("of-equal-rows", FORTY, FORTY),
    meets("brings-what-prunes", [row(A, 3), row(AB, 4)], [row(A, 6)]),
    meets("brings-what-is-covered", [row(A, 6)], [row(AB, 5)]),
    sync("reads-no-further-than-the-last-farewell", FORTY, WHOLE + b"\xff" * 300),
    sync("of-two-subspaces-says-farewell", FORTY[:2], answer_to(FORTY[:2], [], other_cap=communal(V, mode=READ))),
    sync("in-an-owned-namespace", IN_O[:2], answer_to(IN_O[:2], IN_O[1:], ALL, ALL), ALL, O),
    sync("below-a-path", [row(A, 5), row(B, 5)],
         answer_to([row(A, 5), row(B, 5)], [row(AB, 7), row(B, 7)], ask=Area(U, A, 0, None)), under="/61"),
    *(sync(f"of-version-{version}-is-as-of-this-one", FORTY, answer_to(FORTY, ONE_LATER, version=version), by_hand=ByHand(
        0, "opened 40 closed 41 stored 1 kept 0 refused 0 sent 5 read 2\n", (170 + 34 + 2_236 + 1,)))
      for version in (3, 255)),
    meets_in_o("of-three-authors-is-cut-by-subspace", MANY, MANY[7:50] + MANY[55:]),
    meets_in_o("of-rows-almost-all-of-one-author-is-cut-by-time", lacking(FEW_BESIDE, 3, 40), FEW_BESIDE),
    meets_in_o("cuts-a-part-by-time-again", LONG, lacking(LONG, 0, 33, 34, 77, 102)),
    meets_in_o("brings-rows-of-a-part-by-time-in-the-order-of-their-paths", lacking(LONG, *range(0, 101, 3)),
               lacking(LONG, *range(1, 101, 3))),
]

OF_VERSION_1 = [
    # Read are Split, Entries of ten and Agree; sent are First, Agree, Split and Rest of one, and a farewell.
    sync("with-one-of-version-1-of-forty-rows-a-side", FORTY, OLD_WHOLE, by_hand=ByHand(
        0, "opened 40 closed 41 stored 1 kept 9 refused 0 sent 4 read 3\n", (170 + 34 + 71 + 229,))),
    # Read are Split and Rest of eight and of nine; sent are First and twice Entries of none, and a farewell.
    meets("with-one-of-version-1-of-nothing-and-seventeen-rows", [], numbered(range(17)), 1, by_hand=ByHand(
        0, "opened 0 closed 17 stored 17 kept 0 refused 0 sent 3 read 3\n", (170 + 34 + 5 + 1,))),
    meets("with-one-of-version-1-of-seventeen-rows-and-nothing", numbered(range(17)), [], 1),
    meets("with-one-of-version-1-of-nothing-and-nothing", [], [], 1),
    meets("with-one-of-version-1-of-equal-rows", FORTY, FORTY, 1),
    meets("with-one-of-version-1-brings-what-prunes", [row(A, 3), row(AB, 4)], [row(A, 6)], 1),
    meets("with-one-of-version-1-brings-what-is-covered", [row(A, 6)], [row(AB, 5)], 1),
    sync("with-one-of-version-1-reads-no-further-than-the-last-farewell", FORTY, OLD_WHOLE + b"\xff" * 300),
    sync("with-one-of-version-1-of-two-subspaces-says-farewell", FORTY[:2],
         answer_to(FORTY[:2], [], other_cap=communal(V, mode=READ), version=1)),
    meets_in_o("with-one-of-version-1-in-an-owned-namespace", IN_O[:2], IN_O[1:], 1),
    meets_in_o("with-one-of-version-1-is-cut-by-subspace", MANY, MANY[7:50] + MANY[55:], 1),
    meets_in_o("with-one-of-version-1-is-not-cut-by-time", lacking(FEW_BESIDE, 3, 40), FEW_BESIDE, 1),
    sync("with-one-of-version-1-below-a-path", [row(A, 5), row(B, 5)],
         answer_to([row(A, 5), row(B, 5)], [row(AB, 7), row(B, 7)], ask=Area(U, A, 0, None), version=1), under="/61"),
    meets("with-one-of-version-1-leaves-out-a-row-of-the-image", SPOILT, FORTY[:5], 1),
    told("a-row-left-out-that-one-of-version-1-sends", b"\x04\x02" + spoilt(row(A)).frame() + row(B).frame()
         + b"\x06\x07", [], 1),
    *(sync(f"with-one-of-version-1-closed-after-{count}", FORTY, OLD_WHOLE[:count]) for count in
      (GREETED + 1, GREETED + 4, GREETED + 69, len(OLD_WHOLE) - 300, len(OLD_WHOLE) - 1)),
    *(sync(f"with-one-of-version-1-puts-the-image-behind-a-fault-of-call-{call}-of-the-link", FORTY, OLD_WHOLE,
           fails=f"l{call}") for call in (8, 20, 32)),
]

SOME_TIMES, BELOW_A = Area(U, (), 120, 130), Area(U, A, 0, None)
TIME_WORDS, PATH_WORDS = {"from": 120, "until": 130}, {"under": "/61"}
CUTS = [
    told("a-cut-at-no-path", parts(1, NO_PATH)),
    told("a-cut-at-no-path-behind-another", parts(1, at_path(10), NO_PATH)),
    told("a-cut-at-points-that-fall", parts(1, at_path(20), at_path(10))),
    told("a-cut-at-points-of-which-the-last-falls", parts(1, at_path(10), at_path(30), at_path(20))),
    told("a-cut-at-one-point-twice", parts(1, at_path(10), at_path(20), at_path(20))),
    told("a-cut-of-one-subspace-at-it", parts(0, U)),
    told("a-cut-of-one-subspace-above-it", parts(0, V)),
    told("a-cut-at-the-first-time", parts(2, at_time(0))),
    told("a-cut-at-times-that-fall", parts(2, at_time(9), at_time(8))),
    told("a-cut-where-the-times-of-the-area-begin", parts(2, at_time(120)), FORTY, ask=SOME_TIMES,
         **TIME_WORDS),
    told("a-cut-where-the-times-of-the-area-end", parts(2, at_time(121), at_time(130)), FORTY,
         ask=SOME_TIMES, **TIME_WORDS),
    told("a-cut-within-the-times-of-the-area", parts(2, at_time(121), at_time(129)), FORTY, ask=SOME_TIMES,
         **TIME_WORDS),
    told("a-cut-at-the-path-of-the-area", parts(1, at_path(0x61)), [row(AB, 5)], ask=BELOW_A, **PATH_WORDS),
    told("a-cut-below-the-path-of-the-area", parts(1, at_path(0x60)), [row(AB, 5)], ask=BELOW_A, **PATH_WORDS),
    told("a-cut-above-the-paths-of-the-area", parts(1, at_path(0x61, 0xff), at_path(0x62)), [row(AB, 5)], ask=BELOW_A,
         **PATH_WORDS),
    told("a-cut-within-the-paths-of-the-area", parts(1, at_path(0x61, 0), at_path(0x61, 0xff)), [row(AB, 5)], ask=BELOW_A,
         **PATH_WORDS),
    sync("tells-a-cut-at-the-least-subspace", IN_O[:2],
         answer_to([], [], ALL, ALL, answers=parts(0, bytes(33))), ALL, O),
    told("a-cut-into-no-parts", b"\x08\x01\x00" + b"." * 32),
    told("a-cut-at-four-points", parts(1, *(at_path(each) for each in (5, 10, 20, 30)))),
    told("a-cut-of-a-fourth-dimension", parts(3, at_time(9))),
    told("a-cut-at-no-key", parts(0, b"\x02" + U[1:])),
    told("a-cut-of-version-1", split(at_path(20))),
    told("a-cut-that-is-closed-before-it-is-seen-to-fall", parts(1, at_path(20), at_path(10))[:-1]),
    told("a-cut-that-is-closed-behind-its-dimension", b"\x08\x02"),
    told("a-cut-that-is-closed-behind-its-number", b"\x08\x02\x03"),
    # The parts have ten rows each, and all are sent.
    told("the-end-behind-a-cut-by-path", parts(1, at_path(10), at_path(20), at_path(30)) + END_TURN, FORTY),
    told("the-end-behind-a-cut-by-time", parts(2, at_time(110), at_time(120), at_time(GREATEST)) + END_TURN, FORTY),
    sync("tells-the-end-behind-a-cut-by-subspace", IN_O,
         answer_to([], [], ALL, ALL, answers=parts(0, U, V) + END_TURN), ALL, O),
    # To these the answers are no rows: of the first part there are none.
    told("a-farewell-behind-cuts-that-were-answered", parts(2, at_time(50)) + END_TURN + b"\x05\0\0\0\0" * 2 + b"\x07"),
    told("a-row-outside-that-answers-a-part-by-time", parts(2, at_time(101)) + END_TURN + b"\x05\0\0\0\1"
         + row((b"\x07",), 101).frame()),
    told("a-cut-at-no-path-of-version-1", split(NO_PATH), version=1),
    told("a-cut-of-version-2-where-one-of-version-1-answers", parts(1, at_path(20)), version=1),
    told("a-cut-of-version-1-by-time", b"\x03\x02" + at_time(9) + b"." * 64, version=1),
    told("an-item-that-is-not-due-of-version-1", b"\x05\x00\x00\x00\x00", version=1),
    told("the-end-behind-a-cut-of-version-1", split(at_path(20)) + END_TURN, FORTY, 1),
]

LEFT_OUT = [
    meets("leaves-out-a-row-of-the-image", SPOILT, FORTY[:5]),
    sync("leaves-out-a-row-that-came", [], answer_to([], [], answers=b"\x04\x02" + spoilt(row(A)).frame()
         + row(B).frame() + b"\x06\x07")),
    sync("counts-rows-left-out-over-the-image-and-those-that-came", SPOILT,
         answer_to(SPOILT, [], answers=b"\x04\x01" + spoilt(row(A)).frame() + b"\x06\x07")),
    sync("numbers-a-row-that-came-behind-the-image", FORTY[:3],
         answer_to(FORTY[:3], [], answers=b"\x04\x01" + spoilt(row(A)).frame() + b"\x06\x07")),
    meets("tells-a-fault-of-the-report-in-place-of-rows-left-out", SPOILT, [], fails="r1"),
]

ENDS = [
    *(sync(f"closed-after-{count}", FORTY, WHOLE[:count]) for count in
      (0, 1, 40, GREETED - 1, GREETED, GREETED + 1, GREETED + 2, GREETED + 3, GREETED + 10, GREETED + 70, GREETED + 141,
       GREETED + 200, len(WHOLE) - 2, len(WHOLE) - 1)),
    sync("tells-a-version-that-nobody-speaks", FORTY[:2], answer_to([], [], version=0)),
    sync("tells-a-hello-of-another-namespace", FORTY[:2],
         answer_to([], [], other_cap=communal(mode=READ, space=OTHER))),
    sync("tells-a-hello-to-write", FORTY[:2], answer_to([], [], other_cap=communal())),
    sync("tells-a-chain-that-its-giver-did-not-sign", FORTY[:2],
         answer_to([], [], other_cap=handed(handed(R, V), U, by=U))),
    sync("tells-a-proof-of-another", FORTY[:2], answer_to([], [], by=V)),
    told("an-item-that-is-not-due", b"\x05\x00\x00\x00\x00"),
    told("what-is-no-item", b"\x09"),
    sync("tells-what-is-no-hello", FORTY[:2], b"WSX"),
    sync("tells-a-row-outside", FORTY[:2],
         answer_to([], [], answers=b"\x04\x01" + row(A, author=V).frame() + b"\x06\x07")),
    sync("tells-rows-out-of-order-and-keeps-the-first", FORTY[:2],
         answer_to([], [], answers=b"\x04\x02" + row(B).frame() + row(A).frame() + b"\x06\x07")),
]

STOPS = [
    sync("misses-the-image", [], WHOLE, gone=("i",)),
    sync("misses-the-capability", [], WHOLE, gone=("c",)),
    sync("misses-the-key-file", [], WHOLE, options={"key": "lms:k"}),
    sync("finds-no-key-file", [], WHOLE, options={"key": "lms:k"}, also={"k": b"no"}),
    sync("finds-a-spent-key-file", [], WHOLE, options={"key": "lms:k"}, also={"k": at(K, 32).file()}),
    sync("refuses-a-capability-to-write", [], WHOLE, communal()),
    sync("refuses-an-ask-without-times", [], WHOLE, handed(R, U, start=5), until=5),
    sync("refuses-an-ask-for-another-subspace", [], WHOLE, subspace=V),
    sync("finds-no-one-at-the-place", FORTY[:2], None),
    sync("finds-no-noise", FORTY[:2], WHOLE, draws=()),
]

OF_K_READ = communal(K.user(), mode=READ)
BY_FILE = [
    sync("signs-with-the-next-index-of-a-key-file", [],
         answer_to([], [], OF_K_READ, OF_K_READ, by=K), OF_K_READ, options={"key": "lms:k"}, also=WITH_K),
    sync("uses-up-an-index-where-nobody-answers", [], b"", OF_K_READ, options={"key": "lms:k"}, also=WITH_K),
]

FAULTS = [
    *(sync(f"stops-at-a-fault-of-get-{call}", FORTY, WHOLE, fails=f"s{call}") for call in (1, 2)),
    sync("tells-a-fault-of-the-put", FORTY, WHOLE, fails="s3"),
    sync("tells-a-fault-of-the-put-behind-rows-left-out", SPOILT, answer_to(SPOILT, []), fails="s3"),
    sync("tells-a-fault-of-the-put-behind-a-refused-session", FORTY[:2], b"WSX", fails="s3"),
    sync("tells-a-fault-of-the-put-behind-one-of-the-link", FORTY[:2], WHOLE, fails="s3 l3"),
    sync("stops-at-a-fault-of-the-noise", FORTY, WHOLE, fails="n1"),
    sync("stops-at-a-fault-of-the-door", FORTY, WHOLE, fails="d1"),
    *(sync(f"puts-the-image-behind-a-fault-of-call-{call}-of-the-link", FORTY, WHOLE, fails=f"l{call}")
      for call in (1, 2, 3, 4, 5, 6, 8, 10, 15, 20, 30, 32, 33)),
    sync("tells-a-fault-of-the-report", FORTY, WHOLE, fails="r1"),
    sync("keeps-the-status-of-a-session-where-the-report-fails", FORTY, WHOLE[:40], fails="r1"),
    sync("calls-neither-input-nor-output", FORTY, WHOLE, fails="i1 o1"),
]

GROUPS = {
    "sessions": SESSIONS,
    "one of version 1": OF_VERSION_1,
    "cuts that are told": CUTS,
    "rows that are not authorised": LEFT_OUT,
    "how a session ends": ENDS,
    "what stops a call before it": STOPS,
    "key files": BY_FILE,
    "faults": FAULTS,
}
