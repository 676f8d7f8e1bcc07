"""Cases of `serve`.

Sessions run at the same time, so what comes of a case may not rest on their order: one link at most brings rows that
are new or has numbers that another one changes. `Case` asserts that of some orders.
"""
from exchange import BYE, END_TURN, ENTRIES, HIGHEST, exchange, frames
from grammar import MOST_LINKS
from interest import UNLIMITED, Interest
from meet_cases import FEW_BESIDE, FORTY, IN_O, LONG, MANY, ONE_LATER, lacking, numbered
from sessions import CALLER, Answerer, Caller, Hello, proof_message, spoken
from sync_cases import ALL, NO_PATH, OF_K_READ, OTHER_NONCE, R, SPOILT, at_path, at_time, live_of, parts, split
from situations import *

DRAWS = tuple(bytes((first,)) + bytes(range(1, 32)) for first in range(1, MOST_LINKS + 1))
WORDS = {"image": "i", "cap": "c", "key": BY_U, "at": "host:1"}


def calls(own: list, others: list, link: int = 1, cap=R, other_cap=R, ask=None, other_ask=None,
          version: int = HIGHEST, by=None, server=None, said=None, interest: Interest = UNLIMITED,
          other_interest: Interest = UNLIMITED) -> bytes:
    """All that one who calls with other rows, and speaks up to this version, says over a link, counted from 1, to a
    server with the own ones. Each side offers what its interest leaves."""
    caller = Hello(version, OTHER_NONCE, other_ask or other_cap.grant(), other_cap)
    answerer = Hello(HIGHEST, DRAWS[link - 1][:16], ask or cap.grant(), cap)
    signer = by or other_cap.receiver()
    greeting = caller.spelled() + signature_field(signed(signer, proof_message(CALLER, caller, answerer)))
    if said is not None:
        return greeting + said
    area = caller.ask.common(answerer.ask)
    offers = other_interest.offered(live_of(others), area), interest.offered(live_of(own), area)
    turns = exchange(*offers, area, spoken(caller, answerer)).turns
    told = greeting + b"".join(turns[::2])
    meet_as(told, b"".join(turns[1::2]),
            Caller(cap.namespace, caller, by_signer(signer), live_of(others), other_interest),
            Answerer(cap.namespace, answerer, by_signer(server or cap.receiver()), live_of(own), interest))
    return told


def by_signer(signer):
    return lambda message: signed(signer, message)


def meet_as(told: bytes, answers: bytes, caller: Caller, answerer: Answerer) -> None:
    """The answerer's model says the answers to these bytes, the caller's model just them to those, and both end."""
    other = answerer.after(told)
    one = caller.after(other.out)
    assert (one.out, one.end, other.end) == (told, "done", "done") and other.out.endswith(answers)
    assert (one.sent, one.read) == (other.read, other.sent)
    assert all(row in caller.rows for row in other.came) and all(row in answerer.rows for row in one.came)


def serve(name: str, own: list, *links: bytes, count=None, cap=R, space: bytes = N, fails="", gone=(), also=None,
          options=None, draws=None, by_hand=None, files=None, **area) -> Case:
    """A server with an image of these rows, for links that give these bytes, or for more than these."""
    count = count or len(links)
    names = {"i": old_image_of(*own, space=space), "c": bytes_of(cap), **(also or {})}
    kept = {name: data for name, data in names.items() if name not in gone}
    words = words_of("serve", **{**WORDS, "links": count, **(options or {})}, **area)
    return Case(f"serve-{name}", words, b"", kept, DRAWS[:count] if draws is None else draws, fails, links or None,
                by_hand, files)


def meets(name: str, own: list, others: list, version: int = HIGHEST, **options) -> Case:
    return serve(name, own, calls(own, others, version=version), **options)


def meets_in_o(name: str, own: list, others: list, version: int = HIGHEST) -> Case:
    return serve(name, own, calls(own, others, cap=ALL, other_cap=ALL, version=version), cap=ALL, space=O)


FIRST = b"\x01" + bytes(32) + END_TURN  # with a fingerprint that no rows have


def rest(*rows: Row) -> bytes:
    """The exchange of one who is sent a few rows and has these."""
    return FIRST + b"\x05" + number(4, len(rows)) + frames(rows) + BYE


def tells(name: str, said: bytes, own=FORTY[:2], version: int = HIGHEST, **options) -> Case:
    """The caller says this where an exchange is due."""
    return serve(f"hears-{name}", own, calls(own, [], said=said, version=version), **options)


def in_o(name: str, answers: bytes, own=FEW_BESIDE) -> Case:
    """The caller says this of the parts where rows of two authors are cut."""
    return serve(f"hears-{name}", own, calls(own, [], cap=ALL, other_cap=ALL, said=FIRST + answers), cap=ALL, space=O)


def greeted(name: str, **greeting) -> Case:
    return serve(f"hears-{name}", FORTY[:2], calls(FORTY[:2], [], said=b"", **greeting))


SEVENTEEN = FORTY[:17]
WHOLE = calls(FORTY, ONE_LATER)
OLD_WHOLE = calls(FORTY, ONE_LATER, version=1)
HELLO = len(Hello(HIGHEST, OTHER_NONCE, R.grant(), R).spelled())
GREETED = len(calls([], [], said=b""))

SESSIONS = [
    # Read are First, Agree, Agree, Entries of ten and Agree, and a farewell; sent are turns of Parts and of Rest.
    serve("of-forty-rows-a-side-of-which-one-is-later", FORTY, WHOLE, by_hand=ByHand(
        0, "link 1: opened 40 closed 41 stored 1 kept 9 refused 0 sent 2 read 5\n", (170 + 141 + 229,))),
    meets("of-nothing-and-seventeen-rows", [], numbered(range(17))),
    meets("of-seventeen-rows-and-nothing", numbered(range(17)), []),
    meets("of-nothing-and-nothing", [], []),
    meets("of-equal-rows", FORTY, FORTY),
    meets("is-brought-what-prunes", [row(A, 3), row(AB, 4)], [row(A, 6)]),
    meets("is-brought-what-is-covered", [row(A, 6)], [row(AB, 5)]),
    serve("reads-no-further-than-the-last-farewell", FORTY, WHOLE + b"\xff" * 300),
    serve("of-two-subspaces-says-farewell", FORTY[:2], calls(FORTY[:2], [], other_cap=communal(V, mode=READ))),
    serve("in-an-owned-namespace", IN_O[:2], calls(IN_O[:2], IN_O[1:], cap=ALL, other_cap=ALL), cap=ALL, space=O),
    serve("below-a-path", [row(A, 5), row(B, 5)],
          calls([row(A, 5), row(B, 5)], [row(AB, 7), row(B, 7)], ask=Area(U, A, 0, None)), under="/61"),
    serve("for-one-who-asks-below-a-path", [row(A, 5), row(B, 5)],
          calls([row(A, 5), row(B, 5)], [row(AB, 7), row(B, 7)], other_ask=Area(U, A, 0, None))),
    serve("of-some-times", FORTY, calls(FORTY, ONE_LATER[20:], ask=Area(U, (), 120, 201)), **{"from": 120}, until=201),
    *(serve(f"of-version-{version}-is-as-of-this-one", FORTY, calls(FORTY, ONE_LATER, version=version), by_hand=ByHand(
        0, "link 1: opened 40 closed 41 stored 1 kept 9 refused 0 sent 2 read 5\n", (170 + 141 + 229,)))
      for version in (3, 255)),
    meets_in_o("of-three-authors-is-cut-by-subspace", MANY, MANY[7:50] + MANY[55:]),
    meets_in_o("of-rows-almost-all-of-one-author-is-cut-by-time", FEW_BESIDE, lacking(FEW_BESIDE, 3, 40)),
    meets_in_o("cuts-a-part-by-time-again", lacking(LONG, 0, 33, 34, 77, 102), LONG),
    meets_in_o("is-brought-rows-of-a-part-by-time-in-the-order-of-their-paths", lacking(LONG, *range(0, 101, 3)),
               lacking(LONG, *range(1, 101, 3))),
]

OF_VERSION_1 = [
    # Read are First, Agree, Split and Rest; sent are turns of Split, and of Entries and Agree, and a farewell.
    serve("for-one-of-version-1-of-forty-rows-a-side", FORTY, OLD_WHOLE, by_hand=ByHand(
        0, "link 1: opened 40 closed 41 stored 1 kept 0 refused 0 sent 3 read 4\n", (170 + 70 + 2_234 + 1,))),
    meets("for-one-of-version-1-of-nothing-and-seventeen-rows", [], numbered(range(17)), 1),
    # Read are First and twice Entries of none; sent are turns of Split and of Rest of eight and of nine.
    meets("for-one-of-version-1-of-seventeen-rows-and-nothing", numbered(range(17)), [], 1, by_hand=ByHand(
        0, "link 1: opened 17 closed 17 stored 0 kept 0 refused 0 sent 3 read 3\n", (170 + 70 + 3_802,))),
    meets("for-one-of-version-1-of-nothing-and-nothing", [], [], 1),
    meets("for-one-of-version-1-of-equal-rows", FORTY, FORTY, 1),
    meets("for-one-of-version-1-is-brought-what-prunes", [row(A, 3), row(AB, 4)], [row(A, 6)], 1),
    meets("for-one-of-version-1-is-brought-what-is-covered", [row(A, 6)], [row(AB, 5)], 1),
    serve("for-one-of-version-1-reads-no-further-than-the-last-farewell", FORTY, OLD_WHOLE + b"\xff" * 300),
    serve("for-one-of-version-1-of-two-subspaces-says-farewell", FORTY[:2],
          calls(FORTY[:2], [], other_cap=communal(V, mode=READ), version=1)),
    meets_in_o("for-one-of-version-1-in-an-owned-namespace", IN_O[:2], IN_O[1:], 1),
    meets_in_o("for-one-of-version-1-is-cut-by-subspace", MANY, MANY[7:50] + MANY[55:], 1),
    meets_in_o("for-one-of-version-1-is-not-cut-by-time", FEW_BESIDE, lacking(FEW_BESIDE, 3, 40), 1),
    serve("for-one-of-version-1-of-some-times", FORTY,
          calls(FORTY, ONE_LATER[20:], ask=Area(U, (), 120, 201), version=1), **{"from": 120}, until=201),
    serve("for-some-of-version-1-and-one-of-version-2", FORTY, calls(FORTY, FORTY[5:], 1, version=1),
          calls(FORTY, FORTY[:20], 2), calls(FORTY, FORTY, 3, version=1)),
    meets("for-one-of-version-1-leaves-out-a-row-of-the-image", SPOILT, FORTY[:5], 1),
    tells("a-row-left-out-that-one-of-version-1-sends", rest(spoilt(row(A)), row(B)), [], 1),
    *(serve(f"is-left-by-one-of-version-1-after-{count}", FORTY, OLD_WHOLE[:count]) for count in
      (GREETED + 34, GREETED + 36, GREETED + 100, len(OLD_WHOLE) - 1)),
    *(serve(f"for-one-of-version-1-puts-the-image-behind-a-fault-of-call-{call}-of-the-link", FORTY, OLD_WHOLE,
            fails=f"l{call}") for call in (6, 20, 30, 33)),
]

# What a server with seventeen rows says of the whole is cut into parts, from the paths of 0, 4, 8 and 12 on.
AGREES = b"\x02"
CUTS = [
    tells("a-cut-of-a-part-within-it", FIRST + AGREES + parts(1, at_path(6)) + AGREES * 2 + END_TURN, SEVENTEEN),
    tells("a-cut-of-a-part-where-it-begins", FIRST + AGREES + parts(1, at_path(4)), SEVENTEEN),
    tells("a-cut-of-a-part-where-it-ends", FIRST + AGREES + parts(1, at_path(6), at_path(8)), SEVENTEEN),
    tells("a-cut-of-the-first-part-where-it-ends", FIRST + parts(1, at_path(4)), SEVENTEEN),
    tells("a-cut-of-the-last-part-where-it-begins", FIRST + AGREES * 3 + parts(1, at_path(12), at_path(14)), SEVENTEEN),
    tells("a-cut-of-the-last-part-within-it", FIRST + AGREES * 3 + parts(1, at_path(13), at_path(0xff)) + END_TURN,
          SEVENTEEN),
    tells("a-cut-of-a-part-by-path-by-time", FIRST + AGREES * 3 + parts(2, at_time(113), at_time(115)) + END_TURN,
          SEVENTEEN),
    tells("a-cut-at-no-path", FIRST + parts(1, NO_PATH), SEVENTEEN),
    tells("a-cut-at-points-that-fall", FIRST + AGREES * 2 + parts(1, at_path(11), at_path(9)), SEVENTEEN),
    tells("a-cut-at-four-points", FIRST + parts(1, *(at_path(each) for each in (0, 1, 2, 3))), SEVENTEEN),
    tells("a-cut-of-version-1", FIRST + AGREES + split(at_path(6)), SEVENTEEN),
    tells("a-cut-where-rows-are-due", FIRST + parts(1, at_path(5)), FORTY[:2]),
    tells("rows-of-another-part", FIRST + AGREES + ENTRIES + b"\x01" + FORTY[8].frame(), SEVENTEEN),
    tells("rows-of-the-part-before", FIRST + AGREES + ENTRIES + b"\x01" + FORTY[3].frame(), SEVENTEEN),
    tells("rows-of-the-part", FIRST + AGREES + ENTRIES + b"\x02" + FORTY[4].frame() + FORTY[7].frame() + AGREES * 2
          + END_TURN + BYE, SEVENTEEN),
    tells("a-farewell-with-a-part-unanswered", FIRST + AGREES * 3 + BYE, SEVENTEEN),
    tells("agreement-on-every-part", FIRST + AGREES * 4 + BYE, SEVENTEEN),
    tells("agreement-on-more-parts-than-there-are", FIRST + AGREES * 5, SEVENTEEN),
    tells("a-cut-at-no-path-of-version-1", FIRST + split(NO_PATH), SEVENTEEN, 1),
    tells("a-cut-of-a-half-where-it-begins-of-version-1", FIRST + AGREES + split(at_path(8)), SEVENTEEN, 1),
    tells("a-cut-of-version-2-from-one-of-version-1", FIRST + AGREES + parts(1, at_path(12)), SEVENTEEN, 1),
    # Rows almost all of one author are cut at the times 109, 119 and 129.
    in_o("a-cut-of-a-part-by-time-where-it-begins", AGREES + parts(2, at_time(109))),
    in_o("a-cut-of-a-part-by-time-where-it-ends", AGREES + parts(2, at_time(115), at_time(119))),
    in_o("a-cut-of-a-part-by-time-within-it", AGREES + parts(2, at_time(110), at_time(118)) + AGREES * 2 + END_TURN),
    in_o("a-cut-of-a-part-by-time-by-subspace", AGREES + parts(0, V) + AGREES * 2 + END_TURN),
    in_o("a-row-of-a-later-part-by-time", AGREES + ENTRIES + b"\x01" + FEW_BESIDE[19].frame()),
    in_o("a-row-of-an-earlier-part-by-time", AGREES + ENTRIES + b"\x01" + FEW_BESIDE[8].frame()),
    in_o("rows-of-a-part-by-time-in-the-order-of-their-times", ENTRIES + b"\x02" + frames([LONG[71], LONG[41]]), LONG),
    in_o("rows-of-a-part-by-time-in-the-order-of-their-paths", ENTRIES + b"\x02" + frames([LONG[41], LONG[71]])
         + AGREES * 3 + END_TURN + BYE, LONG),
]

LEFT_OUT = [
    meets("leaves-out-a-row-of-the-image", SPOILT, FORTY[:5]),
    serve("leaves-out-a-row-that-came", [], calls([], [], said=rest(spoilt(row(A)), row(B)))),
    serve("counts-rows-left-out-over-the-image-and-those-that-came", SPOILT,
          calls(SPOILT, [], said=rest(spoilt(row(A))))),
    serve("numbers-a-row-that-came-behind-the-image", FORTY[:3], calls([], [], said=rest(spoilt(row(A))))),
    serve("numbers-it-behind-rows-that-came-over-an-earlier-link", FORTY[:3],
          calls(FORTY[:3], numbered(range(2), lambda i: 50 + i), 1),
          calls([], [], 2, said=rest(*numbered(range(1), lambda i: 50), spoilt(row(A)))),
          calls([], [], 3, said=rest(spoilt(row(B)))),
          by_hand=ByHand(1, "link 1: opened 3 closed 3 stored 0 kept 2 refused 0 sent 1 read 2\n"
                            "link 2: opened 3 closed 3 stored 0 kept 1 refused 1 sent 1 read 2\n"
                            "link 3: opened 3 closed 3 stored 0 kept 0 refused 1 sent 1 read 2\n"
                            "first refused row 7: BadEntrySignature\n", (170 + 3 + 3 * 223 + 1,) * 3)),
    serve("numbers-it-behind-rows-that-were-stored-and-kept", FORTY[:3],
          calls([], [], said=rest(*numbered(range(1), lambda i: 50), row(A), spoilt(row(B))))),
    serve("tells-the-image-before-the-links", [*FORTY[:3], spoilt(row(B))],
          *(calls([], [], link, said=rest(spoilt(row(A)))) for link in (1, 2))),
    meets("tells-a-fault-of-the-report-in-place-of-rows-left-out", SPOILT, [], fails="r1"),
]

ENDS = [
    *(serve(f"is-left-after-{count}", FORTY, WHOLE[:count]) for count in
      (0, 3, 40, HELLO - 1, HELLO, GREETED - 1, GREETED, GREETED + 1, GREETED + 34, GREETED + 100, len(WHOLE) - 2,
       len(WHOLE) - 1)),
    serve("hears-what-is-no-hello", FORTY[:2], b"WSX"),
    greeted("a-version-that-nobody-speaks", version=0),
    greeted("a-hello-of-another-namespace", other_cap=communal(mode=READ, space=OTHER)),
    greeted("a-hello-to-write", other_cap=communal()),
    greeted("a-chain-that-its-giver-did-not-sign", other_cap=handed(handed(R, V), U, by=U)),
    greeted("a-hello-that-asks-for-more-than-was-granted", other_ask=Area(None, (), 0, None)),
    greeted("a-proof-of-another", by=V),
    serve("hears-a-proof-for-another-link", FORTY[:2], calls(FORTY[:2], FORTY[:2], 2)),
    serve("hears-what-is-no-proof", FORTY[:2], WHOLE[:HELLO] + b"\xff" * 9),
    tells("a-farewell-in-place-of-a-fingerprint", BYE),
    tells("a-fingerprint-behind-which-the-turn-goes-on", FIRST[:-1] + b"\x02"),
    tells("an-item-that-is-not-due", FIRST + b"\x02"),
    tells("an-end-of-turn-where-a-farewell-is-due", rest()[:-1] + END_TURN),
    tells("what-is-no-item", b"\x09"),
    tells("a-row-outside", rest(row(A, author=V))),
    tells("rows-out-of-order-and-keeps-the-first", rest(row(B), row(A))),
    serve("hears-a-fingerprint-where-a-farewell-is-due", FORTY[:2],
          calls(FORTY[:2], [], other_cap=communal(V, mode=READ), said=FIRST)),
]

FIVE = FORTY[:5]
NOISE = b"\xff" * 250
COVERED = numbered(range(2), lambda i: 50 + i)


def brings_nothing(link: int, others=FIVE) -> bytes:
    """Of one whose rows are known or covered."""
    return calls(FIVE, others, link)


MANY = [
    serve("answers-two-who-bring-nothing-new", FIVE, brings_nothing(1), brings_nothing(2, COVERED)),
    serve("answers-eight-of-whom-two-say-nothing-two-noise-and-two-break-off", FIVE,
          b"", brings_nothing(2), NOISE, brings_nothing(4)[:HELLO + 20],
          brings_nothing(5, FIVE[1:4]), NOISE[:3], brings_nothing(7)[:GREETED + 34], b"",
          by_hand=ByHand(6, "link 1: session refused: ClosedEarly 0\n"
                            "link 2: opened 5 closed 5 stored 0 kept 0 refused 0 sent 1 read 1\n"
                            "link 3: session refused: BadMessage 0\n"
                            "link 4: session refused: ClosedEarly 156\n"
                            "link 5: opened 5 closed 5 stored 0 kept 0 refused 0 sent 1 read 2\n"
                            "link 6: session refused: BadMessage 0\n"
                            "link 7: session refused: ClosedEarly 204\n"
                            "link 8: session refused: ClosedEarly 0\n",
                         (0, 170 + 2, 0, 170, 170 + 3 + 5 * 223 + 1, 0, 170 + 2, 0))),
    serve("keeps-what-one-brings-beside-seven-who-do-not-keep-the-rules", FIVE,
          b"", NOISE, brings_nothing(3)[:HELLO + 9], calls([], [], 4, said=b"", version=0),
          calls(FIVE, numbered(range(3, 20)), 5), brings_nothing(1), brings_nothing(7)[:40],
          brings_nothing(8)[:GREETED + 7]),
    serve("keeps-what-one-brought-who-broke-off-beside-others", FIVE, NOISE,
          calls(FIVE, numbered(range(3, 12)), 2)[:-300], b"", calls([], [], 4, said=b"", other_cap=communal())),
    serve("answers-two-who-may-read-nothing-here", FIVE,
          *(calls(FIVE, [], link, other_cap=communal(V, mode=READ)) for link in (1, 2))),
    serve("answers-sixty-four-who-say-nothing", FIVE, *[b""] * MOST_LINKS),
]

CAME = calls(FIVE, FORTY[3:9])
ACCEPTING = [
    *(serve(f"puts-the-image-where-accept-{at}-of-3-fails", FIVE, *(brings_nothing(link) for link in (1, 2, 3)),
            fails=f"d{at + 1}") for at in (1, 2, 3)),
    serve("keeps-what-came-before-an-accept-failed", FIVE, CAME, b"", fails="d3"),
    # Of the first two one brings four rows and one breaks off; both sessions are at their end before the run is.
    serve("ends-the-sessions-that-began-before-an-accept-failed", FIVE, CAME, brings_nothing(2)[:40], brings_nothing(3),
          fails="d4", by_hand=ByHand(3, "link 1: opened 5 closed 9 stored 4 kept 0 refused 0 sent 1 read 2\n"
                                        "link 2: session refused: ClosedEarly 40\nread fault\n",
                                     (170 + 3 + 5 * 223 + 1, 0))),
    serve("tells-where-fewer-come-than-it-waits-for", FIVE, brings_nothing(1), b"", count=3),
    serve("tells-where-no-one-comes", FIVE, count=2),
    serve("accepts-no-more-once-accepting-failed", FIVE, *(brings_nothing(link) for link in (1, 2, 3)), count=4,
          fails="d3"),
    serve("stops-where-listening-fails", FIVE, CAME, fails="d1"),
    serve("stops-where-noise-fails-at-the-first-draw", FIVE, *[CAME] * 3, fails="n1"),
    serve("stops-where-noise-fails-at-the-last-draw", FIVE, *[CAME] * 3, fails="n3"),
    serve("stops-where-there-is-a-draw-too-few", FIVE, *[CAME] * 3, draws=DRAWS[:2]),
]

OF_V = communal(V, mode=READ)
LMS = {"key": "lms:k"}


def by_file(name: str, *links: bytes, at_index: int = 7, **more) -> Case:
    """A server whose capability is that of a key file, which has its next index there."""
    return serve(name, [], *links, cap=OF_K_READ, options=LMS, also={"k": at(K, at_index).file()}, **more)


def of_file(link: int, index: int) -> bytes:
    """One who may read nothing there, to a server that signs with this index."""
    return calls([], [], link, OF_K_READ, OF_V, server=at(K, index))


BY_FILE = [
    by_file("signs-with-the-next-index-of-a-key-file", of_file(1, 7)),
    by_file("signs-on-each-link-with-an-index-of-its-own", *(of_file(link, 6 + link) for link in (1, 2, 3)),
            by_hand=ByHand(0, "link 1: opened 0 closed 0 stored 0 kept 0 refused 0 sent 0 read 0\n"
                              "link 2: opened 0 closed 0 stored 0 kept 0 refused 0 sent 0 read 0\n"
                              "link 3: opened 0 closed 0 stored 0 kept 0 refused 0 sent 0 read 0\n",
                           (136 + 2 + 56 + 1_292 + 1,) * 3)),
    by_file("keeps-an-index-for-each-link-though-one-says-nothing", of_file(1, 7), b"", of_file(3, 9)),
    by_file("exchanges-rows-by-a-key-file",
            calls([], [row(A, author=K.user(), by=K)], 1, OF_K_READ, OF_K_READ, by=K, server=at(K, 7))),
    by_file("takes-the-last-indices-of-a-key-file", of_file(1, 30), of_file(2, 31), at_index=30),
    by_file("uses-up-a-whole-key-file", *[b""] * 32, at_index=0),
    by_file("finds-an-index-too-few", of_file(1, 31), b"", at_index=31),
    by_file("finds-a-spent-key-file", b"", at_index=32),
    by_file("uses-up-its-indices-where-accepting-fails", of_file(1, 7), of_file(2, 8), b"", fails="d3"),
    by_file("uses-up-its-indices-where-listening-fails", b"", b"", fails="d1"),
    by_file("uses-up-its-indices-where-noise-fails", b"", b"", fails="n2"),
    by_file("stops-at-a-fault-of-the-get-of-the-key-file", of_file(1, 7), fails="s3"),
    by_file("stops-at-a-fault-of-the-put-of-the-key-file", of_file(1, 7), of_file(2, 8), fails="s4"),
    by_file("tells-a-fault-of-the-put-of-the-image-behind-a-key-file", of_file(1, 7), fails="s5"),
]

PAIR = (row(A), row(AB))
STOPS = [
    serve("misses-the-image", [], WHOLE, gone=("i",)),
    serve("misses-the-capability", [], WHOLE, gone=("c",)),
    serve("misses-the-key-file", [], WHOLE, options=LMS),
    serve("finds-no-key-file", [], WHOLE, options=LMS, also={"k": b"no"}),
    serve("finds-no-image", [], WHOLE, also={"i": old_image_of(*PAIR)[:-1]}),
    serve("finds-rows-of-the-image-out-of-order", [], WHOLE, also={"i": old_image(N, PAIR[::-1])}),
    serve("finds-rows-of-the-image-pruned", [], WHOLE, also={"i": old_image(N, [row(A, 6), row(AB, 5)])}),
    serve("finds-no-capability", [], WHOLE, also={"c": R.spelled() + b"\x00"}),
    serve("refuses-an-own-capability-of-another-namespace", [], WHOLE, cap=communal(mode=READ, space=OTHER)),
    serve("refuses-an-own-capability-to-write", [], WHOLE, cap=communal()),
    serve("refuses-an-own-chain-that-its-giver-did-not-sign", [], WHOLE, cap=handed(handed(R, V), U, by=U)),
    serve("refuses-an-ask-without-times", [], WHOLE, cap=handed(R, U, start=5), until=5),
    serve("refuses-an-ask-for-another-subspace", [], WHOLE, subspace=V),
    serve("refuses-its-hello-before-it-opens-the-key-file", [], WHOLE, cap=communal(), options=LMS, also=WITH_K),
]

BOTH = [*FIVE, spoilt(row(B))]  # an image with a row that is not authorised
REFUSED, CUT = calls([], [], 2, said=b"", version=0), brings_nothing(3)[:HELLO]
FAULTS = [
    *(serve(f"stops-at-a-fault-of-get-{call}", FORTY, WHOLE, fails=f"s{call}") for call in (1, 2)),
    serve("tells-a-fault-of-the-put", FORTY, WHOLE, fails="s3"),
    serve("tells-a-fault-of-the-put-behind-rows-left-out", SPOILT, calls(SPOILT, []), fails="s3"),
    serve("tells-a-fault-of-the-put-behind-a-failed-accept", FIVE, brings_nothing(1), b"", fails="s3 d3"),
    serve("tells-a-fault-of-the-put-behind-a-failed-first-accept", FIVE, brings_nothing(1), fails="s3 d2"),
    *(serve(f"puts-the-image-behind-a-fault-of-call-{call}-of-the-link", FORTY, WHOLE, fails=f"l{call}")
      for call in (1, 2, 3, 4, 5, 6, 7, 20, 28, 29, 30, 31, 32)),
    serve("tells-a-fault-of-each-link-in-its-line", FIVE, *(brings_nothing(link) for link in (1, 2, 3)),
          fails="l2:1 l3:4"),
    serve("tells-a-fault-of-the-report", FORTY, WHOLE, fails="r1"),
    serve("tells-a-fault-of-the-report-in-its-midst", FIVE, brings_nothing(1), brings_nothing(2), fails="r9"),
    serve("keeps-the-status-of-a-session-where-the-report-fails", FORTY, WHOLE[:40], fails="r1"),
    serve("keeps-the-status-of-a-failed-accept-where-the-report-fails", FIVE, b"", b"", fails="d3 r1"),
    serve("calls-neither-input-nor-output", FORTY, WHOLE, fails="i1 o1"),
]

STATUSES = [
    serve("tells-a-read-that-failed-before-a-write-that-failed", BOTH, *(brings_nothing(link) for link in (1, 2)), CUT,
          fails="l4 l2:1"),
    serve("tells-a-read-that-failed-before-a-put-that-failed", BOTH, brings_nothing(1), REFUSED, fails="l1 s3"),
    serve("tells-an-accept-that-failed-before-a-refused-session", BOTH, b"", REFUSED, b"", fails="d4"),
    serve("tells-an-accept-that-failed-before-a-write-that-failed", BOTH, brings_nothing(1), REFUSED, b"",
          fails="d4 l4"),
    serve("tells-a-write-that-failed-before-a-refused-session", BOTH, brings_nothing(1), REFUSED, CUT, fails="l4"),
    serve("tells-a-put-that-failed-before-a-refused-session", BOTH, b"", REFUSED, fails="s3"),
    serve("tells-a-refused-session-before-rows-left-out", BOTH, brings_nothing(1), REFUSED),
    serve("tells-rows-left-out-where-all-sessions-are-done", BOTH, brings_nothing(1), brings_nothing(2)),
]

GROUPS = {
    "sessions": SESSIONS,
    "one of version 1": OF_VERSION_1,
    "cuts that are told": CUTS,
    "rows that are not authorised": LEFT_OUT,
    "how a session ends": ENDS,
    "many links": MANY,
    "listening, accepting and noise": ACCEPTING,
    "key files": BY_FILE,
    "what stops a server before the links": STOPS,
    "faults": FAULTS,
    "which status is told": STATUSES,
}
