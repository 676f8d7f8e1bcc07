"""Cases of commands that are given images of version 2. The cases of each command alone are given images of version 1."""
import show_cases
from images import END_OF_ROWS, HEAD_LENGTH, LETTERS, OLD_LETTERS, counted, numbered, read_image, trailer
from join_cases import LMS_ROW, join, long_chain
from meet_cases import ALL, FORTY, IN_O, ONE_LATER, R, meet, numbered as numbered_rows, of_space
from samples import ARCHIVE_IMAGE, NOTES_IMAGE
from serve_cases import DRAWS, calls, serve
from show_cases import ELSEWHERE, KEPT, TWO, UNSIGNED_CHAIN, newest
from situations import *
from sync_cases import SPOILT, answer_to, sync


def show(name: str, given: bytes, **rest) -> Case:
    return show_cases.show(f"of-version-2-{name}", given, **rest)


def built(capabilities, rows, count=None, space: bytes = N, end: bytes = END_OF_ROWS) -> bytes:
    """An image of these capabilities and rows, in whatever order and number; a row is bytes, or tells its number."""
    told = [counted(bytes_of(each)) for each in capabilities]
    spelled = [each if isinstance(each, bytes) else numbered(*each) for each in rows]
    return b"".join((LETTERS, space, number(4, len(told)), *told, *spelled, end,
                     number(4, len(rows) if count is None else count)))


# Some lengths, reckoned by hand: the head has 41 bytes, a plain capability 4 + 68, one row 4 + 117 + 4 + 34, another with
# two components 2 more, the end 8; a delegation adds 111 to its capability, and an LMS key 1,316 to its signature.
EMPTY, IMAGE = image_of(), image_of(*TWO)
ON = handed(communal(), U)
BY_TWO = [row(A, 4), row(AB, capability=ON), row(B)]
for made, length in (
        (EMPTY, 41 + 8), (IMAGE, 441), (image_of(row(time=6)), 280), (image_of(row(capability=ON)), 391),
        (image_of(*numbered_rows(range(17))), 2_824), (image_of(LMS_ROW), 1_596),
        (image_of(*BY_TWO), 41 + 72 + 183 + 159 + 161 + 159 + 8)):
    assert len(made) == length, (len(made), length)

FIRST_TOLD = HEAD_LENGTH  # where the length of the first capability stands
BEHIND_TOLD = FIRST_TOLD + 72
FIRST_END = BEHIND_TOLD + 159
ROWS_END = len(IMAGE) - 8
assert ROWS_END == FIRST_END + 161 == 433


def old_of(data: bytes) -> bytes:
    """The image of version 1 of the same rows."""
    space, rows = read_image(data)
    return old_image_of(*rows, space=space)


LISTINGS = [
    show("of-the-empty-image-lists-no-row", EMPTY),
    show("lists-one-row", image_of(row(time=6))),
    show("lists-two-rows-of-one-capability", IMAGE),
    show("lists-rows-of-two-capabilities-by-turns", image_of(*BY_TWO)),
    show("takes-capabilities-that-rise-otherwise-than-the-rows-that-tell-them", image_of(
        row(A, capability=ON), row(B), row(author=V), row(B, author=V, capability=handed(communal(V), U)))),
    show("lists-rows-of-an-owned-namespace", image_of(*IN_O[:2], IN_O[3], space=O)),
    show("lists-a-row-signed-by-an-lms-key", image_of(row(), LMS_ROW)),
    show("lists-paths-with-empty-and-odd-components", image_of(
        row((), 1, 0, 0), row((b"",), 1, GREATEST, 0xab), row((b"", b""), 1, 0, 0xac), row((b"\x00\xff", b"a"), 1, 0, 0),
        row(A, GREATEST, 7, 0xcd), row(A, 0, 1, 0, author=V))),
    show("lists-what-stays-of-generated-rows", image_of(*KEPT.live(), space=O)),
    newest("of-version-2-lists-some-of-generated-rows", 5, image_of(*KEPT.live(), space=O)),
    newest("of-version-2-counts-no-row-that-is-not-authorised", 2,
           image_of(row(A, 6), spoilt(row(B, 9)), row(path("c"), 7))),
    *(show_cases.show(f"of-{name}-in-version-1", old_of(made))
      for name, made in (("two-rows", IMAGE), ("the-sample-of-notes", NOTES_IMAGE),
                         ("the-sample-of-an-archive", ARCHIVE_IMAGE))),
]

LEFT_OUT = [
    show("leaves-out-rows-that-are-not-authorised", image_of(
        spoilt(row()), row(B, digest=1), row(path("c"), digest=1, capability=communal(mode=READ)))),
    show("lists-no-row-where-none-is-authorised", image_of(row(digest=1, capability=UNSIGNED_CHAIN))),
    show("leaves-out-a-row-of-another-namespace", image_of(row(), row(B, digest=1, capability=ELSEWHERE))),
    show("leaves-out-a-capability-of-another-namespace", image_of(row(), row(B, capability=ELSEWHERE, space=N))),
    show("leaves-out-an-entry-of-another-namespace", image_of(row(), row(B, space=OTHER))),
    show("leaves-out-a-row-that-tells-the-capability-of-another-author", built(
        (communal(), communal(V)), [(row(), 0), (row(B), 1), (row(B, author=V), 1)])),
    show("leaves-out-seventeen-delegations", image_of(row(capability=handed_on(communal(), *(U, V) * 8, U)))),
    show("leaves-out-a-row-whose-body-with-its-capability-is-longer-than-any-frame",
         image_of(replace(long_chain(), signature=bytes(1508)), row(B))),
]

OTHER_KIND = b"\x04" + PLAIN[1:]  # a capability of no kind
CUT_TOLD = counted(PLAIN)[:-1]
BODY = numbered(TWO[0], 0)[4:]
PLACE_AT = 117  # where in the body the number of the capability stands


def told(name: str, *capabilities, rows=((TWO[0], 0),), **rest) -> Case:
    return show(f"goes-wrong-at-{name}", built(capabilities, rows, **rest))


def of_rows(name: str, *rows) -> Case:
    return show(f"goes-wrong-at-{name}", built((communal(),), rows))


def with_number(place: int) -> bytes:
    """The first row, with another number of a capability."""
    return numbered(TWO[0], place)


def cut(name: str, length: int, data: bytes = IMAGE) -> Case:
    return show(f"goes-wrong-at-{name}", data[:length])


HEADS = [
    show("goes-wrong-at-other-letters", replaced(IMAGE, b"WIM2", b"WIM3")),
    show("goes-wrong-at-small-letters", replaced(IMAGE, b"WIM2", b"wim2")),
    cut("letters-that-are-cut", 3),
    show("goes-wrong-at-an-unknown-kind-of-namespace", IMAGE[:4] + b"\x02" + IMAGE[5:]),
    cut("a-namespace-that-is-cut", 36),
    cut("a-number-of-capabilities-that-is-wanting", 37),
    cut("a-number-of-capabilities-that-is-cut", 40),
    show("goes-wrong-at-rows-of-version-1-behind-its-letters", LETTERS + old_image_of(*TWO)[4:]),
    show("goes-wrong-behind-the-letters-of-version-1", OLD_LETTERS + IMAGE[4:]),
    show("goes-wrong-at-the-empty-image-behind-the-letters-of-version-1", OLD_LETTERS + EMPTY[4:]),
]

CAPABILITIES = [
    cut("its-end-behind-the-head", HEAD_LENGTH),
    cut("its-end-behind-the-head-without-capabilities", HEAD_LENGTH, EMPTY),
    cut("a-first-length-that-is-cut", HEAD_LENGTH + 3),
    cut("a-first-capability-that-is-wanting", HEAD_LENGTH + 4),
    cut("a-first-capability-that-is-cut", BEHIND_TOLD - 1),
    told("a-length-of-zero-of-a-capability", b""),
    show("goes-wrong-at-a-length-of-a-capability-past-the-greatest",
         IMAGE[:HEAD_LENGTH] + number(4, 131_073) + IMAGE[HEAD_LENGTH + 4:]),
    show("goes-wrong-at-the-greatest-length-of-a-capability-that-is-cut",
         IMAGE[:HEAD_LENGTH] + number(4, 131_072) + IMAGE[HEAD_LENGTH + 4:]),
    told("a-capability-of-no-kind", OTHER_KIND),
    told("a-capability-behind-which-a-byte-follows", PLAIN + b"\x00"),
    told("a-capability-that-is-a-byte-short", PLAIN[:-1]),
    told("a-capability-with-a-delegation-too-few", PLAIN[:-1] + b"\x01"),
    told("an-area-of-a-capability-that-ends-where-it-starts", ending(4)),
    told("a-second-capability-that-equals-the-first", communal(), communal()),
    told("a-second-capability-that-is-below-the-first", communal(V), communal()),
    told("a-second-capability-that-is-below-a-longer-first-one", ON, communal(),
         rows=((BY_TWO[1], 0), (BY_TWO[2], 1))),
    told("a-third-capability-that-is-above-the-first-alone", communal(), communal(W), communal(V),
         rows=((row(), 0), (row(author=V), 2), (row(author=W), 1))),
    told("a-second-capability-of-no-kind", communal(), OTHER_KIND),
    cut("its-end-behind-the-capabilities", BEHIND_TOLD),
    cut("its-end-behind-the-first-of-two-capabilities", BEHIND_TOLD, image_of(*BY_TWO)),
    show("goes-wrong-at-the-row-that-stands-where-a-second-capability-is-told",
         replaced(IMAGE, N + number(4, 1) + number(4, 68), N + number(4, 2) + number(4, 68))),
    show("goes-wrong-at-the-first-capability-where-none-is-told",
         replaced(IMAGE, N + number(4, 1) + number(4, 68), N + number(4, 0) + number(4, 68))),
    show("goes-wrong-at-its-end-where-the-greatest-number-of-capabilities-is-told",
         replaced(IMAGE, N + number(4, 1) + number(4, 68), N + b"\xff" * 4 + number(4, 68))[:BEHIND_TOLD]),
    told("a-capability-before-a-row-that-is-wrong", OTHER_KIND, rows=(with_number(9),)),
]

ROWS = [
    cut("a-first-length-of-a-row-that-is-cut", BEHIND_TOLD + 2),
    cut("a-first-body-that-is-cut", FIRST_END - 1),
    cut("its-end-behind-a-row", FIRST_END),
    cut("a-second-length-of-a-row-that-is-cut", FIRST_END + 3),
    cut("a-second-body-that-is-cut", ROWS_END - 1),
    of_rows("a-number-that-is-that-of-the-capabilities", with_number(1)),
    of_rows("the-greatest-number", with_number(2 ** 32 - 1)),
    of_rows("a-number-too-great-behind-a-row", with_number(0), numbered(TWO[1], 1)),
    show("goes-wrong-at-a-number-where-there-is-no-capability", built((), ((TWO[0], 0),))),
    of_rows("a-number-that-is-cut", counted(BODY[:PLACE_AT + 3])),
    of_rows("a-signature-that-is-wanting", counted(BODY[:PLACE_AT + 4])),
    of_rows("a-signature-that-is-cut", counted(BODY[:-1])),
    of_rows("a-signature-behind-which-a-byte-follows", counted(BODY + b"\x00")),
    of_rows("a-signature-of-1509-bytes", counted(BODY[:PLACE_AT + 4] + signature_field(bytes(1509)))),
    of_rows("an-unknown-kind-of-subspace", counted(BODY[:33] + b"\x02" + BODY[34:])),
    of_rows("a-row-of-version-1", TWO[0].frame()),
    of_rows("a-row-that-is-no-row", counted(b"\xaa")),
    of_rows("a-length-of-a-row-past-the-greatest", number(4, 131_073) + BODY),
    of_rows("the-greatest-length-of-a-row-that-is-cut", number(4, 131_072) + BODY),
    show("goes-wrong-at-a-row-before-a-capability-that-no-row-tells", built(
        (communal(), communal(V)), ((TWO[0], 0), with_number(2)))),
]

ENDS = [
    cut("its-end-behind-the-rows", ROWS_END),
    cut("the-zero-bytes-where-these-are-cut", ROWS_END + 3),
    cut("the-zero-bytes-where-the-count-is-wanting", ROWS_END + 4),
    cut("the-zero-bytes-where-the-count-is-cut", len(IMAGE) - 1),
    show("goes-wrong-at-the-zero-bytes-where-the-count-is-less", IMAGE[:-1] + b"\x01"),
    show("goes-wrong-at-the-zero-bytes-where-the-count-is-more", IMAGE[:-1] + b"\x03"),
    show("goes-wrong-at-the-zero-bytes-where-a-byte-follows", IMAGE + b"\x00"),
    show("goes-wrong-at-the-zero-bytes-where-a-row-follows", built(
        (communal(),), ((TWO[0], 0),), end=END_OF_ROWS + numbered(TWO[1], 0))),
    show("goes-wrong-at-the-zero-bytes-of-an-empty-image-that-counts-a-row", EMPTY[:-1] + b"\x01"),
    told("the-zero-bytes-where-the-only-capability-is-told-by-no-row", communal(), rows=()),
    told("the-zero-bytes-where-the-first-capability-is-told-by-no-row", communal(), communal(V),
         rows=((row(author=V), 1),)),
    told("the-zero-bytes-where-the-last-capability-is-told-by-no-row", communal(), communal(V)),
    told("the-zero-bytes-where-a-middle-capability-is-told-by-no-row", communal(), communal(V), communal(W),
         rows=((row(), 0), (row(author=W), 2))),
]

ORDER = [
    show("tells-wrong-bytes-before-rows-out-of-order", image_of(*reversed(TWO))[:-1] + b"\x03"),
    show("tells-a-capability-that-no-row-tells-before-rows-out-of-order", built(
        (communal(), communal(V)), ((TWO[1], 0), (TWO[0], 0)))),
    show("refuses-a-path-behind-a-longer-one", image_of(*reversed(TWO))),
    show("refuses-two-rows-at-one-place-under-two-capabilities", image_of(row(), row(capability=ON))),
    show("refuses-a-subspace-behind-a-greater-one", image_of(
        row(digest=1), row(B, digest=1, author=V), row(path("c"), digest=1))),
    show("refuses-a-row-that-the-one-before-prunes", image_of(row(time=6), row(AB))),
    show("refuses-a-row-that-one-under-another-capability-prunes", image_of(row(time=6, capability=ON), row(AB))),
    show("tells-the-first-row-that-prunes", image_of(row((), 7, digest=1), row(A, 8, digest=1), row(AB, digest=1))),
    show("tells-rows-out-of-order-before-a-pruned-one", image_of(row(time=6), row(AB), row(time=4))),
    show("refuses-a-row-that-one-without-authority-prunes", image_of(spoilt(row(time=6)), row(AB))),
    show("lets-a-row-of-another-namespace-prune-nothing", image_of(
        row(A, 9, digest=1, capability=ELSEWHERE), row(AB, digest=1))),
    newest("of-version-2-refuses-rows-out-of-order", 1, image_of(*reversed(TWO))),
]

FAULTS = [
    show("stops-at-a-fault-of-the-first-read", IMAGE, fails="i1"),
    show("stops-at-a-fault-of-the-last-read", IMAGE, fails="i6"),
    show("tells-a-fault-of-reading-before-bytes-that-are-wrong", IMAGE[:-1], fails="i3"),
    show("leaves-the-head-of-the-listing-where-the-second-write-fails", IMAGE, fails="o2"),
    show("tells-a-fault-of-the-reports-first-write", IMAGE, fails="r1"),
]

# Images that are wrong, by what is wrong with them, for the commands that get them by name
PAIR = row(A), row(AB)
WRONG = {
    "whose-letters-are-others": b"WIM3" + image_of(*PAIR)[4:],
    "whose-end-is-cut": image_of(*PAIR)[:-1],
    "that-tells-a-capability-twice": built((communal(), communal()), ((PAIR[0], 0), (PAIR[1], 1))),
    "that-tells-a-capability-for-no-row": built((communal(), communal(V)), ((PAIR[0], 0), (PAIR[1], 0))),
    "with-a-number-too-great": built((communal(),), ((PAIR[0], 0), (PAIR[1], 1))),
    "whose-count-is-less": built((communal(),), ((PAIR[0], 0), (PAIR[1], 0)), count=1),
    "whose-rows-are-out-of-order": image_of(*reversed(PAIR)),
    "whose-row-is-pruned": image_of(row(A, 6), row(AB, 5)),
}

# A capability that is longer than what is written at once: the areas' paths are as long as a path may be.
LONGEST = (b"p" * 255,) * 16 + (b"p" * 16,)
JOINS = [
    join("tells-each-of-two-capabilities-once", *reversed(BY_TWO)),
    join("tells-no-capability-whose-only-row-is-dropped", row(AB, capability=ON), row(A, 6)),
    join("tells-a-capability-of-more-than-65536-bytes",
         row(LONGEST, capability=handed_on(communal(), *(U, V) * 8, under=LONGEST)), row()),
]

FORTY_2, LATER_2 = image_of(*FORTY), image_of(*ONE_LATER)
MEETINGS = [
    meet("of-two-images-of-version-2", FORTY_2, LATER_2),
    meet("of-a-left-image-of-version-2-and-a-right-one-of-version-1", FORTY_2, ONE_LATER),
    meet("of-a-left-image-of-version-1-and-a-right-one-of-version-2", FORTY, LATER_2),
    meet("of-version-2-of-nothing-and-nothing", EMPTY, EMPTY),
    meet("of-version-2-puts-images-over-their-own", image_of(*FORTY[:3]), image_of(*FORTY[2:5]),
         options={"left-out": "l", "right-out": "r"}),
    meet("of-version-2-in-an-owned-namespace", image_of(*IN_O[:2], space=O), image_of(*IN_O[1:], space=O), ALL, ALL, O),
    meet("puts-a-capability-once-that-both-images-tell", image_of(row(A), row(B, capability=ON)),
         image_of(row(A), row(AB, capability=ON))),
    meet("puts-no-capability-whose-only-row-is-dropped", image_of(row(AB, capability=ON)), image_of(row(A, 6))),
    meet("puts-no-capability-whose-only-row-is-left-out", image_of(row(A), spoilt(row(B, capability=ON))), image_of()),
    meet("refuses-images-of-two-namespaces-and-versions", [row(A)], image_of(space=OTHER)),
    *(meet(f"refuses-a-left-image-{name}", data, EMPTY) for name, data in WRONG.items()),
    *(meet(f"refuses-a-right-image-{name}", EMPTY, data) for name, data in WRONG.items()),
    meet("tells-a-fault-of-the-right-put-of-version-2", image_of(*FORTY[:2]), image_of(*FORTY[1:3]), fails="s6"),
]

OURS, THEIRS = FORTY[:3], FORTY[2:5]
CALLS = [
    sync("with-an-image-of-version-2", [], answer_to(FORTY, ONE_LATER), also={"i": FORTY_2}),
    sync("with-an-image-of-version-2-in-an-owned-namespace", [], answer_to(IN_O[:2], IN_O[1:], ALL, ALL), ALL,
         also={"i": image_of(*IN_O[:2], space=O)}),
    sync("leaves-out-a-row-of-an-image-of-version-2", [], answer_to(SPOILT, FORTY[:5]), also={"i": image_of(*SPOILT)}),
    sync("brings-a-row-under-a-capability-that-is-new", OURS, answer_to(OURS, [row(B, capability=ON)])),
    sync("tells-a-fault-of-the-put-of-version-2", [], answer_to(OURS, THEIRS), also={"i": image_of(*OURS)}, fails="s3"),
    *(sync(f"refuses-an-image-{name}", [], b"", also={"i": data}) for name, data in WRONG.items()),
]

SERVICES = [
    serve("with-an-image-of-version-2", [], calls(FORTY, ONE_LATER), also={"i": FORTY_2}),
    serve("with-an-image-of-version-2-for-two-who-bring-nothing-new", [],
          *(calls(FORTY[:5], FORTY[:5], link) for link in (1, 2)), also={"i": image_of(*FORTY[:5])}),
    serve("leaves-out-a-row-of-an-image-of-version-2", [], calls(SPOILT, FORTY[:5]), also={"i": image_of(*SPOILT)}),
    serve("is-brought-a-row-under-a-capability-that-is-new", OURS, calls(OURS, [row(B, capability=ON)])),
    serve("tells-a-fault-of-the-put-of-version-2", [], calls(OURS, THEIRS), also={"i": image_of(*OURS)}, fails="s3"),
    *(serve(f"refuses-an-image-{name}", [], b"", also={"i": data}) for name, data in WRONG.items()),
]

GROUPS = {
    "listings": LISTINGS,
    "rows that are left out": LEFT_OUT,
    "heads that are wrong": HEADS,
    "capabilities that are wrong": CAPABILITIES,
    "rows that are wrong": ROWS,
    "ends that are wrong": ENDS,
    "rows out of order and pruned ones": ORDER,
    "faults": FAULTS,
    "images that are joined": JOINS,
    "images that meet": MEETINGS,
    "images of one who calls": CALLS,
    "images of a server": SERVICES,
}
