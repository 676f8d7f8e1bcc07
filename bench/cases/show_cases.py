"""Cases of `show`."""
from samples import ARCHIVE_IMAGE, NOTES_IMAGE
from situations import *


def show(name: str, given: bytes = b"", **rest) -> Case:
    return Case(f"show-{name}", ("show",), given, **rest)


def newest(name: str, count: int, given: bytes, **rest) -> Case:
    return Case(f"show-newest-{name}", ("show", "--newest", str(count)), given, **rest)


EMPTY = old_image_of()
TWO = row(A, time=4), row(AB)
IMAGE = old_image_of(*TWO)
HEAD = len(EMPTY) - 8
FIRST_END = HEAD + len(TWO[0].frame())
ROWS_END = len(IMAGE) - 8
UNSIGNED_CHAIN = handed(handed(communal(), V), U, by=U)
ELSEWHERE = communal(space=OTHER)

LISTINGS = [
    show("of-the-empty-image-lists-no-row", EMPTY),
    show("lists-one-row", old_image_of(row(time=6))),
    show("lists-paths-with-empty-and-odd-components", old_image_of(
        row((), 1, 0, 0), row((b"",), 1, GREATEST, 0xab), row((b"", b""), 1, 0, 0xac),
        row((b"\x00\xff", b"a"), 1, 0, 0), row(A, GREATEST, 7, 0xcd), row(A, 0, 1, 0, author=V))),
    show("lists-a-row-of-an-owned-namespace", old_image_of(row(capability=owned()), space=O)),
    show("lists-a-row-signed-by-an-lms-key",
         old_image_of(row(), row(capability=communal(K.user()), by=at(K, 3)))),
]

LEFT_OUT = [
    show("leaves-out-rows-that-are-not-authorised", old_image_of(
        spoilt(row()), row(B, digest=1), row(path("c"), digest=1, capability=communal(mode=READ)))),
    show("lists-no-row-where-none-is-authorised", old_image_of(row(digest=1, capability=UNSIGNED_CHAIN))),
    show("leaves-out-a-row-of-another-namespace", old_image_of(row(), row(B, digest=1, capability=ELSEWHERE))),
    show("lets-a-row-of-another-namespace-prune-nothing", old_image_of(
        row(A, 9, digest=1, capability=ELSEWHERE), row(AB, digest=1))),
    show("refuses-a-row-of-another-namespace-that-prunes-one-of-its-own", old_image_of(
        row(A, 9, digest=1, capability=ELSEWHERE), row(AB, digest=1, capability=ELSEWHERE))),
    show("refuses-places-that-fall-behind-another-namespace", old_image_of(
        row(digest=1, capability=ELSEWHERE), row((b"`",), digest=1))),
    show("refuses-places-that-fall-before-another-namespace", old_image_of(
        row(digest=1), row((b"`",), digest=1, capability=ELSEWHERE))),
    show("takes-rising-places-whatever-their-namespaces", old_image_of(
        row((b"`",), digest=1, capability=ELSEWHERE), row(digest=1))),
]

WRONG_BYTES = [
    show("of-nothing-goes-wrong-at-0"),
    show("goes-wrong-at-other-letters", replaced(IMAGE, b"WIM1", b"WIM3")),
    show("goes-wrong-at-letters-that-are-cut", IMAGE[:2]),
    show("goes-wrong-at-an-unknown-kind-of-namespace", IMAGE[:4] + b"\x02" + IMAGE[5:]),
    show("goes-wrong-at-a-namespace-that-is-cut", IMAGE[:HEAD - 1]),
    show("goes-wrong-at-its-end-behind-the-head", IMAGE[:HEAD]),
    show("goes-wrong-at-a-first-length-that-is-cut", IMAGE[:HEAD] + bytes(2)),
    show("goes-wrong-at-the-length-of-a-body-that-is-cut", IMAGE[:200]),
    show("goes-wrong-at-its-end-behind-a-row", IMAGE[:FIRST_END]),
    show("goes-wrong-at-a-second-length-that-is-cut", IMAGE[:FIRST_END + 3]),
    show("goes-wrong-at-a-second-body-that-is-no-row",
         IMAGE[:FIRST_END + 4] + b"\x02" + IMAGE[FIRST_END + 5:]),
    show("goes-wrong-at-a-second-length-past-the-greatest",
         IMAGE[:FIRST_END] + number(4, 131_073) + IMAGE[FIRST_END + 4:]),
    show("goes-wrong-at-its-end-behind-the-rows", IMAGE[:ROWS_END]),
    show("goes-wrong-at-the-zero-bytes-where-these-are-cut", IMAGE[:ROWS_END + 3]),
    show("goes-wrong-at-the-zero-bytes-where-the-count-is-wanting", IMAGE[:ROWS_END + 4]),
    show("goes-wrong-at-the-zero-bytes-where-the-count-is-cut", IMAGE[:-1]),
    show("goes-wrong-at-the-zero-bytes-where-the-count-is-less", IMAGE[:-1] + b"\x01"),
    show("goes-wrong-at-the-zero-bytes-where-the-count-is-more", IMAGE[:-1] + b"\x03"),
    show("goes-wrong-at-the-zero-bytes-where-a-byte-follows", IMAGE + b"\x00"),
    show("goes-wrong-at-the-zero-bytes-of-an-empty-image-that-counts-a-row", EMPTY[:-1] + b"\x01"),
    show("tells-wrong-bytes-before-rows-out-of-order", old_image_of(*reversed(TWO))[:-1] + b"\x03"),
]

ORDER = [
    show("refuses-a-path-behind-a-longer-one", old_image_of(*reversed(TWO))),
    show("refuses-two-rows-at-one-place", old_image_of(row(), row(time=6))),
    show("refuses-a-subspace-behind-a-greater-one", old_image_of(
        row(digest=1), row(B, digest=1, author=V), row(path("c"), digest=1))),
    show("refuses-a-row-that-the-one-before-prunes", old_image_of(row(time=6), row(AB))),
    show("tells-the-first-row-that-prunes", old_image_of(
        row((), 7, digest=1), row(A, 8, digest=1), row(AB, digest=1))),
    show("tells-the-only-row-that-prunes", old_image_of(
        row((), 4, digest=1), row(A, 8, digest=1), row(AB, digest=1))),
    show("tells-rows-out-of-order-before-a-pruned-one", old_image_of(row(time=6), row(AB), row(time=4))),
    show("refuses-a-row-that-one-without-authority-prunes", old_image_of(spoilt(row(time=6)), row(AB))),
]

FAULTS = [
    show("stops-at-a-fault-of-the-first-read", IMAGE, fails="i1"),
    show("tells-a-fault-of-reading-before-bytes-that-are-wrong", b"x" * 250, fails="i3"),
    show("leaves-nothing-where-the-first-write-fails", IMAGE, fails="o1"),
    show("leaves-the-head-of-the-listing-where-the-second-write-fails", IMAGE, fails="o2"),
    show("leaves-the-head-and-a-front-of-the-lines-where-the-third-write-fails", IMAGE, fails="o3"),
    show("tells-a-fault-of-the-reports-first-write", IMAGE, fails="r1"),
    show("tells-a-fault-of-the-report-before-a-row-that-is-left-out", old_image_of(spoilt(row())), fails="r3"),
    show("keeps-the-status-of-rows-out-of-order-where-the-report-fails", old_image_of(*reversed(TWO)), fails="r1"),
    show("calls-neither-shelf-nor-noise", IMAGE, fails="s1 n1"),
]

KEPT = Store()
for index in range(47, 60):
    KEPT.take(generated(index))

# By recency: B, AB, C, A.
MIXED = old_image_of(row(A, 6), row(AB, 8), row(B, 9), row(path("c"), 7))
# Their places rise, and all are of one time.
TIED = old_image_of(row(A, 5), row(B, 5), row(path("c"), 5), row(A, 5, author=V))
GREATER_LENGTH = old_image_of(row(A, 5, 1), row(B, 5, 2), row(path("c"), 5, 1))
GREATER_DIGEST = old_image_of(row(A, 5, 1, 0x11), row(B, 5, 2, 0x10), row(path("c"), 5, 0, 0x12))
ONE_LEFT_OUT = old_image_of(row(A, 6), spoilt(row(B, 9)), row(path("c"), 7))

NEWEST = [
    newest("lists-the-most-recent-row", 1, MIXED),
    newest("lists-the-first-rows-by-falling-time", 3, MIXED),
    newest("lists-all-rows-where-there-are-so-many", 4, MIXED),
    newest("lists-all-rows-where-there-are-fewer", 5, MIXED),
    newest("lists-all-rows-where-the-greatest-number-is-asked-for", 65_536, MIXED),
    newest("lists-no-row-of-the-empty-image", 3, EMPTY),
    newest("lists-rows-of-one-rank-by-rising-place", 4, TIED),
    newest("lists-the-lower-places-of-one-rank", 2, TIED),
    newest("lists-the-greater-length-first-at-one-time-and-digest", 2, GREATER_LENGTH),
    newest("lists-the-greater-digest-first-at-one-time", 3, GREATER_DIGEST),
    newest("counts-no-row-that-is-not-authorised", 2, ONE_LEFT_OUT),
    newest("lists-fewer-where-rows-are-not-authorised", 3, ONE_LEFT_OUT),
    newest("lists-no-row-where-none-is-authorised", 1, old_image_of(row(digest=1, capability=UNSIGNED_CHAIN))),
    newest("leaves-out-a-row-of-another-namespace", 2, old_image_of(row(), row(B, digest=1, capability=ELSEWHERE))),
    newest("lists-the-greatest-timestamp-first", 1, old_image_of(row(A, 0), row(B, GREATEST))),
    newest("refuses-rows-out-of-order", 1, old_image_of(*reversed(TWO))),
    newest("of-nothing-goes-wrong-at-0", 1, b""),
    newest("stops-at-a-fault-of-the-first-read", 1, MIXED, fails="i1"),
    newest("leaves-nothing-where-the-first-write-fails", 1, MIXED, fails="o1"),
    newest("leaves-the-head-of-the-listing-where-the-second-write-fails", 2, MIXED, fails="o2"),
]

GROUPS = {
    "listings": LISTINGS,
    "rows that are left out": LEFT_OUT,
    "where an image goes wrong": WRONG_BYTES,
    "rows out of order and pruned ones": ORDER,
    "faults": FAULTS,
    "generated rows": [show("lists-what-stays-of-generated-rows", old_image_of(*KEPT.live(), space=O)),
                       newest("lists-some-of-generated-rows", 5, old_image_of(*KEPT.live(), space=O))],
    "the newest": NEWEST,
    "the samples": [show("of-the-sample-of-notes", NOTES_IMAGE),
                    newest("of-the-sample-of-notes", 3, NOTES_IMAGE),
                    show("of-the-sample-of-an-archive", ARCHIVE_IMAGE)],
}
