"""Cases of `join`."""
from samples import ANNA, BEN, NOTES
from situations import *


def join(name: str, *pieces, space: bytes = N, **rest) -> Case:
    """A join of rows, and of bytes as they are."""
    return Case(f"join-{name}", words_of("join", namespace=space), joined(pieces), **rest)


TWO = row(AB), row(A, time=4)  # none of them drops the other
NARROW = handed(communal(), V, under=A, start=5, end=10)

WHAT_STAYS = [
    join("of-nothing-is-the-empty-image"),
    join("keeps-an-older-row-above-a-newer-one", *TWO),
    join("drops-a-row-that-a-newer-one-at-its-prefix-follows", row(AB), row(A, time=6)),
    join("keeps-out-a-row-behind-a-newer-one-at-its-prefix", row(A, time=6), row(AB)),
    join("takes-the-greater-digest-before-the-greater-length", row(length=900), row(digest=0x12)),
    join("takes-the-greater-length-of-equal-digests", row(), row(length=2)),
    join("keeps-rows-of-equal-rank-at-a-path-and-its-prefix", row(), row(AB)),
    join("takes-the-greater-token-of-one-entry", row(), row(capability=handed(communal(), U))),
    join("keeps-the-greater-token-of-one-entry", row(capability=handed(communal(), U)), row()),
    join("keeps-one-of-two-equal-rows", row(), row()),
    join("keeps-subspaces-apart", row(B, 9, 7, 1, author=V), row(digest=2),
         row((), 1, 0, 3, author=b"\x00" + b"U" * 31 + b"\x01"), row((b"a", b"\x00"), 2, digest=4)),
    join("keeps-three-authors-at-one-path-apart", row(author=V), row(), row(author=W), row()),
    join("orders-rows-by-paths-of-components", *(
        row(at_path, 7, digest=1)
        for at_path in ((b"\xff",), (b"", b""), (b"",), (), (b"\x00",), AB, path("ab"), A))),
    join("drops-all-of-a-subspace-by-the-empty-path", row(digest=1), row(AB, 6, digest=1),
         row(digest=1, author=V), row((), 7, 0, 0)),
    join("drops-nothing-by-a-row-that-is-not-authorised", row(), spoilt(row((), 9, 0, 0)), row(time=6)),
    join("takes-the-longest-path-and-the-greatest-numbers",
         row((b"@" * 16,) * 254 + (b"@" * 32,), GREATEST, GREATEST, 0xff)),
    join("takes-a-component-of-255-bytes", row((b"\xff" * 255,), 0, 0, 0)),
    Case("join-takes-a-namespace-in-upper-case", words_of("join", namespace=N.hex().upper()), joined([row()])),
    Case("join-of-nothing-takes-a-namespace-in-upper-case", words_of("join", namespace=N.hex().upper())),
]

WHO_SIGNED = [
    join("leaves-out-a-row-whose-signature-has-another-last-byte", spoilt(row(), -1)),
    join("takes-the-rows-behind-one-that-is-left-out", spoilt(row(), -1), row(B, digest=0x11)),
    join("leaves-out-a-signature-that-is-a-byte-short", row(AB), replace(row(), signature=row().signature[:-1])),
    join("leaves-out-a-row-without-a-signature", row(AB), row(), row(time=4, signature=b"")),
    join("leaves-out-a-row-signed-by-another-key", row(by=V)),
    join("leaves-out-a-row-of-another-subspace-than-the-users", row(subspace=V)),
    join("leaves-out-a-row-under-a-grant-of-another-users-subspace", row(subspace=U, capability=communal(V))),
    join("leaves-out-a-row-outside-the-granted-path", row(B, capability=NARROW)),
    join("leaves-out-a-row-before-the-granted-times", row(time=4, capability=NARROW)),
    join("leaves-out-a-row-at-the-end-of-the-granted-times", row(time=9, capability=NARROW),
         row(time=10, capability=NARROW)),
    join("tells-the-area-before-the-signature", spoilt(row(B, capability=NARROW))),
    join("leaves-out-a-row-of-another-namespace", row(), row(capability=communal(space=OTHER))),
    join("leaves-out-the-only-row-where-it-is-of-another-namespace", row(capability=communal(space=P))),
    join("leaves-out-a-capability-of-another-namespace", row(capability=communal(space=OTHER), space=N)),
    join("leaves-out-an-entry-of-another-namespace", row(space=OTHER)),
    join("tells-the-namespace-before-the-mode", row(capability=communal(mode=READ, space=OTHER), space=N)),
    join("leaves-out-a-row-under-a-capability-for-reading", row(capability=communal(mode=READ))),
    join("tells-the-mode-before-the-chain", row(capability=owned(mode=READ, space=N))),
    join("counts-two-rows-that-are-left-out-and-tells-the-first", spoilt(row()),
         row(digest=1, capability=communal(mode=READ)), row(time=6)),
]

CHAINS = [
    join("leaves-out-a-communal-capability-in-an-owned-namespace", row(capability=communal(space=O)), space=O),
    join("leaves-out-an-owned-capability-in-a-communal-namespace", row(capability=owned(space=N))),
    join("takes-rows-of-an-owned-capability-in-any-subspace", row(capability=owned()),
         row((), 3, 0, capability=owned(), subspace=V), space=O),
    join("takes-one-row-of-an-owned-capability", row(capability=owned()), space=O),
    join("takes-an-owned-capability-handed-on-twice",
         row(AB, capability=handed(handed(owned(), V, under=A, end=9), U, subspace=U, start=2)), space=O),
    join("leaves-out-an-owned-capability-signed-by-its-user", row(capability=owned(by=U)), space=O),
    join("leaves-out-an-owned-capability-signed-for-the-other-mode",
         row(capability=replace(owned(mode=READ), mode=WRITE)), space=O),
    join("leaves-out-an-owned-capability-signed-for-another-user",
         row(capability=replace(owned(), user=V), subspace=U), space=O),
    join("takes-granted-times-that-shrink",
         row(capability=handed(handed(handed(communal(), U, end=20), U, end=11), U, end=10))),
    join("takes-granted-times-that-shrink-once", row(capability=handed(handed(communal(), U, end=20), U, end=10))),
    join("compares-each-grant-with-the-one-before-and-not-with-the-first",
         row(capability=handed(handed(handed(communal(), U, end=20), U, end=10), U, end=11))),
    join("leaves-out-a-chain-in-which-the-end-of-times-vanishes",
         row(capability=handed(handed(communal(), U, end=20), V, end=None))),
    join("leaves-out-a-chain-in-which-the-start-of-times-falls",
         row(capability=handed(handed(communal(), U, start=3), V, start=2))),
    join("leaves-out-a-chain-in-which-the-path-is-cut",
         row(capability=handed(handed(communal(), U, under=A), V, under=()))),
    join("leaves-out-a-chain-whose-path-begins-alike-inside-a-component",
         row(path("aa"), capability=handed(handed(communal(), U, under=A), V, under=path("aa")))),
    join("leaves-out-a-grant-of-any-subspace-under-a-communal-capability",
         row(capability=handed(communal(), V, subspace=None))),
    join("leaves-out-a-delegation-that-its-giver-did-not-sign",
         row(capability=handed(handed(communal(), V), U, by=U))),
    join("tells-an-area-that-grows-before-the-signature-beside-it",
         row(capability=handed(handed(communal(), V, under=A), U, under=(), by=U))),
    join("takes-sixteen-delegations", row(capability=handed_on(communal(), *(U, V) * 8))),
    join("takes-sixteen-delegations-to-one-user", row(capability=handed_on(communal(), *(U,) * 16, end=20))),
    join("leaves-out-seventeen-delegations", row(capability=handed_on(communal(), *(U, V) * 8, U))),
    join("leaves-out-seventeen-delegations-to-one-user", row(capability=handed_on(communal(), *(U,) * 17, end=20))),
    join("tells-seventeen-delegations-before-the-kind-of-capability",
         row(capability=handed_on(communal(space=O), *(V,) * 17)), space=O),
    join("leaves-out-255-delegations",
         row(capability=replace(communal(), chain=(Delegation(communal().grant(), U, b""),) * 255), signature=b"")),
]


def long_chain() -> Row:
    """A row whose body has the most bytes that a frame may have."""
    longest = Delegation(communal().grant(), U, bytes(1508))
    rest = Delegation(communal().grant(), U, bytes(672))
    return row(capability=replace(communal(), chain=(longest,) * 82 + (rest,)), signature=b"")


LMS_ROW = row(capability=communal(K.user()), by=at(K, 3))
LMS_CHAIN = handed(owned(space=OWN), K.user(), under=A)
PUBLIC_KEY = 56  # bytes in front of an LMS signature
LMS_KEYS = [
    join("takes-rows-signed-by-an-lms-key", LMS_ROW, row(B, capability=communal(K.user()), by=at(K, 31))),
    join("takes-a-row-signed-by-an-lms-key-of-height-10", row(capability=communal(TALL.user()), by=at(TALL, 1000))),
    join("takes-a-row-signed-by-the-first-index", row(capability=communal(K.user()), by=K)),
    join("leaves-out-an-lms-signature-with-another-chain-value", spoilt(LMS_ROW, 384)),
    join("leaves-out-an-lms-signature-with-another-node", spoilt(LMS_ROW, -1)),
    join("leaves-out-an-lms-signature-with-another-randomizer", spoilt(LMS_ROW, 64)),
    join("leaves-out-an-lms-signature-with-another-index", spoilt(LMS_ROW, 59)),
    join("leaves-out-an-lms-signature-with-an-index-past-the-last", spoilt(LMS_ROW, 59, 32)),
    join("leaves-out-lms-signatures-of-other-types", spoilt(LMS_ROW, 63, 7), spoilt(LMS_ROW, 1187, 3),
         spoilt(LMS_ROW, 3, 3), spoilt(LMS_ROW, 7, 7)),
    join("leaves-out-an-lms-signature-of-another-public-key", row(capability=communal(K.user()), by=OWN)),
    join("leaves-out-lms-signatures-of-other-lengths", *(
        replace(LMS_ROW, signature=signature)
        for signature in (LMS_ROW.signature[:-1], LMS_ROW.signature + b"\x00",
                          LMS_ROW.signature[:PUBLIC_KEY], LMS_ROW.signature[:PUBLIC_KEY - 1]))),
    join("leaves-out-an-open-signature-by-an-lms-key", row(capability=communal(K.user()), by=K.user())),
    join("takes-an-owned-namespace-of-an-lms-key", row(capability=owned(space=OWN)),
         row(path("a", "b", "c"),
             capability=handed(LMS_CHAIN, V, by=at(K, 9), under=AB)), space=OWN.user()),
    join("takes-a-communal-namespace-of-an-lms-key", row(capability=communal(space=COMMON.user())),
         space=COMMON.user()),
    join("leaves-out-a-delegation-by-another-lms-key",
         row(path("a", "b", "c"), capability=handed(LMS_CHAIN, V, by=at(OWN, 9), under=AB)),
         space=OWN.user()),
]

FRAME = row().frame()
BODY = FRAME[4:]
DELEGATED = row(capability=handed(communal(), U)).frame()


def ending_at(end: int) -> bytes:
    """A row's frame with a delegation from 4 on, of which another end was signed."""
    return Row(row().entry, ending(end), row().signature).frame()


def behind_a_row(name: str, wrong: bytes) -> Case:
    return join(f"goes-wrong-at-{name}", row(), wrong)


def in_frame(place: int, byte: int) -> bytes:
    """The frame of a row with another byte at a place of its body."""
    return FRAME[:4 + place] + bytes((byte,)) + FRAME[5 + place:]


# Where in the body of a row with a path of one byte the parts begin.
SUBSPACE, PATH, COMPONENT, CAPABILITY = 33, 66, 67, 117
CAPABILITY_NAMESPACE, USER, DELEGATIONS, SIGNATURE_LENGTH = 118, 151, 184, 185

WRONG_BYTES = [
    join("goes-wrong-at-a-body-that-is-cut", FRAME[:-1]),
    behind_a_row("a-length-that-is-cut", bytes(3)),
    behind_a_row("a-byte-behind-the-last-row", bytes(1)),
    behind_a_row("a-short-body-that-is-no-row", body_frame(b"\xaa\xbb\xcc")),
    join("goes-wrong-at-a-short-body-behind-another-row", row(time=4), body_frame(b"\xaa\xbb\xcc")),
    join("goes-wrong-at-a-body-that-is-wanting", FRAME[:4] + bytes(10)),
    join("goes-wrong-at-a-length-past-the-greatest", number(4, 131_073)),
    behind_a_row("the-greatest-length-without-a-body", number(4, 131_072)),
    join("goes-wrong-at-the-greatest-number-as-a-length", row(), row(AB), b"\xff" * 4, row()),
    behind_a_row("a-length-of-zero", bytes(4)),
    join("goes-wrong-at-a-length-of-zero-before-a-row", bytes(4), row()),
    join("goes-wrong-at-a-byte-behind-the-signature-in-a-body", body_frame(BODY + b"\x00")),
    behind_a_row("an-unknown-kind-of-namespace", in_frame(0, 2)),
    join("goes-wrong-at-an-unknown-kind-of-namespace-in-the-first-row", in_frame(0, 2)),
    behind_a_row("an-unknown-kind-of-subspace", in_frame(SUBSPACE, 2)),
    behind_a_row("a-path-of-more-components-than-the-body-has", in_frame(PATH, 255)),
    join("takes-a-path-of-255-empty-components", row((b"",) * 255)),
    behind_a_row("a-component-past-the-bodys-end", in_frame(COMPONENT, 255)),
    behind_a_row("an-unknown-form-of-capability", in_frame(CAPABILITY, 4)),
    join("goes-wrong-at-an-unknown-form-of-capability-in-the-first-row", in_frame(CAPABILITY, 4)),
    behind_a_row("an-unknown-kind-of-namespace-in-the-capability", in_frame(CAPABILITY_NAMESPACE, 2)),
    behind_a_row("an-unknown-kind-of-user", in_frame(USER, 255)),
    behind_a_row("a-delegation-that-is-wanting", in_frame(DELEGATIONS, 1)),
    behind_a_row("a-signature-that-is-a-byte-longer-than-the-body", in_frame(SIGNATURE_LENGTH + 1, 33)),
    behind_a_row("a-signature-that-is-a-byte-shorter-than-the-body", in_frame(SIGNATURE_LENGTH + 1, 31)),
    join("goes-wrong-at-a-path-of-4097-bytes", body_frame(replaced(
        BODY, path_bytes(A), path_bytes((bytes(255),) * 16 + (bytes(17),))))),
    join("goes-wrong-at-a-signature-of-1509-bytes",
         body_frame(BODY[:SIGNATURE_LENGTH] + signature_field(bytes(1509)))),
    join("leaves-out-a-signature-of-1508-bytes", row(signature=bytes(1508))),
    behind_a_row("an-areas-byte-that-is-neither-any-nor-a-subspace",
                 replaced(DELEGATED, b"\x01\x01" + U, b"\x01\x02" + U)),
    behind_a_row("an-unknown-kind-of-subspace-in-an-area",
                 replaced(DELEGATED, b"\x01\x01" + U, b"\x01\x01\x03" + U[1:])),
    behind_a_row("an-areas-byte-that-is-neither-an-end-nor-none",
                 replaced(DELEGATED, bytes(9) + b"\x00" + U, bytes(9) + b"\x02" + U)),
    behind_a_row("an-area-that-ends-where-it-starts", ending_at(4)),
    behind_a_row("an-area-that-ends-before-it-starts", ending_at(3)),
    behind_a_row("an-unknown-kind-of-user-in-a-delegation",
                 replaced(DELEGATED, bytes(10) + U, bytes(10) + b"\x02" + U[1:])),
    behind_a_row("the-first-of-two-wrong-frames", number(4, 1) + b"\xff" * 10),
    join("reads-a-frame-of-the-greatest-length", long_chain()),
]

FAULTS = [
    join("stops-at-a-fault-of-the-first-read", *TWO, fails="i1"),
    join("stops-at-a-fault-of-the-second-read", *TWO, fails="i2"),
    join("stops-at-a-fault-of-the-read-that-would-tell-the-end", row(), fails="i4"),
    join("reads-no-more-behind-the-end", row(), fails="i5"),
    join("stops-at-a-fault-of-reading-nothing", fails="i1"),
    join("stops-at-wrong-bytes-before-a-read-that-fails", bytes(4), row(), fails="i2"),
    join("tells-a-fault-of-reading-before-wrong-bytes-that-are-not-read", row(), bytes(4), fails="i3"),
    join("reads-no-more-behind-wrong-bytes", row(), number(4, 131_073), *TWO, fails="i4"),
    join("keeps-the-status-of-a-read-fault-where-the-report-fails", *TWO, fails="i1 r1"),
    join("keeps-the-status-of-wrong-bytes-where-the-report-fails", bytes(4), fails="r1"),
    join("leaves-nothing-where-the-first-write-fails", *TWO, fails="o1"),
    join("leaves-a-front-of-the-image-where-the-second-write-fails", *TWO, fails="o2"),
    join("leaves-a-front-of-the-image-where-the-last-write-fails", *TWO, fails="o5"),
    join("writes-no-more-behind-the-image", *TWO, fails="o6"),
    join("tells-a-fault-of-writing-before-a-row-that-is-left-out", spoilt(row()), fails="o1"),
    join("keeps-the-status-of-a-write-fault-where-the-report-fails", *TWO, fails="o1 r1"),
    join("tells-a-fault-of-the-reports-first-write", *TWO, fails="r1"),
    join("tells-a-fault-of-the-reports-second-write", *TWO, fails="r2"),
    join("tells-a-fault-of-the-report-before-a-row-that-is-left-out", spoilt(row()), fails="r1"),
    join("calls-neither-shelf-nor-noise", *TWO, names={"k": b"\x01"}, fails="s1 n1"),
]


GENERATED = [
    join("of-generated-rows-drops-those-that-a-short-path-prunes", *map(generated, range(60)), space=O),
]
SHIPPED = [
    join("of-the-sample-of-notes", NOTES),
    join("of-the-sample-of-two-authors", ANNA, BEN),
    join("of-the-sample-of-two-authors-in-the-other-order", BEN, ANNA),
]

GROUPS = {
    "which rows stay": WHAT_STAYS,
    "which rows are authorised": WHO_SIGNED,
    "which chains are valid": CHAINS,
    "LMS keys": LMS_KEYS,
    "where bytes go wrong": WRONG_BYTES,
    "faults": FAULTS,
    "generated rows": GENERATED,
    "the samples": SHIPPED,
}
