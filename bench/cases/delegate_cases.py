"""Cases of `delegate`."""
from situations import *

NARROW = handed(communal(), U, under=A, start=5, end=10)
SIXTEEN = handed_on(communal(), *(U,) * 16)


def delegate(name: str, capability, signer: str = BY_U, to: bytes = V, names=None, fails="", **area) -> Case:
    words = words_of("delegate", key=signer, to=to, **area)
    return Case(f"delegate-{name}", words, bytes_of(capability), names or {}, fails=fails)


DELEGATIONS = [
    delegate("hands-on-the-whole-grant", communal()),
    delegate("hands-on-a-narrower-area", communal(), under="/61/FF", **{"from": 5}, until=10, subspace=U),
    Case("delegate-takes-its-options-in-any-order", words_of(
        "delegate", until="none", to=V, **{"from": 0}, under=".", key=BY_U), communal().spelled()),
    delegate("hands-on-a-capability-for-reading", communal(mode=READ)),
    delegate("hands-on-a-path-of-an-empty-component", owned(), under="/"),
    delegate("hands-on-any-subspace-of-an-owned-namespace", owned(), subspace="any", until=1),
    delegate("hands-on-one-subspace-of-an-owned-namespace", owned(), to=U, subspace=V),
    delegate("hands-on-what-was-handed-on", handed(communal(), V, under=A, start=3, end=9), BY_V, K.user(),
             under="/61/62"),
    delegate("adds-a-sixteenth-delegation", handed_on(communal(), *(U,) * 15)),
    delegate("keeps-the-granted-end-and-starts-before-it", NARROW, until=10, **{"from": 9}),
    delegate("hands-on-the-last-time-of-all", communal(), **{"from": GREATEST}),
    delegate("hands-on-all-times-but-the-last", communal(), until=GREATEST),
    delegate("hands-on-what-an-lms-key-handed-on", FROM_K, BY_V, U, until=9),
]

REFUSED_DELEGATIONS = [
    delegate("refuses-a-signer-that-is-not-the-receiver", communal(), BY_V),
    delegate("refuses-any-subspace-under-a-communal-capability", communal(), subspace="any"),
    delegate("refuses-another-subspace-than-was-granted", communal(), subspace=V),
    delegate("refuses-a-shorter-path-than-was-granted", NARROW, under="."),
    delegate("refuses-an-earlier-start-than-was-granted", NARROW, **{"from": 4}),
    delegate("refuses-a-later-end-than-was-granted", NARROW, until=11),
    delegate("refuses-no-end-where-one-was-granted", NARROW, until="none"),
    delegate("refuses-a-seventeenth-delegation", SIXTEEN),
    delegate("refuses-a-256th-delegation",
             replace(communal(), chain=(Delegation(communal().grant(), U, b""),) * 255)),
    delegate("refuses-an-owned-capability-in-a-communal-namespace", owned(space=N)),
    delegate("refuses-a-communal-capability-in-an-owned-namespace", communal(space=O)),
    delegate("refuses-a-capability-that-its-namespace-did-not-sign", owned(by=U)),
    delegate("refuses-a-chain-that-its-giver-did-not-sign", UNSIGNED),
    delegate("refuses-a-chain-that-grows", GROWN, under="/61"),
    delegate("refuses-a-chain-in-which-an-lms-key-signed-another-message", handed(
        OF_K, V, signature=K.sign(OF_K.handover(OF_K.grant(), V) + b"x")), BY_V, U),
    delegate("tells-a-fault-of-the-report-before-a-refusal", communal(), BY_V, fails="r1"),
]

WITHOUT_TIMES = [
    delegate("refuses-an-end-at-the-granted-start", NARROW, until=5),
    delegate("refuses-an-end-at-0", communal(), until=0),
    delegate("refuses-a-start-at-the-granted-end", NARROW, **{"from": 10}),
    delegate("without-times-opens-no-key-file-that-is-missing", NARROW, "lms:gone", **{"from": 10}),
    delegate("without-times-does-not-call-the-shelf", NARROW, "lms:k", names={"k": at(K, 4).file()}, fails="s1",
             **{"from": 10}),
    delegate("without-times-opens-no-key-file-that-is-spent", NARROW, "lms:k", names={"k": at(K, 32).file()}, until=5),
    delegate("without-times-opens-no-file-that-is-no-key", NARROW, "lms:k", names={"k": b"\x00"}, until=5),
    delegate("without-times-tells-a-seventeenth-delegation-first", SIXTEEN, until=0),
    delegate("without-times-tells-the-kind-of-capability-first", owned(space=N), until=0),
    delegate("without-times-tells-an-earlier-signature-first", UNSIGNED, until=0),
    delegate("without-times-tells-wrong-bytes-first", b"\x01", "lms:gone", until=0),
]


def wrong_file(name: str, data: bytes, file: str = "k") -> Case:
    return delegate(f"finds-no-key-in-a-file-{name}", OF_K, f"lms:{file}", names={file: data})


DELEGATIONS_BY_LMS = [
    delegate("by-an-lms-key-uses-up-an-index", OF_K, "lms:k", names=WITH_K),
    delegate("by-an-lms-key-signs-with-the-second-index", OF_K, "lms:k", names={"k": at(K, 1).file()}),
    delegate("uses-up-an-index-of-a-delegation-that-grows", OF_K, "lms:k", names={"k": at(K, 30).file()},
             subspace="any"),
    delegate("uses-up-an-index-of-a-seventeenth-delegation", handed_on(communal(), *(U,) * 15, K.user()), "lms:k",
             names=WITH_K),
    delegate("misses-a-key-file", OF_K, "lms:gone", names=WITH_K),
    wrong_file("of-height-6", flipped(K.file(), 4, 3)),
    wrong_file("whose-next-index-is-past-the-end", at(K, 33).file()),
    wrong_file("with-a-byte-behind-it", K.file() + b"\x00"),
    wrong_file("that-is-cut", K.file()[:-1], "k.1"),
    wrong_file("of-other-letters", replaced(K.file(), b"WKY1", b"WKY2")),
    wrong_file("without-bytes", b""),
    delegate("finds-a-key-spent", OF_K, "lms:k", names={"k": at(K, 32).file()}),
    delegate("tells-a-spent-key-before-a-refusal", owned(K.user(), space=N), "lms:k", names={"k": at(K, 32).file()}),
    delegate("tells-a-missing-key-before-a-refusal", owned(K.user(), space=N), "lms:gone"),
    delegate("stops-at-a-fault-of-the-shelf", OF_K, "lms:k", names=WITH_K, fails="s1"),
    delegate("tells-a-fault-of-the-put", OF_K, "lms:k", names=WITH_K, fails="s2"),
    delegate("tells-wrong-bytes-before-a-missing-key", OF_K.spelled()[:-1], "lms:gone", names=WITH_K, fails="s1"),
]

WRONG_CAPABILITIES = [
    delegate("finds-no-capability-in-nothing", b""),
    delegate("finds-no-capability-in-one-that-is-cut", PLAIN[:-1]),
    delegate("finds-no-capability-where-a-byte-follows", PLAIN + b"\x00"),
    delegate("finds-no-capability-of-an-unknown-form", b"\x04" + PLAIN[1:]),
    delegate("finds-no-capability-where-a-delegation-is-wanting", PLAIN[:-1] + b"\x01"),
    delegate("finds-no-capability-with-an-area-that-ends-where-it-starts", ending(4)),
    delegate("finds-no-capability-in-two-of-them", PLAIN + PLAIN),
    delegate("finds-no-capability-in-a-row", row().frame()),
]

DELEGATION_FAULTS = [
    delegate("stops-at-a-fault-of-the-first-read", OF_K, "lms:k", names=WITH_K, fails="i1"),
    delegate("stops-at-a-fault-of-the-read-that-would-tell-the-end", communal(), fails="i2"),
    delegate("leaves-nothing-where-the-first-write-fails", communal(), fails="o1"),
    delegate("leaves-a-front-of-the-capability-where-the-second-write-fails", communal(), fails="o2"),
    delegate("calls-nothing-but-input-and-output", communal(), fails="s1 n1 r1"),
]

GROUPS = {
    "what is handed on": DELEGATIONS,
    "what is refused": REFUSED_DELEGATIONS,
    "areas without times": WITHOUT_TIMES,
    "key files": DELEGATIONS_BY_LMS,
    "input that is no capability": WRONG_CAPABILITIES,
    "faults": DELEGATION_FAULTS,
}
