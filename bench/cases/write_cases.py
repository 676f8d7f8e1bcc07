"""Cases of `write`."""
from situations import *


def write(name: str, capability, signer: str = BY_U, at_path: str = "/61", time: int = 5, length: int = 1,
          digest: str = D_WORD, names=None, fails="", by_hand=None, **subspace) -> Case:
    words = words_of("write", key=signer, path=at_path, time=time, length=length, digest=digest, **subspace)
    return Case(f"write-{name}", words, bytes_of(capability), names or {}, fails=fails, by_hand=by_hand)


GRANTED_TO_V = handed(communal(), V, under=A, start=5, end=10)


def path_of(*lengths: int, byte: str) -> str:
    """The word of a path whose components have these lengths."""
    return "".join("/" + byte * length for length in lengths)


WRITES = [
    write("signs-a-row", communal()),
    write("takes-the-empty-path", communal(), at_path=".", time=0, length=0),
    write("takes-an-empty-component", communal(), at_path="/", time=0, length=0),
    write("takes-empty-components-around-another", communal(), at_path="//61//", time=1, length=0),
    write("takes-upper-case-and-the-greatest-numbers", communal(), at_path="/AbFF/0a", time=GREATEST, length=GREATEST,
          digest="AB" * 32, subspace=U),
    write("takes-the-longest-path", communal(), at_path=path_of(*(64,) * 16, byte="40")),
    write("takes-a-component-of-255-bytes", communal(), at_path=path_of(255, byte="00")),
    write("takes-sixteen-empty-components", communal(), at_path="/" * 16),
    write("into-the-subspace-of-an-lms-key", FROM_K, BY_V, subspace=K.user()),
    write("into-an-owned-namespace-of-an-lms-key", owned(space=OWN, by=at(OWN, 30))),
    write("into-another-subspace-of-an-owned-namespace", owned(), subspace=V),
    write("into-its-receivers-subspace-of-an-owned-namespace", owned()),
    write("under-a-grant-of-a-path-and-times", GRANTED_TO_V, BY_V, "/61/62", 9, subspace=U),
]

REFUSED_WRITES = [
    write("refuses-its-receivers-subspace-where-another-was-granted", GRANTED_TO_V, BY_V, time=9),
    write("refuses-a-path-outside-the-grant", GRANTED_TO_V, BY_V, "/62", 9, subspace=U),
    write("refuses-a-time-at-the-end-of-the-grant", GRANTED_TO_V, BY_V, time=10, subspace=U),
    write("refuses-another-subspace-than-was-granted", communal(), subspace=V),
    write("refuses-a-signer-that-is-not-the-receiver", communal(), BY_V),
    write("tells-the-area-before-the-signer", communal(), BY_V, subspace=V),
    write("refuses-a-capability-for-reading", communal(mode=READ)),
    write("tells-the-mode-before-the-chain", owned(mode=READ, space=N)),
    write("refuses-a-communal-capability-in-an-owned-namespace", communal(space=O)),
    write("refuses-an-owned-capability-in-a-communal-namespace", owned(space=N)),
    write("refuses-a-capability-that-its-namespace-did-not-sign", owned(by=U)),
    write("refuses-a-capability-that-another-lms-key-signed", owned(space=OWN, by=at(K, 30))),
    write("refuses-a-chain-that-grows", GROWN),
    write("refuses-a-chain-that-its-giver-did-not-sign", UNSIGNED),
    write("refuses-seventeen-delegations", handed_on(communal(), *(U, V) * 8, U)),
    write("tells-a-fault-of-the-report-before-a-refusal", communal(), BY_V, fails="r2"),
]

WRITES_BY_LMS = [
    write("by-an-lms-key-uses-up-an-index-and-leaves-other-names", OF_K, "lms:k",
          names={"a": b"\x01", "k": K.file(), "z": b"\x02"}),
    write("by-an-lms-key-uses-up-the-last-index", OF_K, "lms:k", names={"k": at(K, 31).file()}),
    write("by-an-lms-key-of-height-10-uses-up-the-last-index", communal(TALL.user()), "lms:k",
          names={"k": at(TALL, 1023).file()}),
    write("uses-up-an-index-of-a-row-that-is-refused", communal(K.user(), READ), "lms:k", names={"k": at(K, 2).file()}),
    write("finds-a-key-spent", OF_K, "lms:k", names={"k": at(K, 32).file()}),
    write("finds-a-key-of-height-10-spent", OF_K, "lms:k", names={"k": at(TALL, 1024).file()}),
    write("finds-no-key-in-a-file-of-height-10-past-its-end", OF_K, "lms:k", names={"k": at(TALL, 1025).file()}),
    write("misses-a-key-file", OF_K, "lms:j", names=WITH_K),
    write("finds-no-key-in-a-file-that-is-cut", OF_K, "lms:k", names={"k": K.file()[:4]}),
    write("stops-at-a-fault-of-the-shelf", OF_K, "lms:k", names=WITH_K, fails="s1"),
    write("tells-a-fault-of-the-put", OF_K, "lms:k", names=WITH_K, fails="s2"),
    write("uses-up-an-index-where-the-output-fails", OF_K, "lms:k", names=WITH_K, fails="o2"),
]

WRITE_BYTES = [
    write("finds-no-capability-in-nothing", b"", "lms:gone"),
    write("finds-no-capability-in-one-that-is-cut", PLAIN[:40], "lms:gone"),
    write("finds-no-capability-where-a-byte-follows", PLAIN + b"\x00", "lms:gone"),
    write("finds-no-capability-of-an-unknown-kind-of-user", PLAIN[:34] + b"\x02" + PLAIN[35:], "lms:gone"),
]

WRITE_FAULTS = [
    write("stops-at-a-fault-of-the-first-read", OF_K, "lms:k", names=WITH_K, fails="i1"),
    write("tells-a-fault-of-reading-before-bytes-that-are-wrong", b"\xff" * 120, fails="i2"),
    write("leaves-nothing-where-the-first-write-fails", communal(), fails="o1"),
    write("leaves-a-front-of-the-row-where-the-last-write-fails", communal(), fails="o3"),
    write("calls-nothing-but-input-and-output", communal(), fails="s1 n1 r1"),
]

GROUPS = {
    "what is signed": WRITES,
    "what is refused": REFUSED_WRITES,
    "key files": WRITES_BY_LMS,
    "input that is no capability": WRITE_BYTES,
    "faults": WRITE_FAULTS,
}
