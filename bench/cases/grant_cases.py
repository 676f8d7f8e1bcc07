"""Cases of `grant`."""
from situations import *


def grant(name: str, namespace: bytes = N, mode: str = "write", user: bytes = U, signer=None, **rest) -> Case:
    signer = {} if signer is None else {"key": signer}
    words = words_of("grant", namespace=namespace, mode=mode, user=user, **signer)
    return Case(f"grant-{name}", words, **rest)


BY_OWNER = open_signer(O)
OTHER_FILE = {"k": b"\x07"}
FILES = {**OTHER_FILE, "own": OWN.file()}
SPENT = {"own": at(OWN, 32).file()}

GRANTS = [
    grant("for-writing-in-a-communal-namespace"),
    grant("for-reading-in-a-communal-namespace", mode="read"),
    grant("to-an-lms-key", user=K.user()),
    grant("in-a-communal-namespace-of-an-lms-key", COMMON.user(), user=K.user()),
    grant("in-an-owned-namespace-is-signed", O, signer=BY_OWNER),
    Case("grant-takes-its-options-in-any-order-and-upper-case", words_of(
        "grant", key="open:" + O[1:].hex().upper(), user=V, mode="read", namespace=O.hex().upper())),
    grant("refuses-a-signer-that-is-not-the-namespace", O, signer=open_signer(U)),
    grant("tells-a-fault-of-the-report-before-a-refusal", O, signer=open_signer(U), fails="r1"),
    grant("by-an-lms-key-uses-up-an-index", OWN.user(), signer="lms:own", names=FILES),
    grant("uses-up-an-index-of-a-signer-that-is-refused", O, signer="lms:own", names=FILES),
    grant("refuses-an-open-signer-of-an-lms-namespace", OWN.user(), signer="open:" + OWN.user()[1:].hex()),
    grant("misses-a-key-file", OWN.user(), signer="lms:gone", names=FILES),
    grant("finds-no-key-in-a-file", OWN.user(), signer="lms:k", names=FILES),
    grant("finds-a-key-spent", OWN.user(), signer="lms:own", names=SPENT),
    grant("keeps-the-status-of-a-spent-key-where-the-report-fails", OWN.user(), signer="lms:own", names=SPENT,
          fails="r1"),
    grant("stops-at-a-fault-of-the-shelf", OWN.user(), signer="lms:own", names=FILES, fails="s1"),
    grant("tells-a-fault-of-the-put", OWN.user(), signer="lms:own", names=FILES, fails="s2"),
    grant("uses-up-an-index-where-the-output-fails", OWN.user(), signer="lms:own", names=FILES, fails="o3"),
    grant("leaves-a-front-of-the-capability-where-the-second-write-fails", O, "read", signer=BY_OWNER, fails="o2"),
    grant("leaves-nothing-where-the-first-write-fails", mode="read", fails="o1"),
    grant("calls-nothing-but-the-output", O, signer=BY_OWNER, given=b"\x01", fails="i1 s1 n1 r1"),
]

GROUPS = {"grants": GRANTS}
