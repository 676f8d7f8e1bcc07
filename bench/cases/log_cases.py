"""Cases of `serve` with a log file. At most one row comes that is new, so that the file does not rest on when it comes."""
from logfiles import SHUT, held, log_file, record
from serve_cases import ALL, DRAWS, FORTY, R, SPOILT, calls, serve
from situations import *

OURS, THEIRS = [row(B)], [row(A)]
FILE = {"log": "w"}
EMPTY, ONE = log_file(N), log_file(N, THEIRS)
DESCENDED = [row(AB)]  # below the one that comes


def logged(name: str, own: list, *others: list, files=None, fails="", by_hand=None, links=None, opening=None, **also) -> Case:
    """A server with a log file of these bytes, for some who call: the rows of each. It begins with the rows of both."""
    opening = own if opening is None else opening
    said = links or [calls(opening, rows, link) for link, rows in enumerate(others, 1)]
    return serve(f"keeps-{name}", own, *said, files={} if files is None else {"w": files}, fails=fails, by_hand=by_hand,
                 options=FILE, **also)


def faults(kind: str, calls_: int, **situation) -> list:
    """The first calls of an object each fail once."""
    return [logged(f"{kind}{at}-fails", OURS, THEIRS, fails=f"{kind}{at}", **situation) for at in range(1, calls_ + 1)]


KEEPS = [
    logged("a-row-in-a-new-log", OURS, THEIRS),
    logged("nothing-where-nothing-comes", OURS, OURS),
    logged("a-row-behind-an-empty-log", OURS, THEIRS, files=EMPTY),
    logged("a-row-behind-others", OURS, THEIRS, files=log_file(N, [row(path("c"))]), opening=OURS + [row(path("c"))]),
    logged("the-rows-of-two-records", OURS, THEIRS, files=log_file(N, [row(path("c"))], [row(path("d"))]),
           opening=OURS + [row(path("c")), row(path("d"))]),
    logged("a-record-without-rows", OURS, THEIRS, files=log_file(N, [])),
    logged("the-rows-of-a-file-that-no-one-brings-anew", OURS, OURS + THEIRS, files=ONE, opening=OURS + THEIRS),
    logged("a-row-that-the-file-holds-already", OURS, THEIRS, files=ONE, opening=OURS + THEIRS),
    logged("a-row-over-one-of-the-file", OURS, [row(A, time=6)], files=log_file(N, DESCENDED), opening=OURS + DESCENDED),
    logged("a-row-of-the-file-over-one-of-the-image", DESCENDED, THEIRS, files=log_file(N, [row(A, time=4)]),
           opening=[row(A, time=4)] + DESCENDED),
    logged("over-other-bytes", OURS, THEIRS, files=b"\x00" * 300),
    logged("over-a-short-file", OURS, THEIRS, files=b"\x01WLG1"),
    logged("over-a-shut-log", OURS, THEIRS, files=SHUT + ONE[1:]),
    logged("what-stands-behind-a-shut-gate-out", OURS, THEIRS, files=EMPTY + record([row(path("c"))])),
    logged("a-file-with-a-row-that-is-not-authorised", OURS, THEIRS, files=log_file(N, [spoilt(row(path("c")))])),
    logged("the-number-of-a-refused-row-of-the-file", SPOILT, THEIRS,
           files=log_file(N, [row(path("c")), spoilt(row(path("d")))]), opening=SPOILT + [row(path("c"))]),
    logged("the-number-of-a-refused-row-behind-the-file", OURS, links=[calls(OURS + [row(path("c"))], [spoilt(row(A))])],
           files=log_file(N, [row(path("c"))])),
]
REFUSES = [
    logged("no-log-of-another-namespace", OURS, THEIRS, files=log_file(P)),
    logged("no-log-of-another-mark", OURS, THEIRS, files=ONE[:4] + b"2" + ONE[5:]),
    logged("no-log-that-is-cut", OURS, THEIRS, files=ONE[:-10]),
    logged("no-log-without-a-last-gate", OURS, THEIRS, files=ONE[:-1]),
    logged("no-log-with-a-frame-of-no-row", OURS, THEIRS, files=log_file(N, THEIRS)[:-1] + b"\x01" + number(4, 4) + number(4, 0) + SHUT),
]
STOPS = [
    logged("what-it-has-without-a-capability", OURS, THEIRS, files=ONE, gone="c"),
    logged("nothing-without-an-image", OURS, THEIRS, files=ONE, gone="i"),
    logged("what-it-has-with-a-capability-that-is-none", OURS, THEIRS, files=ONE, also={"c": b"\x07"}),
    logged("what-it-has-with-another-namespaces-capability", OURS, THEIRS, files=ONE, cap=ALL, links=[b""]),
    logged("what-it-has-without-noise", OURS, THEIRS, files=ONE, draws=()),
    logged("what-it-has-where-it-can-not-listen", OURS, THEIRS, files=ONE, fails="d1"),
    logged("what-it-has-where-no-one-comes", OURS, links=[], count=1, files=ONE, fails="d2"),
    logged("what-it-has-where-the-image-is-not-put", OURS, THEIRS, files=EMPTY, fails="s3"),
    logged("what-it-has-where-the-second-does-not-come", OURS, THEIRS, count=2, files=EMPTY),
    logged("less-where-a-session-is-cut", OURS, links=[calls(OURS, THEIRS)[:-1]], files=EMPTY),
]
FAULTS = [
    logged("nothing-where-the-bay-fails", OURS, THEIRS, fails="b1"),
    *faults("k", 14),
    *[logged(f"of-a-log-k{at}-fails", OURS, THEIRS, files=EMPTY, fails=f"k{at}") for at in range(1, 8)],
    logged("both-faults", OURS, THEIRS, files=EMPTY, fails="k4 s3"),
    logged("a-fault-and-one-who-does-not-come", OURS, THEIRS, count=2, files=EMPTY, fails="k4"),
]


def again() -> list:
    """A run that was stopped behind its first keep, and then one with its file and no new rows: what was kept is put."""
    first = logged("a-row-in-a-new-log", OURS, THEIRS).objects(ORDERS[0])
    run(list(logged("a-row-in-a-new-log", OURS, THEIRS).words), first)
    left = first.bay.back[0].data
    assert held(left, N)[0] == THEIRS and len(left) == 267 and left[38] == 1
    return [logged("what-a-stopped-run-kept", OURS, OURS, files=left, opening=OURS + THEIRS)]


GROUPS = {
    "a log file": KEEPS,
    "a bad log file": REFUSES,
    "stops with a log file": STOPS,
    "faults with a log file": FAULTS,
    "a log file again": again(),
}
