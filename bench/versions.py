"""Times sessions over loopback in each version of the exchange, and prints a table in Markdown.

usage: python3 bench/versions.py PROGRAM [ROWS]

There are three pairs of stores, of ROWS rows of the server at most; the one who calls lacks some of these and has no other:

- rows of the generator, of which those that are live stay, without each 100th;
- as many rows of one author, each a time later than the one before, without each 100th;
- rows of two authors, one of whom has a 64th of what the other has, at times that look random; without each tenth.

In the second pair both logs are full in the end. Beside each pair stand two equal stores, the server's: what their session
takes is the reading and putting of both images, and a fingerprint. The last pair meets by `meet`, too, which is of version 2.
A link waits 60 seconds, so on a slow or busy machine a session may break off; the table tells that.
Told are medians of RUNS runs, which take turns, so that what else the machine does falls on all alike; of a session by the
clock of the one who calls, and of the processors for both programs without the relay between them (`session_runs.py`).
"""
import os
import random
import statistics
import subprocess
import sys
import tempfile
import time
from hashlib import sha256

from session_runs import NAMESPACE, SIDES, Broken, capability, ends_of, image_of, put_store, renew, run

RUNS = 5
ROWS = 65_536
VERSIONS = (1, 2)
FEW, SOME = 100, 10  # the one who calls lacks one row of so many
SHARE = 64  # one author has so many times what the other one has
RANDOM_TIMES = 1 << 50
AUTHORS = [b"\0" + b"\x61" * 32, b"\0" + b"\x62" * 32]


def number(width: int, value: int) -> bytes:
    return value.to_bytes(width, "big")


def signature(key: bytes, message: bytes) -> bytes:
    """The field of an open key's signature."""
    return number(2, 32) + sha256(key + message).digest()


def frame(author: bytes, granted: bytes, index: int, at: int) -> bytes:
    """A row of the author at the path of two parts that the index makes, and at this time."""
    high, low = divmod(index, 256)
    path = b"\x02\x02" + number(2, high) + b"\x01" + number(1, low)
    entry = bytes.fromhex(NAMESPACE) + author + path + number(8, at) + number(8, 1) + number(32, index)
    body = entry + granted + signature(author, b"E" + entry)
    return number(4, len(body)) + body


def grant(author: bytes) -> bytes:
    space = bytes.fromhex(NAMESPACE)
    return b"\x03" + space + author + signature(space, b"I\x01" + author) + b"\0"


def frames_in(data: bytes) -> list:
    found, at = [], 0
    while at < len(data):
        end = at + 4 + int.from_bytes(data[at:at + 4], "big")
        found.append(data[at:end])
        at = end
    return found


def in_turn(rows: int) -> list:
    author = AUTHORS[0]
    return [frame(author, grant(author), index, 1_700_000_000_000_000 + index) for index in range(rows)]


def by_two(rows: int) -> list:
    times, many = random.Random(7), rows * SHARE // (SHARE + 1)
    return [frame(author, grant(author), index, times.randrange(RANDOM_TIMES))
            for author, count in zip(AUTHORS, (many, many // SHARE)) for index in range(count)]


def lacking(rows: list, every: int) -> list:
    return [row for at, row in enumerate(rows) if at % every]


def pairs(program: str, rows: int) -> dict:
    """Of each pair the rows of the server, and of the one who calls."""
    generated = frames_in(run([program, "gen", "--rows", str(rows)]))
    later, mixed = in_turn(rows), by_two(rows)
    return {
        "rows of the generator": (generated, lacking(generated, FEW)),
        "rows of one author, each later than the last": (later, lacking(later, FEW)),
        "rows of two authors at any times": (mixed, lacking(mixed, SOME)),
    }


def put_pair(program: str, folder: str, granted: bytes, stores: tuple) -> None:
    for side, rows in zip(SIDES, stores):
        put_store(program, os.path.join(folder, side), b"".join(rows), granted)


def live(program: str, folder: str, side: str) -> int:
    """How many rows the image has that the side had first."""
    with open(os.path.join(folder, side, "kept"), "rb") as file:
        listed = subprocess.run([program, "show"], stdin=file, stdout=subprocess.PIPE, stderr=subprocess.DEVNULL, check=True)
    return int(listed.stdout.split(b"\n", 1)[0].split()[-1])


def checked(program: str, folder: str, version: int, granted: bytes):
    """A session behind which both have what the server had."""
    session = ends_of(program, folder, version, granted)
    with open(os.path.join(folder, "server", "kept"), "rb") as file:
        if not file.read() == image_of(folder, "server") == image_of(folder, "caller"):
            raise SystemExit("the images of a session are not what they have to be")
    return session


def meeting(program: str, folder: str) -> tuple:
    """What `meet` takes by the clock and of the processors, and its last line."""
    renew(folder)
    words = [program, "meet"]
    for side, option in zip(SIDES, ("left", "right")):
        words += [f"--{option}", f"{side}-image", f"--{option}-cap", f"{side}-cap", f"--{option}-out", f"{option}-out"]
        for name in ("image", "cap"):
            place = os.path.join(folder, f"{side}-{name}")
            if not os.path.exists(place):
                os.link(os.path.join(folder, side, "kept" if name == "image" else name), place)
    before, begun = os.times(), time.perf_counter()
    told = subprocess.run(words, cwd=folder, stdout=subprocess.DEVNULL, stderr=subprocess.PIPE, check=True).stderr
    took, after = time.perf_counter() - begun, os.times()
    return took, sum(after[2:4]) - sum(before[2:4]), told.decode().splitlines()[-1]


def middle(values) -> float:
    return statistics.median(values)


def told(sessions: list) -> str:
    clock = middle(each.caller.clock for each in sessions)
    used = middle(each.caller.processors + each.server.processors for each in sessions)
    return f"{sessions[0].items():,} | {sum(sessions[0].said):,} | {clock:.3f} s | {used:.3f} s"


def told_of_runs(program: str, folders: tuple, granted: bytes) -> dict:
    """What stands in the table of the stores of each folder in each version. A session that breaks off is not tried again."""
    runs, broken = {(at, version): [] for at in folders for version in VERSIONS}, {}
    for _ in range(RUNS):
        for at, version in (key for key in runs if key not in broken):
            try:
                runs[at, version].append(checked(program, at, version, granted))
            except Broken as why:
                broken[at, version] = f"broken off: {why} | | |"
    return {key: broken.get(key) or told(sessions) for key, sessions in runs.items()}


def show_sessions(program: str, folder: str, granted: bytes, stores: dict) -> None:
    print("| Sessions over loopback | rows | and | version | items | bytes said | by the clock | of the processors, both programs |")
    print("|---|---|---|---|---|---|---|---|")
    for place, (name, (served, called)) in enumerate(stores.items()):
        equal, other = (os.path.join(folder, f"{place}{kind}") for kind in ("equal", "other"))
        put_pair(program, equal, granted, (served, served))
        put_pair(program, other, granted, (served, called))
        for (at, version), line in told_of_runs(program, (equal, other), granted).items():
            title = name if at == other else f"{name}, both alike"
            print(f"| {title} | {live(program, at, 'server'):,} | {live(program, at, 'caller'):,} | {version} | {line} |", flush=True)


def show_meeting(program: str, folder: str, granted: bytes, stores: tuple) -> None:
    at = os.path.join(folder, "meeting")
    put_pair(program, at, granted, stores)
    runs = [meeting(program, at) for _ in range(RUNS)]
    print(f"\n`meet` of the last pair: {middle(run[0] for run in runs):.3f} s by the clock, "
          f"{middle(run[1] for run in runs):.3f} s of the processors; {runs[0][2]}")


def main() -> None:
    program = os.path.abspath(sys.argv[1])
    rows = int(sys.argv[2]) if len(sys.argv) > 2 else ROWS
    granted = capability(program)
    stores = pairs(program, rows)
    with tempfile.TemporaryDirectory() as folder:
        show_sessions(program, folder, granted, stores)
        show_meeting(program, folder, granted, list(stores.values())[-1])


if __name__ == "__main__":
    main()
