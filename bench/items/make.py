"""Prints the table of items that `crates/answer_cases` reads; `bench/answers.py` puts it there.

A line `item NAME VERSION BEFORE BYTES ANSWER` is a case: a reader of items of the version that took the bytes BEFORE
is given BYTES, both in hexadecimal (`-` for none). Behind all but the longest, each line `at CUT ZERO FULL NEXT FLIP` behind it is about one byte of BYTES, the first for
the first: what is answered to the bytes in front of it, and to BYTES with 0 in its place, with 255, with one more (0
for 255), and with its highest bit turned.

An answer is `more`, `bad`, or an item with the number of its bytes behind a colon. Behind its kind stand the first
bytes of its fingerprints, its count, or the length of its token: `first.17:33`, `split-key.34.51:99`, `entries.16:2`.
Of a cut in parts the points stand before the fingerprints: of a key its second byte, of a path how many bytes its
components have, and a time: `parts-time.5.9.34.51.68:115`.

The answers are those of a reader that goes over the bytes from the left and stops at the first that is missing or
that nothing can begin with. It shares no code with the crates.

usage: python3 bench/items/make.py
"""
import struct
import sys
from pathlib import Path

sys.path.insert(0, str(Path(__file__).resolve().parents[1]))
from fronts import MAX_FRAME, Bad, Bytes, More

MAX_ENTRIES, MAX_REST, MAX_POINTS = 16, 65_536, 3
DIMENSIONS = ("key", "path", "time")


class Items(Bytes):
    """Items of a version from the left."""

    def __init__(self, version, text):
        super().__init__(text)
        self.version = version

    def row(self):
        """A frame whose body is an entry and any bytes behind it; the body is looked at once it is there."""
        body = Bytes(self.some(self.number(most=MAX_FRAME)))
        try:
            body.key()  # the namespace
            body.key()  # the subspace
            body.path()
            body.some(8 + 8 + 32)  # the timestamp, the payload's length, its digest
        except More:
            raise Bad from None
        return f"row.{len(body.text) - body.taken}"

    def split(self):
        """A cut in two, at a key or a path."""
        dimension = self.byte(most=1)
        self.point(dimension)
        lower, upper = self.some(32), self.some(32)
        return f"split-{DIMENSIONS[dimension]}.{lower[0]}.{upper[0]}"

    def parts(self):
        """A cut in parts, at one to three points."""
        dimension = self.byte(most=2)
        count = self.byte(most=MAX_POINTS)
        if count == 0:
            raise Bad
        points = [self.point(dimension) for _ in range(count)]
        prints = [self.some(32)[0] for _ in range(count + 1)]
        return ".".join(map(str, (f"parts-{DIMENSIONS[dimension]}", *points, *prints)))

    def point(self, dimension):
        """What is told of a point."""
        at = self.taken
        if dimension == 0:
            self.key()
            return self.text[at + 1]
        if dimension == 1:
            self.path()
            return self.taken - at - 1 - self.text[at]
        return int.from_bytes(self.some(8), "big")

    def head(self):
        """An item that is no row."""
        kind = self.byte()
        if kind == 1:
            return f"first.{self.some(32)[0]}"
        if kind == 2:
            return "agree"
        if kind == 3 and self.version == 1:
            return self.split()
        if kind == 8 and self.version == 2:
            return self.parts()
        if kind == 4:
            return f"entries.{self.byte(most=MAX_ENTRIES)}"
        if kind == 5:
            return f"rest.{self.number(most=MAX_REST)}"
        if kind == 6:
            return "turn"
        if kind == 7:
            return "bye"
        raise Bad


def answer(version, due, text):
    """The answer of a reader to the text, and how many rows are due behind it."""
    reading = Items(version, text)
    try:
        item = reading.row() if due > 0 else reading.head()
    except More:
        return "more", due
    except Bad:
        return "bad", due
    kind, *facts = item.split(".")
    if kind in ("entries", "rest"):
        due = int(facts[0])
    elif kind == "row":
        due -= 1
    return f"{item}:{reading.taken}", due


def due_behind(version, before):
    """How many rows are due behind the bytes, which are whole items."""
    due = 0
    while before:
        found, due = answer(version, due, before)
        before = before[int(found.split(":")[1]):]
    return due


def hexadecimal(text):
    return text.hex() or "-"


def whole(name, before, text, version=1):
    due = due_behind(version, before)
    print("item", name, version, hexadecimal(before), hexadecimal(text), answer(version, due, text)[0])
    return due


def case(name, before, text, version=1):
    due = whole(name, before, text, version)
    for place, byte in enumerate(text):
        answers = [answer(version, due, text[:place])[0]]
        for value in (0, 255, (byte + 1) % 256, byte ^ 0x80):
            answers.append(answer(version, due, text[:place] + bytes([value]) + text[place + 1:])[0])
        print("at", *answers)


def spelled_path(*parts):
    return bytes([len(parts)]) + b"".join(bytes([len(part)]) + part for part in parts)


def entry(path):
    keys = b"\x00" + b"\x4e" * 32 + b"\x01" + b"\x55" * 32
    return keys + path + struct.pack(">QQ", 5, 1) + b"\x11" * 32


def frame(body):
    return struct.pack(">I", len(body)) + body


def entries(count):
    return bytes([4, count])


def rest(count):
    return b"\x05" + struct.pack(">I", count)


def parts(dimension, *points):
    """A cut in parts, with a fingerprint of other bytes for each part."""
    prints = b"".join(bytes([17 * (at + 2)]) * 32 for at in range(len(points) + 1))
    return bytes([8, dimension, len(points)]) + b"".join(points) + prints


def time(number):
    return struct.pack(">Q", number)


def version_2():
    """Items of version 2, which has a cut in parts for that in two; the others are the same."""
    keys = [bytes([kind]) + bytes([byte]) * 32 for kind, byte in ((0, 0x61), (0, 0x62), (1, 0x63))]
    paths = [spelled_path(), spelled_path(b"a", b"", b"bc"), spelled_path(b"b")]
    times = [time(5), time(9), time(2 ** 64 - 1)]
    for name, dimension, points in (("key", 0, keys), ("path", 1, paths), ("time", 2, times)):
        case(f"parts-at-a-{name}", b"", parts(dimension, points[1]), 2)
        case(f"parts-at-three-points-by-{name}", b"", parts(dimension, *points), 2)
    case("parts-at-two-times", b"", parts(2, *times[:2]), 2)
    case("parts-at-times-that-fall", b"", parts(2, *times[::-1]), 2)
    case("parts-at-no-point", b"", b"\x08\x01\x00" + b"\x22" * 32, 2)
    case("parts-at-four-times", b"", b"\x08\x02\x04" + time(1), 2)
    case("parts-of-a-fourth-dimension", b"", b"\x08\x03\x01", 2)
    full = spelled_path(*[b"c" * 255] * 16, b"d" * 16)
    too_long = spelled_path(*[b"c" * 255] * 16, b"d" * 17)
    whole("parts-at-paths-of-all-bytes", b"", parts(1, full, full, full), 2)
    whole("parts-before-the-second-path-is-too-long", b"", (b"\x08\x01\x02" + spelled_path() + too_long)[:4_101], 2)
    whole("parts-at-a-second-path-that-is-too-long", b"", (b"\x08\x01\x02" + spelled_path() + too_long)[:4_102], 2)
    case("split-in-version-2", b"", b"\x03\x01\x00", 2)
    case("two-items-of-version-2", b"", b"\x02" + parts(2, time(0))[:5], 2)
    case("no-kind-of-version-2", b"", b"\x00", 2)
    case("no-kind-above-of-version-2", b"", b"\x09", 2)
    for count in (0, 16, 17):
        case(f"entries-{count}-of-version-2", b"", entries(count), 2)
    case("rest-of-version-2", b"", rest(65_536), 2)
    plain = frame(entry(spelled_path(b"a", b"bc")))
    case("parts-behind-no-rest", rest(0), parts(2, time(7))[:11], 2)
    case("parts-behind-the-rows", entries(1) + plain, parts(2, time(7)), 2)
    case("parts-behind-parts", parts(1, paths[1]), parts(1, paths[2])[:9], 2)
    case("no-parts-while-a-row-is-due", entries(2) + plain, parts(2, time(7))[:11], 2)
    case("last-row-of-version-2", entries(1), plain, 2)


def main():
    key = b"\x00" + b"\x61" * 32
    prints = b"\x22" * 32 + b"\x33" * 32
    full = spelled_path(*[b"c" * 255] * 16, b"d" * 16)  # 4,096 bytes
    short, plain = frame(entry(spelled_path()) + b"\x07"), frame(entry(spelled_path(b"a", b"bc")))

    case("first", b"", b"\x01" + b"\x11" * 32)
    case("agree", b"", b"\x02")
    case("split-at-a-key", b"", b"\x03\x00" + key + prints)
    case("split-at-the-empty-path", b"", b"\x03\x01" + spelled_path() + prints)
    case("split-at-a-path", b"", b"\x03\x01" + spelled_path(b"a", b"", b"bc") + prints)
    case("split-at-a-time", b"", b"\x03\x02" + b"\x00" * 8 + prints)
    case("path-of-all-components", b"", b"\x03\x01" + spelled_path(*[b""] * 255) + prints)
    whole("path-of-all-bytes", b"", b"\x03\x01" + full + prints)
    whole("path-of-all-bytes-cut-short", b"", b"\x03\x01" + full)
    for count in (0, 1, 16, 17):
        case(f"entries-{count}", b"", entries(count))
    for count in (0, 2, 65_536, 65_537):
        case(f"rest-{count}", b"", rest(count))
    case("end-of-turn", b"", b"\x06")
    case("bye", b"", b"\x07")
    case("no-kind", b"", b"\x00")
    case("no-kind-above", b"", b"\x08")
    case("two-items", b"", b"\x02\x03\x00")

    case("row", entries(1), short)
    case("row-without-a-token", rest(2), plain)
    case("row-and-what-follows", entries(16), plain + b"\x00\x00")
    case("last-row", entries(2) + short, plain)
    case("empty-frame", entries(1), frame(b"") + b"\x02")
    case("longest-frame", entries(1), struct.pack(">I", MAX_FRAME) + b"\x4e\x4e")
    case("frame-too-long", entries(1), struct.pack(">I", MAX_FRAME + 1))
    case("body-of-no-row", rest(65_536), frame(b"\x02\x00"))
    case("body-cut-short", rest(1), frame(entry(spelled_path())[:-1]))
    case("row-of-the-longest-path", entries(1), frame(entry(full))[:77])
    too_long = spelled_path(*[b"c" * 255] * 16, b"d" * 17)
    whole("path-before-it-is-too-long", b"", b"\x03\x01" + too_long[:4_097])
    whole("path-too-long", b"", b"\x03\x01" + too_long[:4_098])
    case("no-head-while-a-row-is-due", entries(1), b"\x06")
    case("no-head-while-rows-are-due", rest(2) + short, b"\x01" + b"\x11" * 32)
    case("head-behind-no-entries", entries(0), b"\x02")
    case("head-behind-no-rest", rest(0), b"\x06")
    case("head-behind-the-rows", entries(2) + short + plain, b"\x07")
    case("entries-behind-rows", rest(1) + plain, entries(3))
    case("row-is-no-head", b"\x06", plain[:6])
    version_2()


main()
