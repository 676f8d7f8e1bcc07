"""Times the executables `benches` and `willow_peer`, and prints tables in Markdown. With one word, the executable
`benches`, it prints those of that one alone: of digests and keys, and of the index of recency.

Each figure is the best of ROUNDS runs; the runs of all commands take turns, so that what else the machine does
falls on all of them alike. A hash is one block of SHA-256, that is one call of its compression function: a message
of n bytes takes (n + 72) // 64 of them.
"""
import os
import struct
import subprocess
import sys
import tempfile
import time
from hashlib import sha256

ROUNDS = 5
BLOCKS = 2_000_000
KEYS = 8
CHECKS = 500
ROWS = 65_536
NAMESPACE = "00" + "4f" * 32
AUTHORS = 8
READS = 10_000_000
HEAD, TRAILER = 41, 8  # of an image: four letters, a key and a number; four zero bytes and a number
SIGNATURE = 2 + 32  # an open key's, with its length

# LMS_SHA256_M32_H5 with LMOTS_SHA256_N32_W8 (RFC 8554), in blocks:
CHAINS = 34  # one for each byte of a hash, and two for the checksum
STEP = 1  # identifier 16, index 4, chain 2, step 1, value 32: 55 bytes
ONE_TIME_KEY = 18  # identifier 16, index 4, tag 2, 34 values: 1,110 bytes
LEAF = 1  # identifier 16, node 4, tag 2, key 32: 54 bytes
INNER = 2  # identifier 16, node 4, tag 2, two values: 86 bytes
PUBLIC = 2  # the digest of the public key of 56 bytes, which is the user key
RANDOMIZER = 2  # tag 1, seed 32, index 4, message 32: 69 bytes
MESSAGE_HASH = 2  # identifier 16, index 4, tag 2, randomizer 32, message 32: 86 bytes

# Each leaf has its chains' starts, which are a hash of the seed each, and 255 steps.
TREE = 32 * (CHAINS * (1 + 255) * STEP + ONE_TIME_KEY + LEAF) + 31 * INNER
MAKE = TREE + PUBLIC
# The leaf that signs is hashed once, and its values are taken on the way.
SIGN = TREE + RANDOMIZER + MESSAGE_HASH

# What is hashed side by side: a leaf's chains without their starts, and a list of 64 messages of 154 and 68 bytes.
LEAVES = 200
LEAF_CHAINS = CHAINS * 255 * STEP
LISTS = 6_000
LIST = 32 * (3 + 2)

# A row of the generator: 33 + 35 bytes for the grant, 33 + 1 + 120 (or 118) for the entry.
ROW = 2 + 3


def verify_blocks():
    """What one verification hashes of the key, the index and the message that the benchmark `verify` signs."""
    identifier, index = b"\x09" * 16, struct.pack(">I", 0)
    seed, message = bytes(4) + b"\x07" * 28, b"a message of the length of a sum"
    randomizer = sha256(b"\x43" + seed + index + message).digest()
    digest = sha256(identifier + index + b"\x81\x81" + randomizer + message).digest()
    checksum = sum(255 - byte for byte in digest)
    digits = digest + struct.pack(">H", checksum)
    steps = sum(255 - digit for digit in digits)
    return MESSAGE_HASH + steps * STEP + ONE_TIME_KEY + LEAF + 5 * INNER + PUBLIC


def signed(key, message):
    """The signature of an open key."""
    return sha256(key + message).digest()


def covering_row(author):
    """The frame of a row at the empty path, later than all rows of the generator by that author."""
    space, user = bytes.fromhex(NAMESPACE), b"\0" + b"\x55" * 31 + bytes([author])
    grant = b"\x03" + space + user + struct.pack(">H", 32) + signed(space, b"I\x01" + user) + b"\0"
    entry = space + user + b"\0" + struct.pack(">QQ", 1 << 63, 0) + bytes(32)
    body = entry + grant + struct.pack(">H", 32) + signed(user, b"E" + entry)
    return struct.pack(">I", len(body)) + body


def bodies(frames):
    """What stands behind each length."""
    at = 0
    while at < len(frames):
        (length,) = struct.unpack_from(">I", frames, at)
        yield frames[at + 4:at + 4 + length]
        at += 4 + length


def rows_of(image):
    """The frames of an image's rows, each with its capability in place of that one's number, before its signature."""
    (count,) = struct.unpack_from(">I", image, HEAD - 4)
    told = list(bodies(image[HEAD:-TRAILER]))
    for row in told[count:]:
        (number,) = struct.unpack_from(">I", row, len(row) - SIGNATURE - 4)
        body = row[:-SIGNATURE - 4] + told[number] + row[-SIGNATURE:]
        yield struct.pack(">I", len(body)) + body


def leaf_blocks(rows):
    """What the leaves of a stream of frames hash: each is the digest of a row's entry and token, which are its body."""
    with open(rows, "rb") as source:
        return [(len(body) + 72) // 64 for body in bodies(source.read())]


def run(command, given=None, made=None):
    with open(given or os.devnull, "rb") as source, open(made or os.devnull, "wb") as sink:
        begun = time.perf_counter()
        subprocess.run(command, stdin=source, stdout=sink, stderr=subprocess.DEVNULL, check=True)
        return time.perf_counter() - begun


def best(commands):
    times = {name: [] for name in commands}
    for _ in range(ROUNDS):
        for name, (command, given) in commands.items():
            times[name].append(run(command, given))
    return {name: min(found) for name, found in times.items()}


def show_digests(benches):
    took = best({
        "blocks": ([benches, f"blocks {BLOCKS}"], None),
        "rows": ([benches, f"rows {ROWS}"], None),
        "chains": ([benches, f"chains {LEAVES}"], None),
        "lists": ([benches, f"lists {LISTS}"], None),
        "make": ([benches, f"make {KEYS}"], None),
        "sign": ([benches, f"sign {KEYS}"], None),
        "verify": ([benches, f"verify {CHECKS}"], None),
        "verify nothing": ([benches, "verify 0"], None),
    })
    plain = BLOCKS / took["blocks"]
    alone = ROWS * ROW / took["rows"]
    print("| Digests | hashes each | hashes per second | one by one | times |")
    print("|---|---|---|---|---|")
    for name, speed, one, hashes in (
        ("34 chains of 255 steps", LEAVES * LEAF_CHAINS / took["chains"], plain, LEAF_CHAINS),
        ("64 messages of two and three blocks", LISTS * LIST / took["lists"], alone, LIST),
    ):
        print(f"| {name} | {hashes:,} | {speed:,.0f} | {one:,.0f} | {speed / one:.2f} |")
    print()
    print("| Keys of height 5 | hashes each | seconds each | hashes per second | of the plain loop |")
    print("|---|---|---|---|---|")
    print(f"| plain loop over one block | 1 | | {plain:,.0f} | 1.00 |")
    for name, hashes, count, seconds in (
        ("make a key", MAKE, KEYS, took["make"]),
        ("sign", SIGN, KEYS, took["sign"]),
        ("verify", verify_blocks(), CHECKS, took["verify"] - took["verify nothing"]),
    ):
        speed = hashes * count / seconds
        print(f"| {name} | {hashes:,} | {seconds / count:.5f} | {speed:,.0f} | {speed / plain:.2f} |")


def show_rows(benches, peer, folder):
    names = ("rows", "image", "listing", "placed", "covered")
    rows, image, listing, placed, covered = (os.path.join(folder, name) for name in names)
    run([peer, "gen", "--rows", str(ROWS)], made=rows)
    run([peer, "join", "--namespace", NAMESPACE], rows, image)
    run([peer, "show"], image, listing)
    # The rows of an image are a stream by rising place: joining them moves no row of the store.
    with open(image, "rb") as source, open(placed, "wb") as sink:
        sink.write(b"".join(rows_of(source.read())))
    # Behind a later row at the empty path of each author the store keeps none: all but it is left.
    with open(rows, "rb") as source, open(covered, "wb") as sink:
        sink.write(b"".join(map(covering_row, range(AUTHORS))) + source.read())
    with open(listing, encoding="ascii") as lines:
        kept = int(lines.readline().split()[-1])
    took = best({
        "rows": ([benches, f"rows {ROWS}"], None),
        "kept rows": ([benches, f"rows {kept}"], None),
        "gen": ([peer, "gen", "--rows", str(ROWS)], None),
        "join": ([peer, "join", "--namespace", NAMESPACE], rows),
        "join by place": ([peer, "join", "--namespace", NAMESPACE], placed),
        "join of covered rows": ([peer, "join", "--namespace", NAMESPACE], covered),
        "show": ([peer, "show"], image),
    })
    print("| Rows | rows | hashes | seconds | seconds of SHA-256 alone | times that |")
    print("|---|---|---|---|---|---|")
    for name, count, alone in (
        ("gen", ROWS, "rows"),
        ("join", ROWS, "rows"),
        ("join by place", kept, "kept rows"),
        ("join of covered rows", ROWS, "rows"),
        ("show", kept, "kept rows"),
    ):
        times = took[name] / took[alone]
        print(f"| {name} | {count:,} | {count * ROW:,} | {took[name]:.3f} | {took[alone]:.3f} | {times:.1f} |")
    blocks = leaf_blocks(rows)
    print()
    print("| Leaves of a fingerprint | rows | hashes | hashes a leaf |")
    print("|---|---|---|---|")
    print(f"| rows of the generator | {len(blocks):,} | {sum(blocks):,} | {sum(blocks) / len(blocks):.2f} |")
    print(f"| the digest of a total | | {(40 + 72) // 64} | |")


def show_index(benches):
    took = best({
        "rising": ([benches, f"rising {ROWS}"], None),
        "falling": ([benches, f"falling {ROWS}"], None),
        "newest": ([benches, f"newest {READS}"], None),
        "newest of nothing": ([benches, "newest 0"], None),
        "nothing": ([benches, "rising 0"], None),
    })
    print("| Index of recency | items | seconds | nanoseconds an item |")
    print("|---|---|---|---|")
    for name, count, seconds in (
        ("put in, by rising time", ROWS, took["rising"] - took["nothing"]),
        ("put in, by falling time", ROWS, took["falling"] - took["nothing"]),
        ("one of the ten newest read", READS, took["newest"] - took["newest of nothing"]),
    ):
        print(f"| {name} | {count:,} | {seconds:.3f} | {seconds / count * 1e9:,.1f} |")


if __name__ == "__main__":
    benches, *peers = map(os.path.abspath, sys.argv[1:])
    show_digests(benches)
    print()
    for peer in peers:
        with tempfile.TemporaryDirectory() as temporary:
            show_rows(benches, peer, temporary)
        print()
    show_index(benches)
