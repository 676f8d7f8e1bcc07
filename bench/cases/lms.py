"""LMS keys as in RFC 8554: LMOTS_SHA256_N32_W8 (type 4) under LMS_SHA256_M32_H5 (type 5) or H10 (type 6).

How the starts of the chains and the randomizer come out of the seed is this project's own; the rest is the RFC's.
"""
from dataclasses import dataclass, replace
from functools import lru_cache
from hashlib import sha256

from octets import NotSpelled, Reader, number, whole

CHAINS, LAST_STEP = 34, 255
ONE_TIME_TYPE = 4
TREE_TYPES = {5: 5, 10: 6}  # by height
HEIGHTS = {kind: height for height, kind in TREE_TYPES.items()}
PUBLIC_KEY, MESSAGE, LEAF, INNER = b"\x80\x80", b"\x81\x81", b"\x82\x82", b"\x83\x83"
KEY_FILE = b"WKY1"


def digest(*parts: bytes) -> bytes:
    return sha256(b"".join(parts)).digest()


def chain(identifier: bytes, index: bytes, place: int, start: int, end: int, value: bytes) -> bytes:
    """The value after the steps from `start` up to, but not including, `end`."""
    head = identifier + index + number(2, place)
    for step in range(start, end):
        value = sha256(head + bytes((step,)) + value).digest()
    return value


def digits_of(identifier: bytes, index: bytes, randomizer: bytes, message: bytes) -> bytes:
    hashed = digest(identifier, index, MESSAGE, randomizer, message)
    return hashed + number(2, sum(255 - byte for byte in hashed))


def leaf(identifier: bytes, height: int, index: bytes, one_time_key: bytes) -> bytes:
    node = 2 ** height + int.from_bytes(index, "big")
    return digest(identifier, number(4, node), LEAF, one_time_key)


def inner(identifier: bytes, node: int, left: bytes, right: bytes) -> bytes:
    return digest(identifier, number(4, node), INNER, left, right)


@dataclass(frozen=True)
class LmsKey:
    height: int
    identifier: bytes
    seed: bytes
    next: int = 0

    def start(self, index: bytes, place: int) -> bytes:
        return digest(self.identifier, index, number(2, place), b"\xff", self.seed)

    def public(self) -> bytes:
        return (number(4, TREE_TYPES[self.height]) + number(4, ONE_TIME_TYPE) + self.identifier
                + tree(self.height, self.identifier, self.seed)[1])

    def user(self) -> bytes:
        """The user key: kind 1 and the digest of the public key."""
        return b"\x01" + digest(self.public())

    def file(self) -> bytes:
        return KEY_FILE + bytes((self.height,)) + self.identifier + self.seed + number(4, self.next)

    def left(self) -> int:
        """How many indices are not used."""
        return 2 ** self.height - self.next

    def after(self, count: int) -> "LmsKey":
        """The key with so many indices more used."""
        return replace(self, next=self.next + count)

    def sign(self, message: bytes) -> bytes:
        """The public key and then the signature by the next index."""
        index = number(4, self.next)
        randomizer = digest(b"\x43", self.seed, index, message)
        digits = digits_of(self.identifier, index, randomizer, message)
        values = (chain(self.identifier, index, place, 0, digits[place], self.start(index, place))
                  for place in range(CHAINS))
        nodes = tree(self.height, self.identifier, self.seed)
        node, path = 2 ** self.height + self.next, []
        while node > 1:
            path.append(nodes[node ^ 1])
            node //= 2
        return (self.public() + index + number(4, ONE_TIME_TYPE) + randomizer + b"".join(values)
                + number(4, TREE_TYPES[self.height]) + b"".join(path))


@lru_cache(maxsize=None)
def tree(height: int, identifier: bytes, seed: bytes) -> list:
    """The values of all nodes, by their numbers; the root is node 1."""
    key = LmsKey(height, identifier, seed)
    nodes = [b""] * 2 ** (height + 1)
    for place in range(2 ** height):
        index = number(4, place)
        ends = [chain(identifier, index, number_of, 0, LAST_STEP, key.start(index, number_of))
                for number_of in range(CHAINS)]
        nodes[2 ** height + place] = leaf(identifier, height, index, digest(identifier, index, PUBLIC_KEY, *ends))
    for node in range(2 ** height - 1, 0, -1):
        nodes[node] = inner(identifier, node, nodes[2 * node], nodes[2 * node + 1])
    return nodes


def verify(public: bytes, message: bytes, signature: bytes) -> bool:
    """Whether the LMS signature is one of the message under the public key of 56 bytes."""
    try:
        return whole(lambda reader: climbs(Reader(public), message, reader), signature)
    except NotSpelled:
        return False


def climbs(key: Reader, message: bytes, signature: Reader) -> bool:
    tree_type, one_time_type, identifier, root = key.number(4), key.number(4), key.take(16), key.take(32)
    if tree_type not in HEIGHTS or one_time_type != ONE_TIME_TYPE:
        return False
    height = HEIGHTS[tree_type]
    index = signature.take(4)
    if signature.number(4) != one_time_type:
        return False
    randomizer = signature.take(32)
    values = [signature.take(32) for _ in range(CHAINS)]
    if signature.number(4) != tree_type or int.from_bytes(index, "big") >= 2 ** height:
        return False
    path = [signature.take(32) for _ in range(height)]

    digits = digits_of(identifier, index, randomizer, message)
    ends = [chain(identifier, index, place, digits[place], LAST_STEP, values[place]) for place in range(CHAINS)]
    value = leaf(identifier, height, index, digest(identifier, index, PUBLIC_KEY, *ends))
    node = 2 ** height + int.from_bytes(index, "big")
    for beside in path:
        left, right = (beside, value) if node % 2 == 1 else (value, beside)
        node //= 2
        value = inner(identifier, node, left, right)
    return value == root


def read_key_file(data: bytes) -> LmsKey:
    return whole(key_in, data)


def key_in(reader: Reader) -> LmsKey:
    if reader.take(4) != KEY_FILE:
        raise NotSpelled
    key = LmsKey(reader.number(1), reader.take(16), reader.take(32), reader.number(4))
    if key.height not in TREE_TYPES or key.next > 2 ** key.height:
        raise NotSpelled
    return key
