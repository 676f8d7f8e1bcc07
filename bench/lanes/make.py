"""Makes the tables of the digests of `crates/signature_trials`: digests of messages and ends of chains, by Python's hashlib.

Byte k of the message of n bytes is 5 k + n, byte k of the front of chain c is 11 k + c, and byte k of its value 7 k + c,
each modulo 256. Step j of a chain hashes its front, j in one byte and its value.

usage: python3 bench/lanes/make.py            prints the tables
       python3 bench/lanes/make.py --check    compares them with those of the tests
"""
import re
import sys
from hashlib import sha256
from pathlib import Path

TESTS = Path(__file__).resolve().parents[2] / "crates" / "signature_trials" / "src" / "digests.rt"

# four lengths a line that take equally many blocks of 64 bytes, with nine bytes or more of padding each
ALIKE = [(0, 1, 54, 55), (56, 63, 64, 119), (120, 127, 128, 183), (184, 200, 246, 247)]

# so many messages, of 37 i modulo 248 bytes for i from 0 on
MANY = 150

# the numbers of the next step and of the one before which the chain ends
CHAINS = [(0, 255), (0, 0), (0, 1), (254, 255), (7, 100), (100, 7), (255, 255), (3, 4), (128, 201)]


def message(length):
    return bytes((5 * k + length) % 256 for k in range(length))


def end(chain, at, to):
    front = bytes((11 * k + chain) % 256 for k in range(22))
    value = bytes((7 * k + chain) % 256 for k in range(32))
    for number in range(at, to):
        value = sha256(front + bytes([number]) + value).digest()
    return value


def tables():
    """The name of each table with its lines."""
    digests = [f'({n}, "{sha256(message(n)).hexdigest()}")' for line in ALIKE for n in line]
    many = sha256(b"".join(sha256(message(37 * i % 248)).digest() for i in range(MANY))).hexdigest()
    ends = [f'({at}, {to}, "{end(chain, at, to).hex()}")' for chain, (at, to) in enumerate(CHAINS)]
    return [("DIGESTS", digests), ("DIGEST_OF_MANY", [f'"{many}"']), ("ENDS", ends)]


def words(text):
    return re.findall(r"[A-Za-z0-9]+", text)


def main():
    wrong = 0
    for name, lines in tables():
        if sys.argv[1:] != ["--check"]:
            print(name, ",\n".join(lines), sep="\n")
            continue
        found = re.search(rf"(?:const|static) {name}: .*?=(.*?);\n", TESTS.read_text(), re.S)
        if found is None or words(found.group(1)) != words(" ".join(lines)):
            print(f"{name} differs")
            wrong += 1
    if sys.argv[1:] == ["--check"] and wrong == 0:
        print("the tables are the same")
    return 1 if wrong else 0


if __name__ == "__main__":
    sys.exit(main())
