"""Makes the tables of the claims of `crates/signature_trials`: open signatures by Python's hashlib, and an LMS signature
of those that `crates/answer_cases` reads.

Byte k of the message of n bytes is 5 k + n, and byte k of the open key of a line 7 k + the line's number, each modulo
256; byte 0 of an open key is 0.

usage: python3 bench/claims/make.py            prints the tables
       python3 bench/claims/make.py --check    compares them with those of the tests
"""
import re
import sys
from hashlib import sha256
from pathlib import Path

CRATES = Path(__file__).resolve().parents[2] / "crates"
VECTORS = CRATES / "signature_trials" / "src" / "vectors.rt"

# With the 33 bytes of a key in front these take 1, 1, 2, 2, 3, 3, 4, 4 and 1 blocks of 64 bytes.
LENGTHS = [0, 22, 23, 86, 87, 150, 151, 200, 1]

# so many hexadecimal digits of a signature stand on a line
DIGITS = 76


def message(length):
    return bytes((5 * k + length) % 256 for k in range(length))


def open_key(number):
    return bytes([0]) + bytes((7 * k + number) % 256 for k in range(1, 33))


def quoted(text):
    return f'"{text}"'


def tables():
    """The name of each table with its lines."""
    made = [sha256(open_key(i) + message(n)).hexdigest() for i, n in enumerate(LENGTHS)]
    stored = (CRATES / "answer_cases" / "stdin").read_text().splitlines()
    lms = [line for line in stored if line.startswith("signature ")]
    _, public, signed, signature, answer = lms[1].split(" ")
    assert answer == "valid"
    key = bytes([1]) + sha256(bytes.fromhex(public)).digest()
    digest = sha256(key + bytes.fromhex(signed)).hexdigest()
    whole = public + signature
    pieces = [whole[at:at + DIGITS] for at in range(0, len(whole), DIGITS)]
    return [
        ("OPEN", [f"({n}, {quoted(digest)})" for n, digest in zip(LENGTHS, made)]),
        ("LMS_KEY", [quoted(key.hex())]),
        ("LMS_MESSAGE", [quoted(signed)]),
        ("LMS_DIGEST", [quoted(digest)]),
        ("LMS_SIGNATURE", [quoted(piece) for piece in pieces]),
    ]


def words(text):
    return re.findall(r"[A-Za-z0-9]+", text)


def main():
    wrong = 0
    for name, lines in tables():
        if sys.argv[1:] != ["--check"]:
            print(name, ",\n".join(lines), sep="\n")
            continue
        found = re.search(rf"(?:const|static) {name}: .*?=(.*?);\n", VECTORS.read_text(), re.S)
        if found is None or words(found.group(1)) != words(" ".join(lines)):
            print(f"{name} differs")
            wrong += 1
    if sys.argv[1:] == ["--check"] and wrong == 0:
        print("the tables are the same")
    return 1 if wrong else 0


if __name__ == "__main__":
    sys.exit(main())
