"""Writes the tables that `crates/answer_cases` reads from its standard input.

Those of items and of hellos are what `make.py` of `items/` and of `hellos/` prints. Behind them stands that of LMS
signatures. Another implementation made and spoilt these, so their lines are kept as they stand:

    signature PUBLIC MESSAGE SIGNATURE ANSWER    whether the signature of the message is `valid` under the public key, or
                                                 `invalid`; the first three are in hexadecimal

usage: python3 bench/answers.py           writes crates/answer_cases/stdin
       python3 bench/answers.py --check   compares it with what is made, and writes nothing
"""
import subprocess
import sys
from pathlib import Path

BENCH = Path(__file__).resolve().parent
STORED = BENCH.parent / "crates" / "answer_cases" / "stdin"


def signatures():
    return [line for line in STORED.read_text().splitlines() if line.startswith("signature ")]


def made():
    printed = (subprocess.run([sys.executable, BENCH / table / "make.py"], stdout=subprocess.PIPE, check=True, text=True)
               for table in ("items", "hellos"))
    return "".join(table.stdout for table in printed) + "".join(line + "\n" for line in signatures())


def main():
    text = made()
    if sys.argv[1:] == ["--check"]:
        same = STORED.read_text() == text
        print("the tables are as they are made" if same else "other tables are made")
        return 0 if same else 1
    STORED.write_text(text)
    return 0


if __name__ == "__main__":
    sys.exit(main())
