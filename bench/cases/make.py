"""Makes the cases that crates/run_cases runs, what crates/loopback reads and prints, and the files of samples/, by a model
of the program that shares no code with it and knows only the rules that docs/FORMATS.md and docs/USAGE.md tell.

    python3 bench/cases/make.py             writes them
    python3 bench/cases/make.py --check     compares them with what is stored, and exits with 0 where nothing differs
    python3 bench/cases/make.py --covers F  tells which cases of a file F are none of these, or have another outcome
    python3 bench/cases/make.py --further F writes to a folder F what crates/run_cases would read and print with the further
                                            cases, which are not stored yet, behind those that are

The model: `octets` (bytes and readers), `entries` (paths, entries, stores), `lms` (LMS keys), `capabilities`, `rows`
(tokens, frames, the generator), `images`, `interest` (what is offered), `exchange` (two stores that meet), `sessions` (a
session over bytes), `feeds` (what follows one), `grammar` (the words), `outside` (the objects), `commands`, `report`. The cases: `situations` (what they
are made of) and a module a command; `large_cases`, `full_log_cases`, `image_cases`, `interest_cases`, `follow_cases`, `loopback` and `samples`;
and the further ones, `further_cases`.

Meetings and drills are of version 2 of the exchange, and so are sessions, but where a case says that a peer is of
version 1. Whatever puts an image puts version 2. The images that the cases of a command are given are of version 1; those of
`image_cases` are of version 2.

Two things are taken from the program, since what a run must do leaves them open: how much room each read of the input
offers, and that a listing is written in two pieces. Only cases in which a call fails, or in which more stands behind what
stops a join, rest on them. Not tried: input past its limit, which is 4 GB, want of memory, and of a session too many
items, nor one that ends in the midst of a value with which nothing can begin: the model finds a value wrong once it is whole.
"""
import sys
from pathlib import Path

sys.dont_write_bytecode = True

import delegate_cases
import drill_cases
import follow_cases
import full_log_cases
import further_cases
import gen_cases
import grant_cases
import image_cases
import interest_cases
import join_cases
import key_cases
import large_cases
import log_cases
import loopback
import meet_cases
import samples
import serve_cases
import show_cases
import sync_cases
import words_cases
import write_cases

CRATES = Path(__file__).resolve().parents[2] / "crates"
STORED = CRATES / "run_cases"
COMMANDS = {
    "join": join_cases,
    "show": show_cases,
    "key": key_cases,
    "grant": grant_cases,
    "delegate": delegate_cases,
    "write": write_cases,
    "gen": gen_cases,
    "drill": drill_cases,
    "meet": meet_cases,
    "sync": sync_cases,
    "serve": serve_cases,
    "gen and join": large_cases,
    "sync and serve": full_log_cases,
    "serve with a log": log_cases,
    "images of version 2": image_cases,
    "meet, sync and serve that offer some rows": interest_cases,
    "sync and serve that follow": follow_cases,
    "words": words_cases,
}

# These cases are not stored.
FURTHER = {"further cases": further_cases}


def groups(modules: dict):
    """The headings, each with its cases."""
    for command, cases in modules.items():
        for title, group in cases.GROUPS.items():
            yield f"# {command}: {title}", group


def lines_of(text: str) -> list:
    return [line for line in text.splitlines() if not line.startswith("#")]


def cases(modules: dict) -> str:
    """The lines of all cases, below headings."""
    lines = []
    for heading, group in groups(modules):
        lines += [heading, *(case.line() for case in group)]
    return "".join(f"{line}\n" for line in lines)


def files_of(folder: Path, text: str) -> dict:
    """What is read and printed of the cases of the text, by its path."""
    names = [line.split(" ")[0] for line in lines_of(text)]
    assert len(names) == len(set(names)), "two cases of one name"
    return {folder / "stdin": text.encode(), folder / "stdout": f"{len(names)} of {len(names)}\n".encode()}


def made() -> dict:
    """The bytes of each file that is made, by its path."""
    return {**files_of(STORED, cases(COMMANDS)),
            **{CRATES / "loopback" / name: data for name, data in loopback.files().items()}, **samples.files()}


def further(folder: Path) -> dict:
    """The same of the stored cases and the further ones."""
    return files_of(folder, (STORED / "stdin").read_text() + cases(FURTHER))


def write(files: dict) -> int:
    for path, data in files.items():
        path.parent.mkdir(parents=True, exist_ok=True)
        path.write_bytes(data)
    return 0


def check(files: dict) -> int:
    differ = [path for path, data in files.items() if path.read_bytes() != data]
    for path in differ:
        print(f"{path.relative_to(CRATES.parent)} is not what is made")
    count = len(lines_of(files[STORED / "stdin"].decode()))
    print(f"{count} cases made, {len(files) - len(differ)} of {len(files)} files as stored")
    return 1 if differ else 0


def covers(other: str) -> int:
    """The name of a case is not compared."""
    ours = {line.split(" ", 1)[1] for line in lines_of(cases(COMMANDS))}
    theirs = lines_of(Path(other).read_text())
    wanting = [line.split(" ")[0] for line in theirs if line.split(" ", 1)[1] not in ours]
    for name in wanting:
        print(f"not among these: {name}")
    print(f"{len(theirs) - len(wanting)} of {len(theirs)} stand among {len(ours)}")
    return 1 if wanting else 0


def main(words: list) -> int:
    if len(words) == 2 and words[0] == "--covers":
        return covers(words[1])
    if len(words) == 2 and words[0] == "--further":
        return write(further(Path(words[1])))
    return check(made()) if words == ["--check"] else write(made())


if __name__ == "__main__":
    sys.exit(main(sys.argv[1:]))
