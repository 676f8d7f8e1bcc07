"""Compares docs/DEFINITIONS.md with the words that the public contracts use.

    python3 bench/definitions.py

It prints each word of a definition that is used by a `requires` or `ensures` of a call which a crate hands out, or by a
fact that a trait tells, and that no row lists; each word of a row that stands no more in the files that the row names; and
each file that is not there. A row says of itself by `..` that its files have further words of the kind: those count as
listed. Words that only definitions use are not asked for.

It prints too each word that stands for two things: two files have a definition of that name, or one has and another crate a
public type, of the crates that others stand on. bench/double_names.txt lists the words of which this is still so. It only
shrinks: a word in it that stands for one thing is printed as well. It exits with 0 where nothing is printed but numbers.
"""
import re
import sys
from pathlib import Path

TOP = Path(__file__).resolve().parents[1]
CRATES = TOP / "crates"
DEFINITIONS = TOP / "docs" / "DEFINITIONS.md"
DOUBLE_NAMES = TOP / "bench" / "double_names.txt"

NAME = r"[A-Za-z_][A-Za-z_0-9]*"
IMPORT = re.compile(r"ghost use Rattle\.(\w+)\.specs\.([\w.]+)\.\{([^}]*)\};")
CALL = re.compile(r"(\bpub\s+)?\b(?:const\s+|unsafe\s+)*fn\s+(" + NAME + ")")
BLOCK = re.compile(r"^\s*(?:pub\s+trait\s+(" + NAME + r")|impl\b([^{]*))", re.MULTILINE)
CLAUSE = re.compile(r"\b(?:requires|ensures)\b")
FACT = re.compile(r"\bghost\s+(" + NAME + r")\s*:\s*(?=\{)")
DEFINED = re.compile(r"^( *)((?:\w+ )*)pub (record |data )?(?!(?:mod|use)\b)(" + NAME + r")(?=[ \n:({])", re.MULTILINE)
TYPE = re.compile(r"^pub (?:struct|enum|trait) (" + NAME + ")", re.MULTILINE)


def without_comments(text: str) -> str:
    return re.sub(r"//[^\n]*", "", text)


def end_of_braces(text: str, begin: int) -> int:
    """The place behind the brace that closes the one at `begin`."""
    depth = 0
    for place in range(begin, len(text)):
        depth += {"{": 1, "}": -1}.get(text[place], 0)
        if depth == 0:
            return place + 1
    return len(text)


def blocks_of(text: str) -> list:
    """The stretches of public traits and of impls, each with the name of the trait or type, and whether it is a trait."""
    found = []
    for match in BLOCK.finditer(text):
        begin = text.find("{", match.end())
        if begin >= 0:
            trait, head = match.groups()
            of_type = re.search(r"(" + NAME + r")\s*(?:<.*>)?\s*(?:where\b.*)?$", (head or "").strip(), re.DOTALL)
            name = trait or (of_type.group(1) if of_type else "")
            found.append((begin, end_of_braces(text, begin), name, trait is not None))
    return found


def next_mark(text: str, place: int) -> int:
    """The next brace or semicolon that stands in no parentheses; the text's length where there is none."""
    depth = 0
    for at in range(place, len(text)):
        depth += {"(": 1, "[": 1, ")": -1, "]": -1}.get(text[at], 0)
        if depth == 0 and text[at] in "{;":
            return at
    return len(text)


def clauses_behind(text: str, place: int) -> list:
    """The clauses of the call whose name ends at `place`."""
    found = []
    while True:
        mark = next_mark(text, place)
        if text[mark:mark + 1] != "{" or not CLAUSE.search(text, place, mark):
            return found
        end = end_of_braces(text, mark)
        found.append(text[mark:end])
        place = end


def public_clauses(source: Path, text: str):
    """The name of each call that the crate hands out, with its clauses, and of each trait, with what it tells."""
    root = without_comments((source.parents[0] / "lib.rt").read_text()) if (source.parents[0] / "lib.rt").exists() else ""
    is_open = source.name == "lib.rt" or re.search(rf"\bpub mod {source.stem}\b", root)
    blocks = blocks_of(text)
    for match in CALL.finditer(text):
        inside = [(name, trait) for begin, end, name, trait in blocks if begin < match.start() < end]
        name, in_trait = inside[-1] if inside else (match.group(2), False)
        if (match.group(1) or in_trait) and (is_open or re.search(rf"\b{name}\b", root)):
            yield match.group(2), clauses_behind(text, match.end())
    for begin, end, name, in_trait in blocks:
        if in_trait and (is_open or re.search(rf"\b{name}\b", root)):
            for fact in FACT.finditer(text, begin, end):
                yield name, [text[fact.end():end_of_braces(text, fact.end())]]


def imported(text: str, crates: set) -> dict:
    """The words that a file takes from definitions of this repository, each with its crate and file."""
    found = {}
    for crate, file, words in IMPORT.findall(text):
        if crate in crates and not file.startswith("declared"):
            for word in words.split(","):
                name, _, other = word.strip().partition(" as ")
                found[other or name] = (name, f"{crate}/specs/{file.replace('.', '/')}")
    return found


def used_words() -> dict:
    """Each word that a public clause uses, as (word, file), with the calls that use it."""
    crates = {folder.name for folder in CRATES.iterdir()}
    found = {}
    for source in sorted(CRATES.glob("*/src/**/*.rt")):
        text = without_comments(source.read_text())
        words = imported(text, crates)
        for call, clauses in public_clauses(source, text):
            for name in set(re.findall(NAME, " ".join(clauses))) & set(words):
                found.setdefault(words[name], set()).add(f"{source.parts[-3]}::{call}")
    return found


def listed_rows():
    """Of each row the words, the files, and whether there are more words of the kind."""
    for line in DEFINITIONS.read_text().splitlines():
        cells = [cell.strip() for cell in line.strip("|").split("|")]
        if not line.startswith("|") or len(cells) < 3 or "specs/" not in cells[2]:
            continue
        words = [word.split()[0] for word in re.findall(r"`([^`]+)`", cells[0])]
        files, folder = [], ""
        for file in cells[2].split(","):
            file = file.strip()
            folder = file[:file.index("specs/") + 6] if "specs/" in file else folder
            files.append(file if "specs/" in file else folder + file)
        yield words, files, ".." in cells[0]


def defines(file: str, word: str) -> bool:
    """Whether the file has the word as a definition or as a constructor of a type."""
    text = (CRATES / f"{file}.antt").read_text()
    constructor = rf"|^  {word} : " if word[0].isupper() else ""
    return re.search(rf"^ *(?:\w+ )*pub (?:record |data |fn )?{word}\b{constructor}", text, re.MULTILINE) is not None


def crates_below() -> list:
    """The crates that others stand on, and the program: all but the trials."""
    lines = [line.partition("#")[0].partition(":") for line in (TOP / "crates.txt").read_text().splitlines()]
    below = {head.split()[0]: names.split() for head, colon, names in lines if colon}
    return [crate for crate in below if crate == "willow_peer" or any(crate in names for names in below.values())]


def defined_in(text: str) -> set:
    """The words that a file of definitions hands out; a line inside a record is a field, and no word of its own."""
    return {match[4] for match in DEFINED.finditer(text) if not match[1] or match[2].strip() or match[3]}


def meanings() -> dict:
    """Of each word the files that define it: those with definitions, and those of other crates with a public type so named."""
    found, types = {}, {}
    for crate in crates_below():
        for file in sorted((CRATES / crate / "specs").glob("**/*.antt")):
            for word in defined_in(file.read_text()):
                found.setdefault(word, {})[f"{crate}/specs/{file.stem}"] = crate
        for file in sorted((CRATES / crate / "src").glob("**/*.rt")):
            for word in TYPE.findall(without_comments(file.read_text())):
                types.setdefault(word, {})[f"{crate}/src/{file.stem}"] = crate
    for word, files in found.items():
        others = {file: crate for file, crate in types.get(word, {}).items() if crate not in files.values()}
        found[word] = sorted(files) + sorted(others)
    return found


def double_names() -> list:
    """A line for each word that stands for two things and is not known to, and for each that is and does not."""
    known = {line for line in DOUBLE_NAMES.read_text().splitlines() if not line.startswith("#")}
    double = {word: files for word, files in meanings().items() if len(files) > 1}
    return [f"two things: {word} of {', '.join(files)}" for word, files in sorted(double.items()) if word not in known] \
        + [f"one thing, so no line of {DOUBLE_NAMES.name}: {word}" for word in sorted(known - double.keys())]


def main() -> int:
    listed, open_files, wrong = set(), set(), []
    for words, files, more in listed_rows():
        there = [file for file in files if (CRATES / f"{file}.antt").is_file()]
        wrong += [f"no file: {file} ({', '.join(words)})" for file in files if file not in there]
        wrong += [f"no definition: {word} in {', '.join(files)}" for word in words
                  if not any(defines(file, word) for file in there)]
        listed |= {(word, file) for word in words for file in there}
        open_files |= set(there) if more else set()
    used = used_words()
    for (word, file), calls in sorted(used.items(), key=lambda item: (item[0][1], item[0][0])):
        if (word, file) not in listed and file not in open_files:
            some = sorted(calls)
            wrong.append(f"not listed: {word} of {file}, used by {', '.join(some[:3])}{' ..' if len(some) > 3 else ''}")
    wrong += double_names()
    for line in wrong:
        print(line)
    known = sum(not line.startswith("#") for line in DOUBLE_NAMES.read_text().splitlines())
    print(f"{len(used)} words in public clauses, {known} that stand for two things, {len(wrong)} lines to mend")
    return 1 if wrong else 0


if __name__ == "__main__":
    sys.exit(main())
