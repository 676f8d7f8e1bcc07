"""Compares the commands and options that the program reads with those that its pages tell.

    python3 bench/words.py

What is read stands in the definitions of peer_words and peer_run. A command that is not built yet is left out, and so is an
option with which a command is built only where the option's field is None or false. What is told stands in docs/USAGE.md's
table of commands, in docs/willow_peer.1 and in docs/willow_peer.bash. It prints each command whose options differ, and exits
with 0 where none does.
"""
import re
import sys
from pathlib import Path

TOP = Path(__file__).resolve().parents[1]
OPTION = r"--[a-z][a-z-]*"


def read() -> dict:
    """The options that are built of each command that is, as the definitions tell them."""
    text = (TOP / "crates/peer_words/specs/Verbs.antt").read_text()
    groups = {name: set(re.findall(f'"({OPTION})"', body)) for name, body in re.findall(r"^(\w+_names) = (.*)$", text, re.MULTILINE)}
    command = r" \(cmd\.(\w+) ([^)]*)\)"
    fields = dict(re.findall(r"^verb_of" + command, (TOP / "crates/peer_words/specs/Commands.antt").read_text(), re.MULTILINE))
    built = dict(re.findall(r"^deed_of" + command, (TOP / "crates/peer_run/specs/Deeds.antt").read_text(), re.MULTILINE))
    found = {}
    for verb, body in re.findall(r"^names_of (\w+) = (.*)$", text, re.MULTILINE):
        named = set().union(*(groups[name] for name in groups if re.search(rf"\b{name}\b", body)))
        if verb in built:
            unbuilt = {f"--{field}" for field, taken in zip(fields[verb].split(), built[verb].split()) if taken in ("None", "false")}
            found[verb.lower()] = (set(re.findall(f'"({OPTION})"', body)) | named) - unbuilt
    return found


def told_by_usage() -> dict:
    """Those of the table of commands; `an area` and `limits` stand for the options that the sentences on these have."""
    text = (TOP / "docs/USAGE.md").read_text()
    area = set(re.findall(OPTION, re.search(r"^An \*\*area\*\* is (.*?)\. ", text, re.MULTILINE).group(1)))
    limits = set(re.findall(OPTION, re.search(r"^\*\*Limits\*\* are (.*?)\. ", text, re.MULTILINE).group(1)))
    rows = re.findall(r"^\| (`\w+`(?:, `\w+`)*) \| ([^|]*) \| [^|]* \|$", text, re.MULTILINE)
    return {command: set(re.findall(OPTION, options)) | (area if "an area" in options else set()) | (limits if "limits" in options else set())
            for commands, options in rows if "--" in options for command in re.findall(r"`(\w+)`", commands)}


def told_by_manual() -> dict:
    """Those of the lines that head the commands; `area options` and `limits` stand for the options of these sections."""
    text = (TOP / "docs/willow_peer.1").read_text().replace("\\-", "-")
    commands, area = text[text.index(".SH COMMANDS"):].split(".SH AREA OPTIONS")
    area, limits = area.split(".SH LIMITS")
    area, limits = (set(re.findall(OPTION, "".join(re.findall(r'^\.BI "?(--.*)$', part, re.MULTILINE))))
                    for part in (area, limits[:limits.index(".SH ")]))
    heads = re.findall(r'^\.BI "(\w+)(.*)$', commands, re.MULTILINE)
    return {command: set(re.findall(OPTION, words)) | (area if "area options" in words else set()) | (limits if "limits" in words else set())
            for command, words in heads}


def told_by_completions() -> dict:
    """Those of the table."""
    text = (TOP / "docs/willow_peer.bash").read_text()
    return {command: set(words.split()) for command, words in re.findall(r'^    \[(\w+)\]="([^"]*)"$', text, re.MULTILINE)}


def main() -> int:
    built, wrong = read(), 0
    for page, told in (("docs/USAGE.md", told_by_usage()), ("docs/willow_peer.1", told_by_manual()),
                       ("docs/willow_peer.bash", told_by_completions())):
        for command in sorted(built.keys() | told.keys()):
            if built.get(command) != told.get(command):
                wrong += 1
                print(f"{page}: {command} is read with {sorted(built.get(command, []))}, and told with {sorted(told.get(command, []))}")
    print(f"{len(built)} commands, {wrong} lines to mend")
    return 1 if wrong else 0


if __name__ == "__main__":
    sys.exit(main())
