"""The words of the command line."""
import re

from capabilities import MODES
from entries import is_communal, within_limits

NONE, ANY = "none", "any"  # words of an area: no end, any subspace
GREATEST = 2 ** 64 - 1
MOST_ROWS = 65_536
MOST_LINKS = 64
HEX = "[0-9a-fA-F]"

# The options of each command that is built; the ones in brackets may be absent.
OPTIONS = {
    "join": "namespace",
    "show": "[newest]",
    "key": "name height",
    "grant": "namespace mode user [key]",
    "delegate": "key to [subspace] [under] [from] [until]",
    "write": "key path time length digest [subspace]",
    "gen": "rows",
    "drill": "rows",
    "meet": "left right left-cap right-cap left-out right-out [newest] [bytes] [subspace] [under] [from] [until]",
    "sync": "image cap key to [newest] [bytes] [subspace] [under] [from] [until] [follow]",
    "serve": "image cap key at links [newest] [bytes] [log] [subspace] [under] [from] [until] [follow]",
}


NAMES = ("left", "right", "left-cap", "right-cap", "left-out", "right-out", "image", "cap", "log")


class Usage(Exception):
    """The words are no command."""


def demand(holds) -> None:
    if not holds:
        raise Usage


def key(word: str) -> bytes:
    demand(re.fullmatch(HEX + "{66}", word))
    demand(word[:2] in ("00", "01"))
    return bytes.fromhex(word)


def digest(word: str) -> bytes:
    demand(re.fullmatch(HEX + "{64}", word))
    return bytes.fromhex(word)


def path(word: str) -> tuple:
    if word == ".":
        return ()
    demand(re.fullmatch(f"(/({HEX}{HEX})*)+", word))
    found = tuple(bytes.fromhex(part) for part in word.split("/")[1:])
    demand(within_limits(found))
    return found


def number(word: str) -> int:
    demand(re.fullmatch("0|[1-9][0-9]*", word))
    demand(int(word) <= GREATEST)
    return int(word)


def count(word: str) -> int:
    found = number(word)
    demand(1 <= found <= MOST_ROWS)
    return found


def links(word: str) -> int:
    found = number(word)
    demand(1 <= found <= MOST_LINKS)
    return found


def name(word: str) -> str:
    demand(re.fullmatch("[0-9A-Za-z][0-9A-Za-z._-]{0,127}", word))
    return word


def height(word: str) -> int:
    demand(word in ("5", "10"))
    return int(word)


def mode(word: str) -> int:
    demand(word in MODES)
    return MODES[word]


def signer(word: str):
    """`("open", KEY)` or `("lms", NAME)`."""
    kind, colon, rest = word.partition(":")
    demand(colon and kind in ("open", "lms"))
    return (kind, b"\x00" + digest(rest)) if kind == "open" else (kind, name(rest))


def place(word: str) -> str:
    host, colon, port = word.rpartition(":")
    demand(len(word.encode()) <= 255 and host and colon and ":" not in host)
    demand(1 <= number(port) <= 65_535)
    return word


def any_or_key(word: str):
    return ANY if word == ANY else key(word)


def until(word: str):
    return NONE if word == NONE else number(word)


def yes(word: str) -> bool:
    demand(word == "yes")
    return True


VALUES = {
    "namespace": key, "user": key, "name": name, "height": height, "mode": mode, "key": signer,
    "path": path, "time": number, "length": number, "digest": digest, "rows": count, "newest": count, "bytes": number,
    "at": place, "links": links, "follow": yes, "under": path, "from": number, "until": until, **{option: name for option in NAMES},
}


def value_of(command: str, option: str, word: str):
    if option == "subspace":
        return key(word) if command == "write" else any_or_key(word)
    if option == "to":
        return place(word) if command == "sync" else key(word)
    return VALUES[option](word)


def options_of(words: list) -> dict:
    """The words behind the options, each option at most once."""
    demand(len(words) % 2 == 0)
    found = {}
    for option, value in zip(words[::2], words[1::2]):
        demand(option.startswith("--") and option[2:] not in found)
        demand(value != "" and not value.startswith("-"))
        found[option[2:]] = value
    return found


def read_words(words: list):
    """The command and its options."""
    demand(words)
    command = words[0]
    demand(command in OPTIONS)
    found = options_of(words[1:])
    wanted = OPTIONS[command].split()
    demand(all(option.strip("[]") in found for option in wanted if not option.startswith("[")))
    demand(set(found) <= {option.strip("[]") for option in wanted})
    options = {option: value_of(command, option, word) for option, word in found.items()}
    if command == "grant":
        demand(("key" in options) != is_communal(options["namespace"]))
    if "from" in options and options.get("until", NONE) != NONE:
        demand(options["until"] > options["from"])
    return command, options
