"""Cases of words that are no command. Each leaves everything but the report alone."""
from situations import *

BY_O = open_signer(O)
N_WORD, O_WORD, U_WORD, V_WORD = (key.hex() for key in (N, O, U, V))


def words(name: str, *found: str, **rest) -> Case:
    return Case(f"words-{name}", found, **rest)


def join_of(name: str, key: str, **rest) -> Case:
    return words(name, "join", "--namespace", key, **rest)


def key(name: str, file: str) -> Case:
    return words(name, "key", "--name", file, "--height", "5")


def owned_grant(name: str, signer: str) -> Case:
    return Case(f"words-{name}", words_of("grant", namespace=O, mode="read", user=U, key=signer))


def delegate(name: str, *area: str) -> Case:
    return words(name, "delegate", "--key", BY_U, "--to", V_WORD, *area)


WRITTEN = {"key": BY_U, "path": "/61", "time": "5", "length": "1", "digest": D_WORD}


def write(name: str, **changed) -> Case:
    return Case(f"words-{name}", words_of("write", **{**WRITTEN, **changed}))


def write_without(option: str) -> Case:
    left = {name: word for name, word in WRITTEN.items() if name != option}
    return Case(f"words-of-write-without-its-{option}", words_of("write", **left))


ROW = row().frame()  # the input, of which nothing is read

COMMANDS = [
    words("of-no-word"),
    words("of-no-word-leave-the-input", given=ROW),
    words("of-an-unknown-command", "jion"),
    words("of-an-unknown-command-with-an-option", "jion", "--namespace", N_WORD),
    words("of-an-unknown-command-leave-the-input", "jion", "--namespace", N_WORD, given=ROW),
    words("of-a-command-in-upper-case", "JOIN", "--namespace", N_WORD),
    words("of-an-empty-command", "", "--namespace", N_WORD),
    words("of-an-option-before-the-command", "--namespace", N_WORD, "join"),
    words("call-nothing-but-the-report", "jion", given=b"\x01", names={"k": b""}, fails="i1 o1 s1 n1"),
    words("keep-their-status-where-the-report-fails", "jion", fails="r1"),
]

OPTIONS = [
    words("of-join-alone", "join"),
    words("of-join-alone-leave-the-input", "join", given=ROW),
    words("of-an-option-twice", "join", "--namespace", N_WORD, "--namespace", N_WORD),
    words("of-an-option-twice-leave-the-input", "join", "--namespace", N_WORD, "--namespace", N_WORD, given=ROW),
    words("of-an-option-with-two-values", "join", "--namespace", N_WORD, "--namespace", O_WORD),
    words("of-a-word-behind-the-options", "join", "--namespace", N_WORD, "x"),
    words("of-a-value-without-its-option", "join", N_WORD),
    words("of-an-option-without-its-value", "join", "--namespace"),
    words("of-an-empty-value", "join", "--namespace", ""),
    words("of-an-option-and-value-joined-by-a-sign", "join", f"--namespace={N_WORD}"),
    words("of-a-short-option", "join", "-n", N_WORD),
    words("of-an-option-with-one-dash", "join", "-namespace", N_WORD),
    words("of-an-option-without-dashes", "join", "namespace", N_WORD),
    words("of-two-dashes-as-an-option", "join", "--", N_WORD),
    words("of-two-dashes-before-the-options", "join", "--", "--namespace", N_WORD),
    words("of-another-commands-option", "join", "--name", N_WORD),
    words("of-another-commands-option-leave-the-input", "join", "--name", N_WORD, given=ROW),
    words("of-another-commands-option-behind-the-own", "join", "--namespace", N_WORD, "--rows", "1"),
    words("of-an-unknown-option", "join", "--namespace", N_WORD, "--help", "1"),
    words("of-an-option-in-upper-case", "join", "--Namespace", N_WORD),
    words("of-show-with-a-word", "show", "x"),
    words("of-show-with-a-namespace", "show", "--namespace", N_WORD),
    words("of-gen-alone", "gen"),
    words("of-key-without-a-height", "key", "--name", "k"),
    words("of-key-without-a-name", "key", "--height", "5"),
    words("of-key-with-two-heights", "key", "--name", "k", "--height", "5", "--height", "5"),
    words("of-grant-without-a-user", "grant", "--namespace", N_WORD, "--mode", "read"),
    words("of-grant-without-a-mode", "grant", "--namespace", N_WORD, "--user", U_WORD),
    words("of-grant-without-a-namespace", "grant", "--mode", "read", "--user", U_WORD),
    words("of-delegate-without-a-signer", "delegate", "--to", V_WORD),
    words("of-delegate-without-a-receiver", "delegate", "--key", BY_U),
    *map(write_without, WRITTEN),
]

KEYS = [
    join_of("of-a-key-of-65-digits", N_WORD[:-1]),
    join_of("of-a-key-of-67-digits", N_WORD + "4"),
    join_of("of-a-key-of-68-digits", N_WORD + "4e"),
    join_of("of-a-key-of-64-digits", N_WORD[2:]),
    join_of("of-a-key-of-64-digits-leave-the-input", N_WORD[:-2], given=ROW),
    join_of("of-an-unknown-kind-of-key", "02" + N_WORD[2:]),
    join_of("of-an-unknown-kind-of-key-leave-the-input", "02" + N_WORD[2:], given=ROW),
    join_of("of-a-letter-in-a-key", "0g" + N_WORD[2:]),
    join_of("of-a-letter-in-a-key-leave-the-input", "0g" + N_WORD[2:], given=ROW),
    join_of("of-a-key-behind-0x", "0x" + N_WORD[2:]),
    join_of("of-a-key-behind-a-sign", "+0" + N_WORD[2:]),
    words("of-an-unknown-kind-of-user", "grant", "--namespace", N_WORD, "--mode", "read", "--user", "02" + U_WORD[2:]),
    words("of-another-height", "key", "--name", "k", "--height", "6"),
    words("of-a-height-behind-a-zero", "key", "--name", "k", "--height", "05"),
    key("of-a-name-that-begins-with-a-dot", ".k"),
    key("of-a-name-with-a-slash", "a/b"),
    key("of-a-name-of-129-letters", "n" * 129),
    key("of-a-name-with-a-letter-that-is-not-ascii", "kä"),
    key("of-a-name-that-begins-with-a-line", "_k"),
    key("of-a-name-with-a-sign", "k+"),
    key("of-a-name-that-begins-with-a-dash", "-k"),
    key("of-a-name-with-a-colon", "k:1"),
]

GRANTS = [
    words("of-an-owned-grant-without-a-signer", "grant", "--namespace", O_WORD, "--mode", "write", "--user", U_WORD),
    words("of-a-communal-grant-with-a-signer", "grant", "--namespace", N_WORD, "--mode", "write", "--user", U_WORD,
          "--key", BY_O),
    words("of-a-communal-grant-of-an-lms-namespace-with-a-signer", "grant", "--namespace", COMMON.user().hex(), "--mode",
          "write", "--user", U_WORD, "--key", "lms:own"),
    words("of-a-mode-in-upper-case", "grant", "--namespace", N_WORD, "--mode", "Read", "--user", U_WORD),
    words("of-both-modes", "grant", "--namespace", N_WORD, "--mode", "readwrite", "--user", U_WORD),
    owned_grant("of-an-open-signer-of-62-digits", BY_U[:-2]),
    owned_grant("of-an-open-signer-of-66-digits", BY_U + "55"),
    owned_grant("of-an-open-signer-with-its-kind", "open:" + U_WORD),
    owned_grant("of-an-open-signer-with-letters", "open:" + "z" * 64),
    owned_grant("of-an-open-signer-in-upper-case", "OPEN:" + U_WORD[2:]),
    owned_grant("of-a-signer-without-its-kind", U_WORD[2:]),
    owned_grant("of-an-lms-signer-without-a-name", "lms:"),
    owned_grant("of-an-lms-signer-with-a-wrong-name", "lms:.k"),
    owned_grant("of-an-lms-signer-in-a-folder", "lms:a/b"),
    owned_grant("of-an-unknown-kind-of-signer", "pgp:k"),
    owned_grant("of-a-signer-without-a-colon", "lmsk"),
    owned_grant("of-an-lms-signer-in-upper-case", "LMS:k"),
    owned_grant("of-an-lms-signer-with-a-name-of-129-letters", "lms:" + "k" * 129),
]

AREAS = [
    delegate("of-a-start-that-is-the-end", "--from", "5", "--until", "5"),
    delegate("of-a-start-above-the-end", "--until", "5", "--from", "6"),
    delegate("of-no-times-from-0-to-0", "--from", "0", "--until", "0"),
    delegate("of-no-times-at-the-greatest-number", "--from", str(GREATEST), "--until", str(GREATEST)),
    delegate("of-an-end-that-is-another-word", "--until", "None"),
    delegate("of-a-start-that-is-none", "--from", "none"),
    delegate("of-a-subspace-that-is-another-word", "--subspace", "all"),
    delegate("of-any-subspace-in-upper-case", "--subspace", "ANY"),
    delegate("of-an-areas-option-twice", "--under", ".", "--under", "."),
    delegate("of-a-path-where-an-area-is-wanted", "--path", "/61"),
    write("of-any-subspace-for-a-row", subspace="any"),
    write("of-an-area-for-a-row", under="/61"),
]

PATHS_AND_NUMBERS = [
    write("of-a-path-without-a-slash", path="61"),
    write("of-a-path-with-half-a-byte", path="/6"),
    write("of-a-path-with-half-a-byte-behind-others", path="/61/622"),
    write("of-a-path-with-a-dot-in-front", path="./61"),
    write("of-a-path-of-two-dots", path=".."),
    write("of-a-path-with-a-letter", path="/6g"),
    write("of-a-path-of-256-components", path="/61" * 256),
    write("of-a-path-of-256-empty-components", path="/" * 256),
    write("of-a-component-of-256-bytes", path="/" + "61" * 256),
    write("of-a-path-of-4097-bytes", path=("/" + "61" * 255) * 16 + "/" + "61" * 17),
    write("of-a-path-with-a-dot-inside", path="/61/."),
    write("of-a-path-with-a-backslash", path="\\61"),
    write("of-a-number-behind-a-zero", time="05"),
    write("of-a-number-behind-a-plus", time="+5"),
    write("of-a-number-behind-a-minus", time="-5"),
    write("of-a-number-with-a-letter", time="5a"),
    write("of-a-number-in-hexadecimal", time="0x5"),
    write("of-a-number-of-65-bits", time=str(GREATEST + 1)),
    write("of-a-number-of-40-digits", time="9" * 40),
    write("of-a-double-zero", time="00"),
    write("of-a-digit-that-is-not-ascii", time="٥"),
    write("of-a-digest-of-63-digits", digest=D_WORD[:-1]),
    write("of-a-digest-of-66-digits", digest=D_WORD + "11"),
    write("of-a-digest-with-a-letter", digest="g" + D_WORD[1:]),
    words("of-no-rows", "gen", "--rows", "0"),
    words("of-65537-rows", "gen", "--rows", "65537"),
    words("of-a-count-behind-a-zero", "gen", "--rows", "01"),
    words("of-a-count-with-a-power", "gen", "--rows", "1e3"),
    words("of-a-count-of-65-bits", "gen", "--rows", str(GREATEST + 1)),
]

SIX = {"left": "a", "right": "b", "left-cap": "c", "right-cap": "d", "left-out": "e", "right-out": "f"}


def meet(name: str, wanting=(), **options) -> Case:
    options = {**SIX, **options}
    return words(name, *words_of("meet", **{option: value for option, value in options.items() if option not in wanting}))


MEETINGS = [
    *(meet(f"of-meet-without-{option}", (option,)) for option in SIX),
    meet("of-meet-with-a-name-of-a-folder", left="a/b"),
    meet("of-meet-with-a-name-that-begins-with-a-dot", **{"right-out": ".f"}),
    meet("of-meet-with-a-key", key=BY_U),
    meet("of-meet-with-an-end-at-the-start", **{"from": 5}, until=5),
    meet("of-meet-with-times-in-words", until="never"),
    words("of-drill-without-rows", "drill"),
    words("of-drill-with-no-rows", "drill", "--rows", "0"),
    words("of-drill-with-65537-rows", "drill", "--rows", "65537"),
    words("of-drill-with-an-area", "drill", "--rows", "5", "--under", "/61"),
]

NEWEST = [
    words("of-show-with-none-of-the-newest", "show", "--newest", "0"),
    words("of-show-without-the-number-of-the-newest", "show", "--newest"),
    words("of-show-with-65537-of-the-newest", "show", "--newest", "65537"),
    words("of-show-with-the-newest-in-words", "show", "--newest", "all"),
    words("of-show-with-a-zero-before-the-number-of-the-newest", "show", "--newest", "03"),
    words("of-show-with-the-newest-twice", "show", "--newest", "3", "--newest", "3"),
    words("of-show-with-the-newest-and-a-namespace", "show", "--newest", "3", "--namespace", N_WORD),
]

FIVE = {"image": "a", "cap": "c", "key": BY_U, "at": "host:1", "links": "2"}


def serve(name: str, wanting=(), **options) -> Case:
    options = {**FIVE, **options}
    found = {option: value for option, value in options.items() if option not in wanting}
    return words(name, *words_of("serve", **found))


SERVERS = [
    *(serve(f"of-serve-without-{option}", (option,)) for option in FIVE),
    serve("of-serve-for-no-link", links="0"),
    serve("of-serve-for-65-links", links="65"),
    serve("of-serve-with-a-zero-before-the-number-of-links", links="02"),
    serve("of-serve-with-links-in-words", links="all"),
    serve("of-serve-at-no-port", at="host"),
    serve("of-serve-to-a-place", ("at",), to="host:1"),
    serve("of-serve-with-a-name-of-a-folder", image="a/b"),
    serve("of-serve-with-an-end-at-the-start", **{"from": 5}, until=5),
]

FOLLOWS = [
    words("of-sync-that-follows-no", "sync", "--image", "a", "--cap", "c", "--key", BY_U, "--to", "host:1", "--follow", "no"),
    words("of-sync-that-follows-twice", "sync", "--image", "a", "--cap", "c", "--key", BY_U, "--to", "host:1", "--follow", "yes",
          "--follow", "yes"),
    words("of-meet-that-follows", "meet", "--follow", "yes"),
    serve("of-serve-that-follows-yes-in-capitals", follow="YES"),
]

GROUPS = {
    "commands": COMMANDS,
    "options": OPTIONS,
    "keys, heights and names": KEYS,
    "grants and signers": GRANTS,
    "areas": AREAS,
    "paths, numbers and digests": PATHS_AND_NUMBERS,
    "drills and meetings": MEETINGS,
    "the newest": NEWEST,
    "servers": SERVERS,
    "following": FOLLOWS,
}
