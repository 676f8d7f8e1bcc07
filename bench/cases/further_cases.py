"""Further cases of what the program has: of other sides that do not keep the rules, and of a key file whose put failed."""
from exchange import BYE, END_TURN, ENTRIES, HIGHEST
from meet_cases import ALL, FORTY, meet, told_of
from serve_cases import DRAWS, FIRST, calls, rest, serve
from sessions import ANSWERER, CALLER, Hello, proof_message
from situations import *
from sync_cases import DRAW, OTHER_NONCE, R, sync, told
from write_cases import write

OWN_HELLO, OTHER_HELLO, SERVER_HELLO = (Hello(HIGHEST, nonce, R.grant(), R) for nonce in (DRAW[:16], OTHER_NONCE, DRAWS[0][:16]))


def with_length(hello: Hello, length: int) -> bytes:
    """The hello with another length before its capability."""
    plain = hello.spelled()
    at = len(plain) - len(hello.capability.spelled())
    return plain[:at - 4] + number(4, length) + plain[at:]


def entries(*rows: Row) -> bytes:
    return ENTRIES + number(1, len(rows)) + joined(rows)


def ends(text: str, written: int) -> ByHand:
    return ByHand(6, f"session refused: {text}\n", (written,))


def sync_told(name: str, said: bytes, text: str, written: int = 204) -> Case:
    """Behind the greeting the caller hears this, and ends so; it has said its own greeting and its fingerprint."""
    return told(name, said, by_hand=ends(text, written))


SYNCS = [
    sync("hears-its-own-hello-and-a-proof-that-its-receiver-signed-as-a-caller", FORTY[:2],
         OWN_HELLO.spelled() + signature_field(signed(U, proof_message(CALLER, OWN_HELLO, OWN_HELLO))),
         by_hand=ends("BadProof", 136)),
    sync_told("a-later-path-before-an-earlier-one", entries(FORTY[2], FORTY[1]), "RowsOutOfOrder"),
    sync_told("one-row-twice", entries(FORTY[1], FORTY[1]), "RowsOutOfOrder"),
    sync_told("a-row-of-another-subspace", entries(row(A, author=V)), "EntryOutside"),
    sync_told("the-end-of-a-turn-before-its-answer", END_TURN, "ItemMismatch"),
    sync_told("a-first-fingerprint-of-its-own", FIRST, "ItemMismatch"),
    sync_told("a-farewell-before-its-answer", BYE, "ItemMismatch"),
    sync_told("the-end-of-a-turn-where-a-row-is-due", ENTRIES + b"\x01" + END_TURN + bytes(3), "BadMessage 172"),
    sync_told("seventeen-rows-in-a-list-of-few", ENTRIES + b"\x11", "BadMessage 170"),
    sync_told("a-row-of-no-byte", ENTRIES + b"\x01" + bytes(4), "BadMessage 172"),
    sync_told("a-row-of-131073-bytes", ENTRIES + b"\x01" + number(4, 131_073), "BadMessage 172"),
    sync_told("a-row-of-131072-bytes-that-is-cut", ENTRIES + b"\x01" + number(4, 131_072), "ClosedEarly 176"),
    sync("hears-a-capability-of-131073-bytes", FORTY[:2], with_length(OTHER_HELLO, 131_073),
         by_hand=ends("BadMessage 0", 136)),
    sync("hears-a-capability-of-131072-bytes-that-is-cut", FORTY[:2], with_length(OTHER_HELLO, 131_072),
         by_hand=ends("ClosedEarly 136", 136)),
    sync("hears-a-capability-of-a-byte-too-few", FORTY[:2], with_length(OTHER_HELLO, 67), by_hand=ends("BadMessage 0", 136)),
    sync("hears-a-capability-of-no-byte", FORTY[:2], with_length(OTHER_HELLO, 0), by_hand=ends("BadMessage 0", 136)),
    sync("hears-a-proof-of-1509-bytes", FORTY[:2], OTHER_HELLO.spelled() + number(2, 1_509),
         by_hand=ends("BadMessage 136", 136)),
    sync("hears-a-proof-of-1508-bytes-that-is-cut", FORTY[:2], OTHER_HELLO.spelled() + number(2, 1_508),
         by_hand=ends("ClosedEarly 138", 136)),
    sync("hears-a-proof-of-no-byte", FORTY[:2], OTHER_HELLO.spelled() + number(2, 0), by_hand=ends("BadProof", 136)),
]


def serve_hears(name: str, said: bytes, text: str, written: int) -> Case:
    return serve(f"hears-{name}", FORTY[:2], said, by_hand=ByHand(6, f"link 1: session refused: {text}\n", (written,)))


GREETING = calls([], [], said=b"")
SERVES = [
    serve_hears("a-capability-of-131073-bytes", with_length(OTHER_HELLO, 131_073), "BadMessage 0", 0),
    serve_hears("a-capability-of-131072-bytes-that-is-cut", with_length(OTHER_HELLO, 131_072), "ClosedEarly 136", 0),
    # A caller that says as its proof what the answerer says.
    serve_hears("a-proof-of-the-side-that-answers", OTHER_HELLO.spelled() + signature_field(
        signed(U, proof_message(ANSWERER, OTHER_HELLO, SERVER_HELLO))), "BadProof", 170),
    serve_hears("the-end-of-a-turn-before-a-fingerprint", GREETING + END_TURN, "ItemMismatch", 170),
    serve_hears("two-fingerprints", GREETING + FIRST[:-1] + FIRST, "ItemMismatch", 170),
    # To the fingerprint it has said its two rows.
    serve_hears("rows-where-the-rest-is-due", GREETING + FIRST + entries(FORTY[3]), "ItemMismatch", 170 + 3 + 2 * 223),
    serve_hears("one-row-twice", GREETING + rest(FORTY[3], FORTY[3]), "RowsOutOfOrder", 170 + 3 + 2 * 223),
    serve_hears("the-rest-of-65537-rows", GREETING + FIRST + b"\x05" + number(4, 65_537), "BadMessage 204", 170 + 3 + 2 * 223),
    serve_hears("a-row-of-131073-bytes", GREETING + FIRST + b"\x05" + number(4, 1) + number(4, 131_073), "BadMessage 209",
                170 + 3 + 2 * 223),
]

# The put fails and leaves the new file, in which the index is used up; so the next one signs.
KEYS = [
    write("uses-up-an-index-where-the-put-leaves-the-new-file", OF_K, "lms:k", names={"k": at(K, 3).file()}, fails="s2",
          by_hand=ByHand(4, "write fault\n")),
    write("signs-with-the-index-behind-one-whose-put-failed", OF_K, "lms:k", names={"k": at(K, 4).file()},
          by_hand=ByHand(0, "")),
]

# Of sixteen rows of one author and a later one of another one: by subspace a part has sixteen, by time five.
SIXTEEN_AND_ONE = [row((bytes((at,)),), 100 + at, author=U, capability=owned(U)) for at in range(16)]
SIXTEEN_AND_ONE += [row((b"\x00",), 116, author=V, capability=owned(V))]
MEETINGS = [
    # First; parts at three times; four lists of no row; rows of 257 bytes in four lists; farewell.
    meet("of-nothing-and-sixteen-rows-beside-a-later-one", [], SIXTEEN_AND_ONE, ALL, ALL, O,
         by_hand=told_of((0, 17, 0), (17, 0, 0), 10, 34, 3 + 3 * 8 + 4 * 32 + 1, 9, 4 * 5 + 17 * 257 + 1, 1)),
]

GROUPS = {
    "one who calls": SYNCS,
    "a server": SERVES,
    "key files": KEYS,
    "a meeting": MEETINGS,
}
