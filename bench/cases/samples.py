"""The files of samples/: rows, what `join` leaves of them, and how `show` lists that."""
from hashlib import sha256

from outcome import Outcome
from situations import N, SAMPLES, U, V, W, communal, joined, open_signer, path, row, spoilt, words_of

BEGIN = 1_700_000_000_000_000


def note(author: bytes, at_path: str, minutes: int, length: int, digest: int, **rest):
    return row(path(*at_path.split("/")) if at_path else (), BEGIN + minutes, length, digest, author, **rest)


NOTES = joined((
    note(U, "notes/garden", 1, 120, 0x11),
    note(U, "notes/garden/beans", 2, 80, 0x12),
    note(U, "notes/garden/peas", 3, 95, 0x13),
    note(U, "notes/garden", 10, 130, 0x14),  # newer than the three above
    note(U, "notes/garden/plums", 10, 130, 0x14),  # and of equal rank
    note(V, "archive/1998/letters", 5, 4096, 0x21),
    note(V, "archive/1998/photos", 6, 8192, 0x22),
    note(V, "archive/1999/letters", 7, 2048, 0x23),
    note(V, "archive/1998/letters", 4, 1024, 0x24),  # kept out
    note(W, "recipes/bread", 8, 300, 0x31),
    note(W, "recipes/soup", 9, 310, 0x32),
    note(W, "recipes/bread", 11, 305, 0x33),
    note(W, "recipes/bread/rye", 7, 200, 0x34),  # kept out
    note(V, "", 0, 1, 0x41),
    spoilt(note(U, "notes/forged", 20, 1, 0x51), -1),
    note(U, "notes/stranger", 21, 1, 0x52, capability=communal(V), subspace=U),
))

# What the two authors of docs/TOUR.md write.

NAMESPACE, ANNA_KEY, BEN_KEY = N, b"\x00" + b"\xaa" * 32, b"\x00" + b"\xbb" * 32
YEAR = 1_764_000_000_000_000


def capability(user: bytes) -> bytes:
    return Outcome(words_of("grant", namespace=NAMESPACE, mode="write", user=user)).output


def written(given: bytes, signer: bytes, at_path: str, seconds: int, text: str, **subspace) -> bytes:
    """The row of a text."""
    word = "".join("/" + part.encode().hex() for part in at_path.split("/"))
    words = words_of("write", key=open_signer(signer), path=word, time=YEAR + seconds * 1_000_000, length=len(text),
                     digest=sha256(text.encode()).hexdigest(), **subspace)
    return Outcome(words, given).output


ANNAS, BENS = capability(ANNA_KEY), capability(BEN_KEY)
RECIPES = Outcome(words_of("delegate", key=open_signer(ANNA_KEY), to=BEN_KEY, under="/" + b"recipes".hex(),
                           until=1_800_000_000_000_000), ANNAS).output
ANNA = (written(ANNAS, ANNA_KEY, "recipes/bread", 230_400, "flour, water, salt")
        + written(ANNAS, ANNA_KEY, "recipes/soup/draft", 230_500, "carrots")
        + written(ANNAS, ANNA_KEY, "recipes/soup", 230_600, "carrots, potatoes"))
BEN = (written(BENS, BEN_KEY, "letters/june", 230_700, "Dear Anna,")
       + written(RECIPES, BEN_KEY, "recipes/bread", 230_800, "flour, water, salt, rye", subspace=ANNA_KEY))


def image_of_rows(rows: bytes) -> bytes:
    return Outcome(words_of("join", namespace=NAMESPACE), rows).output


def listing_of(image: bytes) -> bytes:
    return Outcome(("show",), image).output


NOTES_IMAGE, ARCHIVE_IMAGE = image_of_rows(NOTES), image_of_rows(ANNA + BEN)


def files() -> dict:
    """The bytes of each file, by its path."""
    named = {
        "notes.rows": NOTES, "notes.image": NOTES_IMAGE, "notes.listing": listing_of(NOTES_IMAGE),
        "anna.rows": ANNA, "ben.rows": BEN,
        "archive.image": ARCHIVE_IMAGE, "archive.listing": listing_of(ARCHIVE_IMAGE),
    }
    return {SAMPLES / name: data for name, data in named.items()}
