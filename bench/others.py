"""Times `join` beside two programs that people would pick instead, and prints a table in Markdown.

usage: python3 bench/others.py PROGRAM [ROWS]

PROGRAM is an executable `willow_peer`. The others are those of the system: `sqlite3` reads statements that store the same
rows in a table on disk, by subspace and path, where the newer entry wins, in one transaction; and `git` fetches a commit
of as many notes from a folder beside and merges it into notes of its own, of which each second one says something else.
Neither drops what a row at a prefix of a path makes old, nor checks a signature: `join` does both. What they read is made
before. Told are medians of RUNS runs by the clock and of the processors, in turn.
"""
import os
import shutil
import statistics
import struct
import subprocess
import sys
import tempfile
import time
from hashlib import sha1

RUNS = 5
NAMESPACE = "00" + "4f" * 32
KEY = 33


def timed(command, given, **more):
    """The seconds by the clock and of the processors of the command and of all that it starts."""
    with open(given, "rb") as source:
        begun, before = time.perf_counter(), os.times()
        subprocess.run(command, stdin=source, stdout=subprocess.DEVNULL, stderr=subprocess.DEVNULL, check=True, **more)
        took, behind = time.perf_counter() - begun, os.times()
    return took, behind.children_user + behind.children_system - before.children_user - before.children_system


def bodies(frames):
    at = 0
    while at < len(frames):
        (length,) = struct.unpack_from(">I", frames, at)
        yield frames[at + 4:at + 4 + length]
        at += 4 + length


def parts_of(body):
    """Subspace, path, timestamp, length, digest and token of a row."""
    at = 2 * KEY
    count = body[at]
    end = at + 1
    for _ in range(count):
        end += 1 + body[end]
    timestamp, length = struct.unpack_from(">QQ", body, end)
    return body[KEY:at], body[at:end], timestamp, length, body[end + 16:end + 48], body[end + 48:]


def statements(rows):
    """What `sqlite3` reads: a row takes the place of another one where its timestamp, digest and length are greater."""
    yield "CREATE TABLE rows (subspace BLOB, path BLOB, time INT, digest BLOB, length INT, token BLOB, PRIMARY KEY (subspace, path)) WITHOUT ROWID;\nBEGIN;\n"
    for subspace, path, timestamp, length, digest, token in rows:
        yield (f"INSERT INTO rows VALUES (x'{subspace.hex()}',x'{path.hex()}',{timestamp},x'{digest.hex()}',{length},x'{token.hex()}') "
               "ON CONFLICT DO UPDATE SET time=excluded.time, digest=excluded.digest, length=excluded.length, token=excluded.token "
               "WHERE (excluded.time, excluded.digest, excluded.length) > (time, digest, length);\n")
    yield "COMMIT;\n"


def notes(rows, mark):
    """What `git fast-import` reads: a commit of a note for each place, which says what stands there."""
    said = b"notes\n"
    yield b"commit refs/notes/rows\ncommitter bench <bench@example.org> 1000000000 +0000\ndata %d\n%s" % (len(said), said)
    for at, (subspace, path, *_, token) in enumerate(rows):
        name = sha1(subspace + path).hexdigest()
        text = token.hex().encode() + (mark if at % 2 else b"")
        yield b"M 100644 inline %s/%s\ndata %d\n%s\n" % (name[:2].encode(), name[2:].encode(), len(text), text)


def git(folder, *words):
    subprocess.run(["git", "-C", folder, *words], check=True, stdout=subprocess.DEVNULL, stderr=subprocess.DEVNULL)


def made_repository(folder, rows, mark):
    os.mkdir(folder)
    git(folder, "init", "-q")
    for name in ("user.name=bench", "user.email=bench@example.org"):
        git(folder, "config", *name.split("="))
    subprocess.run(["git", "-C", folder, "fast-import", "--quiet"], input=b"".join(notes(rows, mark)), check=True)


def fetch_and_merge(folder, ours, theirs):
    """Both steps over a copy of the first repository."""
    own = os.path.join(folder, "own")
    shutil.copytree(ours, own)
    try:
        fetched = timed(["git", "-C", own, "fetch", "-q", theirs, "refs/notes/rows:refs/notes/theirs"], os.devnull)
        merged = timed(["git", "-C", own, "notes", "--ref=rows", "merge", "-q", "-s", "theirs", "refs/notes/theirs"], os.devnull)
    finally:
        shutil.rmtree(own)
    return fetched[0] + merged[0], fetched[1] + merged[1]


def store_by_key(folder, script):
    table = os.path.join(folder, "table")
    took = timed(["sqlite3", table], script)
    os.remove(table)
    return took


def main(program, count):
    program = os.path.abspath(program)
    with tempfile.TemporaryDirectory() as folder:
        frames, script = os.path.join(folder, "frames"), os.path.join(folder, "script")
        with open(frames, "wb") as sink:
            subprocess.run([program, "gen", "--rows", str(count)], stdout=sink, stderr=subprocess.DEVNULL, check=True)
        with open(frames, "rb") as source:
            rows = [parts_of(body) for body in bodies(source.read())]
        with open(script, "w", encoding="ascii") as sink:
            sink.writelines(statements(rows))
        ours, theirs = os.path.join(folder, "ours"), os.path.join(folder, "theirs")
        made_repository(ours, rows, b"")
        made_repository(theirs, rows, b"00")
        tasks = {
            "`willow_peer join`": lambda: timed([program, "join", "--namespace", NAMESPACE], frames),
            "`sqlite3`, one transaction": lambda: store_by_key(folder, script),
            "`git fetch` and `git notes merge`": lambda: fetch_and_merge(folder, ours, theirs),
        }
        times = {name: [] for name in tasks}
        for _ in range(RUNS):
            for name, task in tasks.items():
                times[name].append(task())
    print(f"| {count:,} rows | by the clock | of the processors |\n|---|---|---|")
    for name, found in times.items():
        clock, used = (statistics.median(each) for each in zip(*found))
        print(f"| {name} | {clock:.2f} s | {used:.2f} s |")


if __name__ == "__main__":
    if len(sys.argv) not in (2, 3):
        raise SystemExit(__doc__)
    main(sys.argv[1], int(sys.argv[2]) if len(sys.argv) == 3 else 65_536)
