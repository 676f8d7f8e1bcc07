"""Times a session over loopback of two stores that differ in a few rows.

usage: python3 bench/sessions.py PROGRAM [ROWS [EVERY]]

The server has rows 0 to ROWS - 1 of the generator, the one that calls all but each EVERY-th of them; both may read all. The
server has read its image before it is called. What the caller takes to read its own is timed apart, by a call to a place where
nobody listens. Told are medians of five runs.
"""
import os
import resource
import shutil
import statistics
import subprocess
import sys
import tempfile
import time

from session_runs import wait_for_listener

OWNER = "4f" * 32
USER = "55" * 32


def frames(data: bytes):
    at = 0
    while at < len(data):
        end = at + 4 + int.from_bytes(data[at:at + 4], "big")
        yield data[at:end]
        at = end


def run(words: list, data: bytes = b"") -> bytes:
    return subprocess.run(words, input=data, stdout=subprocess.PIPE, stderr=subprocess.DEVNULL, check=True).stdout


def store(program: str, folder: str, rows: bytes, capability: bytes) -> None:
    os.makedirs(folder)
    with open(f"{folder}/image", "wb") as file:
        file.write(run([program, "join", "--namespace", "00" + OWNER], rows))
    with open(f"{folder}/cap", "wb") as file:
        file.write(capability)


COMMON = ["--image", "image", "--cap", "cap", "--key", "open:" + USER]
RUNS = 5


def reading(program: str, folder: str) -> float:
    start = time.monotonic()
    subprocess.run([program, "sync", *COMMON, "--to", "127.0.0.1:47818"], cwd=f"{folder}/caller", stderr=subprocess.DEVNULL)
    return time.monotonic() - start


def session(program: str, folder: str) -> tuple:
    server = subprocess.Popen([program, "serve", *COMMON, "--at", "127.0.0.1:47817", "--links", "1"],
                              cwd=f"{folder}/server", stderr=subprocess.PIPE)
    wait_for_listener(47817)
    before = resource.getrusage(resource.RUSAGE_CHILDREN)
    start = time.monotonic()
    caller = subprocess.run([program, "sync", *COMMON, "--to", "127.0.0.1:47817"], cwd=f"{folder}/caller",
                            stderr=subprocess.PIPE)
    elapsed = time.monotonic() - start
    lines = (caller.stderr + server.communicate()[1]).decode()
    after = resource.getrusage(resource.RUSAGE_CHILDREN)
    return elapsed, after.ru_utime - before.ru_utime, lines


def main() -> None:
    program = os.path.abspath(sys.argv[1])
    rows = int(sys.argv[2]) if len(sys.argv) > 2 else 65_536
    every = int(sys.argv[3]) if len(sys.argv) > 3 else 100
    made = list(frames(run([program, "gen", "--rows", str(rows)])))
    capability = run([program, "grant", "--namespace", "00" + OWNER, "--mode", "read", "--user", "00" + USER,
                      "--key", "open:" + OWNER])
    with tempfile.TemporaryDirectory() as folder:
        store(program, f"{folder}/server", b"".join(made), capability)
        store(program, f"{folder}/caller", b"".join(row for at, row in enumerate(made) if at % every), capability)
        for side in ("server", "caller"):
            shutil.copy(f"{folder}/{side}/image", f"{folder}/{side}/kept")
        reads, calls, used = [], [], []
        for _ in range(RUNS):
            for side in ("server", "caller"):
                shutil.copy(f"{folder}/{side}/kept", f"{folder}/{side}/image")
            reads.append(reading(program, folder))
            elapsed, processors, lines = session(program, folder)
            calls.append(elapsed)
            used.append(processors)
        read, call = statistics.median(reads), statistics.median(calls)
        print(f"the caller's image is read in {read:.2f} s; the whole call takes {call:.2f} s, which is {call - read:.2f} s more")
        print(f"both programs: {statistics.median(used):.2f} s of processors")
        print(lines, end="")


if __name__ == "__main__":
    main()
