"""Times a server that keeps a log file beside one that keeps none, and how soon it tells what came.

usage: python3 bench/served.py PROGRAM [LINKS]

A server without rows waits for LINKS callers (64 unless told), each of which brings 1,000 rows of the generator of its own;
eight call at a time. Told are medians of five runs by turns. Then one caller brings a row to a server, and somebody else calls
when that session has ended: the table tells how long after the accept the line of the row stood on the server's output.
"""
import os
import shutil
import socket
import statistics
import subprocess
import sys
import tempfile
import time
from concurrent.futures import ThreadPoolExecutor

from session_runs import NAMESPACE, READER, Run, capability, free_port, run, wait_for_listener
from sessions import frames

RUNS, EACH, AT_ONCE = 5, 1_000, 8
COMMON = ["--image", "image", "--cap", "cap", "--key", f"open:{READER}"]


def store(program: str, folder: str, rows: list, cap: bytes) -> None:
    os.makedirs(folder)
    with open(f"{folder}/image", "wb") as image, open(f"{folder}/cap", "wb") as file:
        image.write(run([program, "join", "--namespace", NAMESPACE], b"".join(rows)))
        file.write(cap)


def call(program: str, folder: str, port: int) -> None:
    subprocess.run([program, "sync", *COMMON, "--to", f"127.0.0.1:{port}"], cwd=folder, stderr=subprocess.DEVNULL, check=True)


def served(program: str, top: str, links: int, more: list):
    """What the server takes for all callers, whose images are put back behind it."""
    folder = f"{top}/run"
    shutil.rmtree(folder, ignore_errors=True)
    shutil.copytree(f"{top}/given", folder)
    port = free_port()
    server = Run([program, "serve", *COMMON, "--at", f"127.0.0.1:{port}", "--links", str(links), *more], f"{folder}/server")
    wait_for_listener(port)
    with ThreadPoolExecutor(AT_ONCE) as callers:
        list(callers.map(lambda at: call(program, f"{folder}/{at}", port), range(links)))
    took = server.end()
    if took.status:
        raise SystemExit(f"the server ended with {took.status}: {took.report}")
    return took


def heard(program: str, top: str) -> float:
    """Seconds from the accept behind a session to the line of the row that came in it."""
    folder = f"{top}/run"
    shutil.rmtree(folder, ignore_errors=True)
    shutil.copytree(f"{top}/given", folder)
    port = free_port()
    server = subprocess.Popen([program, "serve", *COMMON, "--at", f"127.0.0.1:{port}", "--links", "2"], cwd=f"{folder}/server",
                              stdout=subprocess.PIPE, stderr=subprocess.DEVNULL)
    wait_for_listener(port)
    call(program, f"{folder}/0", port)
    begun = time.perf_counter()
    with socket.create_connection(("127.0.0.1", port)):
        server.stdout.readline()
        took = time.perf_counter() - begun
    server.stdout.read()
    server.wait()
    return took


def main() -> None:
    program, links = os.path.abspath(sys.argv[1]), int(sys.argv[2]) if len(sys.argv) > 2 else 64
    top, cap = tempfile.mkdtemp(), capability(program)
    try:
        rows = list(frames(run([program, "gen", "--rows", str(links * EACH)])))
        store(program, f"{top}/given/server", [], cap)
        for at in range(links):
            store(program, f"{top}/given/{at}", rows[at * EACH:(at + 1) * EACH], cap)
        took = {name: [] for name in ("without a log", "with one")}
        for _ in range(RUNS):
            took["without a log"].append(served(program, top, links, []))
            took["with one"].append(served(program, top, links, ["--log", "log"]))
        print(f"| A server, {links} links of {EACH:,} rows | by the clock | of the processors |\n|---|---|---|")
        for name, runs in took.items():
            clock, processors = (statistics.median(values) for values in zip(*((run.clock, run.processors) for run in runs)))
            print(f"| {name} | {clock:.2f} s | {processors:.2f} s |")
        print(f"\nA row is told {1_000 * statistics.median(heard(program, top) for _ in range(RUNS)):.1f} ms behind the accept.")
    finally:
        shutil.rmtree(top, ignore_errors=True)


if __name__ == "__main__":
    main()
