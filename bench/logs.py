"""Times the opening of a log beside `join` of the same rows, and prints a table in Markdown.

    python3 bench/logs.py KEEPER [PROGRAM]

KEEPER is the executable `keeper_kill`, and PROGRAM is `willow_peer`; without it nothing is joined. A log of ROWS rows of the
generator is kept in a folder that is empty at first, in slices of SIZE rows; what that takes is told too. Then it is opened,
and the same rows are joined, RUNS times by turns, so that what else the machine does falls on both alike. Told are medians
by the clock and of the processors.
"""
import os
import statistics
import subprocess
import sys
import tempfile
import time

RUNS, ROWS, SIZE = 15, 65_536, 256
NAMESPACE = "00" + "4f" * 32


def timed(command, folder, given=os.devnull):
    """The seconds by the clock and of the processors, and the first line that was printed."""
    with open(given, "rb") as source, open(os.path.join(folder, "made"), "wb+") as sink:
        begun = time.perf_counter()
        child = subprocess.Popen(command, cwd=folder, stdin=source, stdout=sink, stderr=subprocess.DEVNULL)
        _, status, used = os.wait4(child.pid, 0)
        took = time.perf_counter() - begun
        child.returncode = os.waitstatus_to_exitcode(status)
        if child.returncode != 0:
            raise SystemExit(f"{' '.join(command)} ended with {child.returncode}")
        sink.seek(0)
        return took, used.ru_utime + used.ru_stime, sink.readline()


def joined_rows(program, folder):
    """The file of the rows that are joined."""
    rows = os.path.join(folder, "rows")
    with open(rows, "wb") as sink:
        subprocess.run([program, "gen", "--rows", str(ROWS)], stdout=sink, check=True)
    return rows


def take_turns(keeper, program, folder):
    """What it takes to keep the log once, and then, by turns, to open it and to join its rows."""
    taken = {"keep": [timed([keeper, f"keep log {ROWS // SIZE} {SIZE}"], folder)[:2]], "open": []}
    join = [program, "join", "--namespace", NAMESPACE]
    rows = joined_rows(program, folder) if program else None
    for _ in range(RUNS):
        *figures, line = timed([keeper, "open log"], folder)
        if line.decode() != f"holds {ROWS}\n":
            raise SystemExit(f"the log says {line}")
        taken["open"].append(figures)
        if program:
            taken.setdefault("join", []).append(timed(join, folder, rows)[:2])
    return taken


def main():
    keeper, *program = (os.path.abspath(word) for word in sys.argv[1:])
    with tempfile.TemporaryDirectory() as folder:
        taken = take_turns(keeper, program[0] if program else None, folder)
    print(f"| A log of {ROWS:,} rows | by the clock | of the processors |")
    print("|---|---|---|")
    for name, runs in taken.items():
        clock, processors = (statistics.median(kind) for kind in zip(*runs))
        print(f"| `{name}` | {clock:.3f} s | {processors:.3f} s |")


if __name__ == "__main__":
    main()
