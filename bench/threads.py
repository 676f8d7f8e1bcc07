"""Times cells by the executable `benches`, and prints a table in Markdown.

    python3 bench/threads.py EXECUTABLE

ROWS rows, which are new, are offered to a cell by so many passes, each on a thread of its own, and to a state alone, without
threads. What it takes to make the rows is taken off. Each figure is the best of ROUNDS runs; the runs of all commands take
turns, so that what else the machine does falls on all of them alike.
"""
import os
import sys
import time

ROUNDS = 9
ROWS = 60_000
PASSES = (1, 2, 4)
TAKERS = ("made", "state", "cell")


def run(command):
    """The seconds of a run by the clock, and those of the processors."""
    begun = time.perf_counter()
    child = os.posix_spawn(command[0], command, os.environ, file_actions=[(os.POSIX_SPAWN_OPEN, 1, os.devnull, os.O_WRONLY, 0)])
    _, status, used = os.wait4(child, 0)
    took = time.perf_counter() - begun
    if status != 0:
        raise SystemExit(f"{command} ended with {status}")
    return took, used.ru_utime + used.ru_stime


def best(program):
    found = {}
    for _ in range(ROUNDS):
        for passes in PASSES:
            for taker in TAKERS:
                taken = run([program, f"{taker} {passes} {ROWS // passes} 1"])
                found.setdefault((taker, passes), []).append(taken)
    return {key: tuple(min(times) for times in zip(*runs)) for key, runs in found.items()}


def show(program):
    took = best(program)

    def each(taker, passes, kind):
        return (took[taker, passes][kind] - took["made", passes][kind]) / ROWS * 1e6

    print("| Passes | microseconds a row, cell | state alone | times that | of the processors, cell | state alone | times that |")
    print("|---|---|---|---|---|---|---|")
    for passes in PASSES:
        cells = []
        for kind in (0, 1):
            cell, state = each("cell", passes, kind), each("state", passes, kind)
            cells += [f"{cell:.2f}", f"{state:.2f}", f"{cell / state:.2f}"]
        print(f"| {passes} | {' | '.join(cells)} |")


if __name__ == "__main__":
    show(os.path.abspath(sys.argv[1]))
