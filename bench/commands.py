"""Times commands over rows of the generator, and prints a table in Markdown.

usage: python3 bench/commands.py PROGRAM [OTHER [COMMAND ..]]

PROGRAM and OTHER are executables `willow_peer`; words behind them choose among the commands. Told are medians of RUNS runs
by the clock and of the processors. The runs of all of them take turns, so that what else the machine does falls on all
alike. Both programs get the same input, but for the images that `show` lists, which each makes itself; they have to write
the same output, unless one writes images of version 1. Of each command stands beside it how many blocks of SHA-256 it
hashes (`measure.py` tells what a row has): a row's signature takes three, its leaf five, and the capability of each of the
eight writers two.
"""
import os
import statistics
import subprocess
import sys
import tempfile
import time

RUNS = 7
NAMESPACE = "00" + "4f" * 32
COPIES = 20
WRITERS, CAPABILITY, SIGNED, LEAF = 8, 2, 3, 5


def timed(command, given, made):
    """The seconds by the clock and of the processors, and what was written."""
    with open(given, "rb") as source, open(made, "wb") as sink:
        begun = time.perf_counter()
        child = subprocess.Popen(command, stdin=source, stdout=sink, stderr=subprocess.DEVNULL)
        _, status, used = os.wait4(child.pid, 0)
        took = time.perf_counter() - begun
    child.returncode = os.waitstatus_to_exitcode(status)
    if child.returncode != 0:
        raise SystemExit(f"{' '.join(command)} ended with {child.returncode}")
    with open(made, "rb") as file:
        return took, used.ru_utime + used.ru_stime, file.read()


def checked(rows):
    """The blocks of so many rows that are signed or whose signatures are checked."""
    return rows * SIGNED + WRITERS * CAPABILITY


def make_images(programs, join, frames):
    """What each program makes of the rows, in a file beside them."""
    images = {program: f"{frames}.image{at}" for at, program in enumerate(programs)}
    for program, image in images.items():
        timed([program, *join], frames, image)
    return images


def make_files(programs, folder):
    """The words of each command by its name, with the input of each program and how many blocks the command hashes."""
    program, tasks, nothing = programs[0], {}, dict.fromkeys(programs, os.devnull)
    join = ["join", "--namespace", NAMESPACE]
    for rows in (20_000, 65_536):
        frames = os.path.join(folder, f"rows{rows}")
        timed([program, "gen", "--rows", str(rows)], os.devnull, frames)
        *_, told = timed([program, "drill", "--rows", str(rows)], os.devnull, os.path.join(folder, "made"))
        numbers = dict(line.rsplit(" ", 1) for line in told.decode().splitlines())
        live, half_live = int(numbers["left"]), int(numbers["right"])
        tasks[f"`gen` of {rows:,}"] = ["gen", "--rows", str(rows)], nothing, checked(rows)
        tasks[f"`join` of {rows:,}"] = join, dict.fromkeys(programs, frames), checked(rows)
        tasks[f"`show` of {live:,}"] = ["show"], make_images(programs, join, frames), checked(live)
        blocks = checked(rows) + checked(rows // 2) + (live + half_live) * LEAF
        tasks[f"`drill` of {rows:,}"] = ["drill", "--rows", str(rows)], nothing, blocks
    covered = os.path.join(folder, "covered")
    with open(os.path.join(folder, "rows20000"), "rb") as source, open(covered, "wb") as sink:
        sink.write(source.read() * (COPIES + 1))
    given = dict.fromkeys(programs, covered)
    tasks[f"`join` of 20,000 rows, {COPIES} times again"] = join, given, checked(20_000 * (COPIES + 1))
    return tasks


def take_turns(programs, tasks, folder):
    taken = {(name, program): [] for name in tasks for program in programs}
    for name, (words, given, _) in tasks.items():
        wrote = {}
        for _ in range(RUNS):
            for program in programs:
                *figures, output = timed([program, *words], given[program], os.path.join(folder, "made"))
                version = output[:4] if words[0] == "join" else b""
                if wrote.setdefault(version, output) != output:
                    raise SystemExit(f"{program}: {name} wrote something else than before")
                taken[name, program].append(figures)
    return taken


def main():
    programs = [os.path.abspath(word) for word in sys.argv[1:3]]
    if not programs:
        raise SystemExit("usage: python3 bench/commands.py PROGRAM [OTHER [COMMAND ..]]")
    chosen = sys.argv[3:] or ["gen", "join", "show", "drill"]
    with tempfile.TemporaryDirectory() as folder:
        tasks = {name: task for name, task in make_files(programs, folder).items() if task[0][0] in chosen}
        taken = take_turns(programs, tasks, folder)
    print("| | hashes | " + " | ".join(f"{program} by the clock | of the processors" for program in programs) + " |")
    print("|---|---|" + "---|---|" * len(programs))
    for name, (_, _, hashes) in tasks.items():
        told = []
        for program in programs:
            clock, processors = (statistics.median(figures) for figures in zip(*taken[name, program]))
            told.append(f"{clock:.3f} s | {processors:.3f} s")
        print(f"| {name} | {hashes:,} | " + " | ".join(told) + " |")


if __name__ == "__main__":
    main()
