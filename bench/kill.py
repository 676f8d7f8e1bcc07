"""Kills the executable `keeper_kill` while it keeps rows in a log, and looks at what the file then holds.

    python3 bench/kill.py EXECUTABLE

Each of KILLS times a program is started that begins a log in an empty folder and keeps SLICES slices of SIZE rows each, and
is killed by SIGKILL at another moment, spread evenly over the time that the whole run takes. Then the log holds all slices
that were told as kept, and nothing more or one slice; its rows are the first of the generator, in order; and another slice is
kept behind them. What the file holds is told by the program, and by `read_log` here, which shares no code with it. Prints
one line, and ends with status 1 where something else is found.
"""
import os
import re
import signal
import struct
import subprocess
import sys
import tempfile
import time

KILLS, SLICES, SIZE = 200, 40, 256
HEADER = b"\x01WLG1\x00" + b"\x4f" * 32
NAME = "log"


def read_log(path):
    """How many rows a log file holds, none where it holds no log, and how many bytes stand behind its closed gate."""
    try:
        with open(path, "rb") as file:
            data = file.read()
    except FileNotFoundError:
        return None, 0
    if len(data) < 39 or data[0] != 1:
        return None, len(data)
    assert data[:38] == HEADER, "the header is another"
    at, rows = 38, 0
    while data[at] == 1:
        (size,) = struct.unpack(">I", data[at + 1 : at + 5])
        end, at = at + 5 + size, at + 5
        while at < end:
            at += 4 + struct.unpack(">I", data[at : at + 4])[0]
            rows += 1
        assert at == end, "a frame goes past its record"
    return rows, len(data) - at - 1


def told(program, folder, task):
    """What the program prints of a task that it ends well, or says of one that it does not do."""
    done = subprocess.run([program, f"{task} {NAME}"], cwd=folder, capture_output=True, text=True, timeout=60)
    return done.stdout.strip() if done.returncode == 0 else done.stderr.strip()


def keep_and_kill(program, folder, after):
    """What a program prints until it is killed, so many seconds after its start, and whether it ended before that."""
    with open(os.path.join(folder, "told"), "wb+") as out:
        child = subprocess.Popen([program, f"keep {NAME} {SLICES} {SIZE}"], cwd=folder, stdout=out)
        try:
            child.wait(timeout=after)
        except subprocess.TimeoutExpired:
            os.kill(child.pid, signal.SIGKILL)
        status = child.wait()
        out.seek(0)
        return out.read().decode(), status == 0


def look(program, folder, said):
    """What a stop left: how it stands to what was told, and whether bytes stand behind the closed gate."""
    numbers = [int(word) for word in re.findall(r"(?:holds|kept) (\d+)\n", said)]
    held, behind = read_log(os.path.join(folder, NAME))
    is_told = told(program, folder, "check")
    if held is None:
        assert not numbers, f"no log, though {numbers[-1]} rows were told"
        assert is_told == "no log", is_told
        return "no log", behind
    assert is_told == f"holds {held}, the first in order", f"{is_told}, where the file has {held}"
    last = numbers[-1] if numbers else 0
    assert held in (last, last + SIZE), f"{held} rows, where {last} were told"
    return "a slice more" if held > last else "what was told", behind


def goes_on(program, folder):
    """Whether another slice is kept in the file, behind the rows that it holds."""
    held = read_log(os.path.join(folder, NAME))[0] or 0
    with open(os.devnull, "wb") as nothing:
        subprocess.run([program, f"keep {NAME} 1 {SIZE}"], cwd=folder, stdout=nothing, check=True, timeout=60)
    return told(program, folder, "check") == f"holds {held + SIZE}, the first in order"


def one_kill(program, after):
    with tempfile.TemporaryDirectory() as folder:
        said, ended = keep_and_kill(program, folder, after)
        what, behind = look(program, folder, said)
        assert goes_on(program, folder), "the log does not go on"
        return what, behind, ended


def whole_run(program):
    """How long a run takes that is not killed."""
    begun = time.perf_counter()
    with tempfile.TemporaryDirectory() as folder:
        said, ended = keep_and_kill(program, folder, 60)
        assert ended and said.endswith(f"kept {SLICES * SIZE}\n"), said
        took = time.perf_counter() - begun
        assert look(program, folder, said) == ("what was told", 0)
    return took


def main():
    program = os.path.abspath(sys.argv[1])
    took = min(whole_run(program) for _ in range(3))
    found = {"no log": 0, "what was told": 0, "a slice more": 0}
    cut = ends = 0
    for kill in range(KILLS):
        after = took * kill / KILLS
        try:
            what, behind, ended = one_kill(program, after)
        except AssertionError as wrong:
            raise SystemExit(f"killed after {after:.4f} s: {wrong}") from None
        found[what] += 1
        cut += behind > 0
        ends += ended
    tally = ", ".join(f"{what} {count}" for what, count in found.items())
    print(f"{KILLS} kills over {took:.3f} s of {SLICES} slices: {tally}; bytes behind the closed gate {cut}, ended before {ends}")


if __name__ == "__main__":
    main()
