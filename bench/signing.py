"""Times a key of height 10, a signature by it, and the joining of signed rows, and prints a table in Markdown.

usage: python3 bench/signing.py PROGRAM [OTHER]

PROGRAM and OTHER are executables `willow_peer`. PROGRAM makes a key of height 10 and ROWS rows, which KEYS keys of height 5
signed; that takes some 40 seconds of processors. Then `key --height 10`, `write` with that key and `join` of these rows are
timed by the clock and in the time of the processors, and the `join` on one processor too: alone, and while each of the others
does the same, as a processor of a shared machine may be slower where all are busy. The runs of all of them take turns, so that
what else the machine does falls on all alike; told are medians of RUNS runs. On a virtual machine the host may take processors
away for a while. A run that lost more than STOLEN of its processors' time so is done again, TRIES runs in all, and the one that
lost least counts; told is how many counted though they lost more. Both programs get the same files, and have to write the same rows and
images.
"""
import os
import shutil
import statistics
import subprocess
import sys
import tempfile
import time
from concurrent.futures import ThreadPoolExecutor

RUNS = 7
STOLEN = 0.02
TRIES = 20
KEYS = 40
ROWS = 1_000
NAMESPACE = "00" + "4e" * 32  # communal: nobody signs its capabilities
DIGEST = "11" * 32
PARTS = ("key", "write", "join", "alone", "beside")
TOLD = {
    "key": "`key --height 10`",
    "write": "`write` with a key of height 10",
    "join": f"`join` of {ROWS:,} rows, each signed by a key of height 5",
    "alone": "the same on one processor, alone",
    "beside": "the same on one processor, all busy alike",
}


def made(program, folder, words, given=b""):
    """What the program writes in a folder."""
    ran = subprocess.run([program, *words], cwd=folder, input=given, stdout=subprocess.PIPE, check=True)
    return ran.stdout


def timed(program, folder, words, given, processor=None):
    """The seconds of a run by the clock and of the processors, and what it wrote. Its input is a file."""
    wrote = os.path.join(folder, "wrote")
    bound = None if processor is None else (lambda: os.sched_setaffinity(0, {processor}))
    with open(given, "rb") as source, open(wrote, "wb") as sink, open(os.path.join(folder, "report"), "wb") as report:
        begun = time.perf_counter()
        child = subprocess.Popen([program, *words], cwd=folder, stdin=source, stdout=sink, stderr=report, preexec_fn=bound)
        _, status, used = os.wait4(child.pid, 0)
        took = time.perf_counter() - begun
    child.returncode = os.waitstatus_to_exitcode(status)
    if child.returncode != 0:
        raise SystemExit(f"{program} {' '.join(words)} ended with {child.returncode}")
    with open(wrote, "rb") as file:
        return took, used.ru_utime + used.ru_stime, file.read()


def write_words(key, row):
    return ["write", "--key", f"lms:{key}", "--path", f"/{row:08x}", "--time", str(row), "--length", "80", "--digest", DIGEST]


def make_key(program, folder, name, height):
    """Puts a key and a capability for its user into a folder."""
    user = made(program, folder, ["key", "--name", name, "--height", str(height)]).decode().strip()
    capability = made(program, folder, ["grant", "--namespace", NAMESPACE, "--mode", "write", "--user", user])
    with open(os.path.join(folder, f"{name}.cap"), "wb") as file:
        file.write(capability)
    return capability


def rows_of_key(program, folder, number):
    """The rows that one key signs: each KEYS-th."""
    name = f"key{number}"
    capability = make_key(program, folder, name, 5)
    return [made(program, folder, write_words(name, row), capability) for row in range(number, ROWS, KEYS)]


def make_files(program, folder):
    make_key(program, folder, "tall", 10)
    with ThreadPoolExecutor(os.cpu_count()) as pool:
        by_key = list(pool.map(lambda number: rows_of_key(program, folder, number), range(KEYS)))
    with open(os.path.join(folder, "rows"), "wb") as file:
        for row in range(ROWS):
            file.write(by_key[row % KEYS][row // KEYS])


def joined(program, folder, given, processor=None):
    """A join of the rows in a folder of its own."""
    with tempfile.TemporaryDirectory(dir=folder) as place:
        return timed(program, place, ["join", "--namespace", NAMESPACE], given, processor)


def joined_beside(program, folder, given, processors):
    """A join on the first of the processors while the others do the same."""
    with ThreadPoolExecutor(len(processors)) as pool:
        return list(pool.map(lambda processor: joined(program, folder, given, processor), processors))[0]


def run(program, folder, part):
    """A run of one part in a folder of its own, where the key's file is as new."""
    file = {name: os.path.join(folder, name) for name in ("tall", "tall.cap", "rows")}
    processors = sorted(os.sched_getaffinity(0))
    if part == "join":
        return joined(program, folder, file["rows"])
    if part == "alone":
        return joined(program, folder, file["rows"], processors[0])
    if part == "beside":
        return joined_beside(program, folder, file["rows"], processors)
    with tempfile.TemporaryDirectory(dir=folder) as place:
        if part == "key":
            return timed(program, place, ["key", "--name", "made", "--height", "10"], os.devnull)
        shutil.copy(file["tall"], place)
        return timed(program, place, write_words("tall", ROWS), file["tall.cap"])


def stolen():
    """The seconds that the host kept the machine's processors, all together, for others, up to now."""
    with open("/proc/stat") as file:
        return int(file.readline().split()[8]) / os.sysconf("SC_CLK_TCK")


def calm_run(program, folder, part):
    """A run of one part that lost little to the host, or of TRIES the one that lost least, and which share it lost."""
    processors = 1 if part == "alone" else len(os.sched_getaffinity(0))
    least = None
    for _ in range(TRIES):
        before = stolen()
        ran = run(program, folder, part)
        lost = (stolen() - before) / (ran[0] * processors)
        if least is None or lost < least[1]:
            least = ran, lost
        if lost <= STOLEN:
            break
    return least


def take_turns(programs, folder):
    """Of each part and program the seconds by the clock and of the processors, one pair a run; and how many lost much."""
    taken = {(part, program): [] for part in PARTS for program in programs}
    wrote = {}
    disturbed = 0
    for _ in range(RUNS):
        for part in PARTS:
            for program in programs:
                (took, used, output), lost = calm_run(program, folder, part)
                taken[part, program].append((took, used))
                disturbed += lost > STOLEN
                # A key is drawn anew each time; what is signed and joined is the same in each run.
                what = "write" if part == "write" else "join"
                if part != "key" and wrote.setdefault(what, output) != output:
                    raise SystemExit(f"{program}: {part} wrote something else than before")
    return taken, disturbed


def show(programs, taken):
    print("| | " + " | ".join(f"{program} by the clock | of the processors" for program in programs) + " |")
    print("|---|" + "---|---|" * len(programs))
    for part in PARTS:
        medians = [statistics.median(times) for program in programs for times in zip(*taken[part, program])]
        print(f"| {TOLD[part]} | " + " | ".join(f"{seconds:.3f} s" for seconds in medians) + " |")


def show_shares(programs, taken):
    """What a join takes by the clock, as a share of what it takes on one processor."""
    count = len(os.sched_getaffinity(0))
    for program in programs:
        clock = {part: statistics.median(times[0] for times in taken[part, program]) for part in ("join", "alone", "beside")}
        alone, beside = clock["join"] / clock["alone"], clock["join"] / clock["beside"]
        print(f"{program}: on {count} processors {alone:.2f} of one's time alone, {beside:.2f} of its time where all are busy")


def main():
    programs = [os.path.abspath(word) for word in sys.argv[1:]]
    if not 1 <= len(programs) <= 2:
        raise SystemExit("usage: python3 bench/signing.py PROGRAM [OTHER]")
    with tempfile.TemporaryDirectory() as folder:
        make_files(programs[0], folder)
        taken, disturbed = take_turns(programs, folder)
        show(programs, taken)
        show_shares(programs, taken)
        print(f"{disturbed} of {RUNS * len(PARTS) * len(programs)} runs lost more than {STOLEN:.0%} of their time to the host")


if __name__ == "__main__":
    main()
