"""Counts how many meetings at random bring a row to all nodes of a mesh.

    python3 bench/mesh.py PROGRAM            writes docs/MESH.md, with a table, and docs/mesh.svg
    python3 bench/mesh.py PROGRAM --check    compares CHECKS runs with a model, and writes nothing

PROGRAM is the executable `willow_mesh`. For each of SIZES nodes a row is offered to node 0, and then two nodes drawn at random
meet, again and again; behind each meeting the program is asked whether they hold what node 0 holds. So its own answers tell
behind which meeting all nodes hold the row. DRAWS runs are made of each number of nodes. Beside them stands what is expected
of pairs drawn alike: of n nodes of which k hold the row, one of k * (n - k) among n * (n - 1) / 2 pairs takes it on.

The model of `--check` is written for itself: it reads the lines, keeps the rows of each node, and prints what the program has
to. It draws lines of all kinds, and spoils some, so that the place of the first wrong line is compared too.
"""
import math
import random
import re
import statistics
import subprocess
import sys
from pathlib import Path

TOP = Path(__file__).resolve().parents[1]
SEED, DRAWS, CHECKS = 20_261_130, 100, 200
SIZES = (2, 3, 4, 6, 8, 12, 16, 24, 32, 48, 64)


def run(program, text):
    """The status, the output and the report of the program over these lines."""
    done = subprocess.run([program], input=text.encode("latin-1"), stdout=subprocess.PIPE, stderr=subprocess.PIPE, timeout=600)
    return done.returncode, done.stdout.decode("latin-1"), done.stderr.decode("latin-1")


# ---- how many meetings it takes

def expected(nodes):
    pairs = nodes * (nodes - 1) / 2
    return sum(pairs / (k * (nodes - k)) for k in range(1, nodes))


def meetings_to_all(program, nodes, pairs):
    """Behind how many of these meetings all nodes hold the row, by the program's answers; None where not all come to it."""
    lines = [f"nodes {nodes}", "offer 0 0"]
    for left, right in pairs:
        lines += [f"meet {left} {right} any 0", f"same 0 {left}", f"same 0 {right}"]
    status, text, _ = run(program, "\n".join(lines) + "\n")
    if status != 0:
        raise SystemExit(f"the program ended with {status}")
    answers = [line.split() for line in text.splitlines() if line.startswith("same ")]
    holding = {0}
    for met, (left, right) in enumerate(zip(answers[0::2], answers[1::2]), 1):
        holding |= {int(node) for _, _, node, answer in (left, right) if answer == "yes"}
        if len(holding) == nodes:
            return met
    return None


def draw(program, nodes, dice):
    """Meetings at random until all nodes hold the row; more are drawn where these don't do."""
    pairs = []
    while True:
        pairs += [dice.sample(range(nodes), 2) for _ in range(math.ceil(3 * expected(nodes)) + 8)]
        met = meetings_to_all(program, nodes, pairs)
        if met is not None:
            return met


def counted(program):
    """Of each number of nodes the mean, the tenth and the ninetieth of a hundred, and what is expected."""
    dice, rows = random.Random(SEED), []
    for nodes in SIZES:
        counts = sorted(draw(program, nodes, dice) for _ in range(DRAWS))
        rows.append((nodes, statistics.mean(counts), counts[DRAWS // 10 - 1], counts[DRAWS * 9 // 10 - 1], expected(nodes)))
    return rows


# ---- the table and the picture

def table(rows):
    lines = ["| Nodes | Meetings, mean | the tenth of a hundred | the ninetieth | expected |", "|---|---|---|---|---|"]
    lines += [f"| {nodes} | {mean:.1f} | {low} | {high} | {due:.1f} |" for nodes, mean, low, high, due in rows]
    return "\n".join(lines) + "\n"


def page(rows):
    return f"""# Meetings of a mesh

A row is offered to one node, and then nodes meet in pairs that are drawn at random, all pairs alike. So many meetings it
takes until all nodes hold the row, in {DRAWS} draws of each number of nodes. `bench/mesh.py` made this page and the picture
from what `willow_mesh` answered. Expected of n nodes are (n - 1) * (1 + 1/2 + .. + 1/(n - 1)) meetings.

![Meetings until all nodes hold the row](mesh.svg)

The dots are the means, the line is what is expected, and the band goes from the tenth to the ninetieth of a hundred draws.

{table(rows)}"""


def picture(rows, width=640, height=400, margin=48):
    """The means as dots on the line of what is expected, in a band from the tenth to the ninetieth of a hundred."""
    most_nodes, most = max(row[0] for row in rows), max(row[3] for row in rows)
    top = math.ceil(most / 50) * 50

    def place(nodes, count):
        return f"{margin + (width - 2 * margin) * nodes / most_nodes:.1f},{height - margin - (height - 2 * margin) * count / top:.1f}"

    band = [place(row[0], row[2]) for row in rows] + [place(row[0], row[3]) for row in reversed(rows)]
    parts = [f'<svg xmlns="http://www.w3.org/2000/svg" width="{width}" height="{height}" font-family="sans-serif" font-size="12">',
             f'<rect width="{width}" height="{height}" fill="white"/>', f'<polygon points="{" ".join(band)}" fill="#cfe3f5"/>']
    for count in range(0, top + 1, 50):
        x, y = place(0, count).split(",")
        parts.append(f'<text x="{float(x) - 8:.1f}" y="{float(y) + 4:.1f}" text-anchor="end">{count}</text>')
        parts.append(f'<path d="M{x} {y}H{width - margin}" stroke="#ddd"/>')
    parts.append(f'<polyline points="{" ".join(place(row[0], row[4]) for row in rows)}" fill="none" stroke="#888"/>')
    for nodes, mean, *_ in rows:
        x, y = place(nodes, mean).split(",")
        parts.append(f'<circle cx="{x}" cy="{y}" r="3" fill="#1f5f99"/>')
    for nodes in (2, 8, 16, 32, 48, 64):
        x, y = place(nodes, 0).split(",")
        parts.append(f'<text x="{x}" y="{float(y) + 18:.1f}" text-anchor="middle">{nodes}</text>')
    parts.append(f'<text x="{width / 2}" y="{height - 8}" text-anchor="middle">nodes</text>')
    parts.append(f'<text x="{margin - 36}" y="{margin - 16}">meetings until all nodes hold the row</text>')
    return "\n".join([*parts, "</svg>"]) + "\n"


# ---- the model of --check

KEYS = ["00" + "55" * 31 + f"{writer:02x}" for writer in range(8)]
FIRST_TIME = 1_700_000_000_000_000
NUMBER = r"(0|[1-9][0-9]*)"
OFFER, SAME, MEET = (re.compile(form + r"\Z") for form in (
    rf"offer {NUMBER} {NUMBER}", rf"same {NUMBER} {NUMBER}", rf"meet {NUMBER} {NUMBER} (any|[0-9a-fA-F]{{66}}) {NUMBER}"))


def place_of(row):
    """The writer and the path of a row of the generator; a later row is newer."""
    writer, count = row % 8, row // 8
    first, second = count // 32, count % 32
    return writer, ((first,) if row % 50 == 49 else (first, second))


def dominates(one, other):
    (writer, path), (others, longer) = place_of(one), place_of(other)
    return one > other and writer == others and longer[:len(path)] == path


def live(rows):
    return {row for row in rows if not any(dominates(other, row) for other in rows)}


def read_line(line, nodes):
    """What a line says, or None."""
    if (match := OFFER.match(line)) and int(match[1]) < nodes and int(match[2]) < 65_536:
        return "offer", int(match[1]), int(match[2])
    if (match := SAME.match(line)) and max(int(match[1]), int(match[2])) < nodes:
        return "same", int(match[1]), int(match[2])
    if (match := MEET.match(line)) and max(int(match[1]), int(match[2])) < nodes and match[1] != match[2] and int(match[4]) < 2 ** 64:
        if match[3] == "any" or match[3][:2] in ("00", "01"):
            return "meet", int(match[1]), int(match[2]), match[3].lower(), int(match[4])
    return None


def read_text(text):
    """The number of nodes and the lines; or the place of the first wrong line."""
    at, said, nodes = 0, [], None
    while at < len(text) or nodes is None:
        end = text.find("\n", at)
        line = text[at:end] if end >= 0 else None
        if nodes is None:
            match = re.match(rf"nodes {NUMBER}\Z", line) if line is not None else None
            if match is None or not 1 <= int(match[1]) <= 64:
                return None, at
            nodes = int(match[1])
        else:
            said.append(read_line(line, nodes) if line is not None else None)
            if said[-1] is None:
                return None, at
        at = end + 1
    return nodes, said


def is_in(row, key, start):
    return FIRST_TIME + row >= start and (key == "any" or KEYS[place_of(row)[0]] == key)


def answer(text):
    """The status, the output and the report that these lines are due."""
    nodes, said = read_text(text)
    if nodes is None:
        return 5, "", f"bad input - at {said}\n"
    stores, written = [set() for _ in range(nodes)], []
    for kind, first, second, *area in said:
        if kind == "offer":
            stores[first] = live(stores[first] | {second})
        elif kind == "same":
            written.append(f"same {first} {second} {'yes' if stores[first] == stores[second] else 'no'}")
        else:
            left, right = stores[first], stores[second]
            stores[first] = live(left | {row for row in right if is_in(row, *area)})
            stores[second] = live(right | {row for row in left if is_in(row, *area)})
    written += [f"node {node} rows {len(rows)}" for node, rows in enumerate(stores)]
    return 0, "".join(line + "\n" for line in written), ""


def drawn_line(dice, nodes):
    kind = dice.choice(("offer", "offer", "meet", "meet", "same")) if nodes > 1 else dice.choice(("offer", "same"))
    if kind == "offer":
        return f"offer {dice.randrange(nodes)} {dice.choice((dice.randrange(600), dice.randrange(65_536)))}"
    if kind == "same":
        return f"same {dice.randrange(nodes)} {dice.randrange(nodes)}"
    left, right = dice.sample(range(nodes), 2)
    start = dice.choice((0, FIRST_TIME + dice.randrange(600), 2 ** 64 - 1))
    key = dice.choice(["any", *KEYS])
    return f"meet {left} {right} {key.upper() if key != 'any' and dice.random() < 0.5 else key} {start}"


def spoiled(dice, text):
    """The text with a character changed, left out or put in, or cut short."""
    at = dice.randrange(len(text) + 1)
    kind = dice.choice(("change", "drop", "add", "cut"))
    if kind == "cut":
        return text[:at]
    new = dice.choice(" \n0129 amx-+\t\xff")
    return text[:at] + ("" if kind == "drop" else new) + text[at + (kind != "add"):]


def drawn_text(dice):
    nodes = dice.choice((1, 2, 3, 4, 8, 64))
    lines = [f"nodes {nodes}"] + [drawn_line(dice, nodes) for _ in range(dice.randrange(60))]
    text = "".join(line + "\n" for line in lines)
    return spoiled(dice, text) if dice.random() < 0.4 else text


def check(program):
    dice, other, wrong = random.Random(SEED), 0, 0
    for number in range(CHECKS):
        text = drawn_text(dice)
        due, got = answer(text), run(program, text)
        wrong += due[0] == 5
        if got != due:
            other += 1
            print(f"run {number} is due {due}, and the program gave {got}, over\n{text}")
    print(f"{CHECKS} runs, {wrong} of them over a wrong line, {other} otherwise than the model")
    return 1 if other else 0


def main():
    program = str(Path(sys.argv[1]).resolve())
    if sys.argv[2:] == ["--check"]:
        return check(program)
    rows = counted(program)
    (TOP / "docs" / "MESH.md").write_text(page(rows))
    (TOP / "docs" / "mesh.svg").write_text(picture(rows))
    print(table(rows), end="")
    return 0


if __name__ == "__main__":
    sys.exit(main())
