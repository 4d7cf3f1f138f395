"""Times a batch of random trees beside the program in C, one process for each file, and says whether their totals agree.

    python3 hosts/python/speed.py [FILES [NODES]]

1,000 files of 200 nodes with a budget of 32 where nothing is said. The files are made from a fixed seed in a temporary folder.
"""

import csv
import os
import random
import subprocess
import sys
import tempfile
import time
from pathlib import Path

PACKAGE = Path(__file__).resolve().parent
PROGRAM = PACKAGE.parents[1] / "target" / "host"
SEED, BUDGET, DEEPEST = 1, 32, 32

sys.path.insert(0, str(PACKAGE))

from kterc import Node, Tree  # noqa: E402


def random_tree(numbers, n):
    """A tree of version 1 in preorder. The parent is the node before, or a coin tossed again and again goes on up its route."""
    nodes, route = [Node("0", None, 0, 0, 0)], [0]
    for number in range(1, n):
        while len(route) > DEEPEST or len(route) > 1 and numbers.random() < 0.5:
            route.pop()
        flow, hit = numbers.randint(0, 1_000_000), numbers.randint(0, 1000)
        nodes.append(Node(str(number), str(route[-1]), numbers.randint(1, 100), flow, hit))
        route.append(number)
    return Tree(1, BUDGET, tuple(nodes))


def make_files(folder, count, n):
    numbers = random.Random(SEED)
    for number in range(count):
        (folder / f"{number:06}.ktr").write_bytes(random_tree(numbers, n).to_bytes())


def by_batch(folder, out):
    """The wall time, and the lines of each report."""
    begin = time.monotonic()
    command = [sys.executable, "-m", "kterc", "batch", str(folder), "-o", str(out)]
    subprocess.run(command, env={**os.environ, "PYTHONPATH": str(PACKAGE)}, check=True)
    taken = time.monotonic() - begin
    lines = {}
    with open(out, newline="") as stream:
        for row in csv.DictReader(stream):
            line = [row["budget"], row["optimum"], row["greedy"], *row["placement"].split()]
            lines.setdefault(row["file"], []).append(" ".join(line))
    return taken, lines


def by_program(folder):
    """The wall time, and the lines of each report."""
    begin, lines = time.monotonic(), {}
    for path in sorted(folder.iterdir()):
        lines[str(path)] = subprocess.run([PROGRAM, path], check=True, stdout=subprocess.PIPE, text=True).stdout.splitlines()
    return time.monotonic() - begin, lines


def main():
    count, n = (int(argument) for argument in (sys.argv[1:] + ["1000", "200"][len(sys.argv) - 1 :])[:2])
    with tempfile.TemporaryDirectory() as name:
        folder = Path(name) / "trees"
        folder.mkdir()
        make_files(folder, count, n)
        print(f"{count} files of {n} nodes, budget {BUDGET}, {len(os.sched_getaffinity(0))} cores")
        batch_time, batch_lines = by_batch(folder, Path(name) / "reports.csv")
        print(f"batch, all cores:              {batch_time:8.2f} s")
        program_time, program_lines = by_program(folder)
        print(f"program in C, a process each:  {program_time:8.2f} s")
    same = batch_lines == program_lines
    print(f"the {count * (BUDGET + 1)} lines of both agree" if same else "THE LINES OF BOTH DIFFER")
    return 0 if same else 1


if __name__ == "__main__":
    sys.exit(main())
