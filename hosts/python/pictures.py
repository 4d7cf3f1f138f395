"""Makes the pictures of the documents, docs/pictures/*.svg. Run by `make pictures`; every run writes the same bytes."""

import os
import subprocess
import sys
import tempfile
from pathlib import Path

PACKAGE = Path(__file__).resolve().parent
ROOT = PACKAGE.parents[1]
PICTURES = ROOT / "docs" / "pictures"
FULL = ROOT / "trees" / "full"


def python(*arguments):
    """What a run of Python with the package prints."""
    command = [sys.executable, *map(str, arguments)]
    return subprocess.run(command, env={**os.environ, "PYTHONPATH": str(PACKAGE)}, check=True, stdout=subprocess.PIPE).stdout


def curve(name, title):
    """The totals of a full tree: the optimum, the greedy rule, and caches at the heaviest clients."""
    tree = FULL / f"{name}.ktr"
    with tempfile.TemporaryDirectory() as folder:
        sets = Path(folder) / "heaviest.csv"
        sets.write_bytes(python(PACKAGE / "examples" / "heaviest.py", tree))
        python("-m", "kterc", "draw", tree, PICTURES / f"curve-{name}.svg", "--title", title, "--curve", "--sets", sets)


def main():
    PICTURES.mkdir(parents=True, exist_ok=True)
    python("-m", "kterc", "draw", PACKAGE / "examples" / "tree-a.csv", PICTURES / "tree-a.svg", "--title", "Tree A")
    curve("ties", "Optimum, greedy rule and a heuristic: the tree trees/full/ties.ktr")
    curve("deep", "Caches at the heaviest clients: the tree trees/full/deep.ktr")


if __name__ == "__main__":
    main()
