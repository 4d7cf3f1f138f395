"""Heuristics against the optimum: the CSV of a heuristic's sets, their bills, and how far each is above the optimum.

    budget,nodes
    1,r1
    2,c2 c3

One file is one heuristic, named by the file's stem. Nodes stand in any order, with spaces between, at most as many as the budget.
"""

from collections import Counter
from decimal import Decimal
from pathlib import Path
from typing import List, NamedTuple, Optional

from . import library
from .fault import Fault
from .text import TextError, cut, decoded, fields_by_line, not_whole, whole, wrong_count

HEADER = ["budget", "nodes"]


class Billed(NamedTuple):
    """A set of a heuristic at a budget, ascending, and its total."""

    budget: int
    nodes: List[int]
    total: int


class Heuristic(NamedTuple):
    """A heuristic's name and its billed sets, in the order of the file."""

    name: str
    sets: List[Billed]


class Compared(NamedTuple):
    """A heuristic's set beside the optimum and the greedy rule at its budget."""

    heuristic: str
    budget: int
    total: int
    optimum: int
    greedy: int
    gap: int
    gap_per_cent: Optional[Decimal]
    nodes: List[str]


def read_heuristics(paths, source):
    """The heuristics of CSV files, billed on the source's tree. Raises TextError, UnknownNode and Refused with the file and the
    line."""
    stems = Counter(Path(path).stem for path in paths)
    return [_read_heuristic(path, Path(path).stem if stems[Path(path).stem] == 1 else str(path), source) for path in paths]


def compare(report, heuristics, tree):
    """A row for each set of each heuristic."""
    return [_compared(heuristic.name, billed, report, tree) for heuristic in heuristics for billed in heuristic.sets]


def per_cent(gap, optimum):
    """100 x gap / optimum to two places, a half away from 0; None where the optimum is 0 and the gap is not."""
    if optimum == 0:
        return None if gap else Decimal("0.00")
    hundredths = (2 * 10000 * gap + optimum) // (2 * optimum)
    return Decimal(f"{hundredths // 100}.{hundredths % 100:02}")


def _compared(name, billed, report, tree):
    optimum = report.totals[billed.budget]
    gap = billed.total - optimum
    greedy = report.greedy_totals[billed.budget]
    nodes = tree.named(billed.nodes)
    return Compared(name, billed.budget, billed.total, optimum, greedy, gap, per_cent(gap, optimum), nodes)


def _read_heuristic(path, name, source):
    content = Path(path).read_bytes()
    try:
        return Heuristic(name, list(_sets(decoded(content), source)))
    except Fault as fault:
        fault.path = str(path)
        raise


def _sets(text, source):
    rows = fields_by_line(text)
    line, fields = next(rows, (None, []))
    if cut(fields, len(HEADER)) != HEADER:
        raise TextError(line, f"expected the header {','.join(HEADER)}")
    seen = set()
    for line, fields in rows:
        billed = _billed(line, cut(fields, len(HEADER)), source)
        if billed.budget in seen:
            raise TextError(line, f"budget {billed.budget} stands twice: expected each budget once")
        seen.add(billed.budget)
        yield billed


def _billed(line, fields, source):
    if len(fields) != len(HEADER):
        raise TextError(line, wrong_count(fields, HEADER))
    budget, names = _budget(line, fields[0], source.tree), fields[1].split()
    if len(names) > budget:
        raise TextError(line, f"{len(names)} nodes: expected at most {budget}, the budget")
    try:
        nodes = source.tree.set_of(names)
        return Billed(budget, nodes, library.bill(source.file, nodes).total)
    except Fault as fault:
        fault.line = line
        raise


def _budget(line, digits, tree):
    budget = whole(digits)
    if budget is None:
        raise TextError(line, not_whole("budget", digits))
    if budget > tree.budget:
        raise TextError(line, f"budget {budget}: expected at most {tree.budget}, the tree's budget")
    return budget
