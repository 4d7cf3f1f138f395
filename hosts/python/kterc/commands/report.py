"""The command `report`: the optimum and the greedy rule at each budget."""

import sys

from .. import library
from ..output import show
from ..source import read
from . import add_budget, add_command, add_file, add_format

COLUMNS = ("budget", "total", "greedy_total", "nodes", "greedy_nodes")


def add(subparsers):
    parser = add_command(
        subparsers,
        "report",
        run,
        "print the optimum and the greedy rule's total at each budget",
        """
        Prints for each budget from 0 to K the least total of all placements of at most so many caches,
        the total that the greedy rule reaches, the nodes of the optimum placement, and those of the
        greedy rule in the order taken. Totals are in thousandths.
        """,
        """
        %(prog)s tree.csv
        %(prog)s --budget 8 --format json tree.ktr
        """,
    )
    add_file(parser)
    add_budget(parser)
    add_format(parser)


def run(args):
    source = read(args.file, args.budget)
    report = library.report(source.file)
    named = source.tree.named
    rows = [
        (budget, total, greedy_total, named(nodes), named(report.greedy_nodes[:budget]))
        for budget, (total, greedy_total, nodes) in enumerate(zip(report.totals, report.greedy_totals, report.sets))
    ]
    show(rows, COLUMNS, args.format, sys.stdout)
    return 0
