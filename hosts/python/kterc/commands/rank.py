"""The command `rank`: which of two placements ranks first."""

import sys

from .. import library
from ..output import show
from ..source import read
from . import add_budget, add_command, add_file, add_format

COLUMNS = ("rank", "set", "total", "nodes")


def add(subparsers):
    parser = add_command(
        subparsers,
        "rank",
        run,
        "say which of two placements ranks first",
        """
        Ranks two placements: by total, in thousandths, then by the number of nodes, then in the order of
        ties, as the plan does. The one that ranks first stands first; equal placements keep their order.
        """,
        """
        %(prog)s tree.csv "r1 c2" "c2 c3"
        %(prog)s tree.csv "" r1
        """,
    )
    add_file(parser)
    parser.add_argument("sets", nargs=2, metavar="nodes", help="the nodes of a placement, with spaces between")
    add_budget(parser)
    add_format(parser)


def run(args):
    source = read(args.file, args.budget)
    sets = [source.tree.set_of(names.split()) for names in args.sets]
    order = (1, 2) if library.rank(source.file, *sets) == 1 else (2, 1)
    rows = [(rank, place, *_billed(source, sets[place - 1])) for rank, place in enumerate(order, 1)]
    show(rows, COLUMNS, args.format, sys.stdout)
    return 0


def _billed(source, nodes):
    return library.bill(source.file, nodes).total, source.tree.named(nodes)
