"""The command `bill`: the total and the link loads of a given placement."""

import sys

from .. import library
from ..output import show
from ..source import read
from . import add_budget, add_command, add_file, add_format

COLUMNS = ("node", "parent", "serving", "load")


def add(subparsers):
    parser = add_command(
        subparsers,
        "bill",
        run,
        "print the total and the link loads of a placement",
        """
        Prints the total of a placement and, for each node, its parent, the node that serves it (the first
        cache on its route to the server, else the server) and the load on the link above it. Total and
        loads are in thousandths. Without nodes it is the placement of no cache.
        """,
        """
        %(prog)s tree.csv c2 c3
        %(prog)s --format csv tree.csv --set "c2 c3"
        """,
    )
    add_file(parser)
    parser.add_argument("nodes", nargs="*", metavar="node", help="a node with a cache")
    parser.add_argument("--set", metavar="NODES", help="the nodes with a cache in one argument, with spaces between")
    add_budget(parser)
    add_format(parser)


def run(args):
    if args.nodes and args.set is not None:
        args.wrong("expected nodes or --set, not both")
    source = read(args.file, args.budget)
    tree = source.tree
    bill = library.bill(source.file, tree.set_of(args.nodes if args.set is None else args.set.split()))
    rows = zip(tree.names, [node.parent for node in tree.nodes], tree.named(bill.serving), bill.loads)
    show(rows, COLUMNS, args.format, sys.stdout, {"total": bill.total})
    return 0
