"""The command `node`: what each node is worth at a budget."""

import sys

from .. import library
from ..output import show
from ..source import read
from . import add_budget, add_command, add_file, add_format

COLUMNS = ("node", "with", "without", "worth")


def add(subparsers):
    parser = add_command(
        subparsers,
        "node",
        run,
        "print what each node is worth at a budget",
        """
        Prints for each node the least total of the placements of at most K caches that have it, the least
        total of those that don't, and its worth, the second minus the first. Where no placement has the
        node, because K is 0 or the node is closed, there is no first total and no worth. Totals are in
        thousandths. K is the input's budget unless --budget is given. On the largest trees it takes some
        seconds.
        """,
        """
        %(prog)s tree.csv
        %(prog)s tree.csv --budget 1 r1
        """,
    )
    add_file(parser)
    parser.add_argument("node", nargs="?", help="only this node")
    add_budget(parser)
    add_format(parser)


def run(args):
    source = read(args.file, args.budget)
    tree = source.tree
    numbers = range(1, len(tree.nodes)) if args.node is None else [tree.number(args.node)]
    rows = [(tree.names[number], *_worth(source.file, number, tree.budget)) for number in numbers]
    show(rows, COLUMNS, args.format, sys.stdout, {"budget": tree.budget})
    return 0


def _worth(file, number, budget):
    with_it, without_it = library.with_without(file, number, budget)
    return with_it, without_it, None if with_it is None else without_it - with_it
