"""The command `target`: how many caches a total takes."""

import argparse
import sys

from .. import library
from ..output import show
from ..source import read
from . import add_budget, add_command, add_file, add_format, whole_number

COLUMNS = ("budget", "total", "nodes")


def add(subparsers):
    parser = add_command(
        subparsers,
        "target",
        run,
        "print the least budget whose optimum costs no more than a total",
        """
        Prints the least budget, at most K, whose optimum placement costs no more than TOTAL, with that
        placement's total and nodes; or none, where every placement of at most K caches costs more. Totals
        are in thousandths. None is an answer too: the status is 0. In CSV and JSON it is no row.
        """,
        """
        %(prog)s tree.csv 60000
        %(prog)s --format json tree.ktr 60000
        """,
    )
    add_file(parser)
    parser.add_argument("total", type=_total, help="the total that can be borne, in thousandths, below 2^64")
    add_budget(parser)
    add_format(parser)


def run(args):
    source = read(args.file, args.budget)
    target = library.target(source.file, args.total)
    if target is None and args.format == "table":
        print("none")
        return 0
    show(_rows(source, target), COLUMNS, args.format, sys.stdout)
    return 0


def _rows(source, target):
    if target is None:
        return []
    return [(target.budget, library.bill(source.file, target.nodes).total, source.tree.named(target.nodes))]


def _total(digits):
    value = whole_number(digits)
    if value >= 2**64:
        raise argparse.ArgumentTypeError(f"{digits!r}: expected a number below 2^64")
    return value
