"""The command `check`: whether inputs are accepted."""

import sys

from ..fault import Fault
from ..library import RULES_ON_RECORDS, Refused
from ..output import show, tell
from ..source import read
from . import add_budget, add_command, add_format

COLUMNS = ("file", "verdict", "version", "nodes", "budget", "rule", "record", "line")


def add(subparsers):
    parser = add_command(
        subparsers,
        "check",
        run,
        "say whether tree files and texts are accepted",
        """
        Says of each input whether it is accepted, and if not the rule, the record and the line. What is
        wrong is told on standard error. The status is 0 where all are accepted.
        """,
        """
        %(prog)s tree.ktr week1.csv week2.csv
        %(prog)s --format csv *.ktr
        """,
    )
    parser.add_argument("files", nargs="+", metavar="file", help="a tree file, or the CSV text of a tree; - is standard input")
    add_budget(parser)
    add_format(parser)


def run(args):
    rows, statuses = zip(*(_checked(path, args.budget) for path in args.files))
    show(rows, COLUMNS, args.format, sys.stdout)
    return max(statuses)


def _checked(path, budget):
    """The row of an input, and its status."""
    try:
        tree = read(path, budget).tree
        return (path, "accepted", tree.version, len(tree.nodes), tree.budget, None, None, None), 0
    except Fault as fault:
        tell(fault)
        rule, record = (fault.rule, fault.record) if isinstance(fault, Refused) else (None, None)
        return (path, "refused", None, None, None, rule, record if rule in RULES_ON_RECORDS else None, fault.line), 1
    except OSError as error:
        tell(error)
        return (path, "unreadable", *[None] * 6), 2
