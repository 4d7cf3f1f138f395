"""The command `compare`: heuristics against the optimum, budget by budget."""

import sys

from .. import library
from ..compare import Compared, compare, read_heuristics
from ..output import show
from ..source import read
from . import add_budget, add_command, add_file, add_format, picture_path


def add(subparsers):
    parser = add_command(
        subparsers,
        "compare",
        run,
        "set heuristics against the optimum",
        """
        Prints for each set of each heuristic its total, the optimum at its budget, the total that the
        greedy rule reaches, and how far the set is above the optimum, in thousandths and in per cent.
        A CSV of sets has the header budget,nodes and a row for each budget, the nodes with spaces
        between; the file's name without its ending is the heuristic's.
        """,
        """
        %(prog)s tree.csv heaviest.csv
        %(prog)s --format csv tree.ktr heaviest.csv nearest.csv
        %(prog)s --plot gaps.svg tree.csv heaviest.csv
        """,
    )
    add_file(parser)
    parser.add_argument("sets", nargs="+", help="a CSV of a heuristic's sets")
    add_budget(parser)
    add_format(parser)
    parser.add_argument("--plot", type=picture_path, metavar="OUT", help="also draw the totals, to a .svg, .png or .pdf")


def run(args):
    source = read(args.file, args.budget)
    heuristics = read_heuristics(args.sets, source)
    report = library.report(source.file)
    if args.plot:
        _plot(source, report, heuristics, args)
    show(compare(report, heuristics, source.tree), Compared._fields, args.format, sys.stdout)
    return 0


def _plot(source, report, heuristics, args):
    from ..curve import curve, facts_of
    from ..figure import heading_of, save

    save(curve(report, heuristics, heading_of(args.file), facts_of(source.tree)), args.plot, args.file)
