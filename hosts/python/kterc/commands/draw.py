"""The command `draw`: the picture of a tree with its caches and link loads, or the curve of totals over budgets."""

from .. import library
from ..compare import read_heuristics
from ..source import read
from . import add_budget, add_command, add_file, picture_path


def add(subparsers):
    parser = add_command(
        subparsers,
        "draw",
        run,
        "draw the tree with its caches and link loads, or the totals over the budgets",
        """
        Draws the tree with the caches of the optimum placement at the input's budget, or of the nodes
        given with --set. A link is as wide as its load. With --curve it draws the totals of the optimum,
        the greedy rule and heuristics over the budgets. The picture's ending says its kind: svg, png or
        pdf.
        """,
        """
        %(prog)s tree.csv tree.svg
        %(prog)s --budget 3 --title "Three caches" tree.ktr tree.png
        %(prog)s --set "c2 c3" tree.csv given.pdf
        %(prog)s tree.csv curve.svg --curve --sets heaviest.csv nearest.csv
        """,
    )
    add_file(parser)
    parser.add_argument("out", type=picture_path, help="the picture to write, ending with .svg, .png or .pdf")
    add_budget(parser)
    parser.add_argument("--set", metavar="NODES", help='draw caches at these nodes, "c2 c3", in the place of the optimum')
    parser.add_argument(
        "--labels",
        choices=("auto", "all", "caches", "none"),
        default="auto",
        help="which nodes get their names; auto, the default: all of a tree of at most 300 nodes, else the server and the caches",
    )
    parser.add_argument("--title", help="the heading (default: the input's name)")
    parser.add_argument("--curve", action="store_true", help="draw the totals over the budgets")
    parser.add_argument(
        "--sets", nargs="+", action="extend", default=[], metavar="CSV", help="with --curve: files of heuristics' sets"
    )


def run(args):
    if args.sets and not args.curve:
        args.wrong("--sets is for --curve")
    if args.set is not None and args.curve:
        args.wrong("--set is not for --curve")
    from ..figure import heading_of, save

    source = read(args.file, args.budget)
    heading = heading_of(args.file) if args.title is None else args.title
    figure = _curve(source, args.sets, heading) if args.curve else _picture(source, args.set, args.labels, heading)
    save(figure, args.out, args.file)
    return 0


def _curve(source, paths, heading):
    from ..curve import curve, facts_of

    heuristics = read_heuristics(paths, source)
    return curve(library.report(source.file), heuristics, heading, facts_of(source.tree))


def _picture(source, names, labels, heading):
    from ..picture import facts_of, picture

    tree = source.tree
    if names is None:
        nodes, chosen = library.plan(source.file).sets[tree.budget], f"budget {tree.budget}"
    else:
        nodes, chosen = tree.set_of(names.split()), "given set"
    bill = library.bill(source.file, nodes)
    return picture(tree, nodes, bill, heading, facts_of(tree, nodes, bill, chosen), labels)
