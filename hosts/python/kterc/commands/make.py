"""The command `make`: from the CSV text of a tree to a tree file."""

from ..output import write
from ..source import read
from . import add_budget, add_command, add_file


def add(subparsers):
    parser = add_command(
        subparsers,
        "make",
        run,
        "make a tree file from the CSV text of a tree",
        """
        Makes a tree file from the CSV text of a tree: a line budget,K, a header, and a row for each node.
        The header name,parent,length,flow,hit makes version 1; with cachable for hit, version 2; with
        cachable,open, version 3. The server's parent is empty. Nothing is written unless the library
        accepts the tree.
        """,
        """
        %(prog)s tree.csv tree.ktr
        %(prog)s --budget 4 - - < tree.csv > tree.ktr
        """,
    )
    add_file(parser)
    parser.add_argument("out", nargs="?", help="the tree file to write; - is standard output")
    parser.add_argument("-o", dest="output", metavar="OUT", help="the same")
    add_budget(parser)


def run(args):
    if (args.out is None) == (args.output is None):
        args.wrong("expected one tree file to write, OUT or -o OUT; - is standard output")
    source = read(args.file, args.budget)
    write(args.out or args.output, source.file, args.file)
    return 0
