"""The command `show`: from a tree file to the CSV text of the tree."""

from ..output import write
from ..source import read
from ..text import write_text
from . import add_budget, add_command, add_file


def add(subparsers):
    parser = add_command(
        subparsers,
        "show",
        run,
        "write the CSV text of a tree file",
        """
        Writes the CSV text of a tree. The names of a tree file's nodes are their numbers. The command
        make turns the text into the same file again.
        """,
        """
        %(prog)s tree.ktr
        %(prog)s tree.ktr tree.csv
        """,
    )
    add_file(parser)
    parser.add_argument("out", nargs="?", default="-", help="the text to write; - (the default) is standard output")
    add_budget(parser)


def run(args):
    source = read(args.file, args.budget)
    write(args.out, write_text(source.tree).encode("utf-8"), args.file)
    return 0
