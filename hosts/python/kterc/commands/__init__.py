"""The commands, each a module with `add`, which gives it its arguments, and `run`, which returns its status. This file has what
they share.

All modules are loaded for each command: one that needs a large package loads it in `run`.
"""

import argparse
import os
import textwrap

from ..output import FORMATS
from ..text import EXPECTED_NUMBER, whole


class Parser(argparse.ArgumentParser):
    """Takes options between other arguments too, which argparse does not where some of those may be left out."""

    _between = False

    def parse_known_args(self, args=None, namespace=None):
        if self._between:
            return super().parse_known_args(args, namespace)
        self._between = True
        try:
            return self.parse_known_intermixed_args(args, namespace)
        finally:
            self._between = False


def add_command(subparsers, name, run, summary, description, examples):
    """A command's parser, with help that ends with examples. `wrong` of the parsed arguments ends with a usage error."""
    parser = subparsers.add_parser(
        name,
        help=summary,
        description=textwrap.dedent(description).strip(),
        epilog="examples:\n" + textwrap.indent(textwrap.dedent(examples).strip(), "  "),
        formatter_class=argparse.RawDescriptionHelpFormatter,
    )
    parser.set_defaults(run=run, wrong=parser.error)
    return parser


def add_file(parser):
    parser.add_argument("file", help="a tree file, or the CSV text of a tree; - is standard input")


def add_budget(parser):
    parser.add_argument("--budget", type=whole_number, metavar="K", help="take this budget in the place of the input's")


def add_format(parser):
    parser.add_argument("--format", choices=FORMATS, default="table", help="how rows are written (default: table)")


def whole_number(digits):
    """The type of an argument that is a whole number."""
    value = whole(digits)
    if value is None:
        raise argparse.ArgumentTypeError(f"{digits!r}: {EXPECTED_NUMBER}")
    return value


def picture_path(path):
    """The type of an argument that is the path of a picture."""
    if os.path.splitext(path)[1].lower() not in (".svg", ".png", ".pdf"):
        raise argparse.ArgumentTypeError(f"{path!r}: expected a name that ends with .svg, .png or .pdf")
    return path
