"""What a command reads: a tree file, or the CSV text of a tree with its names."""

from typing import NamedTuple, Optional

from . import library
from .fault import Fault
from .text import Lines, decoded, read_text
from .tree import Tree


class Source(NamedTuple):
    """The path read, the tree, its accepted tree file as bytes, and the lines of a text, None for a tree file."""

    path: str
    tree: Tree
    file: bytes
    lines: Optional[Lines]


def read(path, budget=None):
    """The Source at a path, "-" being standard input; a given budget takes the place of the input's. Raises TextError and
    Refused with the path and, in a text, the line, and OSError."""
    path = str(path)
    return parse(path, _content(path), budget)


def parse(path, content, budget=None):
    """The Source of bytes that were read from a path."""
    try:
        return Source(path, *(_from_text if is_text(path, content) else _from_file)(content, budget))
    except Fault as fault:
        fault.path = shown(path)
        raise


def is_text(path, content):
    """Whether an input is the text of a tree. A tree file begins with its mark; one whose mark is damaged is known by its
    name, so that the rule is told."""
    return not content.startswith(b"KTR") and not path.lower().endswith(".ktr")


def shown(path):
    """A path as messages show it."""
    return "standard input" if path == "-" else path


def _content(path):
    if path != "-":
        with open(path, "rb") as stream:
            return stream.read()
    try:
        with open(0, "rb", closefd=False) as stream:
            return stream.read()
    except OSError as error:
        error.filename = shown(path)
        raise


def _from_text(content, budget):
    tree, lines = read_text(decoded(content), budget)
    return tree, _accepted(tree, lines), lines


def _from_file(content, budget):
    tree = Tree.from_bytes(content)
    if budget is None:
        return tree, content, None
    tree = Tree(tree.version, budget, tree.nodes)
    return tree, _accepted(tree, None), None


def _accepted(tree, lines):
    """The tree's file, which the library has accepted; a refusal gets the line of its record, or that of the budget."""
    file = tree.to_bytes()
    try:
        library.check(file)
    except library.Refused as refused:
        if lines is not None and refused.rule in library.RULES_ON_RECORDS:
            refused.line = lines[refused.record]
        elif lines is not None and refused.rule == 5:
            refused.line = lines.budget
        raise
    return file
