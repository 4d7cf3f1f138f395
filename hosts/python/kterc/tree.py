"""A routing tree: its nodes in preorder, from the bytes of a tree file, to them, and from rows of any order."""

import dataclasses
import functools
import struct
from typing import NamedTuple, Optional, Tuple

from . import library
from .fault import Fault

_HEADER = struct.Struct(">3sHHH")
_RECORDS = {1: struct.Struct(">HHIH"), 2: struct.Struct(">HHII"), 3: struct.Struct(">HHIIB")}  # by version


class UnknownNode(Fault):
    """A name that no node of the tree has."""


class Misarranged(Fault):
    """Rows that make no tree."""


class Node(NamedTuple):
    """A node: the name of its parent is None for the server. Version 1 has `hit`, in thousandths, the others `cachable`;
    before version 3 every node is open."""

    name: str
    parent: Optional[str]
    length: int
    flow: int
    hit: Optional[int] = None
    cachable: Optional[int] = None
    open: bool = True


@dataclasses.dataclass(frozen=True)
class Tree:
    """A tree of a version with a budget. A node's place in `nodes` is its number; they stand in preorder, the server first."""

    version: int
    budget: int
    nodes: Tuple[Node, ...]

    @classmethod
    def arranged(cls, version, budget, nodes):
        """The tree of rows in any order; children stand in the order of their rows."""
        nodes = tuple(nodes)
        for _, said in faults(nodes):
            raise Misarranged(said)
        return cls(version, budget, tuple(nodes[row] for row in preorder(nodes)))

    @classmethod
    def from_bytes(cls, file):
        """The tree of a tree file, names being node numbers as decimal text. Raises Refused where it is not accepted."""
        library.check(file)
        _, version, _, budget = _HEADER.unpack_from(file)
        records = _RECORDS[version].iter_unpack(file[_HEADER.size :])
        return cls(version, budget, tuple(_node(version, number, *record) for number, record in enumerate(records)))

    def to_bytes(self):
        """The tree file. It is not checked: library.check does that. A value that does not fit its field is written as the
        largest that does, which the same rule refuses."""
        header = _HEADER.pack(b"KTR", *(_fitting(value, 2) for value in (self.version, len(self.nodes), self.budget)))
        return header + b"".join(map(self._record, self.nodes))

    def _record(self, node):
        parent = 0 if node.parent is None else self.number(node.parent)
        fields = _fitting(parent, 2), _fitting(node.length, 2), _fitting(node.flow, 4)
        if self.version == 1:
            return _RECORDS[1].pack(*fields, _fitting(node.hit, 2))
        if self.version == 2:
            return _RECORDS[2].pack(*fields, _fitting(node.cachable, 4))
        return _RECORDS[3].pack(*fields, _fitting(node.cachable, 4), _fitting(node.open, 1))

    @functools.cached_property
    def names(self):
        """The names by node number."""
        return [node.name for node in self.nodes]

    @functools.cached_property
    def _numbers(self):
        return {name: number for number, name in enumerate(self.names)}

    def number(self, name):
        """The number of the node with a name."""
        try:
            return self._numbers[name]
        except KeyError:
            raise UnknownNode(f"unknown node {name!r}: expected the name of a node of the tree") from None

    def set_of(self, names):
        """The numbers of named nodes, ascending, as the library takes a set. A node for which rule 12 refuses it is named."""
        numbers = sorted(map(self.number, names))
        for number in numbers:
            self._admit(number, numbers)
        return numbers

    def _admit(self, number, numbers):
        refused = library.refusal(12)
        if number == 0:
            refused.why = f"{self.names[number]!r} is the server"
        elif not self.nodes[number].open:
            refused.why = f"{self.names[number]!r} is closed"
        elif numbers.count(number) > 1:
            refused.why = f"{self.names[number]!r} stands twice"
        if refused.why is not None:
            raise refused

    def named(self, numbers):
        """The names of nodes."""
        return [self.names[number] for number in numbers]


def faults(nodes):
    """What keeps rows from being a tree: pairs of a row's place, None where no row is at fault, and what is wrong."""
    return [*_name_faults(nodes), *_server_faults(nodes), *_parent_faults(nodes)]


def _name_faults(nodes):
    names = set()
    for row, node in enumerate(nodes):
        if not node.name:
            yield row, "the name is empty: expected a name"
        elif node.name.split() != [node.name] or node.name.startswith("#"):
            yield row, f"the name {node.name!r}: expected no white space in it and no # at its start"
        elif node.name in names:
            yield row, f"the name {node.name!r} stands twice: expected each name once"
        names.add(node.name)


def _server_faults(nodes):
    servers = [row for row, node in enumerate(nodes) if node.parent is None]
    if not servers:
        yield None, "no server: expected one row without a parent"
    for row in servers[1:]:
        yield row, f"a second server {nodes[row].name!r}: expected one row without a parent"


def _parent_faults(nodes):
    names = {node.name for node in nodes}
    reached = set(preorder(nodes))
    for row, node in enumerate(nodes):
        if node.parent is not None and node.parent not in names:
            yield row, f"unknown parent {node.parent!r}: expected the name of a row"
        elif row not in reached:
            yield row, f"the parents of {node.name!r} lead into a loop: expected a route to the server"


def preorder(nodes):
    """The places of rows in preorder, from the rows on whose parent is no row: of a tree, from the server on. Rows whose
    parents lead into a loop are left out."""
    children = {node.name: [] for node in nodes}
    waiting = []
    for row, node in enumerate(nodes):
        children.get(node.parent, waiting).append(row)
    waiting.reverse()
    order = {}
    while waiting:
        row = waiting.pop()
        if row not in order:
            order[row] = None
            waiting.extend(reversed(children.pop(nodes[row].name, [])))
    return list(order)


def _node(version, number, parent, length, flow, cached, open_byte=1):
    hit, cachable = (cached, None) if version == 1 else (None, cached)
    return Node(str(number), str(parent) if number else None, length, flow, hit, cachable, bool(open_byte))


def _fitting(value, width):
    """The value where it fits so many bytes, else the largest that does; each field's largest is above its rule's limit."""
    largest = 256**width - 1
    return value if 0 <= value <= largest else largest
