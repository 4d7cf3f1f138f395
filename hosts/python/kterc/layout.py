"""Places for the nodes of a tree in a picture: the server on top, a layer for each depth, children from left to right.

Lengths are points (1/72 inch). Every node has a box around its mark and its label; no two boxes overlap, and no link crosses a box
other than those of its two ends. A long run of children without children of their own may stand in columns. What hangs on the
server may stand in bands, one below the other, each with layers of its own; a line at the left joins them.
"""

from dataclasses import dataclass, field, replace
from itertools import accumulate, groupby
from typing import NamedTuple


class Box(NamedTuple):
    """How far a mark and its label reach from the mark's middle."""
    left: float
    right: float
    above: float
    below: float


class Spacing(NamedTuple):
    """Room between boxes, between layers, and from a column's line to its marks."""
    beside: float
    layer: float
    tick: float
    line: float


class Layout(NamedTuple):
    """places: (x, y) for each node. links: for each node the points of its link from the parent, none for the server."""
    places: list
    links: list
    width: float
    height: float


@dataclass
class Item:
    """A node, or a column of nodes that hang on one line, or nothing. x is counted from the parent's. The marks stand shift to the
    right of the item's x, and fall by the steps."""
    nodes: list
    left: float
    right: float
    above: float
    below: float
    children: list = field(default_factory=list)
    x: float = 0.0
    shift: float = 0.0
    steps: tuple = (0.0,)


def arrange(parents, boxes, spacing, rows=1, bands=1):
    """The layout of the tree. rows is the greatest number of nodes in a column, 1 for no columns."""
    root = _item(0, children_of(parents), boxes, spacing, rows)
    return _placed(_banded(root, spacing, bands), parents, spacing)


def children_of(parents):
    children = [[] for _ in parents]
    for node in range(1, len(parents)):
        children[parents[node]].append(node)
    return children


def _item(node, children, boxes, spacing, rows):
    below = [_column([boxes[leaf] for leaf in run], run, spacing) if len(run) > 1 else _item(run[0], children, boxes, spacing, rows)
             for run in _runs(children[node], children, rows)]
    return Item([node], *boxes[node], below)


def _runs(nodes, children, rows):
    """The children in order, those that share a column together. Columns side by side have about equally many."""
    runs = []
    for leaf, group in groupby(nodes, key=lambda node: not children[node]):
        group = list(group)
        columns = -(-len(group) // rows) if leaf else len(group)
        height = -(-len(group) // columns)
        runs += [group[i:i + height] for i in range(0, len(group), height)]
    return runs


def _column(boxes, nodes, spacing):
    shift = spacing.tick + max(box.left for box in boxes)
    steps = tuple(accumulate((a.below + b.above + 1 for a, b in zip(boxes, boxes[1:])), initial=0.0))
    right = shift + max(box.right for box in boxes)
    return Item(nodes, spacing.line / 2, right, boxes[0].above, steps[-1] + boxes[-1].below, shift=shift, steps=steps)


def _banded(root, spacing, bands):
    """Trees for so many bands, each with the outline of its layers. The first has the server, the others nothing in its place."""
    outline = _fit(root, spacing)
    if bands == 1 or len(root.children) < 2:
        return [(root, outline)]
    first, last = root.children[0].x, root.children[-1].x
    groups = [[] for _ in range(bands)]
    for child in root.children:
        groups[min(bands - 1, int((child.x - first) / (last - first) * bands))].append(child)
    trees = [Item([], 0, 0, 0, 0, group) for group in groups if group]
    trees[0] = replace(root, children=groups[0])
    return [(tree, _fit(tree, spacing)) for tree in trees]


def _fit(item, spacing):
    """Sets x of everything below the item; returns, layer by layer, how far the item and all below it reach to both sides."""
    outlines = [_fit(child, spacing) for child in item.children]
    places = _middle(_pushed(outlines, spacing.beside), _pulled(outlines, spacing.beside))
    for child, x in zip(item.children, places):
        child.x = x
    return [(-item.left, item.right)] + _joined(outlines, places)


def _pushed(outlines, beside):
    """Each as far to the left as those before it allow."""
    places, reach = [], []
    for outline in outlines:
        x = max((right - left for right, (left, _) in zip(reach, outline)), default=-beside) + beside
        reach = [x + right for _, right in outline] + reach[len(outline):]
        places.append(x)
    return places


def _pulled(outlines, beside):
    """Each as far to the right as those after it allow."""
    mirrored = [[(-right, -left) for left, right in outline] for outline in reversed(outlines)]
    return [-x for x in reversed(_pushed(mirrored, beside))]


def _middle(pushed, pulled):
    """Between both, with the parent over the middle of the first and the last."""
    places = [(a + b) / 2 for a, b in zip(pushed, pulled)]
    middle = (places[0] + places[-1]) / 2 if places else 0
    return [x - middle for x in places]


def _joined(outlines, places):
    joined = []
    for layer in range(max(map(len, outlines), default=0)):
        here = [(x + outline[layer][0], x + outline[layer][1]) for x, outline in zip(places, outlines) if layer < len(outline)]
        joined.append((min(left for left, _ in here), max(right for _, right in here)))
    return joined


def _placed(bands, parents, spacing):
    """Everything where it stands, with the lower left corner of the whole at (0, 0)."""
    margin = spacing.line + spacing.beside if len(bands) > 1 else 0
    layers = _layers([tree for tree, _ in bands], spacing)
    buses = [tops[1] + spacing.layer / 2 for tops in layers if len(tops) > 1]
    places, links = [None] * len(parents), [None] * len(parents)

    def put(item, x, tops, depth, before):
        for node, step in zip(item.nodes, item.steps):
            places[node] = (x + item.shift, tops[depth] - step)
            if depth:
                bus = tops[depth] + spacing.layer / 2
                way = [places[parents[node]], *before, (x, bus), (x, places[node][1]), places[node]]
                links[node] = _cornered(way)
        for child in item.children:
            put(child, x + child.x, tops, depth + 1, before if depth == 0 else [])

    width = 0
    for band, ((tree, outline), tops) in enumerate(zip(bands, layers)):
        left, right = min(left for left, _ in outline), max(right for _, right in outline)
        put(tree, margin - left, tops, 0, [(spacing.line / 2, buses[0]), (spacing.line / 2, buses[band])] if band else [])
        width = max(width, margin + right - left)
    return Layout(places, links, width, layers[0][0] + bands[0][0].above)


def _layers(trees, spacing):
    """For each band the y of each layer's first row, falling from the top to 0."""
    found, y = [], 0.0
    for band, tree in enumerate(trees):
        tops, layer = [], [tree]
        while layer:
            y -= max(spacing.layer if tops else 0, max(item.above for item in layer))
            tops.append(y)
            y -= max(item.below for item in layer)
            layer = [child for item in layer for child in item.children]
        found.append(tops)
    return [[top - y for top in tops] for tops in found]


def _cornered(way):
    """The points of a link that runs from one to the next down first and then across."""
    points = [way[0]]
    for x, y in way[1:]:
        for point in ((points[-1][0], y), (x, y)):
            if point != points[-1]:
                points.append(point)
    return points
