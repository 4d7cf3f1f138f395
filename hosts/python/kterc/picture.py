"""The picture of a tree with the caches of one set: where they stand, and the load on each link as the width of its line."""

from typing import NamedTuple

from matplotlib.lines import Line2D
from matplotlib.text import Text

from . import layout
from .figure import (BLACK, BLUE, FACTS, GREY, MARGIN, SKY, VERMILION, counted, fitted_legend, legend_size, new_figure, printable,
                     separated, settings, text_size, top_height, wrapped, write_top)

NARROWEST = 330    # points, so that the facts have room
READABLE = 300     # nodes, up to which every node gets its name
LONGEST = 24       # letters of a name; a longer one is cut
ROWS = (2, 3, 4, 5, 6, 8, 10, 12, 16, 20, 24, 32)
MANY = 40          # children of a server that may stand in bands
SHAPE = 1.7        # width by height of a picture that suits a page
PAGE = 860         # points; a narrower picture need not be squeezed


class Scale(NamedTuple):
    """Sizes in points for a tree of some number of nodes."""
    mark: float
    letters: float
    widest: float
    beside: float


class Drawing(NamedTuple):
    """What is drawn: the tree, the set, its bill, and the nodes that get their names."""
    tree: object
    nodes: list
    bill: object
    named: list
    scale: Scale


def picture(tree, nodes, bill, heading, facts, labels="auto"):
    """The figure of the tree with caches at the nodes and the loads of their bill. heading and facts are the lines above it."""
    with settings():
        drawing = Drawing(tree, nodes, bill, _named(tree, nodes, labels), _scale(len(tree.nodes)))
        return _figure(drawing, _arranged(drawing), heading, facts)


def facts_of(tree, nodes, bill, chosen):
    """One line: n, how the set was chosen, its total and how many caches it has."""
    return (f"{counted(len(tree.nodes), 'node')}, {chosen}, total {separated(bill.total)} thousandths, "
            f"{counted(len(nodes), 'cache')}")


def _scale(n):
    if n <= 40:
        return Scale(10, 10, 8, 24)
    if n <= READABLE:
        return Scale(7, 8, 6, 5)
    return Scale(5, 8, 4, 3)


def _named(tree, nodes, labels):
    everything = range(len(tree.nodes))
    if labels == "none":
        return []
    if labels == "all" or labels == "auto" and len(everything) <= READABLE:
        return list(everything)
    return [0, *nodes]


# Where everything stands.

def _arranged(drawing):
    """The layout, and where each name stands: the first that suits a page, or about the smallest."""
    parents, found = _parents(drawing.tree), []
    for where, rows, bands in _ways(parents):
        sides = _sides(drawing, where)
        made = layout.arrange(parents, _boxes(drawing, sides), _spacing(drawing.scale), rows, bands)
        if made.width <= max(PAGE, SHAPE * made.height):
            return made, sides
        found.append((made, sides))
    least = min(map(_page, found))
    return next(one for one in found if _page(one) <= least * 1.05)


def _ways(parents):
    """Where names stand, rows of a column and bands, the plainest first. Bands are for servers with many children."""
    yield from [("below", 1, 1), ("turned", 1, 1), *(("right", rows, 1) for rows in ROWS)]
    if parents.count(0) > MANY:
        yield from (("right", rows, bands) for bands in range(2, 9) for rows in (2, 4, 8, 16))


def _page(one):
    """The width of the page of the wanted shape that holds the layout."""
    return max(one[0].width, SHAPE * one[0].height)


def _parents(tree):
    return [0 if node.parent is None else tree.number(node.parent) for node in tree.nodes]


def _sides(drawing, where):
    """Where the name of each named node stands: to the right of a node that has children, else as said."""
    children = layout.children_of(_parents(drawing.tree))
    return {node: "right" if children[node] else where for node in drawing.named}


def _spacing(scale):
    return layout.Spacing(beside=scale.beside, layer=2 * (scale.mark + scale.widest / 2 + 2), tick=scale.mark, line=scale.widest)


def _boxes(drawing, sides):
    return [_box(drawing, node, sides.get(node)) for node in range(len(drawing.tree.nodes))]


def _box(drawing, node, side):
    half = _mark_size(drawing, node) / 2
    if side is None:
        return layout.Box(half, half, half, half)
    width, height = text_size(printable(drawing.tree.names[node], LONGEST), drawing.scale.letters)
    if side == "below":
        return layout.Box(max(half, width / 2), max(half, width / 2), half, half + 2 + height)
    if side == "turned":
        return layout.Box(max(half, height / 2), max(half, height / 2), half, half + 3 + width)
    return layout.Box(half, half + 3 + width, max(half, height / 2), max(half, height / 2))


def _mark_size(drawing, node):
    """A cache has a diamond around the node's own mark."""
    return drawing.scale.mark * (2.1 if node in drawing.nodes else 1.3 if node == 0 else 1)


# The figure.

def _figure(drawing, arranged, heading, facts):
    places, sides = arranged
    figure = new_figure()
    legend = fitted_legend(figure, _mark_samples(drawing) + _link_samples(drawing), max(places.width, NARROWEST))
    legend_width, legend_height = legend_size(figure, legend)
    width = max(places.width, NARROWEST, legend_width, text_size(facts, FACTS)[0])
    lines = wrapped(heading, width)
    size = (width + 2 * MARGIN, top_height(lines) + places.height + 14 + legend_height + 2 * MARGIN)
    figure.set_size_inches(size[0] / 72, size[1] / 72)
    axes = figure.add_axes((0, 0, 1, 1))
    axes.set_xlim(0, size[0])
    axes.set_ylim(0, size[1])
    axes.axis("off")
    legend.set_bbox_to_anchor((size[0] / 2, MARGIN), axes.transData)
    write_top(figure, lines, facts)
    x, y = (size[0] - places.width) / 2, MARGIN + legend_height + 14
    moved = places._replace(places=[(a + x, b + y) for a, b in places.places],
                            links=[link and [(a + x, b + y) for a, b in link] for link in places.links])
    _draw_links(axes, drawing, moved.links)
    _draw_marks(axes, drawing, moved.places)
    _draw_names(axes, drawing, moved.places, sides)
    return figure


def _draw_links(axes, drawing, links):
    for node, points in enumerate(links):
        if points:
            xs, ys = zip(*points)
            load = drawing.bill.loads[node]
            axes.add_artist(Line2D(xs, ys, gid=f"link-{node}", zorder=2 if load else 1, solid_joinstyle="round",
                                   solid_capstyle="butt", **_link_look(drawing, load)))


def _link_look(drawing, load):
    """The width grows in step with the load; a link without load is thin and grey."""
    if not load:
        return {"color": GREY, "linewidth": 0.7}
    return {"color": BLUE, "linewidth": max(0.7, drawing.scale.widest * load / max(drawing.bill.loads))}


def _draw_marks(axes, drawing, places):
    for node, (x, y) in enumerate(places):
        if node in drawing.nodes:
            axes.add_artist(Line2D([x], [y], gid=f"cache-{node}", zorder=3, **_cache_look(drawing.scale.mark)))
        axes.add_artist(Line2D([x], [y], gid=f"node-{node}", zorder=4, **_node_look(drawing, node)))


def _cache_look(size):
    return {"marker": "D", "markersize": size * 1.5, "markerfacecolor": VERMILION, "markeredgecolor": BLACK,
            "markeredgewidth": 0.7, "linestyle": "none"}


def _node_look(drawing, number):
    """The shape says server, closed or open; the filling says whether there is a client."""
    node = drawing.tree.nodes[number]
    kind = "server" if number == 0 else "open" if node.open else "closed"
    return _mark_look(kind, node.flow > 0, drawing.scale.mark * (0.8 if number in drawing.nodes else 1))


def _mark_look(kind, client, size):
    shape, size = {"server": ("s", size * 1.3), "open": ("o", size), "closed": ("X", size * 1.1)}[kind]
    return {"marker": shape, "markersize": size, "markerfacecolor": SKY if client else "white", "markeredgecolor": BLACK,
            "markeredgewidth": 0.8 if size > 6 else 0.5, "linestyle": "none"}


def _draw_names(axes, drawing, places, sides):
    for node, side in sides.items():
        x, y = places[node]
        half = _mark_size(drawing, node) / 2
        where = {"below": (x, y - half - 2, "center", "top", 0), "turned": (x, y - half - 3, "center", "top", 90),
                 "right": (x + half + 3, y, "left", "center_baseline", 0)}[side]
        name = printable(drawing.tree.names[node], LONGEST)
        axes.add_artist(Text(*where[:2], name, ha=where[2], va=where[3], rotation=where[4], fontsize=drawing.scale.letters,
                             zorder=5, gid=f"name-{node}", parse_math=False))


# The samples of the legend: what occurs in this picture.

def _mark_samples(drawing):
    nodes = drawing.tree.nodes[1:]
    kinds = [("server", "server", drawing.tree.nodes[0].flow > 0, True),
             ("router", "open", False, any(node.open and not node.flow for node in nodes)),
             ("client", "open", True, any(node.open and node.flow for node in nodes)),
             ("closed router", "closed", False, any(not node.open and not node.flow for node in nodes)),
             ("closed client", "closed", True, any(not node.open and node.flow for node in nodes))]
    samples = [(Line2D([], [], **_mark_look(kind, client, 7)), text) for text, kind, client, there in kinds if there]
    cache = [(Line2D([], [], **_cache_look(7)), "cache")]
    return samples + (cache if drawing.nodes else [])


def _link_samples(drawing):
    loads = drawing.bill.loads
    scale = [load for load in (max(loads), _round_half(max(loads))) if load]
    samples = [(load, f"load {separated(load)} thousandths") for load in scale]
    if any(not load for load in loads[1:]):
        samples.append((0, "no load"))
    return [(Line2D([], [], **_link_look(drawing, load)), text) for load, text in samples]


def _round_half(number):
    """The greatest number of one figure and zeros that is at most half of this one; 0 where there is none."""
    half = number // 2
    return half if half < 10 else half // 10 ** (len(str(half)) - 1) * 10 ** (len(str(half)) - 1)
