"""Pictures are parsed: every node, cache, link and name is there, nothing overlaps, and the same input gives the same bytes."""

import io
import os
import re
import struct
import time
import xml.etree.ElementTree as ET

import pytest
from conftest import ROOT
from hypothesis import given, settings
from hypothesis import strategies as st
from strategies import shapes, trees

import kterc
from kterc import curve, figure, layout, picture

FULL = ROOT / "trees" / "full"
CLOSED = """\
budget,1
name,parent,length,flow,cachable,open
server,,0,0,0,0
r1,server,2,0,0,0
c2,r1,1,20,20,1
c3,r1,1,20,20,0
"""


class Svg:
    """What is in an SVG: the numbers of nodes, caches, links and names, and all texts."""

    def __init__(self, path):
        self.root = ET.parse(path).getroot()
        self.ids = [element.get("id") for element in self.root.iter() if element.get("id")]
        self.texts = [element.text for element in self.root.iter("{http://www.w3.org/2000/svg}text")]

    def numbers(self, kind):
        found = [re.fullmatch(rf"{kind}-(\d+)", name) for name in self.ids]
        return sorted(int(match[1]) for match in found if match)

    def group(self, gid):
        return next(element for element in self.root.iter() if element.get("id") == gid)

    def text(self, gid):
        return "".join(element.text or "" for element in self.group(gid).iter("{http://www.w3.org/2000/svg}text"))

    def width(self, gid):
        path = next(self.group(gid).iter("{http://www.w3.org/2000/svg}path"))
        return float(re.search(r"stroke-width: ([0-9.]+)", path.get("style"))[1])


def drawn(source, nodes, labels="auto"):
    """The figure of caches at nodes."""
    bill = kterc.bill(source.file, nodes)
    return picture.picture(source.tree, nodes, bill, "tree", picture.facts_of(source.tree, nodes, bill, "given set"), labels)


def saved(figure_, path):
    figure.save(figure_, path)
    return path.read_bytes()


def test_tree_a_has_every_part(run, tree_a, tmp_path):
    assert run("draw", tree_a, "a.svg") == (0, "", "")
    svg = Svg(tmp_path / "a.svg")
    assert svg.numbers("node") == [0, 1, 2, 3, 4]
    assert svg.numbers("link") == [1, 2, 3, 4]
    assert svg.numbers("cache") == [2, 3]
    assert [svg.text(f"name-{node}") for node in range(5)] == ["server", "r1", "c2", "c3", "c4"]
    assert svg.text("facts") == "5 nodes, budget 2, total 20,000 thousandths, 2 caches"
    assert "a" in svg.texts and "load 5,000 thousandths" in svg.texts and "no load" in svg.texts


def test_budget_set_and_title(run, tree_a, tmp_path):
    assert run("draw", tree_a, "one.svg", "--budget", 1)[0] == 0
    assert Svg(tmp_path / "one.svg").numbers("cache") == [1]
    assert run("draw", tree_a, "none.svg", "--budget", 0, "--title", "No $caches$ yet")[0] == 0
    none = Svg(tmp_path / "none.svg")
    assert none.numbers("cache") == [] and "No $caches$ yet" in none.texts and "cache" not in none.texts
    assert none.text("facts") == "5 nodes, budget 0, total 140,000 thousandths, 0 caches"
    assert run("draw", tree_a, "set.svg", "--set", "c2 r1")[0] == 0
    given_set = Svg(tmp_path / "set.svg")
    assert given_set.numbers("cache") == [1, 2]
    assert given_set.text("facts") == "5 nodes, given set, total 40,000 thousandths, 2 caches"


def test_links_are_as_wide_as_their_loads(tree_a, tmp_path):
    """With a cache at r1 the loads above nodes 1 to 4 are 0, 20,000, 20,000 and 5,000."""
    saved(drawn(kterc.read(tree_a), [1]), tmp_path / "a.svg")
    widths = [Svg(tmp_path / "a.svg").width(f"link-{node}") for node in range(1, 5)]
    assert widths[1] == widths[2] == 4 * widths[3] > 4 * widths[0] > 0


def test_kinds_of_pictures(run, tree_a, tmp_path):
    assert run("draw", tree_a, "a.PNG")[0] == 0
    content = (tmp_path / "a.PNG").read_bytes()
    assert content.startswith(b"\x89PNG\r\n\x1a\n") and b"IDAT" in content
    assert all(300 < size < 1500 for size in struct.unpack(">II", content[16:24]))
    assert run("draw", tree_a, "a.pdf")[0] == 0
    content = (tmp_path / "a.pdf").read_bytes()
    assert content.startswith(b"%PDF-") and len(content) > 2000


def test_same_bytes_every_time(run, tree_a, tmp_path):
    source = kterc.read(tree_a)
    for ending in ("svg", "png", "pdf"):
        one, other = (saved(drawn(source, [2, 3]), tmp_path / f"{name}.{ending}") for name in "xy")
        assert one == other
    run("draw", tree_a, "first.svg", "--curve"), run("draw", tree_a, "second.svg", "--curve")
    assert (tmp_path / "first.svg").read_bytes() == (tmp_path / "second.svg").read_bytes()
    assert b"<dc:date>" not in (tmp_path / "first.svg").read_bytes()


def test_one_node(run, tmp_path):
    assert run("draw", "-", "one.svg", input="budget,3\nname,parent,length,flow,hit\nalone,,0,7,0\n")[0] == 0
    svg = Svg(tmp_path / "one.svg")
    assert (svg.numbers("node"), svg.numbers("link"), svg.numbers("cache")) == ([0], [], [])
    assert svg.text("facts") == "1 node, budget 3, total 0 thousandths, 0 caches"
    assert "standard input" in svg.texts


def test_closed_nodes(run, tmp_path):
    (tmp_path / "closed.csv").write_text(CLOSED)
    assert run("draw", "closed.csv", "closed.svg")[0] == 0
    svg = Svg(tmp_path / "closed.svg")
    assert svg.numbers("cache") == [2] and "closed router" in svg.texts and "closed client" in svg.texts
    status, _, said = run("draw", "closed.csv", "c3.svg", "--set", "c3")
    assert status == 1 and said.startswith("kterc: closed.csv: refused by rule 12: 'c3' is closed: The set ")
    assert not (tmp_path / "c3.svg").exists()


@pytest.mark.parametrize("labels, named", [("all", [0, 1, 2, 3, 4]), ("caches", [0, 2, 3]), ("none", [])])
def test_names(tree_a, tmp_path, labels, named):
    saved(drawn(kterc.read(tree_a), [2, 3], labels), tmp_path / "a.svg")
    assert Svg(tmp_path / "a.svg").numbers("name") == named


def test_names_that_cannot_be_printed(run, tmp_path):
    """Of nodes, of the input and of heuristics: signs that XML has not, bytes that are no text, what a legend leaves out."""
    path, sets = tmp_path / os.fsdecode(b"\xffname.csv"), ("_x.csv", "$\\y$.csv", "\x02.csv")
    path.write_text("budget,1\nname,parent,length,flow,hit\nserver,,0,0,0\nc\x01,server,1,5,9\n")
    for name in sets:
        (tmp_path / name).write_text("budget,nodes\n1,c\x01\n")
    assert run("draw", path, "tree.svg") == run("draw", path, "curve.svg", "--curve", "--sets", *sets) == (0, "", "")
    tree, curve = Svg(tmp_path / "tree.svg"), Svg(tmp_path / "curve.svg")
    assert tree.text("name-1") == "c\ufffd" and "\ufffdname" in tree.texts
    assert {"_x", "$\\y$", "\ufffd"} <= set(curve.texts)
    assert run("draw", path, "tree.svg", "--title", "x" * 500)[0] == 0
    assert "x" * 29 + "…" in Svg(tmp_path / "tree.svg").texts


def test_long_and_foreign_names(tmp_path):
    text = "budget,1\nname,parent,length,flow,hit\n$s$,,0,0,0\n" + "x" * 60 + ",$s$,1,5,9\n路由器,$s$,1,5,9\n"
    (tmp_path / "t.csv").write_text(text)
    saved(drawn(kterc.read(tmp_path / "t.csv"), [1]), tmp_path / "t.svg")
    svg = Svg(tmp_path / "t.svg")
    assert [svg.text(f"name-{node}") for node in range(3)] == ["$s$", "x" * 23 + "…", "路由器"]


@pytest.mark.parametrize("name", ["random", "star", "deep", "closed"])
def test_full_trees(name, tmp_path):
    """In time, not over 6,000 pixels, and only the server and the caches have names."""
    source = kterc.read(FULL / f"{name}.ktr")
    nodes = kterc.plan(source.file).sets[32]
    begin = time.monotonic()
    made = drawn(source, nodes)
    content = saved(made, tmp_path / "full.png")
    saved(made, tmp_path / "full.svg")
    assert time.monotonic() - begin < 20
    assert all(size <= 6000 for size in struct.unpack(">II", content[16:24]))
    svg = Svg(tmp_path / "full.svg")
    assert svg.numbers("node") == list(range(1024)) and svg.numbers("link") == list(range(1, 1024))
    assert svg.numbers("cache") == nodes and svg.numbers("name") == [0, *nodes]


def overlapping(boxes, places):
    """Whether two boxes overlap. Neighbours may touch."""
    edges = [(x - box.left, x + box.right, y - box.below, y + box.above) for box, (x, y) in zip(boxes, places)]
    edges.sort()
    for i, (_, right, bottom, top) in enumerate(edges):
        for other_left, _, other_bottom, other_top in edges[i + 1 :]:
            if other_left > right - 1e-6:
                break
            if other_bottom < top - 1e-6 and bottom < other_top - 1e-6:
                return True
    return False


def crossed(box, place, link):
    """Whether a link, of upright and level pieces, runs over a box."""
    left, right, bottom, top = place[0] - box.left, place[0] + box.right, place[1] - box.below, place[1] + box.above
    return any(
        min(x, u) < right - 1e-6 and max(x, u) > left + 1e-6 and min(y, v) < top - 1e-6 and max(y, v) > bottom + 1e-6
        for (x, y), (u, v) in zip(link, link[1:])
    )


@settings(max_examples=100, deadline=None)
@given(shapes(25), st.integers(1, 5), st.integers(1, 3), st.randoms(use_true_random=False))
def test_layout_has_no_overlap(parents, rows, bands, random):
    """For boxes of any size, below the room between layers; a link meets no box but those of its ends."""
    parents = [parent or 0 for parent in parents]
    boxes = [layout.Box(*(random.uniform(1, 9) for _ in range(4))) for _ in parents]
    spacing = layout.Spacing(beside=3, layer=20, tick=4, line=2)
    made = layout.arrange(parents, boxes, spacing, rows, bands)
    assert not overlapping(boxes, made.places)
    for box, (x, y) in zip(boxes, made.places):
        assert x - box.left > -1e-6 and x + box.right < made.width + 1e-6
        assert y - box.below > -1e-6 and y + box.above < made.height + 1e-6
    for node in range(1, len(parents)):
        ends = (node, parents[node])
        assert made.links[node][0] == made.places[parents[node]] and made.links[node][-1] == made.places[node]
        assert not any(crossed(boxes[v], made.places[v], made.links[node]) for v in range(len(parents)) if v not in ends)


@settings(max_examples=25, deadline=None)
@given(trees(60), st.sampled_from(("auto", "caches")))
def test_every_tree_is_drawn(tree, labels):
    file = tree.to_bytes()
    nodes = kterc.plan(file).sets[tree.budget]
    source = kterc.Source("tree", tree, file, None)
    content = io.BytesIO()
    drawn(source, nodes, labels).savefig(content, format="svg")
    assert all(content.getvalue().count(b'id="node-%d"' % node) == 1 for node in range(len(tree.nodes)))


def test_curve_has_each_heuristic(run, tree_a, tmp_path):
    (tmp_path / "far.csv").write_text("budget,nodes\n2,c2\n1,c4\n")
    (tmp_path / "near.csv").write_text("budget,nodes\n0,\n1,r1\n2,r1 c4\n")
    assert run("draw", tree_a, "curve.svg", "--curve", "--sets", "far.csv", "near.csv") == (0, "", "")
    svg = Svg(tmp_path / "curve.svg")
    lines = {"optimum": 3, "greedy": 3, "heuristic-1": 2, "heuristic-2": 3}
    for gid, points in lines.items():
        assert len(list(svg.group(gid).iter("{http://www.w3.org/2000/svg}use"))) == points
    assert {"optimum", "greedy rule", "far", "near", "Total, thousandths", "100,000"} <= set(svg.texts)
    assert set(lines) | {"gap-greedy", "gap-heuristic-1", "gap-heuristic-2"} <= set(svg.ids)


def test_curve_of_equal_totals(run, tmp_path):
    """Totals of 0, a heuristic that has no set, and a tree whose whole budget is 0."""
    (tmp_path / "empty.csv").write_text("budget,nodes\n")
    text = "budget,0\nname,parent,length,flow,hit\nserver,,0,0,0\n"
    assert run("draw", "-", "curve.svg", "--curve", "--sets", "empty.csv", input=text)[0] == 0
    assert "empty" in Svg(tmp_path / "curve.svg").texts


def test_large_totals_have_a_unit(tmp_path):
    source = kterc.read(FULL / "random.ktr")
    saved(curve.curve(kterc.report(source.file), [], "random", curve.facts_of(source.tree)), tmp_path / "c.svg")
    texts = Svg(tmp_path / "c.svg").texts
    assert "1,024 nodes, budgets 0 to 32" in texts and any("10¹⁵ thousandths" in text for text in texts if text)


@pytest.mark.parametrize(
    "arguments, said",
    [
        (["a.csv", "a.jpg"], "expected a name that ends with .svg, .png or .pdf"),
        (["a.csv", "a"], "expected a name that ends with .svg, .png or .pdf"),
        (["a.csv", "a.svg", "--sets", "x.csv"], "--sets is for --curve"),
        (["a.csv", "a.svg", "--curve", "--set", "c2"], "--set is not for --curve"),
        (["a.csv", "a.svg", "--labels", "some"], "invalid choice"),
        (["nix.csv", "a.svg"], "nix.csv: No such file or directory"),
        (["a.csv", "nix/a.svg"], "nix/a.svg: No such file or directory"),
    ],
)
def test_wrong_usage(run, tree_a, tmp_path, arguments, said):
    status, out, error = run("draw", *arguments)
    assert (status, out) == (2, "") and said in error and not (tmp_path / "a.svg").exists()


@pytest.mark.parametrize(
    "arguments, said",
    [
        (["--set", "c2 c9"], "kterc: a.csv: unknown node 'c9'"),
        (["--set", "server"], "kterc: a.csv: refused by rule 12: "),
        (["--budget", "33"], "kterc: a.csv: refused by rule 5: "),
    ],
)
def test_refusals(run, tree_a, arguments, said):
    status, out, error = run("draw", "a.csv", "a.svg", *arguments)
    assert (status, out) == (1, "") and error.startswith(said)
