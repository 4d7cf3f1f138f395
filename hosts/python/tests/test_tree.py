"""Trees: from bytes and back, rows of any order, and what keeps rows from being a tree."""

import pickle
import random
import time

import pytest
from conftest import ROOT, TREE_A_FILE
from hypothesis import given, settings
from hypothesis import strategies as st
from strategies import trees

import kterc
from kterc import Node, Tree


@settings(max_examples=150, deadline=None)
@given(trees(largest=20))
def test_bytes_to_tree_to_bytes(tree):
    file = tree.to_bytes()
    kterc.check(file)
    assert Tree.from_bytes(file) == tree
    assert Tree.from_bytes(file).to_bytes() == file


@pytest.mark.parametrize("path", sorted((ROOT / "trees" / "full").glob("*.ktr")), ids=lambda path: path.stem)
def test_full_size_trees(path):
    file = path.read_bytes()
    assert Tree.from_bytes(file).to_bytes() == file


@settings(max_examples=60, deadline=None)
@given(trees(largest=20), st.randoms(use_true_random=False))
def test_rows_of_any_order_keep_each_rows_children_in_order(tree, source):
    """Rows are shuffled; then children are put back into the order of the tree."""
    rows = list(tree.nodes)
    source.shuffle(rows)
    for parent in {node.parent for node in tree.nodes}:
        places = [place for place, row in enumerate(rows) if row.parent == parent]
        for place, node in zip(places, [node for node in tree.nodes if node.parent == parent]):
            rows[place] = node
    assert Tree.arranged(tree.version, tree.budget, rows) == tree


def test_children_stand_in_the_order_of_their_rows():
    rows = [Node("b", "s", 1, 0, 0), Node("b1", "b", 1, 0, 0), Node("a", "s", 1, 0, 0), Node("s", None, 0, 0, 0)]
    assert Tree.arranged(1, 0, rows).names == ["s", "b", "b1", "a"]
    assert Tree.arranged(1, 0, rows[::-1]).names == ["s", "a", "b", "b1"]


def test_names_and_numbers():
    rows = [Node("s", None, 0, 0, 0), Node("x", "s", 1, 0, 0), Node("y", "s", 1, 0, 0)]
    tree = Tree.arranged(1, 2, rows)
    assert tree.number("y") == 2
    assert tree.set_of(["y", "x"]) == [1, 2]
    with pytest.raises(kterc.Refused, match="^refused by rule 12: 'y' stands twice: The set "):
        tree.set_of(["y", "x", "y"])
    assert tree.named([2, 0]) == ["y", "s"]
    with pytest.raises(kterc.UnknownNode, match="^unknown node 'z': expected the name of a node of the tree$"):
        tree.number("z")
    assert pickle.loads(pickle.dumps(tree)) == tree


def test_names_of_a_tree_file_are_numbers():
    tree = Tree.from_bytes(TREE_A_FILE)
    assert tree.names == ["0", "1", "2", "3", "4"]
    assert tree.nodes[0] == Node("0", None, 0, 0, 0)
    assert tree.nodes[4] == Node("4", "0", 4, 5, 800)


S = ("s", None)
NO_TREES = [
    ([], "no server: expected one row without a parent"),
    ([("a", "b"), ("b", "a")], "no server: expected one row without a parent"),
    ([S, ("t", None)], "a second server 't': expected one row without a parent"),
    ([S, ("a", "s"), ("a", "s")], "the name 'a' stands twice: expected each name once"),
    ([S, ("a", "x")], "unknown parent 'x': expected the name of a row"),
    ([S, ("a", "a")], "the parents of 'a' lead into a loop: expected a route to the server"),
    ([S, ("c", "b"), ("a", "b"), ("b", "a")], "the parents of 'c' lead into a loop: expected a route to the server"),
    ([S, ("", "s")], "the name is empty: expected a name"),
    ([S, ("a b", "s")], "the name 'a b': expected no white space in it and no # at its start"),
    ([S, ("#a", "s")], "the name '#a': expected no white space in it and no # at its start"),
]


@pytest.mark.parametrize("rows, said", NO_TREES)
def test_rows_that_make_no_tree(rows, said):
    with pytest.raises(kterc.Misarranged) as caught:
        Tree.arranged(1, 0, [Node(name, parent, 0, 0, 0) for name, parent in rows])
    assert str(caught.value) == said


def test_a_chain_of_5000_rows_is_arranged():
    rows = [Node(str(v), str(v - 1) if v else None, 1, 0, 0) for v in range(5000)]
    order = list(rows)
    random.Random(1).shuffle(order)
    tree = Tree.arranged(1, 0, order)
    assert tree.nodes == tuple(rows)
    with pytest.raises(kterc.Refused, match="rule 4"):
        kterc.check(tree.to_bytes())


def test_many_rows_of_one_name_take_little_time():
    begin = time.process_time()
    with pytest.raises(kterc.Misarranged):
        Tree.arranged(1, 0, [Node("a", "a" if row else None, 0, 0, 0) for row in range(20000)])
    assert time.process_time() - begin < 1


TOO_LARGE = [
    (1, dict(length=65536), 9),
    (1, dict(length=-1), 9),
    (1, dict(flow=2**32), 10),
    (1, dict(flow=2**32 + 5), 10),
    (1, dict(hit=65536), 11),
    (2, dict(cachable=2**32), 17),
    (3, dict(cachable=-1), 17),
    (3, dict(open=256), 24),
    (3, dict(open=2), 24),
    (3, dict(length=2**40, flow=2**40, cachable=2**40, open=9), 9),
]


@pytest.mark.parametrize("version, values, rule", TOO_LARGE)
def test_a_value_that_does_not_fit_is_refused_by_its_rule(version, values, rule):
    plain = dict(length=1, flow=1, hit=1) if version == 1 else dict(length=1, flow=1, cachable=1)
    server = Node("s", None, 0, 0, **(dict(hit=0) if version == 1 else dict(cachable=0)))
    tree = Tree(version, 0, (server, Node("a", "s", **plain), Node("b", "s", **{**plain, **values})))
    with pytest.raises(kterc.Refused) as caught:
        kterc.check(tree.to_bytes())
    assert (caught.value.rule, caught.value.record) == (rule, 2)


@pytest.mark.parametrize("budget", [33, 65536 + 2, -1])
def test_a_budget_that_does_not_fit(budget):
    with pytest.raises(kterc.Refused, match="rule 5"):
        kterc.check(Tree(1, budget, (Node("s", None, 0, 0, 0),)).to_bytes())


@pytest.mark.parametrize("count", [1025, 65536 + 1])
def test_more_than_1024_nodes(count):
    nodes = (Node("0", None, 0, 0, 0), *(Node(str(v), "0", 1, 0, 0) for v in range(1, count)))
    with pytest.raises(kterc.Refused, match="rule 4"):
        kterc.check(Tree(1, 0, nodes).to_bytes())
