"""The calls of the library from Python: against full enumeration, and their refusals."""

import _ctypes
import ctypes
import pickle
import subprocess
import sys
from concurrent.futures import ThreadPoolExecutor

import pytest
from conftest import PACKAGE, ROOT, TREE_A_FILE
from enumeration import Enumeration
from hypothesis import given, settings
from hypothesis import strategies as st
from strategies import small_trees, trees

import kterc


def refusal(call, *arguments):
    with pytest.raises(kterc.Refused) as caught:
        call(*arguments)
    return caught.value.rule, caught.value.record


def changed(place, *values, file=TREE_A_FILE):
    return file[:place] + bytes(values) + file[place + len(values) :]


# Against full enumeration


@settings(max_examples=200, deadline=None)
@given(small_trees())
def test_report_has_the_optimum_and_greedy(tree):
    file, small = tree.to_bytes(), Enumeration(tree)
    report = kterc.report(file)
    budgets = range(tree.budget + 1)
    assert report.sets == [list(small.plan(b)) for b in budgets]
    assert report.totals == [small.total(small.plan(b)) for b in budgets]
    assert report.greedy_nodes == small.greedy(tree.budget)
    assert report.greedy_totals == [small.total(small.greedy(b)) for b in budgets]
    assert kterc.plan(file) == (report.totals, report.sets)
    assert kterc.greedy(file) == (report.greedy_totals, report.greedy_nodes)


@settings(max_examples=150, deadline=None)
@given(small_trees())
def test_bill_of_every_set(tree):
    file, small = tree.to_bytes(), Enumeration(tree)
    for nodes in small.sets(5):
        assert kterc.bill(file, nodes) == (small.total(nodes), small.serving(nodes), small.loads(nodes))


@settings(max_examples=100, deadline=None)
@given(small_trees())
def test_with_a_node_and_without_it(tree):
    file, small = tree.to_bytes(), Enumeration(tree)
    for budget in range(tree.budget + 1):
        totals = {nodes: small.total(nodes) for nodes in small.sets(budget)}
        for node in range(1, len(tree.nodes)):
            with_it = min((total for nodes, total in totals.items() if node in nodes), default=None)
            without_it = min(total for nodes, total in totals.items() if node not in nodes)
            assert kterc.with_without(file, node, budget) == (with_it, without_it)


@settings(max_examples=150, deadline=None)
@given(small_trees())
def test_target_at_and_beside_each_total(tree):
    file, small = tree.to_bytes(), Enumeration(tree)
    plans = [small.plan(budget) for budget in range(tree.budget + 1)]
    totals = [small.total(nodes) for nodes in plans]
    for target in {0, 2**64 - 1} | {max(0, total + step) for total in totals for step in (-1, 0, 1)}:
        budget = next((budget for budget, total in enumerate(totals) if total <= target), None)
        assert kterc.target(file, target) == (None if budget is None else (budget, list(plans[budget])))


@settings(max_examples=200, deadline=None)
@given(small_trees(), st.data())
def test_rank_of_two_sets(tree, data):
    file, small = tree.to_bytes(), Enumeration(tree)
    sets = st.sampled_from(small.sets(5))
    for first, second in data.draw(st.lists(st.tuples(sets, sets), max_size=20)):
        assert kterc.rank(file, first, second) == (2 if small.rank(second) < small.rank(first) else 1)
        assert kterc.rank(file, first, first) == 1


@settings(max_examples=100, deadline=None)
@given(trees())
def test_record_is_the_bytes_of_the_node(tree):
    file = tree.to_bytes()
    width = {1: 10, 2: 12, 3: 13}[tree.version]
    for node in range(len(tree.nodes)):
        assert kterc.record(file, node) == file[9 + width * node : 9 + width * (node + 1)]
    assert kterc.record(file, len(tree.nodes)) is None


@pytest.mark.parametrize("path", sorted((ROOT / "trees" / "full").glob("*.ktr")), ids=lambda path: path.stem)
def test_full_size_trees_have_their_stored_reports(path):
    report = kterc.report(path.read_bytes())
    rows = zip(range(33), report.totals, report.greedy_totals, report.sets)
    lines = [" ".join(map(str, [budget, total, greedy, *nodes])) for budget, total, greedy, nodes in rows]
    assert "\n".join(lines) + "\n" == path.with_suffix(".report").read_text()


def test_tree_a():
    assert kterc.report(TREE_A_FILE) == ([140000, 60000, 20000], [[], [1], [2, 3]], [140000, 60000, 40000], [1, 2])
    assert kterc.bill(TREE_A_FILE, [1]) == (60000, [0, 1, 1, 1, 0], [0, 0, 20000, 20000, 5000])
    assert kterc.with_without(TREE_A_FILE, 2, 2) == (20000, 40000)
    assert kterc.target(TREE_A_FILE, 59999) == (2, [2, 3])
    assert kterc.target(TREE_A_FILE, 19999) is None
    assert kterc.rank(TREE_A_FILE, [1, 2], [2, 3]) == 2
    assert kterc.scratch_words(TREE_A_FILE) == 35


def test_the_smallest_file_needs_no_entries():
    file = b"KTR" + bytes((0, 1, 0, 1, 0, 0)) + bytes(10)
    assert kterc.report(file) == ([0], [[]], [0], [])
    assert kterc.bill(file, []) == (0, [0], [0])
    assert kterc.target(file, 0) == (0, [])
    assert kterc.rank(file, [], []) == 1


def test_calls_run_in_threads():
    file = (ROOT / "trees" / "full" / "random.ktr").read_bytes()
    alone = kterc.report(file)
    with ThreadPoolExecutor(4) as pool:
        assert all(report == alone for report in pool.map(kterc.report, [file] * 6))


# Refusals

DAMAGED = [
    (b"", 1, 0),
    (TREE_A_FILE[:8], 1, 0),
    (changed(0, 0x4C), 2, 0),
    (changed(3, 0, 4), 3, 0),
    (changed(5, 0, 0), 4, 0),
    (changed(5, 4, 1), 4, 0),
    (changed(7, 0, 33), 5, 0),
    (TREE_A_FILE + b"\0", 6, 0),
    (TREE_A_FILE[:-1], 6, 0),
    (changed(9, 0, 1), 7, 0),
    (changed(29, 0, 3), 7, 2),
    (changed(31, 3, 233), 9, 2),
    (changed(33, 255), 10, 2),
    (changed(57, 3, 233), 11, 4),
]


@pytest.mark.parametrize("file, rule, record", DAMAGED)
def test_every_call_refuses_a_damaged_file_with_rule_and_record(file, rule, record):
    calls = [
        (kterc.check,),
        (kterc.bill, []),
        (kterc.bill, [70000]),
        (kterc.plan,),
        (kterc.greedy,),
        (kterc.report,),
        (kterc.with_without, 1, 1),
        (kterc.with_without, -1, 1),
        (kterc.target, 0),
        (kterc.rank, [], [-1]),
        (kterc.scratch_words,),
        (kterc.Tree.from_bytes,),
    ]
    for call, *arguments in calls:
        assert refusal(call, file, *arguments) == (rule, record)
    assert kterc.record(file, 0) is None


def test_rules_of_versions_2_and_3():
    second = kterc.Tree(2, 0, (kterc.Node("s", None, 0, 5, cachable=6),)).to_bytes()
    assert refusal(kterc.check, second) == (17, 0)
    third = kterc.Tree(3, 0, (kterc.Node("s", None, 0, 5, cachable=5),)).to_bytes()
    assert refusal(kterc.check, third[:-1] + b"\2") == (24, 0)


def test_depth_of_33_is_refused():
    chain = [kterc.Node("0", None, 0, 0, 0)] + [kterc.Node(str(v), str(v - 1), 1, 0, 0) for v in range(1, 34)]
    assert refusal(kterc.check, kterc.Tree(1, 0, tuple(chain)).to_bytes()) == (8, 33)
    kterc.check(kterc.Tree(1, 0, tuple(chain[:-1])).to_bytes())


@pytest.mark.parametrize("nodes", [[0], [5], [2, 1], [1, 1], [-1], [65536], [65537], [1, 2**70]])
def test_rule_12_judges_sets_as_they_stand(nodes):
    assert refusal(kterc.bill, TREE_A_FILE, nodes) == (12, 0)
    assert refusal(kterc.rank, TREE_A_FILE, nodes, []) == (12, 0)
    assert refusal(kterc.rank, TREE_A_FILE, [], nodes) == (12, 0)


def test_rule_12_refuses_a_closed_node():
    nodes = (kterc.Node("s", None, 0, 0, cachable=0), kterc.Node("c", "s", 1, 1, cachable=1, open=False))
    assert refusal(kterc.bill, kterc.Tree(3, 1, nodes).to_bytes(), [1]) == (12, 0)


@pytest.mark.parametrize("node, budget", [(0, 1), (5, 1), (-1, 1), (2**64 + 1, 1), (1, 3), (1, -1), (1, 2**64)])
def test_rule_16_judges_node_and_budget(node, budget):
    assert refusal(kterc.with_without, TREE_A_FILE, node, budget) == (16, 0)


@pytest.mark.parametrize("total", [-1, 2**64])
def test_a_target_has_64_bits(total):
    with pytest.raises(ValueError):
        kterc.target(TREE_A_FILE, total)


def test_a_refusal_has_its_sentence():
    with pytest.raises(kterc.Refused) as caught:
        kterc.check(changed(31, 9, 1))
    refused = caught.value
    assert str(refused) == "refused by rule 9, record 2: The link to the parent is longer than 1,000 (for node 0: not 0)."
    assert refused.sentence == kterc.rule_text(9)
    again = pickle.loads(pickle.dumps(refused))
    assert (str(again), again.rule, again.record) == (str(refused), 9, 2)


def test_a_refusal_of_no_record_names_none():
    with pytest.raises(kterc.Refused, match="^refused by rule 5: The budget is above 32.$"):
        kterc.check(changed(8, 33))


def test_rules_have_sentences_and_other_numbers_none():
    assert all(kterc.rule_text(rule).endswith(".") for rule in (*range(1, 15), 16, 17, 24))
    assert not any(kterc.rule_text(number) for number in (0, *range(18, 24), *range(25, 300), -1, 2**32 + 1))


@pytest.mark.parametrize("file", [None, "KTR", 9, bytearray(TREE_A_FILE)])
def test_a_file_is_bytes(file):
    with pytest.raises((TypeError, ctypes.ArgumentError)):
        kterc.check(file)


# Finding the library


def test_a_library_that_is_not_there(run, tree_a):
    status, out, error = run("report", tree_a, library="/nowhere/libkterc.so")
    assert (status, out) == (2, "")
    assert error.startswith("kterc: the library /nowhere/libkterc.so cannot be loaded (")
    assert "run `make` at the project's root, or set KTERC_LIBRARY to the path of libkterc.so" in error


def test_a_library_without_a_call(run, tree_a):
    path = _ctypes.__file__
    status, out, error = run("check", tree_a, library=path)
    assert (status, out) == (2, "")
    assert error.startswith(f"kterc: the library {path} has no kterc_version and is older than this package: run `make`")


def test_importing_loads_no_plotting_and_no_library():
    script = "import sys, kterc; print('matplotlib' in sys.modules, kterc.library._library.cache_info().currsize)"
    done = subprocess.run([sys.executable, "-c", script], cwd=PACKAGE, capture_output=True, text=True)
    assert done.stdout == "False 0\n", done.stderr


def test_package_library_and_header_have_one_version():
    assert f'#define KTERC_VERSION "{kterc.version()}"' in (ROOT / "include" / "kterc.h").read_text()
    assert kterc.__version__ == kterc.version()
