"""Comparisons are held to full enumeration, per cents to fractions, and every error names its file and line."""

import csv
import io
import json
import os
import subprocess
import sys
from decimal import ROUND_HALF_UP, Decimal
from fractions import Fraction

import pytest
from conftest import PACKAGE, ROOT
from enumeration import Enumeration
from hypothesis import given, settings
from hypothesis import strategies as st
from strategies import small_trees

import kterc
from kterc.compare import Billed, Heuristic, compare, per_cent, read_heuristics

COLUMNS = "heuristic,budget,total,optimum,greedy,gap,gap_per_cent,nodes"
FULL = ROOT / "trees" / "full"


def sets(tmp_path, text, name="mine.csv"):
    (tmp_path / name).write_text(text)
    return name


def test_tree_a(run, tree_a, tmp_path):
    name = sets(tmp_path, "# mine\nbudget,nodes\n2,c2 r1\n\n1,c4\n0,\n")
    status, out, error = run("compare", tree_a, name, "--format", "csv")
    assert (status, error) == (0, "")
    assert out.splitlines() == [
        COLUMNS,
        "mine,2,40000,20000,40000,20000,100.00,r1 c2",
        "mine,1,124000,60000,60000,64000,106.67,c4",
        "mine,0,140000,140000,140000,0,0.00,",
    ]


def test_empty_fields_of_a_spreadsheet(run, tree_a, tmp_path):
    name = sets(tmp_path, "\ufeffbudget,nodes,,\r\n,,,\r\n1, r1 ,,\r\n0,,,\r\n")
    status, out, _ = run("compare", tree_a, name, "--format", "csv")
    assert status == 0 and [line.split(",")[1:3] for line in out.splitlines()[1:]] == [["1", "60000"], ["0", "140000"]]


def test_table_and_json(run, tree_a, tmp_path):
    sets(tmp_path, "budget,nodes\n2,c2 c3\n", "best.csv"), sets(tmp_path, "budget,nodes\n2,r1 c2\n", "other.csv")
    _, table, _ = run("compare", tree_a, "best.csv", "other.csv")
    assert table.splitlines() == [
        "heuristic  budget  total  optimum  greedy    gap  gap_per_cent  nodes",
        "best            2  20000    20000   40000      0          0.00  c2 c3",
        "other           2  40000    20000   40000  20000        100.00  r1 c2",
    ]
    _, text, _ = run("compare", tree_a, "other.csv", "--format", "json")
    assert json.loads(text) == [{"heuristic": "other", "budget": 2, "total": 40000, "optimum": 20000, "greedy": 40000,
                                 "gap": 20000, "gap_per_cent": 100.0, "nodes": ["r1", "c2"]}]


def test_optimum_of_zero(run, tmp_path):
    text = "budget,1\nname,parent,length,flow,hit\nserver,,0,0,0\nc1,server,3,5,1000\n"
    sets(tmp_path, text, "tree.csv")
    sets(tmp_path, "budget,nodes\n1,\n", "none.csv"), sets(tmp_path, "budget,nodes\n1,c1\n", "c.csv")
    _, table, _ = run("compare", "tree.csv", "none.csv", "c.csv")
    assert [line.split()[5:] for line in table.splitlines()[1:]] == [["15000", "-"], ["0", "0.00", "c1"]]
    _, text, _ = run("compare", "tree.csv", "none.csv", "--format", "csv")
    assert text.splitlines()[1] == "none,1,15000,0,0,15000,,"
    _, text, _ = run("compare", "tree.csv", "none.csv", "--format", "json")
    assert json.loads(text)[0]["gap_per_cent"] is None


@given(st.integers(0, 2**62), st.integers(1, 2**62))
def test_per_cent_is_exact(gap, optimum):
    exact = Fraction(100 * gap, optimum)
    told = per_cent(gap, optimum)
    assert abs(Fraction(told) - exact) <= Fraction(1, 200) and told.as_tuple().exponent == -2


@pytest.mark.parametrize("gap, optimum, told", [(1, 20000, "0.01"), (1, 20001, "0.00"), (1, 3, "33.33"), (2, 3, "66.67"),
                                                (2**62, 1, str(100 * 2**62) + ".00"), (0, 0, "0.00")])
def test_per_cent_is_rounded(gap, optimum, told):
    assert str(per_cent(gap, optimum)) == told
    if optimum:
        assert per_cent(gap, optimum) == (Decimal(100 * gap) / optimum).quantize(Decimal("0.01"), ROUND_HALF_UP) or gap > 10**9


@settings(max_examples=60, deadline=None)
@given(small_trees(), st.data())
def test_against_enumeration(tree, data):
    """Every set of a heuristic costs what enumeration says, and no gap is below 0."""
    small, file = Enumeration(tree), tree.to_bytes()
    chosen = {budget: data.draw(st.sampled_from(small.sets(budget))) for budget in range(tree.budget + 1)}
    billed = [Billed(budget, list(nodes), kterc.bill(file, list(nodes)).total) for budget, nodes in chosen.items()]
    for row in compare(kterc.report(file), [Heuristic("drawn", billed)], tree):
        assert row.total == small.total(chosen[row.budget])
        assert row.optimum == min(map(small.total, small.sets(row.budget)))
        assert row.greedy == small.total(small.greedy(row.budget))
        assert row.gap == row.total - row.optimum >= 0
        assert row.nodes == [str(node) for node in chosen[row.budget]]
        if row.optimum:
            assert abs(Fraction(row.gap_per_cent) - Fraction(100 * row.gap, row.optimum)) <= Fraction(1, 200)


def test_numbers_of_a_tree_file(run, tmp_path):
    """A tree file's nodes go by number. The plan's own sets have no gap."""
    source = kterc.read(FULL / "closed.ktr")
    plan = kterc.plan(source.file)
    lines = [f"{budget},{' '.join(map(str, reversed(nodes)))}" for budget, nodes in enumerate(plan.sets)]
    sets(tmp_path, "\n".join(["budget,nodes", *lines, ""]), "plan.csv")
    status, out, _ = run("compare", FULL / "closed.ktr", "plan.csv", "--format", "csv")
    rows = list(csv.DictReader(io.StringIO(out)))
    assert status == 0 and len(rows) == 33
    assert all(row["gap"] == "0" and row["total"] == row["optimum"] == str(total) for row, total in zip(rows, plan.totals))


def test_names_of_heuristics(tree_a, tmp_path):
    """The stem; where two files have the same, the path."""
    for folder in ("x", "y"):
        (tmp_path / folder).mkdir()
        (tmp_path / folder / "same.csv").write_text("budget,nodes\n")
    (tmp_path / "own.csv").write_text("budget,nodes\n")
    paths = [str(tmp_path / name) for name in ("x/same.csv", "y/same.csv", "own.csv")]
    assert [one.name for one in read_heuristics(paths, kterc.read(tree_a))] == [*paths[:2], "own"]


def test_plot(run, tree_a, tmp_path):
    name = sets(tmp_path, "budget,nodes\n1,c4\n")
    status, out, error = run("compare", tree_a, name, "--plot", "p.svg")
    assert (status, error) == (0, "") and out.count("\n") == 2
    assert b'id="heuristic-1"' in (tmp_path / "p.svg").read_bytes()
    assert run("compare", tree_a, name, "--plot", "p.gif")[0] == 2


@pytest.mark.parametrize(
    "text, line, said",
    [
        ("", None, "expected the header budget,nodes"),
        ("nodes,budget\n", 1, "expected the header budget,nodes"),
        ("# c\n\nbudget;nodes\n1;r1\n", 3, "expected the header budget,nodes"),
        ("budget,nodes\n1,r1\n2,c2 c9\n", 3, "unknown node 'c9'"),
        ("budget,nodes\n1,c2 c3\n", 2, "2 nodes: expected at most 1, the budget"),
        ("budget,nodes\n3,c2\n", 2, "budget 3: expected at most 2, the tree's budget"),
        ("budget,nodes\n-1,c2\n", 2, "budget '-1': expected a whole number from 0 on"),
        ("budget,nodes\none,c2\n", 2, "budget 'one': expected a whole number from 0 on"),
        ("budget,nodes\n1,r1\n# again\n1,c2\n", 4, "budget 1 stands twice"),
        ("budget,nodes\n1\n", 2, "1 field: expected 2, budget,nodes"),
        ("budget,nodes\n2,c2,c3\n", 2, "3 fields: expected 2, budget,nodes"),
        ("budget,nodes\n2,c2 c2\n", 2, "refused by rule 12: 'c2' stands twice: The set "),
        ("budget,nodes\n1,server\n", 2, "refused by rule 12: 'server' is the server: The set "),
        ('budget,nodes\n1,"r1\n', 2, "expected fields with commas between"),
    ],
)
def test_errors_name_the_line(run, tree_a, tmp_path, text, line, said):
    name = sets(tmp_path, text)
    status, out, error = run("compare", tree_a, name)
    place = name if line is None else f"{name}:{line}"
    assert (status, out) == (1, "") and error.startswith(f"kterc: {place}: ") and said in error


def test_closed_node(run, tmp_path):
    text = "budget,1\nname,parent,length,flow,cachable,open\nserver,,0,0,0,1\nr1,server,2,0,0,0\nc2,r1,1,20,20,1\n"
    sets(tmp_path, text, "tree.csv")
    status, _, error = run("compare", "tree.csv", sets(tmp_path, "budget,nodes\n0,\n1,r1\n"))
    assert status == 1 and error == f"kterc: mine.csv:3: refused by rule 12: 'r1' is closed: {kterc.rule_text(12)}\n"


def test_unreadable(run, tree_a, tmp_path):
    assert run("compare", tree_a, "nix.csv") == (2, "", "kterc: nix.csv: No such file or directory\n")
    (tmp_path / "latin.csv").write_bytes(b"budget,nodes\n1,\xe9\n")
    status, _, error = run("compare", tree_a, "latin.csv")
    assert status == 1 and error.startswith("kterc: latin.csv:2: byte 0xe9: expected UTF-8 text")


@pytest.mark.parametrize("name, lines", [("deep", 8), ("star", 3)])
def test_page_has_what_is_printed(run, tmp_path, name, lines):
    """The worked comparison of README.md, on this tree."""
    tree = FULL / f"{name}.ktr"
    command = [sys.executable, PACKAGE / "examples" / "heaviest.py", tree]
    made = subprocess.run(command, env={**os.environ, "PYTHONPATH": str(PACKAGE)}, check=True, stdout=subprocess.PIPE).stdout
    (tmp_path / "heaviest.csv").write_bytes(made)
    printed = run("compare", tree, "heaviest.csv")[1].splitlines()
    page = (PACKAGE / "README.md").read_text().splitlines()
    told = [line for line in page if line.startswith("heaviest ") and any(whole.startswith(line) for whole in printed)]
    assert len(told) == lines and sum(line.startswith("heaviest ") for line in page) == 8 + 3
