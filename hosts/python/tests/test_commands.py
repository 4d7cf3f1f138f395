"""The commands as a user runs them: status and both streams."""

import csv
import io
import json
import os

import pytest
from conftest import ROOT, TREE_A, TREE_A_FILE

FULL = ROOT / "trees" / "full" / "random.ktr"
CLOSED = """\
budget,2
name,parent,length,flow,cachable,open
server,,0,0,0,1
r1,server,2,0,0,0
c2,r1,1,20,20,1
"""


def table(out):
    return list(csv.DictReader(io.StringIO(out)))


# make and show


def test_make_and_show(run, tree_a):
    assert run("make", tree_a, "a.ktr") == (0, "", "")
    assert tree_a.with_suffix(".ktr").read_bytes() == TREE_A_FILE
    assert run("show", tree_a) == (0, TREE_A, "")
    status, out, error = run("show", "a.ktr")
    assert (status, error) == (0, "")
    assert out.splitlines()[2:5] == ["0,,0,0,0", "1,0,2,0,0", "2,1,1,20,1000"]
    assert run("show", "a.ktr", "b.csv") == (0, "", "")
    assert run("make", "-o", "b.ktr", "b.csv") == (0, "", "")
    assert tree_a.with_name("b.ktr").read_bytes() == TREE_A_FILE


def test_make_between_streams(run, tree_a):
    with open(tree_a.with_name("out"), "wb") as out:
        assert run("make", "--budget", "1", "-", "-", input=TREE_A, out=out) == (0, "", "")
    assert tree_a.with_name("out").read_bytes() == TREE_A_FILE[:8] + b"\1" + TREE_A_FILE[9:]


def test_names_in_any_script(run):
    text = TREE_A.replace("r1", "routeur-é").replace("c2", "客户")
    assert run("show", "-", input=text) == (0, text, "")
    status, out, error = run("report", "-", input=text)
    assert status == 0 and "客户 c3" in out


@pytest.mark.parametrize(
    "text, message",
    [
        (TREE_A.replace("c4,server", "c4,r9"), "tree.csv:7: unknown parent 'r9': expected the name of a row"),
        (TREE_A.replace(",5,", ",200000000,"), "tree.csv:7: refused by rule 10, record 4: The flow is above 100,000,000."),
        (TREE_A.replace("budget,2\n", ""), "tree.csv: no budget: expected a line budget,K or the option --budget"),
        (TREE_A.replace("budget,2", "budget,40"), "tree.csv:1: refused by rule 5: The budget is above 32."),
    ],
)
def test_make_refuses_and_writes_nothing(run, tmp_path, text, message):
    (tmp_path / "tree.csv").write_text(text)
    assert run("make", "tree.csv", "tree.ktr") == (1, "", f"kterc: {message}\n")
    assert run("make", "-", "tree.ktr", input=text) == (1, "", f"kterc: {message}\n".replace("tree.csv", "standard input"))
    assert os.listdir(tmp_path) == ["tree.csv"]


def test_make_does_not_overwrite_its_input(run, tree_a):
    assert run("make", tree_a, tree_a) == (2, "", f"kterc: {tree_a}: is the input, which is not overwritten\n")
    assert tree_a.read_text() == TREE_A


def test_places_that_cannot_be_read_or_written(run, tree_a):
    assert run("make", "none.csv", "a.ktr") == (2, "", "kterc: none.csv: No such file or directory\n")
    assert run("make", tree_a, "none/a.ktr") == (2, "", "kterc: none/a.ktr: No such file or directory\n")
    assert run("make", tree_a, "/dev/full") == (2, "", "kterc: /dev/full: No space left on device\n")
    assert run("show", tree_a.parent) == (2, "", f"kterc: {tree_a.parent}: Is a directory\n")


def test_a_damaged_tree_file(run, tmp_path):
    (tmp_path / "a.ktr").write_bytes(TREE_A_FILE[:31] + b"\xff" + TREE_A_FILE[32:])
    sentence = "The link to the parent is longer than 1,000 (for node 0: not 0)."
    message = f"kterc: a.ktr: refused by rule 9, record 2: {sentence}\n"
    for command in (["show"], ["report"], ["bill"], ["node"], ["target", "a.ktr", "0"], ["rank", "a.ktr", "1", "2"]):
        assert run(*command, *(["a.ktr"] if len(command) == 1 else [])) == (1, "", message)


# check


def test_check(run, tree_a):
    tree_a.with_name("a.ktr").write_bytes(TREE_A_FILE)
    tree_a.with_name("b.ktr").write_bytes(TREE_A_FILE[:-1])
    tree_a.with_name("b.csv").write_text(TREE_A.replace("c4,server", "c4,r9"))
    status, out, error = run("check", "a.csv", "a.ktr", "b.ktr", "b.csv", "--format", "csv")
    assert status == 1
    rows = [list(row.values()) for row in table(out)]
    assert rows == [
        ["a.csv", "accepted", "1", "5", "2", "", "", ""],
        ["a.ktr", "accepted", "1", "5", "2", "", "", ""],
        ["b.ktr", "refused", "", "", "", "6", "", ""],
        ["b.csv", "refused", "", "", "", "", "", "7"],
    ]
    assert error.startswith("kterc: b.ktr: refused by rule 6: The file is not exactly")
    assert error.endswith("kterc: b.csv:7: unknown parent 'r9': expected the name of a row\n")
    assert run("check", "a.csv", "a.ktr")[::2] == (0, "")
    assert run("check", "b.ktr", "none")[0] == 2


# The calls


def test_report(run, tree_a):
    assert run("report", tree_a) == (
        0,
        "budget   total  greedy_total  nodes  greedy_nodes\n"
        "     0  140000        140000\n"
        "     1   60000         60000  r1     r1\n"
        "     2   20000         40000  c2 c3  r1 c2\n",
        "",
    )
    rows = json.loads(run("report", "--format", "json", tree_a)[1])
    assert rows[2] == dict(budget=2, total=20000, greedy_total=40000, nodes=["c2", "c3"], greedy_nodes=["r1", "c2"])
    rows = table(run("report", "--format", "csv", "--budget", "3", "-", input=TREE_A_FILE)[1])
    assert [row["nodes"] for row in rows] == ["", "1", "2 3", "2 3 4"]


def test_bill(run, tree_a):
    assert run("bill", tree_a, "r1") == (
        0,
        "total: 60000\n"
        "node    parent  serving   load\n"
        "server  -       server       0\n"
        "r1      server  r1           0\n"
        "c2      r1      r1       20000\n"
        "c3      r1      r1       20000\n"
        "c4      server  server    5000\n",
        "",
    )
    answer = json.loads(run("bill", tree_a, "--format", "json", "c3", "c2")[1])
    assert answer["total"] == 20000
    assert answer["rows"][2] == dict(node="c2", parent="r1", serving="c2", load=0)
    rows = table(run("bill", tree_a, "--set", " c3  c2 ", "--format", "csv")[1])
    assert [row["serving"] for row in rows] == ["server", "server", "c2", "c3", "server"]
    assert {row["total"] for row in rows} == {"20000"}
    assert "total: 140000\n" in run("bill", tree_a)[1]


@pytest.mark.parametrize(
    "nodes, why",
    [(["c2", "c2"], "'c2' stands twice"), (["server"], "'server' is the server"), (["--set", "c2 c3 c2"], "'c2' stands twice")],
)
def test_bill_of_no_set(run, tree_a, nodes, why):
    sentence = "The set is not strictly ascending, each node from 1 to n - 1 and open."
    assert run("bill", "a.csv", *nodes) == (1, "", f"kterc: a.csv: refused by rule 12: {why}: {sentence}\n")


def test_names_that_are_no_nodes(run, tree_a):
    message = "kterc: a.csv: unknown node 'r9': expected the name of a node of the tree\n"
    assert run("bill", "a.csv", "r9") == (1, "", message)
    assert run("rank", "a.csv", "r1", "r1 r9") == (1, "", message)
    assert run("node", "a.csv", "r9") == (1, "", message)


def test_node(run, tree_a):
    assert run("node", tree_a) == (
        0,
        "budget: 2\n"
        "node   with  without   worth\n"
        "r1    40000    20000  -20000\n"
        "c2    20000    40000   20000\n"
        "c3    20000    40000   20000\n"
        "c4    44000    20000  -24000\n",
        "",
    )
    answer = json.loads(run("node", tree_a, "--budget", "1", "r1", "--format", "json")[1])
    assert answer == {"budget": 1, "rows": [{"node": "r1", "with": 60000, "without": 80000, "worth": 20000}]}
    status, out, error = run("node", "a.csv", "server")
    assert (status, out) == (1, "") and error.startswith("kterc: a.csv: refused by rule 16: The node is not from 1 to n - 1")


def test_a_node_that_no_set_has(run):
    rows = table(run("node", "-", "--format", "csv", input=CLOSED)[1])
    assert rows[0] == {"budget": "2", "node": "r1", "with": "", "without": "0", "worth": ""}
    assert "r1       -        0      -\n" in run("node", "-", input=CLOSED)[1]


def test_target(run, tree_a):
    assert run("target", tree_a, "60000") == (0, "budget  total  nodes\n     1  60000  r1\n", "")
    assert run("target", tree_a, "59999", "--format", "csv") == (0, "budget,total,nodes\n2,20000,c2 c3\n", "")
    assert run("target", tree_a, "19999") == (0, "none\n", "")
    assert run("target", tree_a, "19999", "--format", "json") == (0, "[]\n", "")
    assert run("target", tree_a, str(2**64 - 1), "--format", "csv") == (0, "budget,total,nodes\n0,140000,\n", "")


def test_rank(run, tree_a):
    assert run("rank", tree_a, "c2 r1", "c3 c2") == (
        0,
        "rank  set  total  nodes\n   1    2  20000  c2 c3\n   2    1  40000  r1 c2\n",
        "",
    )
    assert table(run("rank", tree_a, "r1", "r1", "--format", "csv")[1])[0]["set"] == "1"


# Usage and output


@pytest.mark.parametrize(
    "arguments",
    [
        [],
        ["plan"],
        ["make"],
        ["make", "a.csv"],
        ["make", "a.csv", "b", "-o", "c"],
        ["make", "a.csv", "b", "--budget", "two"],
        ["check"],
        ["report", "a.csv", "b.csv"],
        ["report", "--format", "xml", "a.csv"],
        ["bill", "a.csv", "r1", "--set", "c2"],
        ["target", "a.csv"],
        ["target", "a.csv", "-1"],
        ["target", "a.csv", str(2**64)],
        ["target", "a.csv", "1" + "0" * 30],
        ["rank", "a.csv", "r1"],
    ],
)
def test_wrong_usage(run, tree_a, arguments):
    status, out, error = run(*arguments)
    assert (status, out) == (2, "") and error.startswith("usage: python3 -m kterc")


@pytest.mark.parametrize("command", [[], ["make"], ["show"], ["check"], ["bill"], ["report"], ["node"], ["target"], ["rank"]])
def test_help(run, command):
    status, out, error = run(*command, "--help")
    assert (status, error) == (0, "")
    assert out.startswith(" ".join(["usage: python3 -m kterc", *command]))
    assert not command or f"examples:\n  python3 -m kterc {command[0]} " in out


def test_version(run):
    assert run("--version") == (0, "kterc 1.0.0, library 1.0.0\n", "")


WRITERS = [["report", "a.csv"], ["show", "a.csv"], ["make", "a.csv", "-"], ["--help"], ["--version"]]


@pytest.mark.parametrize("arguments", WRITERS)
def test_a_full_disk(run, tree_a, arguments):
    with open("/dev/full", "wb") as full:
        assert run(*arguments, out=full) == (2, "", "kterc: standard output: No space left on device\n")


@pytest.mark.parametrize("unbuffered", ["", "1"])
@pytest.mark.parametrize("arguments", [["show", FULL], ["make", FULL, "-"], ["make", FULL, "out.ktr"]])
def test_output_that_is_cut_short(run, tmp_path, arguments, unbuffered):
    """A limit on the size of files cuts a write in the middle."""
    before = ["env", f"PYTHONUNBUFFERED={unbuffered}", "sh", "-c", 'ulimit -f 2; exec "$@"', "sh"]
    place = "out.ktr" if "out.ktr" in arguments else "standard output"
    with open(tmp_path / "stream", "wb") as stream:
        assert run(*arguments, before=before, out=stream) == (2, "", f"kterc: {place}: File too large\n")
    assert os.listdir(tmp_path) == ["stream"]


def test_a_closed_pipe(run, tree_a):
    reading, writing = os.pipe()
    os.close(reading)
    with os.fdopen(writing, "wb") as pipe:
        assert run("report", tree_a, out=pipe) == (2, "", "")


def test_closed_streams(run, tree_a):
    shell = ["sh", "-c", 'exec "$@" <&- >&-', "sh"]
    status, out, error = run("report", tree_a, before=shell)
    assert (status, error) == (2, "kterc: standard output: Bad file descriptor\n")
    shell[2] = 'exec "$@" <&-'
    assert run("report", "-", before=shell) == (2, "", "kterc: standard input: Bad file descriptor\n")
