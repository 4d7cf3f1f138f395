"""The CSV text of a tree: what is read, what is written, and each error with its line."""

import pickle

import pytest
from conftest import ROOT, TREE_A, TREE_A_FILE
from hypothesis import given, settings
from hypothesis import strategies as st
from strategies import trees

import kterc
from kterc import read_text, write_text
from kterc.text import decoded


def renamed(tree, names):
    """The tree with other names, by node number."""
    new = dict(zip(tree.names, names))
    nodes = (node._replace(name=new[node.name], parent=node.parent and new[node.parent]) for node in tree.nodes)
    return kterc.Tree(tree.version, tree.budget, tuple(nodes))


NAMES = st.text(min_size=1, max_size=6).filter(lambda name: name.split() == [name] and name[0] != "#")


@settings(max_examples=150, deadline=None)
@given(trees(largest=12), st.data())
def test_tree_to_text_to_tree(tree, data):
    names = st.lists(NAMES | st.sampled_from(['"', '","', "budget", "name", "'"]), unique=True, min_size=12, max_size=12)
    tree = renamed(tree, data.draw(names))
    text = write_text(tree)
    again, lines = read_text(text)
    assert again == tree
    assert lines == list(range(3, 3 + len(tree.nodes))) and lines.budget == 1
    assert write_text(again) == text


@pytest.mark.parametrize("path", sorted((ROOT / "trees" / "full").glob("*.ktr")), ids=lambda path: path.stem)
def test_full_size_trees(path):
    file = path.read_bytes()
    assert read_text(write_text(kterc.Tree.from_bytes(file)))[0].to_bytes() == file


def test_tree_a():
    tree, lines = read_text(TREE_A)
    assert tree.to_bytes() == TREE_A_FILE
    assert tree.names == ["server", "r1", "c2", "c3", "c4"]
    assert (lines, lines.budget) == ([3, 4, 5, 6, 7], 1)
    assert write_text(tree) == TREE_A


SAME = {
    "comments and empty lines": "# a\n\n  # b\n" + TREE_A.replace("\nc2", "\n \n# x, y\n\nc2"),
    "comments with quotes and other white space": '# a, "b\n# c\u2028d\x0ce\x85f\n' + TREE_A,
    "blanks": TREE_A.replace(",", " ,\t "),
    "quotes": TREE_A.replace("r1", '"r1"').replace("20", '"20"'),
    "quoted comments": '"# a, b",,\n' + TREE_A,
    "windows line ends": TREE_A.replace("\n", "\r\n"),
    "old line ends": TREE_A.replace("\n", "\r"),
    "no line end at the end": TREE_A.rstrip(),
    "leading zeros": TREE_A.replace(",20,", "," + "0" * 5000 + "20,"),
    "empty fields at the end": "".join(line + ",,,,,"[line.count(",") :] + "\n" for line in TREE_A.splitlines()) + ",,,,,\n",
    "the budget last": TREE_A.replace("budget,2\n", "") + "budget,2\n",
    "the server last": TREE_A.replace("server,,0,0,0\n", "") + "server,,0,0,0\n",
}


@pytest.mark.parametrize("text", SAME.values(), ids=SAME)
def test_the_same_tree_written_otherwise(text):
    assert read_text(text)[0].to_bytes() == TREE_A_FILE


def test_a_byte_order_mark_is_skipped():
    assert decoded(b"\xef\xbb\xbf" + TREE_A.encode()) == decoded(TREE_A.encode()) == TREE_A


def test_lines_are_those_of_the_rows():
    text = "name,parent,length,flow,hit\nb,a,1,0,0\n# x\na,s,1,0,0\n\ns,,0,0,0\nbudget,1\n"
    tree, lines = read_text(text)
    assert tree.names == ["s", "a", "b"]
    assert (lines, lines.budget) == ([6, 4, 2], 7)


def test_a_given_budget_takes_the_place_of_the_texts():
    assert read_text(TREE_A, budget=7)[0].budget == 7
    assert read_text(TREE_A.replace("budget,2\n", ""), budget=7)[0].budget == 7


def test_versions_2_and_3():
    rows = "s,,0,9,9\na,s,1,2,1\n"
    second, _ = read_text("budget,1\nname,parent,length,flow,cachable\n" + rows)
    assert second == kterc.Tree(2, 1, (kterc.Node("s", None, 0, 9, None, 9), kterc.Node("a", "s", 1, 2, None, 1)))
    third, _ = read_text("budget,1\nname,parent,length,flow,cachable,open\n" + rows.replace("\n", ",0\n"))
    assert third.version == 3 and [node.open for node in third.nodes] == [False, False]


HEADER = "budget,2\nname,parent,length,flow,hit\n"
EXPECTED_HEADER = (
    "expected the header name,parent,length,flow,hit or name,parent,length,flow,cachable or "
    "name,parent,length,flow,cachable,open"
)
ERRORS = {
    "empty": ("", None, EXPECTED_HEADER),
    "no header": ("# a\nbudget,2\ns,,0,0,0\n", 3, EXPECTED_HEADER),
    "another header": ("name,parent,length,flow\n", 1, EXPECTED_HEADER),
    "no rows": (HEADER, None, "no server: expected one row without a parent"),
    "no server": (HEADER + "a,b,0,0,0\nb,a,0,0,0\n", 3, "the parents of 'a' lead into a loop: expected a route to the server"),
    "two servers": (HEADER + "s,,0,0,0\nt,,0,0,0\n", 4, "a second server 't': expected one row without a parent"),
    "unknown parent": (HEADER + "s,,0,0,0\na,r9,0,0,0\n", 4, "unknown parent 'r9': expected the name of a row"),
    "a loop": (
        HEADER + "s,,0,0,0\na,b,0,0,0\nb,a,0,0,0\n",
        4,
        "the parents of 'a' lead into a loop: expected a route to the server",
    ),
    "a name twice": (HEADER + "s,,0,0,0\na,s,0,0,0\na,s,0,0,0\n", 5, "the name 'a' stands twice: expected each name once"),
    "no name": (HEADER + "s,,0,0,0\n,s,1,0,0\n", 4, "the name is empty: expected a name"),
    "white space": (
        HEADER + "s,,0,0,0\na b,s,1,0,0\n",
        4,
        "the name 'a b': expected no white space in it and no # at its start",
    ),
    "few fields": (HEADER + "s,,0,0\n", 3, "4 fields: expected 5, name,parent,length,flow,hit"),
    "one field": (HEADER + "s,,0,0,0\na\n", 4, "1 field: expected 5, name,parent,length,flow,hit"),
    "many fields": (HEADER + "s,,0,0,0,1\n", 3, "6 fields: expected 5, name,parent,length,flow,hit"),
    "a part": (HEADER + "s,,0,0,0.8\n", 3, "hit '0.8': expected a whole number from 0 on"),
    "below 0": (HEADER + "s,,-1,0,0\n", 3, "length '-1': expected a whole number from 0 on"),
    "a sign": (HEADER + "s,,0,+1,0\n", 3, "flow '+1': expected a whole number from 0 on"),
    "an underscore": (HEADER + "s,,0,1_0,0\n", 3, "flow '1_0': expected a whole number from 0 on"),
    "other digits": (HEADER + "s,,0,\u0663,0\n", 3, "flow '\u0663': expected a whole number from 0 on"),
    "no number": (HEADER + "s,,0,,0\n", 3, "flow '': expected a whole number from 0 on"),
    "a comma in it": (HEADER + 's,,0,"1,000",0\n', 3, "flow '1,000': expected a whole number from 0 on"),
    "no budget": (TREE_A.replace("budget,2\n", ""), None, "no budget: expected a line budget,K or the option --budget"),
    "two budgets": (TREE_A + "budget,2\n", 8, "a second budget: expected one line budget,K"),
    "a budget of two numbers": (TREE_A.replace("budget,2", "budget,2,3"), 1, "3 fields: expected 2, budget,K"),
    "a budget of none": (TREE_A.replace("budget,2", "budget"), 1, "1 field: expected 2, budget,K"),
    "a budget in words": (TREE_A.replace("budget,2", "budget,two"), 1, "budget 'two': expected a whole number from 0 on"),
    "an open quote": (HEADER + 's,,0,0,0\n"a,s,1,0,0\n# b\n', 4, "unexpected end of data: expected fields with commas between"),
    "text after a quote": (HEADER + '"s"x,,0,0,0\n', 3, "',' expected after '\"': expected fields with commas between"),
    "a long field": (HEADER + "s" * 200000, 3, "field larger than field limit (131072): expected fields with commas between"),
}


@pytest.mark.parametrize("text, line, message", ERRORS.values(), ids=ERRORS)
def test_errors_name_the_line_and_what_was_expected(text, line, message):
    with pytest.raises(kterc.TextError) as caught:
        read_text(text)
    assert (caught.value.line, caught.value.said) == (line, message)
    assert str(caught.value) == (message if line is None else f"line {line}: {message}")
    assert str(pickle.loads(pickle.dumps(caught.value))) == str(caught.value)


FIRST_LINES = {
    "a number, then a parent": ("s,,0,0,0\na,s,x,0,0\nb,r9,0,0,0\n", 4),
    "a parent, then a number": ("s,,0,0,0\nb,r9,0,0,0\na,s,x,0,0\n", 4),
    "a server, then fields": ("s,,0,0,0\nt,,0,0,0\na,s\n", 4),
    "a name twice, then a loop": ("s,,0,0,0\ns,s,0,0,0\na,a,0,0,0\n", 4),
    "a loop, then a name twice": ("s,,0,0,0\na,a,0,0,0\ns,s,0,0,0\n", 4),
    "two numbers of one row": ("s,,0,0,0\na,s,x,y,z\n", 4),
    "a parent whose own row has an error": ("s,,0,0,0\nb,a,0,0,0\na,s,x,0,0\n", 5),
    "a parent whose own row has few fields": ("s,,0,0,0\nb,a,0,0,0\na,s\n", 5),
    "a parent below an open quote": ('s,,0,0,0\nb,a,0,0,0\n"c,s,0,0,0\na,s,0,0,0\n', 5),
}


@pytest.mark.parametrize("rows, line", FIRST_LINES.values(), ids=FIRST_LINES)
def test_of_several_errors_the_one_on_the_first_line(rows, line):
    with pytest.raises(kterc.TextError) as caught:
        read_text(HEADER + rows)
    assert caught.value.line == line


@pytest.mark.parametrize(
    "content, line, byte",
    [(b"\xff\xfea", 1, "0xff"), (b"a\r\nb\nc\xe9,\n", 3, "0xe9"), (b"\xef\xbb\xbfa\rb\xc3", 2, "0xc3")],
)
def test_bytes_that_are_not_utf_8(content, line, byte):
    with pytest.raises(kterc.TextError) as caught:
        decoded(content)
    assert caught.value.line == line
    assert caught.value.said == f"byte {byte}: expected UTF-8 text, or a tree file, which begins with KTR"


@settings(max_examples=200, deadline=None)
@given(st.text("0129 ,\n\r\"#-xsabudget\u00e9", max_size=80), st.booleans())
def test_no_text_ends_otherwise(text, headed):
    """Whatever stands there is a tree or an error by line."""
    try:
        tree, lines = read_text(HEADER + text if headed else text)
        assert len(tree.nodes) == len(lines)
    except kterc.TextError as error:
        assert error.line is None or error.line >= 1
