"""What commands read: each rule of the library with the line of the text, and tree files."""

import pytest
from conftest import TREE_A, TREE_A_FILE
from hypothesis import given, settings
from hypothesis import strategies as st
from strategies import trees

import kterc
from kterc.source import parse


@pytest.fixture
def read(tmp_path):
    def read(content, **options):
        path = tmp_path / "t"
        path.write_bytes(content if isinstance(content, bytes) else content.encode())
        return kterc.read(path, **options)

    return read


def test_a_text(read):
    source = read(TREE_A)
    assert source.file == TREE_A_FILE
    assert source.tree.names == ["server", "r1", "c2", "c3", "c4"]
    assert source.lines == [3, 4, 5, 6, 7]


def test_a_tree_file(read):
    source = read(TREE_A_FILE)
    assert source.file == TREE_A_FILE
    assert source.tree.names == ["0", "1", "2", "3", "4"]
    assert source.lines is None


@pytest.mark.parametrize("content", [TREE_A, TREE_A_FILE])
def test_a_given_budget(read, content):
    source = read(content, budget=1)
    assert source.tree.budget == 1 and source.file == TREE_A_FILE[:8] + b"\1" + TREE_A_FILE[9:]


FIRST = "budget,2\nname,parent,length,flow,hit\ns,,0,0,0\na,s,1,1,1\n"
SECOND = "budget,2\nname,parent,length,flow,cachable\ns,,0,0,0\na,s,1,1,1\n"
THIRD = "budget,2\nname,parent,length,flow,cachable,open\ns,,0,0,0,0\na,s,1,1,1,1\n"
CHAIN = FIRST + "".join(f"{v},{v - 1 if v > 2 else 'a'},1,0,0\n" for v in range(2, 40))
RULES = {
    "nodes": (FIRST + "".join(f"{v},s,1,0,0\n" for v in range(1023)), 4, 0, None),
    "nodes beyond 16 bits": (FIRST + "".join(f"{v},s,1,0,0\n" for v in range(65536)), 4, 0, None),
    "a chain of 5,000": (FIRST + "".join(f"{v},{v - 1 if v else 's'},1,0,0\n" for v in range(5000)), 4, 0, None),
    "budget": (FIRST.replace("budget,2", "budget,33"), 5, 0, 1),
    "budget beyond 16 bits": (FIRST.replace("budget,2\n", "") + "budget,65538\n", 5, 0, 4),
    "depth": (CHAIN, 8, 33, 36),
    "length": (FIRST + "b,s,1001,0,0\n", 9, 2, 5),
    "length beyond 16 bits": (FIRST + "b,s,65537,0,0\n", 9, 2, 5),
    "length of the server": (FIRST.replace("s,,0", "s,,1"), 9, 0, 3),
    "flow": (FIRST + "b,s,1,100000001,0\n", 10, 2, 5),
    "flow beyond 32 bits": (FIRST + "b,s,1,4294967297,0\n", 10, 2, 5),
    "flow beyond all numbers": (FIRST + "b,s,1,1" + "0" * 5000 + ",0\n", 10, 2, 5),
    "hit": (FIRST + "b,s,1,1,1001\n", 11, 2, 5),
    "hit beyond 16 bits": (FIRST + "b,s,1,1,65536\n", 11, 2, 5),
    "cachable": (SECOND + "b,s,1,1,2\n", 17, 2, 5),
    "cachable beyond 32 bits": (SECOND + "b,s,1,100000000,4294967296\n", 17, 2, 5),
    "cachable in version 3": (THIRD + "b,s,1,1,2,7\n", 17, 2, 5),
    "open": (THIRD + "b,s,1,1,1,2\n", 24, 2, 5),
    "open beyond 8 bits": (THIRD + "b,s,1,1,1,257\n", 24, 2, 5),
    "the record that comes first": (FIRST + "c,b,1,1,5000\nb,s,70000,1,1\n", 9, 2, 6),
    "the rule that comes first": (FIRST + "b,s,70000,4294967296,70000\n", 9, 2, 5),
}


@pytest.mark.parametrize("text, rule, record, line", RULES.values(), ids=RULES)
def test_rules_of_the_library_with_the_line(read, text, rule, record, line):
    with pytest.raises(kterc.Refused) as caught:
        read(text)
    refused = caught.value
    assert (refused.rule, refused.record, refused.line) == (rule, record, line)
    assert refused.sentence == kterc.rule_text(rule)
    place = refused.path if line is None else f"{refused.path}:{line}"
    assert str(refused).startswith(f"{place}: refused by rule {rule}")


def test_a_refused_tree_file_has_no_line(read):
    with pytest.raises(kterc.Refused) as caught:
        read(TREE_A_FILE[:31] + b"\xff" + TREE_A_FILE[32:])
    assert (caught.value.rule, caught.value.record, caught.value.line) == (9, 2, None)
    assert str(caught.value).startswith(f"{caught.value.path}: refused by rule 9, record 2: The link")


@pytest.mark.parametrize("content, rule", [(b"", 1), (b"KTR", 1), (b"KTX" + TREE_A_FILE[3:], 2), (TREE_A.encode(), 2)])
def test_a_name_that_ends_with_ktr_is_a_tree_file(content, rule):
    with pytest.raises(kterc.Refused) as caught:
        parse("A.KTR", content)
    assert str(caught.value) == f"A.KTR: refused by rule {rule}: {kterc.rule_text(rule)}"


def test_a_given_budget_above_32_has_no_line(read):
    for content in (TREE_A, TREE_A_FILE):
        with pytest.raises(kterc.Refused) as caught:
            read(content, budget=33)
        assert (caught.value.rule, caught.value.line) == (5, None)


def test_an_error_of_the_text_has_the_path(read):
    with pytest.raises(kterc.TextError) as caught:
        read(TREE_A.replace("c4,server", "c4,r9"))
    assert str(caught.value) == f"{caught.value.path}:7: unknown parent 'r9': expected the name of a row"


def test_1024_nodes_of_depth_32(read):
    rows = ["0,,0,0,0"]
    for v in range(1, 1024):
        rows.append(f"{v},{0 if v % 32 == 1 else v - 1},1000,100000000,1000")
    source = read("budget,32\nname,parent,length,flow,hit\n" + "\n".join(rows))
    assert len(source.tree.nodes) == 1024
    assert read(source.file).tree == source.tree
    assert read(kterc.write_text(source.tree)).file == source.file


@settings(max_examples=60, deadline=None)
@given(trees())
def test_the_text_of_a_tree_file_makes_the_same_file(tmp_path_factory, tree):
    path = tmp_path_factory.getbasetemp() / "again"
    path.write_bytes(tree.to_bytes())
    path.write_text(kterc.write_text(kterc.read(path).tree))
    assert kterc.read(path).file == tree.to_bytes()


@settings(max_examples=200, deadline=None)
@given(trees(), st.data())
def test_damaged_files_are_refused_or_read(tree, data):
    """Bytes are changed, cut off or added; what is still accepted is read as it stands."""
    file = bytearray(tree.to_bytes())
    for place, byte in data.draw(st.lists(st.tuples(st.integers(0, len(file) - 1), st.integers(0, 255)), max_size=3)):
        file[place] = byte
    content = bytes(file[: data.draw(st.integers(len(file) - 2, len(file)))]) + data.draw(st.binary(max_size=1))
    try:
        source = parse("-", content)
    except (kterc.Refused, kterc.TextError) as fault:
        assert fault.path == "standard input"
    else:
        assert source.tree.to_bytes() == source.file == content
