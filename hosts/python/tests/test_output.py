"""What commands write: rows in each format, and whole files."""

import csv
import io
import json
import os

import pytest

from kterc.output import show, write_file

COLUMNS = ("name", "total", "nodes", "open")
ROWS = [("a", 20, ["x", "y"], True), ("b,c", None, [], False)]


def shown(format, rows=ROWS, facts=None):
    out = io.StringIO()
    show(rows, COLUMNS, format, out, facts)
    return out.getvalue()


def test_a_table():
    assert shown("table", facts={"budget": 2}) == (
        "budget: 2\n"
        "name  total  nodes  open\n"
        "a        20  x y    yes\n"
        "b,c       -         no\n"
    )


def test_csv():
    rows = list(csv.reader(io.StringIO(shown("csv", facts={"budget": 2}))))
    assert rows == [["budget", *COLUMNS], ["2", "a", "20", "x y", "yes"], ["2", "b,c", "", "", "no"]]


def test_json():
    first, second = dict(zip(COLUMNS, ROWS[0])), dict(zip(COLUMNS, ROWS[1]))
    assert json.loads(shown("json")) == [first, second]
    assert json.loads(shown("json", facts={"budget": 2})) == {"budget": 2, "rows": [first, second]}


def test_no_rows():
    assert shown("table", []) == "name  total  nodes  open\n"
    assert shown("csv", []) == "name,total,nodes,open\n"
    assert json.loads(shown("json", [])) == []


def test_totals_stay_exact():
    greatest = 2**62 - 1
    assert json.loads(shown("json", [("a", greatest, [], True)]))[0]["total"] == greatest
    assert str(greatest) in shown("table", [("a", greatest, [], True)])


def test_a_file_is_written_whole_and_keeps_its_mode(tmp_path):
    path = tmp_path / "out"
    write_file(path, b"one")
    assert path.read_bytes() == b"one"
    path.chmod(0o640)
    write_file(path, b"two")
    assert path.read_bytes() == b"two" and path.stat().st_mode & 0o777 == 0o640
    assert os.listdir(tmp_path) == ["out"]


def test_a_file_that_cannot_be_written_leaves_the_place_as_it_was(tmp_path, monkeypatch):
    path = tmp_path / "out"
    path.write_bytes(b"one")

    def fails(*_):
        raise OSError(28, "No space left on device")

    monkeypatch.setattr(os, "replace", fails)
    with pytest.raises(OSError) as caught:
        write_file(path, b"two")
    assert caught.value.filename == str(path)
    assert path.read_bytes() == b"one" and os.listdir(tmp_path) == ["out"]


def test_a_link_stays_a_link(tmp_path):
    path, link = tmp_path / "out", tmp_path / "link"
    link.symlink_to(path)
    write_file(link, b"one")
    assert link.is_symlink() and path.read_bytes() == b"one"


def test_the_input_is_not_written_to(tmp_path):
    path, link = tmp_path / "in", tmp_path / "link"
    path.write_bytes(b"one")
    link.hardlink_to(path)
    for place in (path, link):
        with pytest.raises(OSError, match="is the input, which is not overwritten"):
            write_file(place, b"two", read_from=path)
    assert path.read_bytes() == b"one"
