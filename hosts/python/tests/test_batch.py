"""Batches: one CSV for files of every kind, the same on any number of processes, and gone on with after every kind of stop."""

import csv
import os
import signal
import subprocess
import sys
import time

import pytest
from conftest import PACKAGE, ROOT, TREE_A, TREE_A_FILE

import kterc
from kterc import batch

FULL = ROOT / "trees" / "full"
HEADER = "file,digest,status,rule,record,reason,nodes,k,budget,optimum,greedy,placement\n"
A_ROWS = """\
a.ktr,{0},reported,,,,5,2,0,140000,140000,
a.ktr,{0},reported,,,,5,2,1,60000,60000,1
a.ktr,{0},reported,,,,5,2,2,20000,40000,2 3
"""
A_DIGEST = "50d0fb8a890adbaf"


@pytest.fixture
def folder(tmp_path):
    """Files of every kind: accepted, refused by a record and by the header, empty, a text and a wrong one; in folders too."""
    (tmp_path / "in" / "below").mkdir(parents=True)
    (tmp_path / "a.ktr").write_bytes(TREE_A_FILE)
    (tmp_path / "in" / "b.ktr").write_bytes(TREE_A_FILE[:8] + b"\x00" + TREE_A_FILE[9:])
    (tmp_path / "in" / "long.ktr").write_bytes(TREE_A_FILE[:31] + b"\x09" + TREE_A_FILE[32:])
    (tmp_path / "in" / "empty.ktr").write_bytes(b"")
    (tmp_path / "in" / "below" / "c,d.ktr").write_bytes(TREE_A_FILE)
    (tmp_path / "in" / "text.csv").write_text(TREE_A)
    (tmp_path / "wrong.csv").write_text(TREE_A + "c5,r9,1,1,1\n")
    (tmp_path / "far.csv").write_text(TREE_A + "c5,r1,1001,1,1\n")
    return tmp_path


ALL = ("a.ktr", "in", "in/text.csv", "nix.ktr", "wrong.csv", "far.csv", "a.ktr", "in/b.ktr")


def rows_of(path):
    with open(path, newline="") as stream:
        return list(csv.DictReader(stream))


def test_one_file(run, folder):
    status, out, error = run("batch", "a.ktr", "-o", "out.csv")
    assert (status, out) == (0, "")
    assert error == "kterc: out.csv: 1 file: 1 reported, 0 refused, 0 unreadable\n"
    assert (folder / "out.csv").read_text() == HEADER + A_ROWS.format(A_DIGEST)


def test_all_kinds(run, folder):
    status, _, error = run("batch", *ALL, "-o", "out.csv")
    assert status == 2 and error == "kterc: out.csv: 9 files: 4 reported, 4 refused, 1 unreadable\n"
    rows = rows_of(folder / "out.csv")
    order = list(dict.fromkeys(row["file"] for row in rows))
    assert order == ["a.ktr", "in/b.ktr", "in/below/c,d.ktr", "in/empty.ktr", "in/long.ktr", "in/text.csv", "nix.ktr", "wrong.csv",
                     "far.csv"]
    told = {row["file"]: (row["status"], row["rule"], row["record"], row["reason"]) for row in rows}
    assert told["in/empty.ktr"] == ("refused", "1", "", kterc.rule_text(1))
    assert told["in/long.ktr"] == ("refused", "9", "2", kterc.rule_text(9))
    assert told["nix.ktr"] == ("unreadable", "", "", "No such file or directory")
    assert told["wrong.csv"] == ("refused", "", "", "line 8: unknown parent 'r9': expected the name of a row")
    assert told["far.csv"] == ("refused", "9", "4", f"line 8: {kterc.rule_text(9)}")
    assert [row["placement"] for row in rows if row["file"] == "in/text.csv"] == ["", "r1", "c2 c3"]
    assert [row["budget"] for row in rows if row["file"] == "in/b.ktr"] == ["0"]
    assert [row["file"] for row in rows].count("a.ktr") == 3


def test_status_of_refused_and_none(run, folder):
    assert run("batch", "a.ktr", "in", "-o", "out.csv")[0] == 1
    (folder / "bare").mkdir()
    status, _, error = run("batch", "bare", "-o", "bare.csv")
    assert status == 0 and "0 files" in error and (folder / "bare.csv").read_text() == HEADER


def test_jobs_give_the_same(run, folder):
    for jobs in (1, 2, 5):
        assert run("batch", *ALL, "-o", f"{jobs}.csv", "--jobs", jobs)[0] == 2
    assert (folder / "1.csv").read_bytes() == (folder / "2.csv").read_bytes() == (folder / "5.csv").read_bytes()


def test_stored_reports_of_full_trees(run, tmp_path):
    """The totals and placements of the ten full trees are those stored beside them."""
    assert run("batch", FULL, "-o", "full.csv")[0] == 0
    found = {}
    for row in rows_of(tmp_path / "full.csv"):
        line = f"{row['budget']} {row['optimum']} {row['greedy']} {row['placement']}".rstrip()
        found.setdefault(row["file"], []).append(line)
    assert len(found) == 10
    for file, lines in found.items():
        assert lines == (FULL / os.path.basename(file)).with_suffix(".report").read_text().splitlines()


def goes_on(out, whole, paths):
    """Runs the batch in this process on what is there and sees the same CSV as of an undisturbed run."""
    outcome = batch.run(batch.inputs(paths), out, progress=False)
    with open(out, "rb") as stream:
        assert stream.read() == whole
    return outcome


@pytest.mark.parametrize("paths", [("in", "nix.ktr", "wrong.csv", "a.ktr"), ("x\ny.ktr", os.fsdecode(b"\xff,z.ktr"))])
def test_cut_at_every_byte(folder, monkeypatch, paths):
    """Also where a name has a quoted line break, which ends no row."""
    monkeypatch.chdir(folder)
    for name in ("x\ny.ktr", os.fsdecode(b"\xff,z.ktr")):
        (folder / name).write_bytes(TREE_A_FILE[:8] + b"\x01" + TREE_A_FILE[9:])
    (folder / "in" / "text.csv").unlink()
    batch.run(batch.inputs(paths), "out.csv", progress=False)
    whole, kept = (folder / "out.csv").read_bytes(), set()
    for end in range(len(whole) + 1):
        (folder / "out.csv").write_bytes(whole[:end])
        kept.add(goes_on("out.csv", whole, paths).kept)
    there = len([path for path in batch.inputs(paths) if os.path.exists(path)])
    assert kept == set(range(there + 1))


def test_kept_files_are_not_run_again(folder, monkeypatch):
    monkeypatch.chdir(folder)
    batch.run(batch.inputs(ALL), "out.csv", progress=False)
    whole, asked, answer = (folder / "out.csv").read_bytes(), [], batch.answer
    monkeypatch.setattr(batch, "answer", lambda path, content: asked.append(path) or answer(path, content))
    assert goes_on("out.csv", whole, ALL).kept == 8 and asked == ["nix.ktr"]


def test_only_whole_blocks_stand_in_the_csv(folder, monkeypatch):
    """At each answer the CSV on the disk has the blocks of all files before, whole, and nothing else."""
    monkeypatch.chdir(folder)
    batch.run(batch.inputs(ALL), "out.csv", progress=False)
    whole, seen, answer = (folder / "out.csv").read_bytes(), [], batch.answer
    monkeypatch.setattr(batch, "answer", lambda *input: seen.append((folder / "out.csv").read_bytes()) or answer(*input))
    (folder / "out.csv").write_bytes(whole[:250])
    goes_on("out.csv", whole, ALL)
    assert len(seen) == 8 and len(set(seen)) == 8
    assert all(whole.startswith(content) and content.endswith(b"\n") for content in seen)


def test_changed_found_and_lost_files(run, folder):
    """What has changed, what could not be read and what is missing now is done again, each in its place."""
    run("batch", *ALL, "-o", "out.csv")
    (folder / "a.ktr").write_bytes(TREE_A_FILE[:-1] + b"\x00")
    (folder / "nix.ktr").write_bytes(TREE_A_FILE)
    (folder / "in" / "long.ktr").unlink()
    (folder / "in" / "text.csv").unlink()
    status, _, error = run("batch", *ALL, "-o", "out.csv")
    assert status == 2
    assert error == ("kterc: out.csv: 8 files: 4 reported, 3 refused, 1 unreadable, 5 kept from an earlier run, "
                     "1 no longer named and dropped\n")
    run("batch", *ALL, "-o", "new.csv")
    assert (folder / "out.csv").read_bytes() == (folder / "new.csv").read_bytes()


def test_other_order_and_other_files(run, folder):
    run("batch", "a.ktr", "in", "-o", "out.csv")
    assert "4 kept" in run("batch", "in", "wrong.csv", "-o", "out.csv")[2]
    run("batch", "in", "wrong.csv", "-o", "new.csv")
    assert (folder / "out.csv").read_bytes() == (folder / "new.csv").read_bytes()


def test_rows_by_another_hand_are_made_anew(run, folder):
    """Rows that make no whole block: a budget that is missing, a wrong number of fields, a k that is no number."""
    run("batch", *ALL, "-o", "out.csv")
    whole = (folder / "out.csv").read_text()
    second = A_ROWS.format(A_DIGEST).splitlines(keepends=True)[1]
    for other in ("", second + second, "x,y\n", "\n", second.replace(",5,2,", ",5,k,"), 'a.ktr,"x"y\n'):
        (folder / "out.csv").write_text(whole.replace(second, other))
        run("batch", *ALL, "-o", "out.csv", "--jobs", 1)
        assert (folder / "out.csv").read_text() == whole


@pytest.mark.parametrize("content", ["x", "file,digest\n", HEADER[:-1] + ",more\n", "\n", HEADER.replace("file", "path")])
def test_other_csv_is_not_overwritten(run, folder, content):
    (folder / "out.csv").write_text(content)
    status, _, error = run("batch", "a.ktr", "-o", "out.csv")
    assert (status, error) == (2, "kterc: out.csv: is not the CSV of a batch, and is not overwritten\n")
    assert (folder / "out.csv").read_text() == content


def test_wrong_places(run, folder):
    assert run("batch", "a.ktr", "-o", "nix/out.csv")[0] == 2
    status, _, error = run("batch", "a.ktr", "-o", "in")
    assert status == 2 and error.startswith("kterc: in: is not a file")
    assert run("batch", "a.ktr")[0] == 2
    assert run("batch", "a.ktr", "-o", "out.csv", "--jobs", "two")[0] == 2
    assert not (folder / "out.csv").exists()


def test_missing_package(run, folder):
    (folder / "distributed.py").write_text("raise ModuleNotFoundError(name='distributed')\n")
    status, _, error = run("batch", "a.ktr", "-o", "out.csv", "--scheduler", "tcp://127.0.0.1:9")
    assert (status, error) == (2, "kterc: this needs the Python package distributed, which is not installed\n")


@pytest.mark.filterwarnings("ignore:make_current is deprecated")
def test_no_scheduler(folder):
    pytest.importorskip("distributed")
    with pytest.raises(OSError, match="no Dask scheduler answers") as raised:
        batch.run([str(folder / "a.ktr")], str(folder / "out.csv"), scheduler="nowhere", progress=False)
    assert raised.value.filename == "nowhere"


def test_full_disk(run, folder):
    """A CSV that cannot grow any more is told, and gone on with when there is room."""
    command = f"ulimit -f 1; exec {sys.executable} -m kterc batch {' '.join(ALL)} -o out.csv"
    environment = {**os.environ, "PYTHONPATH": str(PACKAGE)}
    done = subprocess.run(["bash", "-c", command], cwd=folder, env=environment, stderr=subprocess.PIPE, text=True)
    assert (done.returncode, done.stderr) == (2, "kterc: out.csv: File too large\n")
    assert "kept" in run("batch", *ALL, "-o", "out.csv")[2]
    run("batch", *ALL, "-o", "new.csv")
    assert (folder / "out.csv").read_bytes() == (folder / "new.csv").read_bytes()


def test_missing_library_leaves_the_csv(run, folder):
    (folder / "out.csv").write_text(HEADER)
    assert run("batch", "a.ktr", "-o", "out.csv", library="nix.so")[0] == 2
    assert (folder / "out.csv").read_text() == HEADER


@pytest.fixture
def waiting(tmp_path):
    """A folder of 16 full-size files, the ninth a pipe: whoever reads it waits."""
    (tmp_path / "many").mkdir()
    for number in range(16):
        (tmp_path / "many" / f"{number:02}.ktr").write_bytes((FULL / "deep.ktr").read_bytes())
    pipe = tmp_path / "many" / "08.ktr"
    pipe.unlink()
    os.mkfifo(pipe)
    return pipe


@pytest.mark.parametrize("jobs", [1, 2])
@pytest.mark.parametrize("number", [signal.SIGINT, signal.SIGTERM, signal.SIGKILL])
def test_stopped_by_a_signal(run, tmp_path, waiting, jobs, number):
    """The process is stopped in the middle; what it left is gone on with, and no worker stays behind."""
    environment, out = {**os.environ, "PYTHONPATH": str(PACKAGE)}, tmp_path / "out.csv"
    command = [sys.executable, "-m", "kterc", "batch", "many", "-o", "out.csv", "--jobs", str(jobs)]
    with subprocess.Popen(command, cwd=tmp_path, env=environment, stderr=subprocess.PIPE, start_new_session=True) as process:
        while not out.exists() or out.read_bytes().count(b"\n") < 1 + 8 * 33:
            time.sleep(0.01)
        process.send_signal(number)
        error = process.stderr.read().decode()  # ends when the last worker has ended too
    if number == signal.SIGKILL:
        assert process.returncode == -number
    else:
        assert process.returncode == 128 + number
        assert error == "kterc: out.csv: 16 files: 8 reported, 0 refused, 0 unreadable, 8 not done\n"
    begun = out.read_bytes()
    waiting.unlink()
    waiting.write_bytes((FULL / "star.ktr").read_bytes())
    status, _, error = run("batch", "many", "-o", "out.csv")
    assert status == 0 and "16 reported, 0 refused, 0 unreadable, 8 kept from an earlier run" in error
    run("batch", "many", "-o", "new.csv")
    assert out.read_bytes() == (tmp_path / "new.csv").read_bytes() and out.read_bytes().startswith(begun)


def test_no_process_is_wrong_usage(run, folder):
    status, _, error = run("batch", "a.ktr", "-o", "out.csv", "--jobs", "0")
    assert status == 2 and "--jobs 0: expected at least one process" in error and not (folder / "out.csv").exists()


def test_stopped_while_answers_are_sent(tmp_path):
    """Long paths make answers that a pipe does not hold; a worker that is stopped while it sends one is not waited for."""
    folder = tmp_path.joinpath(*3 * ["x" * 240])
    folder.mkdir(parents=True)
    for number in range(200):
        (folder / f"{number:03}.ktr").symlink_to(FULL / "greatest.ktr")
    environment, out = {**os.environ, "PYTHONPATH": str(PACKAGE)}, tmp_path / "out.csv"
    command = [sys.executable, "-m", "kterc", "batch", "x" * 240, "-o", "out.csv", "--jobs", "2"]
    for rows in (34, 100, 300):
        out.unlink(missing_ok=True)
        with subprocess.Popen(command, cwd=tmp_path, env=environment, stderr=subprocess.DEVNULL) as process:
            while not out.exists() or out.read_bytes().count(b"\n") < rows:
                time.sleep(0.001)
            process.send_signal(signal.SIGINT)
            assert process.wait(timeout=20) == 128 + signal.SIGINT


def test_a_worker_that_is_killed(tmp_path, waiting, run):
    """A process of the batch that ends by itself ends the batch with an error, and what is there is gone on with."""
    environment, out = {**os.environ, "PYTHONPATH": str(PACKAGE)}, tmp_path / "out.csv"
    command = [sys.executable, "-m", "kterc", "batch", "many", "-o", "out.csv", "--jobs", "2"]
    with subprocess.Popen(command, cwd=tmp_path, env=environment, stderr=subprocess.PIPE) as process:
        while not out.exists() or out.read_bytes().count(b"\n") < 1 + 8 * 33:
            time.sleep(0.01)
        workers = [int(pid) for pid in open(f"/proc/{process.pid}/task/{process.pid}/children").read().split()]
        os.kill(workers[0], signal.SIGKILL)
        error = process.stderr.read().decode()
    assert process.returncode == 2 and error == "kterc: batch: a process of the batch ended; started again, the batch goes on\n"
    waiting.unlink()
    assert "8 kept" in run("batch", "many", "-o", "out.csv")[2]


@pytest.mark.filterwarnings("ignore:make_current is deprecated")
def test_cluster(folder):
    distributed = pytest.importorskip("distributed")
    paths = batch.inputs([str(folder / path) for path in ALL])
    batch.run(paths, str(folder / "own.csv"), progress=False)
    settings = {"n_workers": 1, "threads_per_worker": 2, "processes": False, "dashboard_address": None}
    with distributed.LocalCluster(**settings) as cluster:
        outcome = batch.run(paths, str(folder / "cluster.csv"), scheduler=cluster.scheduler_address, progress=False)
    assert outcome.left == 0 and (folder / "own.csv").read_bytes() == (folder / "cluster.csv").read_bytes()
