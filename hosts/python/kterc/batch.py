"""Reports of many inputs in one CSV, by all cores or a Dask cluster. A run that was stopped goes on where it stopped.

Each input has a block of rows: one for each budget, or a single row where it was refused or could not be read. A block is kept by a
later run where it is whole and the input's bytes have the same digest; all others are made anew. Blocks stand in the order of the
inputs.
"""

import csv
import errno
import hashlib
import io
import itertools
import multiprocessing
import os
import signal
import threading
from concurrent.futures import ProcessPoolExecutor
from concurrent.futures.process import BrokenProcessPool
from contextlib import contextmanager
from pathlib import Path
from typing import NamedTuple

from tqdm import tqdm

from . import library
from .fault import Fault
from .output import write_file
from .source import is_text, parse

COLUMNS = ("file", "digest", "status", "rule", "record", "reason", "nodes", "k", "budget", "optimum", "greedy", "placement")
REPORTED, REFUSED, UNREADABLE = STATUSES = ("reported", "refused", "unreadable")
PICKED = "*.ktr"  # the files that a folder is searched for
CHUNK = 4  # inputs at most that a process takes at once
SENT = 1000  # inputs at most whose bytes are sent to a cluster at once


class Answer(NamedTuple):
    """An input's status and the bytes of its rows."""

    status: str
    rows: bytes


class Block(NamedTuple):
    """Where the rows of an input stand in the CSV, in bytes."""

    status: str
    digest: str
    start: int
    end: int


class Outcome(NamedTuple):
    """How many inputs have each status, how many of them were kept from an earlier run, how many blocks of other inputs were
    dropped, how many inputs are not done, and the signal that stopped the run, None where it came to its end."""

    counts: dict
    kept: int
    dropped: int
    left: int
    signal: int


class Stopped(KeyboardInterrupt):
    """A signal asked the run to stop."""


def inputs(paths):
    """The inputs that files and folders name, each once, in order. A folder is searched with all that are in it."""
    found = []
    for path in paths:
        if os.path.isdir(path):
            found += [str(file) for file in sorted(Path(path).rglob(PICKED)) if not file.is_dir()]
        else:
            found.append(path)
    return list(dict.fromkeys(found))


def run(paths, out, jobs=1, scheduler=None, progress=None):
    """Writes the blocks of inputs to the CSV. progress: whether a bar is shown; None: where standard error is a terminal."""
    library.version()
    old = _read_blocks(out)
    blocks = {path: old[path] for path in paths if path in old and _is_current(path, old[path])}
    kept, dropped = len(blocks), len(set(old).difference(paths))
    blocks = _rearrange(out, blocks)
    missing = [path for path in paths if path not in blocks]
    stopped, hidden = None, None if progress is None else not progress
    try:
        with _Signals() as signals, open(out, "ab") as stream, _answers(missing, jobs, scheduler) as answers:
            bar = tqdm(answers, total=len(paths), initial=kept, unit="file", disable=hidden)
            for answer, path in zip(bar, missing):
                with signals.held():
                    blocks[path] = _append(stream, answer)
    except Stopped as stop:
        stopped = stop.args[0]
    except OSError as error:
        error.filename = error.filename or out
        raise
    _rearrange(out, {path: blocks[path] for path in paths if path in blocks})
    counts = {status: sum(block.status == status for block in blocks.values()) for status in STATUSES}
    return Outcome(counts, kept, dropped, len(paths) - len(blocks), stopped)


# One input.

def answer_of(path):
    """The answer for an input that this process reads."""
    return answer(path, _content(path))


def answer(path, content):
    """The answer for an input's bytes, or for the OSError that reading it gave."""
    if isinstance(content, OSError):
        return Answer(UNREADABLE, _rows([[path, "", UNREADABLE, "", "", content.strerror or content, *[""] * 6]]))
    begin = [path, _digest(content)]
    try:
        file, names = _tree_file(path, content)
        report = library.report(file)
    except Fault as fault:
        return Answer(REFUSED, _rows([[*begin, REFUSED, *_refusal(fault), *[""] * 6]]))
    begin += [REPORTED, "", "", "", library.nodes_of(file), library.budget_of(file)]
    return Answer(REPORTED, _rows(
        [*begin, budget, total, greedy, " ".join(map(names, nodes))]
        for budget, (total, greedy, nodes) in enumerate(zip(report.totals, report.greedy_totals, report.sets))))


def _content(path):
    try:
        return Path(path).read_bytes()
    except OSError as error:
        return error


def _digest(content):
    return hashlib.sha256(content).hexdigest()[:16]


def _tree_file(path, content):
    """The tree file of an input, and how a node is named. A tree file is judged by the report call itself."""
    if not is_text(path, content):
        return content, str
    source = parse(path, content)
    return source.file, source.tree.names.__getitem__


def _refusal(fault):
    """The rule, the record and the reason, with the line of a text."""
    fault.path = None
    if not isinstance(fault, library.Refused):
        return "", "", str(fault)
    record = fault.record if fault.rule in library.RULES_ON_RECORDS else ""
    return fault.rule, record, fault.sentence if fault.line is None else f"line {fault.line}: {fault.sentence}"


def _rows(rows):
    text = io.StringIO()
    csv.writer(text, lineterminator="\n").writerows(rows)
    return text.getvalue().encode("utf-8", "surrogateescape")


HEADER = _rows([COLUMNS])


# Many inputs.

@contextmanager
def _answers(paths, jobs, scheduler):
    """The answers in the order of the inputs."""
    if scheduler is not None:
        with _cluster(scheduler) as client:
            yield _from_cluster(client, paths)
    elif jobs == 1 or len(paths) < 2:
        yield map(answer_of, paths)
    else:
        others, stopped = multiprocessing.active_children(), False
        pool = ProcessPoolExecutor(min(jobs, len(paths)), initializer=_begin_worker)
        try:
            yield _from_pool(pool.map(answer_of, paths, chunksize=max(1, min(CHUNK, len(paths) // (4 * jobs)))))
        except Stopped:
            stopped = True
            raise
        finally:  # a worker that is stopped may be sending an answer, which is not waited for
            pool.shutdown(wait=not stopped, cancel_futures=True)
            for worker in set(multiprocessing.active_children()).difference(others) if stopped else ():
                worker.terminate()


def _from_pool(answers):
    try:
        yield from answers
    except BrokenProcessPool:
        raise OSError(errno.ECHILD, "a process of the batch ended; started again, the batch goes on", "batch") from None


def _begin_worker():
    """A worker leaves signals to the process that started it, and ends with it."""
    signal.signal(signal.SIGINT, signal.SIG_IGN)
    signal.signal(signal.SIGTERM, signal.SIG_DFL)
    threading.Thread(target=_end_with_parent, daemon=True).start()


def _end_with_parent():
    multiprocessing.parent_process().join()
    os._exit(1)


def _cluster(address):
    from distributed import Client

    try:
        return Client(address)
    except (OSError, ValueError) as error:
        raise OSError(errno.ECONNREFUSED, f"no Dask scheduler answers ({error})", address) from None


def _from_cluster(client, paths):
    for start in range(0, len(paths), SENT):
        group = paths[start : start + SENT]
        for future in client.map(answer, group, list(map(_content, group)), pure=False):
            yield future.result()


class _Signals:
    """Turns SIGINT and SIGTERM into Stopped, but not while a block is written."""

    def __init__(self):
        self.holding, self.waiting = False, None

    def __enter__(self):
        self.before = {number: signal.signal(number, self.stop) for number in (signal.SIGINT, signal.SIGTERM)}
        return self

    def __exit__(self, *_):
        for number, handler in self.before.items():
            signal.signal(number, handler)

    def stop(self, number, _):
        self.waiting = number
        if not self.holding:
            raise Stopped(number)

    @contextmanager
    def held(self):
        self.holding = True
        yield
        self.holding = False
        if self.waiting is not None:
            raise Stopped(self.waiting)


# The CSV.

def _append(stream, answer):
    start = stream.tell()
    stream.write(answer.rows)
    stream.flush()
    return Block(answer.status, "", start, start + len(answer.rows))


def _is_current(path, block):
    """Whether an input still is what the block was made from. One that could not be read has no digest, and is tried again."""
    content = _content(path)
    return isinstance(content, bytes) and _digest(content) == block.digest


def _read_blocks(out):
    """The whole blocks of a CSV that an earlier run left, by input. A CSV of another kind is not touched."""
    if not os.path.exists(out):
        return {}
    if not os.path.isfile(out):
        raise OSError(errno.EINVAL, "is not a file: expected the CSV of a batch, or a new name", out)
    with open(out, "rb") as stream:
        first = stream.readline()
        if first != HEADER and not HEADER.startswith(first):
            raise OSError(errno.EEXIST, "is not the CSV of a batch, and is not overwritten", out)
        return dict(_whole_blocks(_rows_with_places(stream, len(HEADER)))) if first == HEADER else {}


def _rows_with_places(stream, place):
    """The whole rows of a CSV from a place on, each with the places in bytes where it begins and ends."""

    def lines():
        nonlocal place
        for line in stream:
            if line.endswith(b"\n"):
                place += len(line)
                yield line.decode("utf-8", "surrogateescape")

    reader, start = csv.reader(lines(), strict=True), place
    while True:
        try:
            row = next(reader, None)
        except csv.Error:  # a quoted text that is cut
            return
        if row is None:
            return
        yield row, start, place
        start = place


def _whole_blocks(rows):
    """Pairs of an input and its block; what is no whole block is left out."""
    for _, group in itertools.groupby(rows, key=lambda one: one[0][:8]):
        group = list(group)
        if not all(len(row) == len(COLUMNS) for row, _, _ in group):
            continue
        found = [dict(zip(COLUMNS, row)) for row, _, _ in group]
        one = found[0]
        if [row["budget"] for row in found] == _budgets(one):
            yield one["file"], Block(one["status"], one["digest"], group[0][1], group[-1][2])


def _budgets(row):
    """The budgets that the rows of a whole block have."""
    if row["status"] != REPORTED:
        return [""]
    return [str(budget) for budget in range(int(row["k"]) + 1)] if row["k"].isdigit() else []


def _rearrange(out, blocks):
    """Leaves just these blocks in the CSV, in this order; returns them where they then stand."""
    places = list(itertools.accumulate((block.end - block.start for block in blocks.values()), initial=len(HEADER)))
    moved = {path: block._replace(start=start, end=end)
             for (path, block), start, end in zip(blocks.items(), places, places[1:])}
    if not blocks:
        write_file(out, HEADER)
    elif moved == blocks:
        os.truncate(out, places[-1])
    else:
        content = Path(out).read_bytes()
        write_file(out, HEADER + b"".join(content[block.start : block.end] for block in blocks.values()))
    return moved
