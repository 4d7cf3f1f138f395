"""The calls of the proved library, libkterc.so, on the bytes of a tree file.

Every number in an answer is the library's. Totals and loads are whole thousandths. A call that the library refuses raises Refused.
Each call lends arrays of its own, of just the size that include/kterc.h asks, and frees the interpreter meanwhile, so calls may
run in threads.
"""

import ctypes
import ctypes.util
import functools
import operator
import os
from pathlib import Path
from typing import List, NamedTuple, Optional

from .fault import Fault

# Named as in include/kterc.h.
KTERC_NO_TOTAL = 2**64 - 1
KTERC_FIRST = 253
KTERC_SECOND = 254
KTERC_NONE = 255

RECORD_BYTES = {1: 10, 2: 12, 3: 13}  # by the version of the file
RULES_ON_RECORDS = frozenset((7, 8, 9, 10, 11, 17, 24))

_FILE = (ctypes.c_char_p, ctypes.c_size_t)
_NUMBERS = (ctypes.POINTER(ctypes.c_uint16), ctypes.c_size_t)
_WORDS = (ctypes.POINTER(ctypes.c_uint64), ctypes.c_size_t)
_CODE, _SIZE, _TEXT = ctypes.c_uint32, ctypes.c_size_t, ctypes.c_char_p
_CALLS = {  # the result and the arguments of each call
    "kterc_version": (_TEXT, ()),
    "kterc_rule_text": (_TEXT, (ctypes.c_uint32,)),
    "kterc_check": (_CODE, _FILE),
    "kterc_scratch_words": (_SIZE, _FILE),
    "kterc_bill": (_CODE, _FILE + _NUMBERS + _WORDS + _NUMBERS + _WORDS),
    "kterc_plan": (_CODE, _FILE + _WORDS + _WORDS + _NUMBERS),
    "kterc_greedy": (_CODE, _FILE + _WORDS + _WORDS + _NUMBERS),
    "kterc_report": (_CODE, _FILE + _WORDS + _WORDS + _NUMBERS + _WORDS + _NUMBERS),
    "kterc_with_without": (_CODE, _FILE + (_SIZE, _SIZE) + _WORDS + _WORDS),
    "kterc_target": (_CODE, _FILE + (ctypes.c_uint64,) + _WORDS + _NUMBERS + _NUMBERS),
    "kterc_record": (_SIZE, _FILE + (_SIZE,)),
    "kterc_rank": (_CODE, _FILE + _NUMBERS + _NUMBERS),
}


class LibraryMissing(Exception):
    """The library is not found, cannot be loaded, or lacks a call."""


class Refused(Fault):
    """A call that the library refused: the number of the first broken rule, the record it broke on (0 where none is at fault)
    and the rule's sentence."""

    why = None  # which node of a named set is at fault, and why

    def __init__(self, rule, record, sentence):
        super().__init__(rule, record, sentence)
        self.rule, self.record, self.sentence = rule, record, sentence

    @property
    def said(self):
        record = f", record {self.record}" if self.rule in RULES_ON_RECORDS else ""
        why = "" if self.why is None else f"{self.why}: "
        return f"refused by rule {self.rule}{record}: {why}{self.sentence}"


class Bill(NamedTuple):
    """A set's total, and by node number the serving node and the load on the link above."""

    total: int
    serving: List[int]
    loads: List[int]


class Plan(NamedTuple):
    """By budget, from 0 to k: the least total and the nodes of the set that has it, ascending."""

    totals: List[int]
    sets: List[List[int]]


class Greedy(NamedTuple):
    """The greedy rule's totals by budget, and its nodes in the order taken."""

    totals: List[int]
    nodes: List[int]


class Report(NamedTuple):
    """The answers of Plan and Greedy together."""

    totals: List[int]
    sets: List[List[int]]
    greedy_totals: List[int]
    greedy_nodes: List[int]


class WithWithout(NamedTuple):
    """The least total of the sets that have a node, None where there is no such set, and of those that don't have it."""

    with_it: Optional[int]
    without_it: int


class Target(NamedTuple):
    """The least budget that is enough for a target, and the nodes of the plan at that budget."""

    budget: int
    nodes: List[int]


def version():
    """The library's version as text."""
    return _library().kterc_version().decode("ascii")


def rule_text(rule):
    """The sentence of a rule, None for a number that is no rule's."""
    sentence = _library().kterc_rule_text(rule) if 0 <= rule < 2**32 else None
    return sentence and sentence.decode("utf-8")


def refusal(rule, record=0):
    """The exception of a refusal, with the rule's sentence."""
    return Refused(rule, record, rule_text(rule))


def nodes_of(file):
    """The nodes n of an accepted file, as KTERC_NODES_OF."""
    return _number(file, 5)


def budget_of(file):
    """The budget k of an accepted file, as KTERC_BUDGET_OF."""
    return _number(file, 7)


def check(file):
    """Raises Refused where the file is not accepted. kterc_check tells no record; the bill of no nodes does."""
    if _call("kterc_check", file):
        _demand(_call("kterc_bill", file, _numbers(0), _words(0), _numbers(0), _words(0)))


def bill(file, nodes):
    """The bill of a set of node numbers, which rule 12 asks to ascend: they are passed on as they stand."""
    n, _ = _sizes(file)
    total, serving, loads = _words(1), _numbers(n), _words(n)
    _demand(_call("kterc_bill", file, _set(nodes), total, serving, loads))
    return Bill(total.entries()[0], serving.entries(), loads.entries())


def plan(file):
    """The least total and its set for each budget."""
    _, k = _sizes(file)
    totals, rows = _words(k + 1), _numbers((k + 1) * k)
    _demand(_call("kterc_plan", file, _scratch(file), totals, rows))
    return Plan(totals.entries(), _sets(rows, k))


def greedy(file):
    """What the greedy rule reaches at each budget, and the nodes it takes."""
    _, k = _sizes(file)
    totals, nodes = _words(k + 1), _numbers(k)
    _demand(_call("kterc_greedy", file, _scratch(file), totals, nodes))
    return Greedy(totals.entries(), _nodes(nodes.entries()))


def report(file):
    """The plan and the greedy rule in one call."""
    _, k = _sizes(file)
    totals, rows, greedy_totals, greedy_nodes = _words(k + 1), _numbers((k + 1) * k), _words(k + 1), _numbers(k)
    _demand(_call("kterc_report", file, _scratch(file), totals, rows, greedy_totals, greedy_nodes))
    return Report(totals.entries(), _sets(rows, k), greedy_totals.entries(), _nodes(greedy_nodes.entries()))


def with_without(file, node, budget):
    """The least totals of at most `budget` caches with the node and without it."""
    check(file)
    node, budget = operator.index(node), operator.index(budget)
    if not (_fits(node, _SIZE) and _fits(budget, _SIZE)):
        raise refusal(16)
    totals = _words(2)
    _demand(_call("kterc_with_without", file, node, budget, _scratch(file), totals))
    with_it, without_it = totals.entries()
    return WithWithout(None if with_it == KTERC_NO_TOTAL else with_it, without_it)


def target(file, total):
    """The least budget whose plan total is no larger than the given one, None where the file's whole budget is not enough."""
    _, k = _sizes(file)
    total = operator.index(total)
    if not _fits(total, ctypes.c_uint64):
        raise ValueError("a target is from 0 to 2^64 - 1")
    budget, row = _numbers(1), _numbers(k)
    code = _call("kterc_target", file, total, _scratch(file), budget, row)
    if code == KTERC_NONE:
        return None
    _demand(code)
    return Target(budget.entries()[0], _nodes(row.entries()))


def record(file, node):
    """The bytes of a node's record, None where the file is refused or has no such node."""
    place = _call("kterc_record", file, node) if _fits(node, _SIZE) else 0
    return file[place : place + RECORD_BYTES[_number(file, 3)]] if place else None


def rank(file, first, second):
    """1 or 2: which of two sets of node numbers ranks first, by total and then in the order of ties. Equal sets: 1."""
    check(file)
    code = _call("kterc_rank", file, _set(first), _set(second))
    if code not in (KTERC_FIRST, KTERC_SECOND):
        _demand(code)
    return 1 if code == KTERC_FIRST else 2


def scratch_words(file):
    """The words of 64 bits that a call on the file works in."""
    check(file)
    return _call("kterc_scratch_words", file)


class _Lent:
    """An array to lend. There is memory also where no entry is asked."""

    def __init__(self, kind, length, values=()):
        self.memory = (kind * max(1, length))(*values)
        self.length = length

    def entries(self):
        return self.memory[: self.length]


def _words(length):
    return _Lent(ctypes.c_uint64, length)


def _numbers(length):
    return _Lent(ctypes.c_uint16, length)


def _scratch(file):
    return _words(_call("kterc_scratch_words", file))


def _set(nodes):
    """A set to lend, for an accepted file. A number that does not fit 16 bits is no node's, so rule 12 refuses it here."""
    numbers = [operator.index(node) for node in nodes]
    if not all(_fits(number, ctypes.c_uint16) for number in numbers):
        raise refusal(12)
    return _Lent(ctypes.c_uint16, len(numbers), numbers)


def _fits(number, kind):
    return 0 <= number < 256 ** ctypes.sizeof(kind)


def _number(file, place):
    return int.from_bytes(file[place : place + 2], "big")


def _sizes(file):
    """The nodes n and the budget k of an accepted file."""
    check(file)
    return nodes_of(file), budget_of(file)


def _nodes(row):
    return [node for node in row if node]


def _sets(rows, k):
    """The set of each budget from rows of k entries."""
    entries = rows.entries()
    return [_nodes(entries[b * k : (b + 1) * k]) for b in range(k + 1)]


def _call(name, file, *arguments):
    passed = [file, len(file)]
    for argument in arguments:
        passed += (argument.memory, argument.length) if isinstance(argument, _Lent) else (argument,)
    return getattr(_library(), name)(*passed)


def _demand(code):
    """Raises Refused for the code of a refusal."""
    if code:
        raise refusal(code % 256, code // 256)


@functools.lru_cache(maxsize=None)
def _library():
    """The loaded library, each call with its types."""
    path = _path()
    try:
        library = ctypes.CDLL(path)
    except OSError as error:
        raise LibraryMissing(f"the library {path} cannot be loaded ({error}): {_REMEDY}") from None
    for name, (result, arguments) in _CALLS.items():
        try:
            call = getattr(library, name)
        except AttributeError:
            raise LibraryMissing(f"the library {path} has no {name} and is older than this package: {_REMEDY}") from None
        call.restype, call.argtypes = result, arguments
    return library


_REMEDY = "run `make` at the project's root, or set KTERC_LIBRARY to the path of libkterc.so"


def _path():
    """The path that KTERC_LIBRARY names; else the library built in the repository of this file; else the installed one."""
    named = os.environ.get("KTERC_LIBRARY")
    if named:
        return os.path.abspath(named)
    built = Path(__file__).resolve().parents[3] / "target" / "lib" / "libkterc.so"
    if built.exists():
        return str(built)
    return ctypes.util.find_library("kterc") or "libkterc.so.1"
