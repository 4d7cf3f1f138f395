"""Plans transparent caches on a routing tree with the proved k-TERC library.

    import kterc
    source = kterc.read("tree.csv")
    report = kterc.report(source.file)
    print(report.totals, [source.tree.named(nodes) for nodes in report.sets])

Calls take the bytes of a tree file and node numbers; a tree turns names into numbers and back.
"""

from .fault import Fault
from .library import (
    Bill,
    Greedy,
    LibraryMissing,
    Plan,
    Refused,
    Report,
    Target,
    WithWithout,
    bill,
    check,
    greedy,
    plan,
    rank,
    record,
    report,
    rule_text,
    scratch_words,
    target,
    version,
    with_without,
)
from .source import Source, read
from .text import TextError, read_text, write_text
from .tree import Misarranged, Node, Tree, UnknownNode

__version__ = "1.0.0"
