"""The command `batch`: the reports of many files in one CSV."""

import os
import sys

from ..output import tell
from . import add_command, whole_number


def add(subparsers):
    parser = add_command(
        subparsers,
        "batch",
        run,
        "write the reports of many files to one CSV",
        """
        Writes the reports of all files to one CSV: a row for each budget, or one row for a file that is
        refused or cannot be read; neither stops the rest. Folders are searched for *.ktr; a file that is
        named may also be the CSV text of a tree. Started again with the same CSV it goes on where it
        stopped, and files that have changed since are done again. Rows stand in the order of the files.
        """,
        """
        %(prog)s trees -o reports.csv
        %(prog)s --jobs 4 monday.ktr tuesday.ktr week1.csv -o reports.csv
        %(prog)s --scheduler tcp://10.0.0.5:8786 trees -o reports.csv
        """,
    )
    parser.add_argument("paths", nargs="+", metavar="path", help="a tree file, the CSV text of a tree, or a folder")
    parser.add_argument("-o", dest="out", required=True, metavar="OUT", help="the CSV to write, or to go on with")
    where = parser.add_mutually_exclusive_group()
    where.add_argument("--jobs", type=whole_number, metavar="N", help="processes (default: as many as there are cores)")
    where.add_argument("--scheduler", metavar="ADDRESS", help="have the workers of this Dask scheduler do it")
    parser.add_argument("--no-progress", action="store_true", help="show no bar, also not on a terminal")


def run(args):
    from .. import batch

    paths = batch.inputs(args.paths)
    if args.jobs == 0:
        args.wrong("--jobs 0: expected at least one process")
    jobs = args.jobs or len(os.sched_getaffinity(0))
    outcome = batch.run(paths, args.out, jobs, args.scheduler, False if args.no_progress else None)
    tell(_summary(outcome, len(paths), args.out))
    if outcome.signal is not None:
        sys.stderr.flush()
        os._exit(128 + outcome.signal)  # without waiting for processes that were stopped
    return 2 if outcome.counts[batch.UNREADABLE] else 1 if outcome.counts[batch.REFUSED] else 0


def _summary(outcome, files, out):
    said = [f"{count} {status}" for status, count in outcome.counts.items()]
    more = {"kept from an earlier run": outcome.kept, "no longer named and dropped": outcome.dropped, "not done": outcome.left}
    said += [f"{count} {text}" for text, count in more.items() if count]
    return f"{out}: {files} {'file' if files == 1 else 'files'}: {', '.join(said)}"
