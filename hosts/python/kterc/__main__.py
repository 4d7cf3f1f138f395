"""The command line, `python3 -m kterc`: status 0 fine, 1 refused, 2 not read, not written or wrong usage, 130 stopped."""

import argparse
import errno
import io
import os
import sys

from . import __version__
from .commands import Parser, batch, bill, check, compare, draw, make, node, rank, report, show, target
from .fault import Fault
from .library import LibraryMissing, version
from .output import tell
from .source import shown

COMMANDS = (make, show, check, bill, report, node, target, rank, compare, batch, draw)


def main(arguments=None):
    """Runs a command and returns its status; the one place that turns exceptions into messages."""
    args = argparse.Namespace(file=None)
    try:
        _open_output()
        try:
            _parser().parse_args(arguments, args)
            return args.run(args)
        finally:
            sys.stdout.flush()
    except Fault as fault:
        if fault.path is None and args.file is not None:
            fault.path = shown(args.file)
        tell(fault)
        return 1
    except OSError as error:
        _abandon_output()
        if not isinstance(error, BrokenPipeError):  # a reader that has enough, as `head`, needs no message
            tell(error)
        return 2
    except LibraryMissing as missing:
        tell(missing)
        return 2
    except ModuleNotFoundError as missing:
        tell(f"this needs the Python package {missing.name}, which is not installed")
        return 2
    except KeyboardInterrupt:
        tell("stopped")
        return 130


def _parser():
    """The name of the program is what was typed."""
    name = os.path.basename(sys.argv[0])
    parser = argparse.ArgumentParser(
        prog="python3 -m kterc" if name == "__main__.py" else name,
        description="Plans transparent caches on a routing tree with the proved library.",
        epilog="COMMAND --help tells more of a command and has examples. Status: 0 fine, 1 refused by a rule or a text that "
        "breaks the form, 2 could not read or write, or wrong usage.",
    )
    parser.add_argument("--version", action=_Version, help="print the versions of the package and of the library")
    subparsers = parser.add_subparsers(title="commands", metavar="COMMAND", required=True, parser_class=Parser)
    for command in COMMANDS:
        command.add(subparsers)
    return parser


class _Version(argparse.Action):
    """Prints both versions; the library is loaded for this only where it is asked."""

    def __init__(self, *args, **settings):
        super().__init__(*args, nargs=0, **settings)

    def __call__(self, parser, *_):
        print(f"kterc {__version__}, library {version()}")
        parser.exit()


def _open_output():
    """Names are written in UTF-8 whatever the locale, and file names with the bytes they have. A stream without a buffer, as
    python3 -u has it, is given one: it would not tell that a write was cut short."""
    if sys.stdout is None:
        raise OSError(errno.EBADF, os.strerror(errno.EBADF))
    if isinstance(sys.stdout.buffer, io.RawIOBase):
        sys.stdout = open(sys.stdout.fileno(), "w", closefd=False)
    sys.stdout.reconfigure(encoding="utf-8", errors="surrogateescape")


def _abandon_output():
    """Drops what standard output could not take, so that ending does not try again."""
    try:
        if sys.stdout is not None:
            sys.stdout.flush()
    except OSError:
        os.dup2(os.open(os.devnull, os.O_WRONLY), sys.stdout.fileno())


if __name__ == "__main__":
    sys.exit(main())
