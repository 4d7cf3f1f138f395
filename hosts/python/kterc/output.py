"""What a command writes: rows as a table, CSV or JSON on a stream, messages, and whole files."""

import contextlib
import csv
import errno
import json
import os
import secrets
import shutil
import sys
from decimal import Decimal

FORMATS = ("table", "csv", "json")


def show(rows, columns, format, out, facts=None):
    """Writes rows, each a sequence with a value for each column. A value is a number, a text, None, a truth value, or a list of
    names. Facts, by name, hold for all rows: lines above a table, first columns in CSV, members beside "rows" in JSON."""
    rows, facts = [list(row) for row in rows], facts or {}
    if format == "json":
        _show_json(rows, columns, out, facts)
    elif format == "csv":
        writer = csv.writer(out, lineterminator="\n")
        writer.writerow([*facts, *columns])
        writer.writerows([_text(value, "") for value in (*facts.values(), *row)] for row in rows)
    else:
        out.writelines(f"{name}: {_text(value, '-')}\n" for name, value in facts.items())
        _show_table(rows, columns, out)


def _show_json(rows, columns, out, facts):
    members = [dict(zip(columns, row)) for row in rows]
    json.dump({**facts, "rows": members} if facts else members, out, indent=2, ensure_ascii=False, default=float)
    out.write("\n")


def _show_table(rows, columns, out):
    lines = [list(columns)] + [[_text(value, "-") for value in row] for row in rows]
    widths = [max(len(line[place]) for line in lines) for place in range(len(columns))]
    right = [bool(rows) and all(_is_number(row[place]) for row in rows) for place in range(len(columns))]
    for line in lines:
        cells = [cell.rjust(width) if to_right else cell.ljust(width) for cell, width, to_right in zip(line, widths, right)]
        out.write("  ".join(cells).rstrip() + "\n")


def _is_number(value):
    return value is None or isinstance(value, (int, Decimal)) and not isinstance(value, bool)


def _text(value, none):
    if value is None:
        return none
    if isinstance(value, bool):
        return "yes" if value else "no"
    return " ".join(value) if isinstance(value, (list, tuple)) else str(value)


def tell(message):
    """Writes a message, or that of an exception, to standard error. An OSError without a file name is standard output's."""
    if isinstance(message, OSError):
        message = f"{message.filename or 'standard output'}: {message.strerror or message}"
    print(f"kterc: {message}", file=sys.stderr)


def write(path, content, read_from):
    """Writes bytes to a path, "-" being standard output."""
    if path != "-":
        return write_file(path, content, read_from)
    sys.stdout.flush()
    sys.stdout.buffer.write(content)


def write_file(path, content, read_from=None):
    """Writes the bytes of a whole file or, where that fails, leaves the place as it was. The path that was read from is not
    written to."""
    try:
        if read_from is not None and os.path.exists(path) and os.path.exists(read_from) and os.path.samefile(path, read_from):
            raise OSError(errno.EEXIST, "is the input, which is not overwritten")
        place = os.path.realpath(path)
        if os.path.exists(place) and not os.path.isfile(place):
            _write_into(place, "wb", content)
        else:
            _replace(place, content)
    except OSError as error:
        error.filename = str(path)
        raise


def _write_into(place, mode, content):
    with open(place, mode) as stream:
        stream.write(content)


def _replace(place, content):
    """Writes a file beside the place, then gives it the place."""
    beside = os.path.join(os.path.dirname(place), f".kterc-{secrets.token_hex(8)}")
    try:
        _write_into(beside, "xb", content)
        if os.path.exists(place):
            shutil.copymode(place, beside)
        os.replace(beside, place)
    except BaseException:
        with contextlib.suppress(FileNotFoundError):
            os.unlink(beside)
        raise
