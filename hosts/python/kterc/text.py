"""The CSV text of a tree, read and written. An error names the line and what was expected.

    # comments and empty lines are skipped
    budget,2
    name,parent,length,flow,hit
    server,,0,0,0
    r1,server,2,0,0

The header tells the version. The budget's line may stand anywhere and rows in any order. The server's parent is empty.
"""

import csv
import io

from .fault import Fault
from .tree import Node, Tree, faults, preorder

HEADERS = {
    1: ["name", "parent", "length", "flow", "hit"],
    2: ["name", "parent", "length", "flow", "cachable"],
    3: ["name", "parent", "length", "flow", "cachable", "open"],
}
_EXPECTED_HEADER = "expected the header " + " or ".join(",".join(header) for header in HEADERS.values())


EXPECTED_NUMBER = "expected a whole number from 0 on"


class TextError(Fault):
    """A text that breaks the form: its line, None where no line is at fault, and what is wrong."""

    def __init__(self, line, message):
        super().__init__(line, message)
        self.line = line

    @property
    def said(self):
        return self.args[1]


class Lines(list):
    """The line of each node's row, by the node's number, and the budget's line, None where the budget was given."""

    budget = None


def decoded(content):
    """The text of bytes in UTF-8, with a byte order mark or without."""
    content = content.removeprefix(b"\xef\xbb\xbf")
    try:
        return content.decode("utf-8")
    except UnicodeDecodeError as error:
        before = io.StringIO(content[: error.start].decode("utf-8"), None).read()
        said = f"byte {content[error.start]:#04x}: expected UTF-8 text, or a tree file, which begins with KTR"
        raise TextError(before.count("\n") + 1, said) from None


def fields_by_line(text):
    """The lines of a CSV text that are neither empty nor comments: pairs of the line's number and its fields, without blanks
    around them."""
    lines = io.StringIO(text, None)
    without_comments = ("\n" if line.lstrip().startswith("#") else line for line in lines)
    reader = csv.reader(without_comments, strict=True, skipinitialspace=True)
    before = 0
    try:
        for fields in reader:
            fields = [field.strip() for field in fields]
            if any(fields) and not fields[0].startswith("#"):
                yield before + 1, fields
            before = reader.line_num
    except csv.Error as error:
        raise TextError(before + 1, f"{error}: expected fields with commas between") from None


def read_text(text, budget=None):
    """The tree of a text and its Lines; a given budget takes the place of the text's. Raises TextError, of several errors the
    one on the first line."""
    return _Reading(text).result(budget)


def write_text(tree):
    """The text of a tree, nodes in the order of their numbers."""
    out = io.StringIO()
    writer = csv.writer(out, lineterminator="\n")
    header = HEADERS[tree.version]
    writer.writerow(["budget", tree.budget])
    writer.writerow(header)
    for node in tree.nodes:
        writer.writerow([_written(getattr(node, column)) for column in header])
    return out.getvalue()


def wrong_count(fields, header):
    """What is wrong with fields of another number than a header's."""
    return f"{len(fields)} {'field' if len(fields) == 1 else 'fields'}: expected {len(header)}, {','.join(header)}"


def not_whole(name, digits):
    """What is wrong with a text that is no whole number."""
    return f"{name} {digits!r}: {EXPECTED_NUMBER}"


def whole(digits):
    """The whole number of decimal digits, None for another text. Of a long one the first 21 digits are read: they too make a
    number above 2^64, which fits nowhere."""
    return int((digits.lstrip("0") or "0")[:21]) if digits.isascii() and digits.isdigit() else None


class _Reading:
    """The reading of one text. Errors are gathered, since the first found need not be on the first line."""

    def __init__(self, text):
        self.errors = []
        self.version = self.budget = None
        self.lines, self.nodes = Lines(), []
        try:
            for line, fields in fields_by_line(text):
                self.read_line(line, fields)
        except TextError as error:
            self.errors.append(error)
        else:
            self.look_at_all()

    def wrong(self, line, message):
        self.errors.append(TextError(line, message))

    def read_line(self, line, fields):
        """After the header a node may have the name budget; its row has more fields."""
        if fields[0] == "budget" and (self.version is None or len(cut(fields, 2)) == 2):
            self.read_budget(line, cut(fields, 2))
        elif self.version is None:
            self.read_header(line, fields)
        else:
            self.read_row(line, cut(fields, len(HEADERS[self.version])))

    def read_budget(self, line, fields):
        if self.lines.budget is not None:
            self.wrong(line, "a second budget: expected one line budget,K")
        self.lines.budget = line
        if len(fields) != 2:
            self.wrong(line, wrong_count(fields, ["budget", "K"]))
        else:
            self.budget = self.read_number(line, "budget", fields[1])

    def read_header(self, line, fields):
        versions = [version for version, header in HEADERS.items() if cut(fields, len(header)) == header]
        if not versions:
            raise TextError(line, _EXPECTED_HEADER)
        self.version = versions[0]

    def read_row(self, line, fields):
        """A row with an error is kept too, so that its name is known where it is a parent."""
        header = HEADERS[self.version]
        row = dict.fromkeys(header)
        row.update(zip(header, fields))
        if len(fields) != len(header):
            self.wrong(line, wrong_count(fields, header))
        else:
            row.update((column, self.read_number(line, column, row[column])) for column in header[2:])
        opening = row.get("open", 1)
        row["open"] = bool(opening) if opening in (0, 1) else opening  # another number is left to rule 24
        row["parent"] = row["parent"] or None
        self.lines.append(line)
        self.nodes.append(Node(**row))

    def read_number(self, line, column, digits):
        value = whole(digits)
        if value is None:
            self.wrong(line, not_whole(column, digits))
        return value

    def look_at_all(self):
        if self.version is None:
            self.wrong(None, _EXPECTED_HEADER)
        else:
            for row, said in faults(self.nodes):
                self.wrong(None if row is None else self.lines[row], said)

    def result(self, budget):
        if budget is None:
            budget = self.budget
        else:
            self.lines.budget = None
        if budget is None:
            self.wrong(None, "no budget: expected a line budget,K or the option --budget")
        if self.errors:
            raise min(self.errors, key=lambda error: float("inf") if error.line is None else error.line)
        order = preorder(self.nodes)
        self.lines[:] = [self.lines[row] for row in order]
        return Tree(self.version, budget, tuple(self.nodes[row] for row in order)), self.lines


def cut(fields, least):
    """The fields without the empty ones at the end, as spreadsheets write them, but at least so many."""
    end = len(fields)
    while end > least and not fields[end - 1]:
        end -= 1
    return fields[:end]


def _written(value):
    if value is None:
        return ""
    return int(value) if isinstance(value, bool) else value
