"""What is wrong with an input, told with its file and line where they are known."""


class Fault(Exception):
    """Has `path` and `line`, None where not known, and `said`, what is wrong."""

    path = None
    line = None

    @property
    def said(self):
        return self.args[0]

    def __str__(self):
        if self.path is None:
            return self.said if self.line is None else f"line {self.line}: {self.said}"
        return f"{self.path}: {self.said}" if self.line is None else f"{self.path}:{self.line}: {self.said}"
