"""What the tests share: tree A, the command line as a subprocess, and that the library is there."""

import os
import subprocess
import sys
from pathlib import Path

import pytest

import kterc

PACKAGE = Path(__file__).resolve().parents[1]
ROOT = PACKAGE.parents[1]

TREE_A = """\
budget,2
name,parent,length,flow,hit
server,,0,0,0
r1,server,2,0,0
c2,r1,1,20,1000
c3,r1,1,20,1000
c4,server,4,5,800
"""
TREE_A_FILE = bytes.fromhex(
    "4b5452 0001 0005 0002 0000 0000 00000000 0000 0000 0002 00000000 0000"
    "0001 0001 00000014 03e8 0001 0001 00000014 03e8 0000 0004 00000005 0320"
)


def pytest_sessionstart(session):
    try:
        kterc.version()
    except kterc.LibraryMissing as missing:
        pytest.exit(str(missing), 2)


@pytest.fixture
def tree_a(tmp_path):
    """The path of tree A's text."""
    path = tmp_path / "a.csv"
    path.write_text(TREE_A)
    return path


@pytest.fixture
def run(tmp_path):
    """Runs `python3 -m kterc` in an own directory, behind another command where one is given: its status, standard output and
    standard error."""

    def run(*arguments, input=None, library=None, out=subprocess.PIPE, before=()):
        environment = {**os.environ, "PYTHONPATH": str(PACKAGE)}
        if library is not None:
            environment["KTERC_LIBRARY"] = library
        elif "KTERC_LIBRARY" in environment:
            environment["KTERC_LIBRARY"] = os.path.abspath(environment["KTERC_LIBRARY"])
        command = [*before, sys.executable, "-W", "error", "-m", "kterc", *map(str, arguments)]
        content = input.encode() if isinstance(input, str) else input or b""
        done = subprocess.run(command, input=content, stdout=out, stderr=subprocess.PIPE, env=environment, cwd=tmp_path)
        return done.returncode, (done.stdout or b"").decode(), done.stderr.decode()

    return run
