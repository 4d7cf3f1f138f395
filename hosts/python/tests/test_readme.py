"""The examples of README.md print what it says."""

import os
import re
import shlex
import shutil
import subprocess
import sys

import pytest
from conftest import PACKAGE

BLOCKS = re.findall(r"^```(\w*)\n(.*?)^```$", (PACKAGE / "README.md").read_text(), re.DOTALL | re.MULTILINE)
COMMANDS = [
    (command, said)
    for language, block in BLOCKS
    for command, said in re.findall(r"^\$ python3 -m kterc (.*)\n((?:(?!\$ ).*\n)*)", block, re.MULTILINE)
]


@pytest.fixture(autouse=True)
def examples(tmp_path):
    shutil.copytree(PACKAGE / "examples", tmp_path / "examples")


@pytest.mark.parametrize("command, said", COMMANDS, ids=[command for command, _ in COMMANDS])
def test_commands(run, command, said):
    assert run(*shlex.split(command)) == (0, said, "")


@pytest.mark.parametrize("script", [block for language, block in BLOCKS if language == "python"])
def test_python(tmp_path, script):
    environment = {**os.environ, "PYTHONPATH": str(PACKAGE)}
    done = subprocess.run([sys.executable, "-c", script], cwd=tmp_path, env=environment, capture_output=True, text=True)
    assert done.returncode == 0, done.stderr


def test_the_text_of_a_tree(run):
    (text,) = [block for language, block in BLOCKS if "\nbudget,2\n" in block]
    assert run("make", "-", "a.ktr", input=text) == (0, "", "")
