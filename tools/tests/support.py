"""What the tests have in common: the programs that they need, and calls of the tools."""
from __future__ import annotations

import contextlib
import io
import os
import pathlib
import re
import runpy
import shutil
import subprocess
import sys
import tempfile
import textwrap
import unittest
from unittest import mock

from rtn import icarus
from rtn.calls import Program

TOP = pathlib.Path(__file__).resolve().parents[2]
TOOLS, EXAMPLES, DOCS = TOP / 'tools', TOP / 'examples', TOP / 'docs'
RECORD = os.environ.get('RECORD_BINARY')

needs_record = unittest.skipUnless(
    RECORD and pathlib.Path(RECORD).is_file(),
    'no program `record`: the variable RECORD_BINARY names one that was built')
needs_icarus = unittest.skipUnless(
    icarus.is_there(), 'no Icarus Verilog: apt-get install iverilog')
needs_graphviz = unittest.skipUnless(
    shutil.which('dot'), 'no graphviz: apt-get install graphviz')
needs_yosys = unittest.skipUnless(
    shutil.which('yosys'), 'no Yosys: apt-get install yosys')


def record() -> Program:
    """The program that is tried."""
    return Program(pathlib.Path(RECORD).resolve())


def call(tool: str, *words) -> subprocess.CompletedProcess[str]:
    """Runs a tool by its file's name."""
    command = [sys.executable, TOOLS / tool, *map(str, words)]
    return subprocess.run(command, capture_output=True, text=True, check=False, cwd=TOP,
                          stdin=subprocess.DEVNULL)


class Captured(io.TextIOWrapper):
    """An output of a tool that runs in this process."""

    def __init__(self):
        super().__init__(io.BytesIO(), encoding='utf-8', write_through=True)

    def text(self) -> str:
        return self.buffer.getvalue().decode()


def run_here(tool: str, *words) -> subprocess.CompletedProcess[str]:
    """As `call`, in this process, which takes a small part of the time."""
    output, errors, status = Captured(), Captured(), 0
    argument = [str(TOOLS / tool), *map(str, words)]
    with (mock.patch.object(sys, 'argv', argument), contextlib.redirect_stdout(output),
          contextlib.redirect_stderr(errors)):
        try:
            runpy.run_path(argument[0], run_name='__main__')
        except SystemExit as ended:
            status = ended.code
    return subprocess.CompletedProcess(argument, status, output.text(), errors.text())


def example(name: str) -> str:
    """The text of a file of examples/."""
    return (EXAMPLES / name).read_text()


def blocks_of(page: str) -> list[str]:
    """The indented texts of a page of docs/."""
    blocks = re.findall(r'(?:^    .*\n)+', (DOCS / page).read_text(), re.M)
    return list(map(textwrap.dedent, blocks))


class InFolder(unittest.TestCase):
    """A test with files in a folder of its own."""

    def setUp(self):
        made = tempfile.TemporaryDirectory()
        self.addCleanup(made.cleanup)
        self.folder = pathlib.Path(made.name)

    def file(self, name: str, text: str) -> pathlib.Path:
        """A file with this text."""
        (self.folder / name).write_text(text)
        return self.folder / name
