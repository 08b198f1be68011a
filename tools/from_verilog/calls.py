"""Calls of Yosys, Icarus Verilog and GHDL, which other packages install."""
from __future__ import annotations

import pathlib
import shutil
import subprocess

from .refusals import Refused, Rule

SYSTEM_VERILOG = ('-g2012', '-grelative-include')      # to Icarus, also for plain Verilog
PACKAGES = {'yosys': 'yosys', 'iverilog': 'iverilog', 'vvp': 'iverilog', 'ghdl': 'ghdl'}


def called(tool: str, *words: str | pathlib.Path,
           folder: pathlib.Path | None = None) -> subprocess.CompletedProcess[str]:
    """What a tool answers; Refused where it isn't on the path."""
    if not shutil.which(tool):
        raise Refused(Rule.TOOL, f'no {tool} is on the path', None,
                      f'install it (apt-get install {PACKAGES[tool]})')
    return subprocess.run([tool, *map(str, words)], cwd=folder, capture_output=True, text=True,
                          errors='replace')


def said(answer: subprocess.CompletedProcess[str]) -> str:
    """The first line in which a tool says what is wrong, or its last one."""
    lines = [line for line in (answer.stderr + answer.stdout).splitlines() if line.strip()]
    wrong = [line for line in lines if 'error' in line.lower()]
    return (wrong[:1] or lines[-1:] or ['it says nothing'])[0]
