"""Runs Verilog by Icarus Verilog, where it is installed."""
from __future__ import annotations

import pathlib
import shutil

from rtn.calls import Answer, Program
from rtn.reading import Fault

INSTALL = 'install Icarus Verilog (apt-get install iverilog)'


class Icarus:
    """The compiler and the simulator of Icarus Verilog."""

    def __init__(self):
        self.compiler, self.simulator = map(found, ('iverilog', 'vvp'))

    def run(self, folder: pathlib.Path, text: str, *words: str) -> Answer:
        """What a Verilog text writes, run on these words; what the compiler says where it can't be
        compiled, whose status isn't 0."""
        source, compiled = folder / 'n.v', folder / 'n.vvp'
        source.write_text(text)
        made = self.compiler('-g2001', '-o', compiled, source)
        return made if made.status else self.simulator('-n', compiled, *words)


def found(tool: str) -> Program:
    """A tool on the path; a Fault where it isn't there."""
    path = shutil.which(tool)
    if path is None:
        raise Fault(f'no {tool} on the path: {INSTALL}')
    return Program(pathlib.Path(path))


def is_there() -> bool:
    """Whether Icarus Verilog is installed."""
    return all(map(shutil.which, ('iverilog', 'vvp')))
