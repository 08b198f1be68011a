#!/usr/bin/env python3
"""Writes netlists as Verilog, reads that back by `from-verilog`, and compares their patterns.

Usage: verilog_sweep.py BINARY [COUNT] [SEED]
       verilog_sweep.py BINARY NET.rtn ..

Each of COUNT random processors (100 where none are given) is plain, or has a register file, a mode
register, a wide accumulator or a second memory, one after the other. `record extract` has to write
the same patterns, with the same least words, for a netlist and for what came back of it. Those that
differ or are refused are printed with their seed, and the exit status is then 1. In the second form
the netlists are those of some files.

It needs Yosys (on Debian and Ubuntu `apt-get install yosys`).
"""
import collections
import dataclasses
import pathlib
import random
import shutil
import sys
import tempfile

import command_line
from from_verilog.options import Options
from from_verilog.reading import read
from from_verilog.refusals import Refused
from rtn.bench import verilog_text
from rtn.calls import Program
from rtn.patterns import read_patterns
from rtn.random_processors import Kind, random_processor
from rtn.reading import read_netlist
from rtn.syntax import Array, Code, Memory, Register

COUNT, SEED = 100, 0
TOP = 'top_module'


@dataclasses.dataclass(frozen=True)
class Case:
    """A netlist's text, and what it is called where it fails."""

    name: str
    text: str

    @staticmethod
    def random(seed: int) -> 'Case':
        kinds = list(Kind)
        processor = random_processor(random.Random(seed), kinds[seed % len(kinds)])
        return Case(f'seed {seed}', processor.text)

    def options(self, file: pathlib.Path) -> Options:
        """What a designer says of the Verilog of this netlist."""
        items = read_netlist(self.text)
        code = next(item for item in items if isinstance(item, Code))
        arrays = {item.array.value: item.name for item in items if isinstance(item, Memory)}
        registers = tuple(item.name for item in items if isinstance(item, Register))
        modes = [item.name for item in items if isinstance(item, Register) and item.is_mode]
        return Options((str(file),), TOP, code=code.name, words=code.size, counter=code.counter,
                       mode=modes[0] if modes else '', word=code.name, kept=registers,
                       **{array.value: arrays.get(array.value, '') for array in Array})

    def back(self, folder: pathlib.Path) -> str:
        """The netlist that comes back by way of Verilog."""
        file = folder / f'{TOP}.v'
        file.write_text(verilog_text(self.text, TOP))
        return read(self.options(file)).text

    def outcome(self, record: Program, folder: pathlib.Path) -> str:
        """How the case ends; those that fail are printed."""
        wanted = self.patterns(record, folder, self.text)
        if wanted is None:
            return 'without patterns'
        try:
            back = self.back(folder)
        except Refused as refused:
            print(f'{self.name}: refused: {refused}', flush=True)
            return 'refused'
        found = self.patterns(record, folder, back)
        if found == wanted:
            return 'same'
        print(f'{self.name}: the patterns differ', flush=True)
        for sign, ones, others in (('-', wanted, found), ('+', found, wanted)):
            print(*(f'{sign} {line}' for line in sorted(set(ones or []) - set(others or []))),
                  sep='\n', flush=True)
        return 'different'

    @staticmethod
    def patterns(record: Program, folder: pathlib.Path, text: str) -> list[str] | None:
        """The patterns of a netlist, each of its mode; None where it is refused."""
        file = folder / 'net.rtn'
        file.write_text(text)
        answer = record('extract', file)
        if answer.status:
            return None
        return sorted(f'{number} {pattern.transfer} ; {pattern.word}'
                      for number, mode in enumerate(read_patterns(answer.text))
                      for pattern in mode)


def sweep(record: Program, cases: list[Case]) -> collections.Counter:
    """How many of the cases end how."""
    with tempfile.TemporaryDirectory() as folder:
        return collections.Counter(case.outcome(record, pathlib.Path(folder)) for case in cases)


def main():
    parser = command_line.Parser(__doc__)
    parser.add_program()
    parser.add_argument('words', metavar='WORD', nargs='*')
    words = parser.words()
    if not shutil.which('yosys'):
        sys.exit(command_line.refusal('Yosys is not installed', command_line.WRONG_WORDS))
    files = [pathlib.Path(word) for word in words.words if word.endswith('.rtn')]
    if files:
        cases = [Case(file.name, file.read_text()) for file in files]
    else:
        count, seed = parser.numbers(words.words, COUNT, SEED)
        cases = [Case.random(number) for number in range(seed, seed + count)]
    counts = sweep(words.binary, cases)
    for outcome, count in sorted(counts.items()):
        print(f'{count} {outcome}')
    return 1 if counts['different'] or counts['refused'] else 0


if __name__ == '__main__':
    command_line.run(main)
