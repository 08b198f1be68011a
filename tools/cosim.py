#!/usr/bin/env python3
"""Clocks random netlists by `record run` and, as tools/verilog.py writes them, by Icarus Verilog,
and compares what they end in.

Usage: cosim.py BINARY [COUNT] [SEED]
       cosim.py BINARY NET.rtn IMAGE.img MEMORY.mem CYCLES

Each of COUNT cases (200 where none are given) is a netlist with all operators and widths from 1 to
64 bits, a random image and a random start state. The texts that `record run` and the test bench
write, states or clashes, have to be the same bytes. What differs is printed with its seed; the last
lines count what the cases ended in, and the exit status is 1 where one differs. The second form
compares one run, and prints both texts where they differ.

It needs Icarus Verilog (`iverilog` and `vvp`; on Debian and Ubuntu `apt-get install iverilog`).
"""
import collections
import dataclasses
import pathlib
import random
import tempfile

import command_line
from rtn.bench import verilog_text
from rtn.calls import Program
from rtn.icarus import Icarus
from rtn.random_gates import Gates

COUNT, SEED = 200, 0
CYCLES = (0, 1, 2, 5, 20, 60)


@dataclasses.dataclass(frozen=True)
class Case:
    """A netlist's text, an image's and a memory text, and how many clocks they run."""

    netlist: str
    image: str
    memory: str
    cycles: int

    @staticmethod
    def random(seed: int) -> 'Case':
        """A random case; each third netlist has a register file."""
        pick = random.Random(seed)
        gates = Gates(pick, with_file=seed % 3 == 2)
        return Case(gates.text(), gates.image(), gates.memory(), pick.choice(CYCLES))

    def run(self, record: Program, icarus: Icarus,
            folder: pathlib.Path) -> tuple[str, str | None]:
        """What `record run` writes, and what the test bench does: None where the first refuses."""
        files = [folder / name for name in ('n.rtn', 'i.img', 'm.mem')]
        for file, text in zip(files, (self.netlist, self.image, self.memory)):
            file.write_text(text)
        said = record.text('run', *files, self.cycles)
        if said.startswith('error ') and not said.startswith('error clash '):
            return said, None
        bench = verilog_text(self.netlist, 'n', self.image, self.memory)
        answer = icarus.run(folder, bench, f'+cycles={self.cycles}')
        return said, answer.errors if answer.status else answer.text


def differences(record: Program, count: int, first: int) -> collections.Counter:
    """Compares so many cases from a seed on; how many ended how."""
    counts, icarus = collections.Counter(), Icarus()
    with tempfile.TemporaryDirectory() as folder:
        for seed in range(first, first + count):
            case = Case.random(seed)
            said, benched = case.run(record, icarus, pathlib.Path(folder))
            if benched is None:
                counts[f'refused, {" ".join(said.split()[1:4])}'] += 1
                continue
            counts['clash' if said.startswith('error') else 'state'] += said == benched
            if said != benched:
                counts['differ'] += 1
                print(f'seed {seed}:\n{said}\nagainst\n{benched}\nfor\n{case.netlist}', flush=True)
    return counts


def compared(record: Program, case: Case) -> int:
    """Compares one case; the exit status."""
    with tempfile.TemporaryDirectory() as folder:
        said, benched = case.run(record, Icarus(), pathlib.Path(folder))
    print('alike' if said == benched else f'{said}\nagainst\n{benched}')
    return int(said != benched)


def main():
    words = command_line.Parser(__doc__)
    words.add_program()
    words.add_argument('rest', nargs='*')
    given = words.words()
    if len(given.rest) == 4:
        texts = [pathlib.Path(word).read_text() for word in given.rest[:3]]
        return compared(given.binary, Case(*texts, *words.numbers(given.rest[3:], 0)))
    count, first = words.numbers(given.rest, COUNT, SEED)
    counts = differences(given.binary, count, first)
    for kind, number in counts.most_common():
        print(f'{number:6} {kind}')
    return 1 if counts['differ'] else 0


if __name__ == '__main__':
    command_line.run(main)
