#!/usr/bin/env python3
"""Holds what `record extract` says of a netlist against what `record run` does.

Usage: meanings.py BINARY NETLIST [STATES]
       meanings.py BINARY --files COUNT [SEED]

For each pattern its least word is run for one clock from STATES random states (200 where none are
given), in the pattern's mode, and the storage of the pattern has to hold afterwards what the
pattern's expression, computed here, has in the state before. The second form does so for COUNT
random netlists with a register file, from two states for each pattern.
"""
import pathlib
import random
import tempfile

import command_line
from rtn.calls import Program
from rtn.images import image_text
from rtn.patterns import Meaning, Pattern, read_patterns
from rtn.random_gates import Gates
from rtn.reading import read_netlist
from rtn.syntax import Code, Memory, Register

STATES = 200
STATES_OF_RANDOM = 2
FIRST_CELLS, OTHER_CELLS = 4, 8


class Bench:
    """A netlist's text with its patterns, each of which is run for a clock."""

    def __init__(self, record: Program, folder: pathlib.Path, netlist: pathlib.Path):
        self.record, self.netlist = record, netlist
        self.image, self.memory = folder / 'image', folder / 'memory'
        items = read_netlist(netlist.read_text())
        self.code = next(item for item in items if isinstance(item, Code))
        self.registers = [item for item in items if isinstance(item, Register)]
        self.memories = [item for item in items if isinstance(item, Memory)]
        self.meaning = Meaning(items)
        self.modes = read_patterns(record.text('extract', netlist))

    @property
    def patterns(self) -> list[tuple[int, Pattern]]:
        """Each pattern with the number of its mode."""
        return [(mode, pattern) for mode, listed in enumerate(self.modes) for pattern in listed]

    def state(self, mode: int, pick: random.Random) -> dict:
        """A random state of a mode: the registers, and some cells of the memories, the first ones
        among them."""
        state = {}
        for register in self.registers:
            if register.is_mode:
                state[register.name] = mode
                continue
            is_counter = register.name == self.code.counter
            state[register.name] = 0 if is_counter else pick.getrandbits(register.width)
        for memory in self.memories:
            first = range(min(memory.size, FIRST_CELLS))
            others = (pick.randrange(memory.size) for _ in range(OTHER_CELLS))
            state[memory.name] = {address: pick.getrandbits(memory.width)
                                  for address in [*first, *others]}
        return state

    def clock(self, word: str, state: dict) -> str:
        """What `record run` shows of a clock under this word."""
        self.image.write_text(image_text(self.code.width, [word], 'mark 0 end'))
        lines = []
        for name, held in state.items():
            if isinstance(held, dict):
                lines += [f'{name} {address} {value}\n' for address, value in held.items()]
            elif name != self.code.counter:
                lines.append(f'{name} {held}\n')
        self.memory.write_text(''.join(lines))
        return self.record.text('run', self.netlist, self.image, self.memory, 1)

    def is_kept(self, pattern: Pattern, state: dict, shown: str) -> tuple[bool, int]:
        """Whether the pattern's storage holds in what is shown what its expression says of the
        state before; and the value."""
        word, name = int(pattern.word, 16), pattern.storage
        value = self.meaning.value(pattern.value, state, word)
        if pattern.address is None:
            return f'\n{name} {value}\n' in shown, value
        address = self.meaning.value(pattern.address, state, word)
        if address >= self.meaning.sizes[name]:
            return True, value
        if value == 0:
            return f'\n{name} {address} ' not in shown, value
        return f'\n{name} {address} {value}\n' in shown, value

    def wrong(self, count: int, pick: random.Random) -> int:
        """How many of so many clocks of each pattern show something else; they are printed."""
        wrong = 0
        for mode, pattern in self.patterns:
            for _ in range(count):
                state = self.state(mode, pick)
                shown = self.clock(pattern.word, state)
                is_kept, value = self.is_kept(pattern, state, shown)
                if not is_kept:
                    wrong += 1
                    print(f'{self.netlist.read_text()}{pattern.number}: from {state}: '
                          f'{value} wanted, got\n{shown}')
        return wrong


def random_files(record: Program, count: int, first: int) -> int:
    """Holds so many random netlists with a file, from a seed on; how many clocks are wrong."""
    patterns = wrong = 0
    with tempfile.TemporaryDirectory() as folder:
        netlist = pathlib.Path(folder) / 'net'
        for seed in range(first, first + count):
            pick = random.Random(seed)
            netlist.write_text(Gates(pick, with_file=True).text())
            bench = Bench(record, pathlib.Path(folder), netlist)
            patterns += len(bench.patterns)
            wrong += bench.wrong(STATES_OF_RANDOM, pick)
    clocks = STATES_OF_RANDOM * patterns
    print(f'{count} netlists, {patterns} patterns, {clocks} clocks, {wrong} wrong')
    return wrong


def one_netlist(record: Program, netlist: pathlib.Path, count: int) -> int:
    """Holds one netlist, from so many states for each pattern; how many clocks are wrong."""
    with tempfile.TemporaryDirectory() as folder:
        bench = Bench(record, pathlib.Path(folder), netlist)
        wrong = bench.wrong(count, random.Random(1))
    clocks = count * len(bench.patterns)
    print(f'{netlist.name}: {len(bench.patterns)} patterns, {clocks} clocks, {wrong} wrong')
    return wrong


def main():
    words = command_line.Parser(__doc__)
    words.add_program()
    words.add_argument('--files', action='store_true')
    words.add_argument('rest', nargs='*')
    given = words.words()
    if not given.rest:
        words.error('a netlist or a count is missing')
    if given.files:
        count, seed = words.numbers(given.rest, 0, 0)
        return 1 if random_files(given.binary, count, seed) else 0
    netlist, *rest = given.rest
    states, = words.numbers(rest, STATES)
    return 1 if one_netlist(given.binary, pathlib.Path(netlist), states) else 0


if __name__ == '__main__':
    command_line.run(main)
