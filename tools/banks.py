#!/usr/bin/env python3
"""Compiles random programs for random small processors with two data memories, and clocks each
netlist here on the words that were made.

Usage: banks.py BINARY [COUNT] [SEED]

Each of COUNT runs (200 where none are given) makes a netlist with a bank, a program with elements
at computed places, and a part of its variables, and compiles them by `record dual`. No command
clocks such a netlist, so it is clocked here (tools/rtn/following.py) as its text has it, with both
its memories, from random cells and registers. At the marks the variables, in the memory or in the
bank as the image's places say, have to be those that the program's text has before each test and at
the end, each test under its label, each within one image length of clocks of the last; no bus
clashes, and behind the end nothing changes. A run that is refused, for want of a cover for example,
is counted and not compared. Of every fourth netlist the least word of each pattern that `record
extract` tells is clocked from a random state, and the pattern's storage has to hold what its
expression is, over the cells of both memories behind each other. The exit status is 1 where
something differs.
"""
import collections
import dataclasses
import pathlib
import random
import tempfile

import command_line
from rtn.calls import Program
from rtn.clock import Netlist, State
from rtn.following import Follower, Viewed
from rtn.images import Image, read_image
from rtn.patterns import Meaning, Pattern, read_patterns
from rtn.random_processors import Kind, random_processor
from rtn.random_programs import COUNTERS, PLAIN, Indexing, assigned, program_text
from rtn.random_states import random_state
from rtn.reading import read_netlist
from rtn.sources import read_source

CYCLES = 1500
SECONDS = 60
WRONG = 'wrong'


class View:
    """What the patterns of a netlist with a bank mean: over one memory, behind whose cells stand
    those of the bank."""

    def __init__(self, text: str):
        self.meaning = Meaning(read_netlist(text))
        self.size = self.meaning.sizes['M'] + self.meaning.sizes['N']
        self.meaning.sizes['M'] = self.size

    def is_true(self, pattern: Pattern, netlist: Netlist, state: State) -> bool:
        """Whether the pattern's word does what it says, from a state."""
        word = int(pattern.word, 16)
        after = netlist.clock(state, word)
        before = {**state, 'M': dict(enumerate(state['M'] + state['N']))}
        value = self.meaning.value(pattern.value, before, word)
        if pattern.address is None:
            return after[pattern.target] == value
        address = self.meaning.value(pattern.address, before, word)
        return address >= self.size or (after['M'] + after['N'])[address] == value


@dataclasses.dataclass
class Run:
    """A random netlist, a random program and a random part of its variables, in files of a
    folder."""

    record: Program
    folder: pathlib.Path
    seed: int

    def __post_init__(self):
        self.pick = random.Random(self.seed)
        self.processor = random_processor(self.pick, Kind.BANK)
        maker = Indexing(self.pick, self.processor.operators, self.processor.has_computed_places)
        self.program = maker.program()
        self.part = self.some_names()
        self.netlist = Netlist(self.processor.text)
        self.put_files()

    def some_names(self) -> list[str]:
        """Some of the variables, none that the program changes where the bank isn't written."""
        kept = set() if self.processor.is_bank_written else set(assigned(self.program))
        return [name for name in self.names() if name not in kept and self.pick.random() < 0.5]

    @staticmethod
    def names() -> list[str]:
        return [*PLAIN, *COUNTERS, *Indexing.ARRAYS]

    def put_files(self) -> None:
        names = self.pick.sample(self.names(), len(self.names()))
        lengths = {name: f'{name}[{length}]' for name, length in Indexing.ARRAYS.items()}
        source = program_text([lengths.get(name, name) for name in names], self.program)
        part = ''.join(f'{name}\n' for name in self.part)
        self.files = [self.folder / name for name in ('n.rtn', 'p.src', 'p.part')]
        for file, text in zip(self.files, (self.processor.text, source, part)):
            file.write_text(text)

    def untrue(self) -> Pattern | None:
        """A pattern whose least word does something else, from a random state; or None."""
        pick, view = random.Random(self.seed), View(self.processor.text)
        listed = read_patterns(self.record.text('extract', self.files[0]))
        for pattern in (pattern for mode in listed for pattern in mode):
            if not view.is_true(pattern, self.netlist, random_state(pick, self.netlist)):
                return pattern
        return None

    def judged(self) -> tuple[str | None, str]:
        """What is wrong with the run, or None, and how it is counted."""
        found = self.untrue() if self.seed % 4 == 0 else None
        if found:
            return f'pattern {found.transfer} ; {found.word}', WRONG
        answer = self.record('dual', *self.files)
        if answer.status:
            return None, ' '.join(answer.text.split()[:3]) or f'status {answer.status}'
        found = self.differs(read_image(answer.text))
        right = 'as it should be' if self.part else 'with an empty part'
        return found, WRONG if found else right

    def differs(self, image: Image) -> str | None:
        """What is wrong with the clocks of an image, or None."""
        size, held = 1 << self.processor.address_bits, image.cells()
        if {cell.split('[')[0] for at, cell in held.items() if at >= size} != set(self.part):
            return 'other variables stand in the bank'
        follower = Follower(self.netlist, Viewed(image), read_source(self.files[1].read_text()))
        return follower.differs(random_state(self.pick, self.netlist), CYCLES)


def main():
    words = command_line.Parser(__doc__)
    words.add_program()
    words.add_runs(200)
    given, counts = words.words(), collections.Counter()
    record = dataclasses.replace(given.binary, seconds=SECONDS)
    with tempfile.TemporaryDirectory() as folder:
        for seed in range(given.seed, given.seed + given.count):
            found, kind = Run(record, pathlib.Path(folder), seed).judged()
            counts[kind] += 1
            if found:
                print(f'seed {seed}: {found}', flush=True)
    for kind, number in counts.most_common():
        print(f'{number:6} {kind}')
    return 1 if counts[WRONG] else 0


if __name__ == '__main__':
    command_line.run(main)
