#!/usr/bin/env python3
"""Compiles random programs for random small processors, runs them with `record go`, and holds every
checkpoint against an interpreter of its own.

Usage: programs.py BINARY [--files | --modes | --wide] [COUNT] [SEED]
       programs.py BINARY [--wide] --tune [COUNT] [SEED]

Each of COUNT runs (200 where none are given) makes a netlist and a program, and starts from random
cells and registers. The lines of `go` have to show the stores that the interpreter has before each
test and at the end, each test always under one label, and each within one image length of clocks of
the last. Then `record run` clocks the image to one of these lines, and has to show the same store
at that mark. A run that is refused, for want of a cover for example, is counted and not compared.
With --files each netlist has a register file, with --modes a mode register, which has to be 0 at
each mark, and with --wide an accumulator that is wider than the memory.

With --tune each program is compiled by `record tune`. Its image is clocked here, beside a run of
the program's text (tools/rtn/following.py), and has to show the same stores at its marks; what
`record compile` compiles may not be refused.
"""
import collections
import dataclasses
import pathlib
import random
import tempfile

import command_line
from rtn.calls import Program
from rtn.checkpoints import Checkpoint, Watch, read_checkpoints, store_after
from rtn.clock import Netlist
from rtn.following import Follower, Viewed
from rtn.images import Image, read_cells, read_image, read_settings
from rtn.random_processors import Kind, random_processor
from rtn.random_programs import LAST, Block, Maker, program_text
from rtn.runs import started
from rtn.sources import read_source

CYCLES = 1500
SECONDS = 60
DECLARED = ('a', 'b', 'c', 'i', 'j', 'x[4]')
RIGHT, WRONG = 'as it should be', 'wrong'


@dataclasses.dataclass
class Run:
    """A random netlist and a random program, in files of a folder."""

    record: Program
    folder: pathlib.Path
    pick: random.Random
    kind: Kind

    def __post_init__(self):
        self.processor = random_processor(self.pick, self.kind)
        self.program: Block = Maker(self.pick, self.processor.operators).program()
        self.netlist, self.source = self.folder / 'n.rtn', self.folder / 'p.src'
        self.image, self.memory = self.folder / 'p.img', self.folder / 'm.mem'
        self.netlist.write_text(self.processor.text)
        self.source.write_text(program_text(DECLARED, self.program))

    def judged(self, is_tuned: bool) -> tuple[str | None, str]:
        """What is wrong with the run, or None, and how it is counted."""
        answer = self.record('tune' if is_tuned else 'compile', self.netlist, self.source)
        if answer.status:
            if is_tuned and self.record('compile', self.netlist, self.source).status == 0:
                return 'tune is refused', WRONG
            return None, ' '.join(answer.text.split()[:3])
        self.image.write_text(answer.text)
        image = read_image(answer.text)
        store = self.random_store(image)
        found = self.strays(image) if is_tuned else self.differs(image, store)
        return found, WRONG if found else RIGHT

    def random_store(self, image: Image) -> dict[str, int]:
        """A random store, which the memory text sets beside registers and temporary cells."""
        store = {cell: 0 for cell in Maker.cells()}
        lines = [f'{register} {self.some_word()}' for register in self.processor.registers
                 if self.pick.random() < 0.7]
        held = image.cells()
        for address, cell in sorted(held.items()):
            store[cell] = self.pick.choice([0, 1, 2, 3, self.some_word()])
            lines.append(f'M {address} {store[cell]}')
        lines += [f'M {address} {self.some_word()}' for address in range(min(held, default=0))]
        self.memory.write_text(''.join(line + '\n' for line in lines))
        return store

    def some_word(self) -> int:
        return self.pick.randrange(LAST + 1)

    def differs(self, image: Image, store: dict[str, int]) -> str | None:
        """What is wrong with the lines of `go` and the state of `run`, or None."""
        went = self.record('go', self.netlist, self.source, self.memory, CYCLES)
        if went.status:
            return f'status {went.status}: {went.text}'
        checkpoints, ending = read_checkpoints(went.text)
        watch = Watch(self.program, store, len(image.words))
        found = watch.differs(checkpoints, ending, CYCLES)
        if found or not checkpoints:
            return found
        last = self.pick.randrange(len(checkpoints))
        shown = store_after(checkpoints[:last + 1], store)
        return self.runs_otherwise(image, checkpoints[last], shown)

    def runs_otherwise(self, image: Image, checkpoint: Checkpoint,
                       shown: dict[str, int]) -> str | None:
        """What differs between the state that `run` writes and a checkpoint, behind which the store
        was `shown`; or None."""
        ran = self.record('run', self.netlist, self.image, self.memory, checkpoint.cycle)
        if ran.status:
            return f'run: status {ran.status}: {ran.text}'
        line, memory = checkpoint.line, read_cells(ran.text)
        registers = {name: value for name, at, value in
                     read_settings('\n'.join(ran.text.splitlines()[1:-1])) if at is None}
        if registers.get('S', 0) != 0:
            return f'{line}: run is in another mode than 0'
        if image.marks.get(registers['PC']) != checkpoint.label:
            return f'{line}: run is at {registers["PC"]}'
        for address, cell in image.cells().items():
            if memory.get(address, 0) != shown[cell]:
                return f'{line}: run has {memory.get(address, 0)} for {cell}'
        return None

    def strays(self, image: Image) -> str | None:
        """What is wrong where an image is clocked here beside the program, or None."""
        netlist, source = Netlist(self.processor.text), read_source(self.source.read_text())
        start = started(netlist, self.memory.read_text())
        return Follower(netlist, Viewed(image), source).differs(start, CYCLES)


def read_words():
    words = command_line.Parser(__doc__)
    words.add_program()
    kinds = words.add_mutually_exclusive_group()
    for kind, option in ((Kind.FILE, '--files'), (Kind.MODE, '--modes'), (Kind.WIDE, '--wide')):
        kinds.add_argument(option, dest='kind', action='store_const', const=kind)
    words.add_argument('--tune', action='store_true')
    words.add_runs(200)
    given = words.words()
    if given.tune and given.kind in (Kind.FILE, Kind.MODE):
        words.error('--tune goes with --wide alone')
    return given


def main():
    given, counts = read_words(), collections.Counter()
    record = dataclasses.replace(given.binary, seconds=SECONDS)
    with tempfile.TemporaryDirectory() as folder:
        for seed in range(given.seed, given.seed + given.count):
            run = Run(record, pathlib.Path(folder), random.Random(seed), given.kind or Kind.PLAIN)
            found, kind = run.judged(given.tune)
            counts[kind] += 1
            if found:
                print(f'seed {seed}: {found}')
    for kind, number in counts.most_common():
        print(f'{number:6} {kind}')
    return 1 if counts[WRONG] else 0


if __name__ == '__main__':
    command_line.run(main)
