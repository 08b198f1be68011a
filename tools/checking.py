#!/usr/bin/env python3
"""Gives `record check` images, right and wrong ones, and clocks those that it accepts.

Usage: checking.py BINARY [--table] FOLDER..
       checking.py BINARY --changed FOLDER [COUNT] [SEED]
       checking.py BINARY --compiled [--files | --indexed] [COUNT] [SEED]

An image of a FOLDER is a file PROGRAM.PROCESSOR.img, for a processor and a program of that folder
or of examples/; a program of its own is PROGRAM.PROCESSOR.src. A memory text of either name may say
a start state. Or the image is the file `img` of a folder in it, with the memory text `mem`, beside
`net.rtn` and `prog.src`. There a file `why` says that the image is to be refused, but where the
folder's name ends in `-right`. All others are to be accepted.

With --changed one bit of one word is changed in an image of the FOLDER that is accepted, COUNT
times (10,000 where none are given). Such an image may be right or wrong.

With --compiled what `record compile` writes for the pairs of examples/, and for COUNT random pairs
(1,000 where none are given) as tools/programs.py makes them, has to be accepted as it stands. With
--files these are the pairs whose processors have a register file, and otherwise those whose
processors have one memory beside their registers. With --indexed COUNT random programs are taken
alone, for the processors of examples/ in turn: programs with loops, and with elements of two arrays
at computed places.

Each image that is accepted is clocked by tools/rtn/clock.py from ten random states, and from its
start state where it has one, beside a run of the program's text: at its marks it has to show the
program's checkpoints by its views, in just so many clocks from mark to mark as `check` tells. A
line is printed for each image that is answered or clocked otherwise, and the exit status is 1 where
there is one.

With --table no image is clocked from random states. The words of those that are accepted, and the
clocks to their ends from their start states, are printed beside those of what `compile` writes.
"""
from __future__ import annotations

import argparse
import collections
import dataclasses
import pathlib
import random
import re
import tempfile
from collections.abc import Iterable, Iterator

import command_line
import programs
from rtn.calls import Answer, Program
from rtn.checks import REFUSALS, Ways, check, read_ways
from rtn.clock import Netlist, State
from rtn.following import Follower, read_viewed
from rtn.images import Image
from rtn.random_processors import Kind
from rtn.random_programs import COUNTERS, OPERATORS, PLAIN, Indexing, program_text
from rtn.random_states import random_state
from rtn.reading import Fault
from rtn.runs import EXAMPLES, started, texts_of
from rtn.sources import read_source

CYCLES = 2000
LONGEST = 100_000
STATES = 10
CHANGES, PAIRS = 10_000, 1000
EDITION = re.compile(r'(?:\s|//.*\n)*version (\d);')
FILES = '2'   # the edition of netlist texts with register files
CHECKED_EDITIONS = (None, FILES)
DECLARED = (*PLAIN, *COUNTERS, *(f'{name}[{size}]' for name, size in Indexing.ARRAYS.items()))
ACCEPTED, REFUSED, WRONG, NO_CODE = 'accepted', 'refused', 'otherwise', 'without code'


@dataclasses.dataclass(frozen=True)
class Case:
    """An image text for the texts of a netlist and a program, with a start state where there is
    one, and whether it is to be accepted."""

    name: str
    netlist: pathlib.Path
    source: pathlib.Path
    image: str
    memory: pathlib.Path | None = None
    is_right: bool = True

    def follower(self, ways: Ways | None = None) -> Follower:
        """The netlist on the image's words, beside the program."""
        return Follower(Netlist(self.netlist.read_text()), read_viewed(self.image),
                        read_source(self.source.read_text()), ways)

    def start(self, netlist: Netlist) -> State:
        """The start state, or that of zeros."""
        return started(netlist, self.memory.read_text() if self.memory else '')


def cases_of(folder: pathlib.Path) -> list[Case]:
    """The images of a folder."""
    found = [*map(case_of_folder, sorted(path.parent for path in folder.glob('*/img'))),
             *map(case_of_image, sorted(folder.glob('*.*.img')))]
    if not found:
        raise Fault(f'no image is in {folder}')
    return found


def case_of_folder(folder: pathlib.Path) -> Case:
    """An image with its texts in a folder of its own."""
    is_wrong = (folder / 'why').exists() and not folder.name.endswith('-right')
    return Case(folder.name, folder / 'net.rtn', folder / 'prog.src', (folder / 'img').read_text(),
                existing(folder / 'mem'), not is_wrong)


def case_of_image(path: pathlib.Path) -> Case:
    """An image that is named by its program and its processor."""
    texts = texts_of(path)
    return Case(path.stem, texts.netlist, texts.source, path.read_text(), texts.memory)


def existing(path: pathlib.Path) -> pathlib.Path | None:
    """The path, or None where no file is there."""
    return path if path.exists() else None


def edition_of(netlist: pathlib.Path) -> str | None:
    """The edition that a netlist text tells, if it tells one."""
    found = EDITION.match(netlist.read_text())
    return found and found[1]


@dataclasses.dataclass(frozen=True)
class Processor:
    """A processor of examples/, with the operators that programs on it can have, by their signs,
    and whether their elements can stand at computed places."""

    netlist: pathlib.Path
    operators: tuple[str, ...]
    has_computed_places: bool


def changed(pick: random.Random, case: Case) -> Case:
    """An image with one bit of one word changed."""
    image = read_viewed(case.image).image
    at, bit = pick.randrange(len(image.words)), pick.randrange(image.width)
    digits = image.words[at].digits
    other = f'{int(digits, 16) ^ 1 << bit:0{len(digits)}x}'
    text = case.image.replace(f'\nword {at} {digits} ', f'\nword {at} {other} ', 1)
    return dataclasses.replace(case, name=f'{case.name}, bit {bit} of word {at}', image=text)


@dataclasses.dataclass
class Trial:
    """The program that is tried, a folder for texts, and how many images were answered how."""

    record: Program
    folder: pathlib.Path
    pick: random.Random
    counts: collections.Counter = dataclasses.field(default_factory=collections.Counter)

    def answer(self, case: Case) -> Answer:
        """What `check` says of an image."""
        return check(self.record, case.netlist, case.source, case.image)

    def judge(self, case: Case) -> None:
        """Counts an image of which it is known whether it is to be accepted."""
        answer = self.answer(case)
        self.count(case, answer, case.is_right)

    def judge_changed(self, case: Case) -> None:
        """Counts an image with a bit changed, which may be answered either way."""
        case = changed(self.pick, case)
        answer = self.answer(case)
        self.count(case, answer, answer.status == 0)

    def count(self, case: Case, answer: Answer, is_right: bool) -> None:
        if answer.status not in (0, *REFUSALS):
            found = f'status {answer.status}: {answer.fault}'
        elif (answer.status == 0) != is_right:
            found = answer.line
        else:
            found = self.strays(case, answer) if is_right else None
        self.counts[WRONG if found else ACCEPTED if is_right else REFUSED] += 1
        if found:
            print(f'{case.name}: {found}', flush=True)

    def strays(self, case: Case, answer: Answer) -> str | None:
        """What differs where an accepted image is clocked, or None."""
        follower = case.follower(read_ways(answer.text))
        starts = [random_state(self.pick, follower.netlist) for _ in range(STATES)]
        if case.memory:
            starts.append(case.start(follower.netlist))
        return next(filter(None, (follower.differs(start, CYCLES) for start in starts)), None)

    # what compile writes

    def compiled(self, name: str, netlist: pathlib.Path, source: pathlib.Path) -> Case | None:
        """What `compile` writes for a pair; None where it is refused."""
        answer = self.record('compile', netlist, source)
        return None if answer.status else Case(name, netlist, source, answer.text)

    def all_compiled(self, count: int, seed: int, has_file: bool) -> Iterator[Case | None]:
        """That for the pairs of examples/ and for random ones."""
        edition, kind = (FILES, Kind.FILE) if has_file else (None, Kind.PLAIN)
        for netlist in sorted(EXAMPLES.glob('*.rtn')):
            if edition_of(netlist) == edition:
                for source in sorted(EXAMPLES.glob('*.src')):
                    yield self.compiled(f'{source.stem}.{netlist.stem}', netlist, source)
        for number in range(seed, seed + count):
            made = programs.Run(self.record, self.folder, random.Random(number), kind)
            yield self.compiled(f'seed {number}', made.netlist, made.source)

    def all_indexed(self, count: int, seed: int) -> Iterator[Case | None]:
        """That for random programs with arrays and loops, on the processors of examples/ in
        turn."""
        processors = list(self.processors())
        if not processors:
            raise Fault('no processor of examples/ has code for an operator')
        for number in range(seed, seed + count):
            of, pick = processors[number % len(processors)], random.Random(number)
            program = Indexing(pick, of.operators, of.has_computed_places).program()
            source = self.source(program_text(DECLARED, program))
            yield self.compiled(f'seed {number}, {of.netlist.stem}', of.netlist, source)

    def source(self, text: str) -> pathlib.Path:
        """A file with this program."""
        path = self.folder / 'p.src'
        path.write_text(text)
        return path

    def processors(self) -> Iterator[Processor]:
        """Those that have code for some operator."""
        def has_code(netlist: pathlib.Path, text: str) -> bool:
            return self.record('compile', netlist, self.source(text)).status == 0

        for netlist in sorted(EXAMPLES.glob('*.rtn')):
            if edition_of(netlist) in CHECKED_EDITIONS:
                operators = tuple(sign for sign in OPERATORS
                                  if has_code(netlist, f'var a; a = a {sign} a;'))
                if operators:
                    computes = has_code(netlist, 'var i, x[2]; for i = 0 to 1 { x[i] = x[i]; }')
                    yield Processor(netlist, operators, computes)

    # the table

    def rows(self, cases: Iterable[Case]) -> Iterator[str]:
        """The rows of the images that are accepted, as those of a table."""
        yield '| image | words | by `compile` | cycles | by `compile` |\n|---|---|---|---|---|'
        for case in cases:
            if self.answer(case).status == 0:
                yield self.row(case)

    def row(self, case: Case) -> str:
        """The row of one of them."""
        follower = case.follower()
        start = case.start(follower.netlist)
        own = [len(follower.image.words), follower.length(start, LONGEST)]
        compiled = self.compiled(case.name, case.netlist, case.source)
        if compiled:
            other = compiled.follower()
            moved = moved_state(follower, start, other.image)
            others = [len(other.image.words), other.length(moved, LONGEST)]
        else:
            others = ['', '']
        cells = [f'`{case.name}`', *(number for pair in zip(own, others) for number in pair)]
        return f'| {" | ".join(map(str, cells))} |'


def moved_state(follower: Follower, state: State, image: Image) -> State:
    """A state in which the variables have what they have in this one, in the places of another
    image, and all else is 0."""
    netlist, held = follower.netlist, follower.stored(state)
    moved = netlist.zeros()
    for address, cell in image.cells().items():
        moved[netlist.memory.name][address] = held[cell]
    return moved


def read_words() -> tuple[argparse.Namespace, list[pathlib.Path], list[int]]:
    """The words, with the folders of images, and the numbers COUNT and SEED."""
    words = command_line.Parser(__doc__)
    words.add_program()
    ways = words.add_mutually_exclusive_group()
    for option in ('--table', '--changed', '--compiled'):
        ways.add_argument(option, action='store_true')
    pairs = words.add_mutually_exclusive_group()
    for option in ('--files', '--indexed'):
        pairs.add_argument(option, action='store_true')
    words.add_argument('rest', nargs='*')
    given = words.words()
    if (given.files or given.indexed) and not given.compiled:
        words.error('--files and --indexed go with --compiled alone')
    if given.compiled:
        return given, [], words.numbers(given.rest, PAIRS, 0)
    if not given.rest:
        words.error('no folder is given')
    if given.changed:
        return given, [pathlib.Path(given.rest[0])], words.numbers(given.rest[1:], CHANGES, 0)
    return given, [pathlib.Path(word) for word in given.rest], [0, 0]


def try_all(trial: Trial, given: argparse.Namespace, cases: list[Case], count: int,
            seed: int) -> None:
    """Tries the images that are asked for."""
    if given.compiled:
        for case in (trial.all_indexed(count, seed) if given.indexed else
                     trial.all_compiled(count, seed, given.files)):
            if case:
                trial.judge(case)
            else:
                trial.counts[NO_CODE] += 1
    elif given.changed:
        accepted = [case for case in cases if trial.answer(case).status == 0]
        if not accepted:
            raise Fault('no image is accepted')
        for _ in range(count):
            trial.judge_changed(trial.pick.choice(accepted))
    else:
        for case in cases:
            trial.judge(case)


def main():
    given, folders, (count, seed) = read_words()
    cases = [case for folder in folders for case in cases_of(folder)]
    with tempfile.TemporaryDirectory() as folder:
        trial = Trial(given.binary, pathlib.Path(folder), random.Random(seed))
        if given.table:
            for row in trial.rows(cases):
                print(row)
            return 0
        try_all(trial, given, cases, count, seed)
    print(', '.join(f'{count} {kind}' for kind, count in trial.counts.most_common()))
    return 1 if trial.counts[WRONG] else 0


if __name__ == '__main__':
    command_line.run(main)
