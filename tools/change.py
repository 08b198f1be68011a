#!/usr/bin/env python3
"""Shows what a change to a netlist changes: what its instruction words can be told to do, and what
programs take.

Usage: change.py BINARY OLD.rtn NEW.rtn [PROGRAM.src [PROGRAM.part] [MEMORY.mem]] .. [--tune]

The register transfers of both netlists, as `record extract` writes them, are compared as texts,
without their numbers and their least words; names of registers count. First stand those that OLD
alone has, with a `-`, then those that NEW alone has, with a `+`. Transfers that differ by the
fields of the instruction word alone follow, in groups: a line `~ I[7:0] -> I[15:8]` with the fields
in OLD and in NEW, and below it the transfers, with a `_` for each field. Last stands how many both
have. A netlist that is refused has no transfers, and its fault stands in their place.

For each program a line of the table follows. `words` is the length of its image by `compile`, with
--tune by `tune`, or with a part by `dual`, on OLD and on NEW. `cycles` is, where a memory text
stands behind the program, the cycle of the end mark when it is run from there, or `budget` where it
doesn't come within 1,000,000: by `record go`, or for `tune` and `dual` clocked here. Where a
program or netlist is refused, the fault stands in place of the numbers. Below the table stand the
statements that have other numbers of words on NEW than on OLD.

The exit status is 0, or 2 where the words are none of these.
"""
from __future__ import annotations

import collections
import dataclasses
import pathlib
import re
from collections.abc import Iterator

import command_line
from listing import Listing
from reporting.profiles import LONGEST, Machine, changed_statements
from reporting.tables import table
from reporting.tasks import Task, read_tasks
from rtn.calls import Program
from rtn.images import read_image
from rtn.patterns import read_patterns
from rtn.reading import Fault

@dataclasses.dataclass(frozen=True)
class Shape:
    """A transfer with a `_` for each field of the instruction word, and the fields."""

    text: str
    fields: tuple[str, ...]

    @staticmethod
    def of(transfer: str, code: str) -> Shape:
        field = rf'\bslice\({code},(\d+),(\d+)\)'
        bounds = re.findall(field, transfer)
        return Shape(re.sub(field, '_', transfer),
                     tuple(f'{code}[{high}:{low}]' for high, low in bounds))


@dataclasses.dataclass(frozen=True)
class Taken:
    """The words and the cycles of a program on a netlist, or the fault and nothing, and its code
    where the tools can read the netlist."""

    words: str
    cycles: str = ''
    listing: Listing | None = None


class Side:
    """A netlist with its transfers in the order of `extract`, or its fault."""

    def __init__(self, record: Program, path: pathlib.Path):
        self.record, self.path = record, path
        text = record.text('extract', path)
        first = text.split('\n')[0]
        self.fault = '' if first.startswith('patterns ') else first
        modes = [] if self.fault else read_patterns(text)
        self.transfers = [pattern.transfer for mode in modes for pattern in mode]
        self.machine = None if self.fault else self.read()

    def read(self) -> Machine | None:
        """The netlist, where the tools can read it."""
        try:
            return Machine(self.record, self.path)
        except Fault:
            return None

    def code(self) -> str | None:
        """The name of the instruction word, where the tools can read the netlist."""
        return self.machine and self.machine.netlist.code.name

    def lacking(self, other: Side) -> list[str]:
        """The transfers that the other netlist hasn't."""
        there = set(other.transfers)
        return [transfer for transfer in self.transfers if transfer not in there]

    def taken(self, task: Task, is_tuned: bool) -> Taken:
        """What a program takes."""
        try:
            image = read_image(task.code(self.record, self.path, is_tuned))
        except Fault as fault:
            return Taken(str(fault))
        listing = self.machine and self.machine.listed(task, image)
        cycles = '' if task.memory is None else self.cycles(task, listing, is_tuned)
        return Taken(str(len(image.words)), cycles, listing)

    def cycles(self, task: Task, listing: Listing | None, is_tuned: bool) -> str:
        """The cycles of a program from its memory text."""
        if listing and (is_tuned or task.part):
            return self.machine.profile(task, listing).cycles
        went = self.record.text('go', self.path, task.source, task.memory, LONGEST)
        *_, last, end = ['', *went.splitlines()]
        return last.split()[1] if end == 'end' else end


class Moves:
    """The transfers that have other fields alone.

    For each change of fields `groups` has the shapes, and `transfers` has all transfers in them.
    """

    def __init__(self, gone: list[str], come: list[str], old: str, new: str):
        self.groups: dict[tuple, list[str]] = {}
        self.transfers: set[str] = set()
        there = collections.defaultdict(list)
        for transfer in come:
            there[Shape.of(transfer, new).text].append(transfer)
        for transfer in gone:
            before = Shape.of(transfer, old)
            if before.fields and there[before.text]:
                other = there[before.text].pop(0)
                fields = zip(before.fields, Shape.of(other, new).fields)
                self.groups.setdefault(tuple(dict.fromkeys(fields)), []).append(before.text)
                self.transfers |= {transfer, other}


def changes(old: Side, new: Side) -> Iterator[str]:
    """The lines of the transfers."""
    gone, come = old.lacking(new), new.lacking(old)
    codes = (old.code(), new.code()) if gone and come else (None, None)
    moves = Moves(gone, come, *codes) if all(codes) else Moves([], [], '', '')
    for sign, own, fault in (('-', gone, old.fault), ('+', come, new.fault)):
        lines = [fault] if fault else [one for one in own if one not in moves.transfers]
        yield from (f'{sign} {line}' for line in lines)
    for fields, shapes in moves.groups.items():
        told = ', '.join(f'{one} -> {other}' for one, other in fields if one != other)
        yield from [f'~ {told}', *(f'    {shape}' for shape in shapes)]
    yield f'{len(set(old.transfers) & set(new.transfers))} in both'


def programs(old: Side, new: Side, tasks: list[Task], is_tuned: bool) -> Iterator[str]:
    """The table of the programs, and below it the statements that changed."""
    rows, changed = [['program', 'words', 'cycles', '', 'words', 'cycles']], []
    for task in tasks:
        before, after = old.taken(task, is_tuned), new.taken(task, is_tuned)
        name = task.source.name
        rows.append([name, before.words, before.cycles, '->', after.words, after.cycles])
        if before.listing and after.listing:
            for number, one, other in changed_statements(before.listing, after.listing):
                statement = before.listing.statements[number]
                changed.append(f'{name} line {statement.line}: {statement.text}: '
                               f'{one} -> {other} words')
    yield from table(rows)
    yield from changed


def main():
    words = command_line.Parser(__doc__)
    words.add_program()
    words.add_argument('old', metavar='OLD.rtn', type=pathlib.Path)
    words.add_argument('new', metavar='NEW.rtn', type=pathlib.Path)
    words.add_argument('programs', nargs='*')
    words.add_argument('--tune', action='store_true')
    given = words.words()
    tasks = read_tasks(given.programs)
    old, new = Side(given.binary, given.old), Side(given.binary, given.new)
    print('\n'.join(changes(old, new)))
    if tasks:
        print('\n'.join(programs(old, new, tasks, given.tune)))


if __name__ == '__main__':
    command_line.run(main)
