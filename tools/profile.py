#!/usr/bin/env python3
"""Says what programs take on a netlist, and what of its hardware none of them uses.

Usage: profile.py BINARY NET.rtn PROGRAM.src [PROGRAM.part] [MEMORY.mem] .. [--tune]
       [--mem NAME=VALUE,..] ..

BINARY is run as `compile`, with --tune as `tune`, and for a program with a part as `dual`. The
netlist is clocked here on the words, from the memory text behind the program, until the program
counter stands at the end mark, or 1,000,000 times. `--mem x=1,2,3` or `--mem y[4]=7` sets cells of
the programs that have such a variable, over that text.

First stands a table of the programs, with `budget` for one that didn't end, and the fault of one
that is refused. Below, each program has its statements, with their words, the cycles spent in these
and their share, and each word behind the number of times that it ran. With --tune the words that a
statement has by `compile` stand behind it where they are others.

Then stands what all the programs together use: for each register and memory how many of its
transfers, as `LC: 0 of 3 transfers`, and below that those that no word wants; that the program
counter goes on to the next word is wanted wherever it doesn't turn. Last are the fields of the
instruction word with the number of values that they have in these words, and the bits that are
always alike.

The exit status is 0, 1 where the netlist is refused or a file can't be used, or 2 where the words
are none of these.
"""
from __future__ import annotations

import pathlib
from collections.abc import Iterator

import command_line
from listing import Listing
from reporting.profiles import Machine, Profile, Usage, changed_statements
from reporting.tables import table
from reporting.tasks import Task, read_tasks
from rtn.names import Setting, read_setting
from rtn.reading import Fault


def statements(profile: Profile, by_compile: Listing | None) -> Iterator[str]:
    """The lines of a program, statement by statement, beside its code by `compile` where there is
    one."""
    changed = changed_statements(by_compile, profile.listing) if by_compile else ()
    others = {number: before for number, before, _ in changed}
    yield from ['', f'{profile.task.source.name}: {profile.words} words, {profile.cycles} cycles']
    yield ' words   cycles'
    for number, statement in enumerate(profile.listing.statements):
        spent = profile.spent(statement)
        share = f'{100 * spent / max(profile.clocks, 1):3.0f} %'
        told = f' ({others[number]} by compile)' if number in others else ''
        yield (f'{len(statement.rows):6} {spent:8} {share}  '
               f'line {statement.line}: {statement.text}{told}')
        for row in statement.rows:
            head = f'{profile.count(row):15}x{row.address:6}  {row.digits}'
            yield f'{head}  {" & ".join(row.texts)}'.rstrip()


def hardware(usage: Usage) -> Iterator[str]:
    """The lines of what is used."""
    yield from ['', 'what the programs use']
    for storage in usage.storages:
        yield str(storage)
        yield from (f'    never {transfer}' for transfer in storage.unused)
    yield from ['', 'fields of the instruction word', *map(str, usage.fields)]
    alike = ' '.join(f'{usage.machine.netlist.code.name}[{bit}]={value}'
                     for bit, value in usage.constant_bits())
    yield f'bits that are always alike: {alike or "none"}'


def by_compile(machine: Machine, task: Task, is_tuned: bool) -> Listing | None:
    """The code by `compile` that stands beside one by `tune`, where there is one."""
    found = machine.listing(task, False) if is_tuned else ''
    return found if isinstance(found, Listing) else None


def profiled(machine: Machine, tasks: list[Task], is_tuned: bool,
             settings: list[Setting]) -> tuple[list[str], list[Profile]]:
    """The lines of the table of programs, and the profiles of those that aren't refused."""
    rows, profiles = [['program', 'words', 'cycles']], []
    for task in tasks:
        listing = machine.listing(task, is_tuned)
        if isinstance(listing, str):
            rows.append([task.source.name, listing, ''])
            continue
        profile = machine.profile(task, listing, settings)
        profiles.append(profile)
        rows.append([task.source.name, str(profile.words), profile.cycles])
    names = {place.name for profile in profiles for place in profile.listing.image.places}
    for setting in settings:
        if profiles and setting.name not in names:
            raise Fault(f'no program has a variable {setting.name}')
    return table(rows), profiles


def main():
    words = command_line.Parser(__doc__)
    words.add_program()
    words.add_argument('netlist', metavar='NET.rtn', type=pathlib.Path)
    words.add_argument('programs', metavar='PROGRAM.src', nargs='+')
    words.add_argument('--tune', action='store_true')
    words.add_argument('--mem', metavar='NAME=VALUE,..', action='append', default=[])
    given = words.words()
    tasks, settings = read_tasks(given.programs), list(map(read_setting, given.mem))
    machine = Machine(given.binary, given.netlist)
    lines, profiles = profiled(machine, tasks, given.tune, settings)
    print('\n'.join(lines))
    for profile in profiles:
        other = by_compile(machine, profile.task, given.tune)
        print('\n'.join(statements(profile, other)))
    print('\n'.join(hardware(Usage(machine, profiles))))


if __name__ == '__main__':
    command_line.run(main, refused=1)
