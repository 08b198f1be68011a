#!/usr/bin/env python3
"""Writes a page to look at: a netlist drawn, its instruction set, and programs beside their code.

Usage: report.py BINARY [OLD.rtn] NET.rtn [PROGRAM.src [PROGRAM.part] [MEMORY.mem]] .. -o DIR

The page is DIR/NET.html, one file that needs no other and asks for none. It shows

- the words and cycles of each program by `compile` and by `tune`, and with OLD.rtn what changed
  from that netlist, as change.py tells it;
- the netlist as picture.py draws it, and below it the transfers by storage, each with its bits of
  the instruction word: a click on a transfer lights its way in the drawing;
- each program beside its code, statement by statement. The darker a word, the more often it ran
  from the memory text behind the program, as profile.py counts;
- what the programs use of the hardware.

graphviz draws (apt-get install graphviz). With a mode register a transfer that depends on the mode
has no lit way.

The exit status is 0, 1 where the netlist is refused or a file can't be used, or 2 where the words
are none of these.
"""
from __future__ import annotations

import pathlib

import command_line
from change import Side, changes, programs
from reporting.page import Page
from reporting.profiles import Machine
from reporting.tasks import Task, read_tasks
from rtn.calls import Program

NETLIST = '.rtn'


def changed(record: Program, old: pathlib.Path, new: pathlib.Path, tasks: list[Task]) -> str:
    """What change.py tells of two netlists."""
    sides = Side(record, old), Side(record, new)
    lines = [f'{old.name} -> {new.name}', *changes(*sides)]
    lines += programs(*sides, tasks, False) if tasks else []
    return '\n'.join(lines)


def write_report(record: Program, netlists: list[pathlib.Path], tasks: list[Task],
                 folder: pathlib.Path) -> pathlib.Path:
    """Writes the page of the last of one or two netlists, and gives its path."""
    *old, new = netlists
    told = changed(record, *old, new, tasks) if old else ''
    page = Page(Machine(record, new), tasks, told).text()
    folder.mkdir(parents=True, exist_ok=True)
    path = folder / f'{new.stem}.html'
    path.write_text(page, encoding='utf-8')
    return path


def main():
    words = command_line.Parser(__doc__)
    words.add_program()
    words.add_argument('netlist', metavar='NET.rtn', type=pathlib.Path)
    words.add_argument('programs', nargs='*')
    words.add_argument('-o', dest='folder', metavar='DIR', type=pathlib.Path, required=True)
    given = words.words()
    netlists, programs_given = [given.netlist], given.programs
    if programs_given and programs_given[0].endswith(NETLIST):
        netlists.append(pathlib.Path(programs_given[0]))
        programs_given = programs_given[1:]
    print(write_report(given.binary, netlists, read_tasks(programs_given), given.folder))


if __name__ == '__main__':
    command_line.run(main, refused=1)
