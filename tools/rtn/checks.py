"""Asks `record check` of images, and reads what it answers (docs/FORMATS.md)."""
from __future__ import annotations

import dataclasses
import pathlib
import re
from collections.abc import Mapping

from rtn.calls import Answer, Program
from rtn.reading import Fault

REFUSALS = (20, 21)   # statuses: of a rule that an image breaks, and of words that aren't followed


def check(record: Program, netlist: pathlib.Path, source: pathlib.Path, image: str) -> Answer:
    """What `record check` answers to an image text."""
    return record.on_text(image, 'check', netlist, source)


# ---- What is accepted


@dataclasses.dataclass(frozen=True)
class Way:
    """So many clocks to the mark of an address."""

    clocks: int
    to: int

    def __str__(self) -> str:
        return f'{self.clocks} to {self.to}'


@dataclasses.dataclass(frozen=True)
class Ways:
    """The clocks from mark to mark that `check` tells: from the start, and from each mark by its
    test's tree; None where no state at the mark has this value."""

    start: Way
    turns: Mapping[tuple[int, int], Way | None]


def read_ways(text: str) -> Ways:
    """The ways of an answer; a Fault where it is none."""
    start = re.search(r'^start (\d+) (\d+)$', text, re.M)
    if not (start and text.startswith('followed ') and text.endswith('\ndone\n')):
        raise Fault(f'no clocks from mark to mark: {text[:80]}')
    lines = re.findall(r'^mark (\d+) ([01]) (?:never|(\d+) (\d+))$', text, re.M)
    return Ways(Way(int(start[1]), int(start[2])),
                {(int(at), int(answer)): Way(int(clocks), int(to)) if clocks else None
                 for at, answer, clocks, to in lines})


# ---- What is refused


@dataclasses.dataclass(frozen=True)
class Unfollowed:
    """That words can't be followed: from this mark, where its test's tree has this value, or from
    the start where both are None; the first word of why, and what stands behind that."""

    mark: int | None
    answer: int | None
    why: str
    subject: str

    @property
    def word(self) -> int | None:
        """The address of the word at fault, where one is told."""
        return int(self.subject) if self.why in ('word', 'clash', 'mark') else None


def read_unfollowed(line: str) -> Unfollowed | None:
    """What a line `error follow` tells; None where it is another one."""
    found = re.fullmatch(r'error follow (?:start|(\d+) ([01])) (\w+)(?: (\S+))?', line)
    if not found:
        return None
    mark, answer, why, subject = found.groups()
    return Unfollowed(None if mark is None else int(mark), None if mark is None else int(answer),
                      why, subject or '')
