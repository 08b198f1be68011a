"""Reads the checkpoints that `record go` writes (docs/FORMATS.md), and holds them against the
interpreter of random_programs.
"""
from __future__ import annotations

import dataclasses
from collections.abc import Iterable

from rtn.images import END
from rtn.random_programs import Block, Interpreter
from rtn.reading import Fault


@dataclasses.dataclass(frozen=True)
class Checkpoint:
    """A line of a state at a mark, with what changed in the store."""

    line: str
    cycle: int
    label: str
    changes: tuple[tuple[str, int], ...]

    @property
    def is_end(self) -> bool:
        return self.label == END


def read_checkpoint(line: str) -> Checkpoint:
    """A line `at CYCLE LABEL CHANGES`."""
    head, *words = line.split()
    if head != 'at' or len(words) < 2:
        raise Fault(f'no checkpoint: {line}')
    cycle, label, *changes = words
    pairs = (change.split('=') for change in changes)
    return Checkpoint(line, int(cycle), label, tuple((cell, int(value)) for cell, value in pairs))


def read_checkpoints(text: str) -> tuple[list[Checkpoint], str]:
    """The checkpoints, and the last line: `end`, `budget`, or a fault."""
    lines = text.splitlines()
    if not lines or not all(line.startswith('at ') for line in lines[:-1]):
        raise Fault(f'no checkpoints: {text[:80]}')
    return list(map(read_checkpoint, lines[:-1])), lines[-1]


def store_after(checkpoints: Iterable[Checkpoint], cells: Iterable[str]) -> dict[str, int]:
    """What these cells hold behind checkpoints."""
    store = {cell: 0 for cell in cells}
    for checkpoint in checkpoints:
        store.update(checkpoint.changes)
    return store


class Watch:
    """Follows a program's tests beside checkpoints, from a store on.

    The stores have to be those that the interpreter has before each test and at the end, each test
    stands always under one label, and each comes within `longest` clocks of the last.
    """

    def __init__(self, program: Block, store: dict[str, int], longest: int):
        self.shown = {cell: 0 for cell in store}
        self.source = Interpreter(store)
        self.expected = self.source.run(program)
        self.labels: dict[int | None, str] = {}
        self.longest, self.last = longest, 0

    def wrong(self, checkpoint: Checkpoint) -> str | None:
        """What is wrong with the next checkpoint, or None."""
        line, label = checkpoint.line, checkpoint.label
        for cell, value in checkpoint.changes:
            if self.shown[cell] == value:
                return f'{line}: {cell} was told before'
            self.shown[cell] = value
        test = next(self.expected, None)
        if self.shown != self.source.cells:
            return f'{line}: the store is {self.source.cells}'
        if (test is None) != checkpoint.is_end or self.labels.setdefault(test, label) != label:
            return f'{line}: the test is {test}'
        if checkpoint.cycle - self.last > self.longest:
            return f'{line}: the last was at {self.last}'
        self.last = checkpoint.cycle
        return None

    def differs(self, checkpoints: list[Checkpoint], ending: str, cycles: int) -> str | None:
        """What is wrong with all checkpoints and their last line, or None."""
        found = next(filter(None, map(self.wrong, checkpoints)), None)
        if found:
            return found
        if len(set(self.labels.values())) != len(self.labels):
            return f'two tests have one label: {self.labels}'
        is_ended = bool(checkpoints) and checkpoints[-1].is_end
        is_short = not is_ended and cycles - self.last > self.longest
        if ending != ('end' if is_ended else 'budget') or is_short:
            return f'{ending} after {self.last}'
        return None
