"""The section of a page with a netlist's drawing and its transfers, each of which lights its way.
"""
from __future__ import annotations

import collections
from collections.abc import Iterator, Mapping

from drawing.dot import span
from reporting.encoding import Encoder, Role, Stretch, path_of
from reporting.html import Markup, element, joined
from reporting.profiles import Machine, StorageUse
from reporting.ways import Ways
from rtn.patterns import Pattern, read_patterns

TOLD = ('Click on a transfer: its way is lit in the drawing. Blue bits decide, as the least word '
        "has them, and green ones are operands; what keeps other drivers off a bus isn't told. ")
TOLD_OF_PROGRAMS = 'Grey transfers are wanted by no word of the programs.'


class InstructionSet:
    """The transfers of a machine, and in how many words of its programs each is wanted, if there
    are programs."""

    def __init__(self, machine: Machine, storages: list[StorageUse],
                 wanted: Mapping[str, int] | None):
        self.machine, self.storages, self.wanted = machine, storages, wanted
        self.modes = read_patterns(machine.record.done('extract', machine.path))
        self.ways, mode = Ways(machine.graph), machine.transfers.mode
        self.encoders = [Encoder(machine.items, (mode, value) if mode else None)
                         for value in range(len(self.modes))]
        self.keys: dict[str, str] = {}
        for key, pattern, _ in self.patterns():
            self.keys.setdefault(pattern.transfer, key)

    def patterns(self) -> Iterator[tuple[str, Pattern, int]]:
        """All patterns with a key of their own and their mode."""
        for mode, patterns in enumerate(self.modes):
            for pattern in patterns:
                yield f'{mode}-{pattern.number}', pattern, mode

    def place(self, transfer: str) -> str:
        """The row of a transfer as the end of a link; that of its first mode."""
        return row_name(self.keys[transfer])

    def section(self) -> Markup:
        """The drawing, and below it the transfers by storage."""
        caption = element('div', element('button', 'fit or full size', type='button'),
                          element('span', 'no transfer is lit'), klass='way-told')
        charts = [chart for mode in range(len(self.modes)) for chart in self.charts(mode)]
        told = TOLD if self.wanted is None else TOLD + TOLD_OF_PROGRAMS
        return joined(element('p', told, klass='told'),
                      element('div', caption, self.ways.svg(), klass='drawing'), *charts)

    def charts(self, mode: int) -> Iterator[Markup]:
        """A chart for each storage in a mode."""
        rows = collections.defaultdict(list)
        if len(self.modes) > 1:
            yield element('h3', f'With {self.machine.transfers.mode} = {mode}')
        for key, pattern, own in self.patterns():
            if own == mode:
                rows[pattern.storage].append(self.row(key, pattern, mode))
        for storage in self.storages:
            yield element('h3', storage.name if self.wanted is None else str(storage))
            if rows[storage.name]:
                yield element('table', self.bit_numbers(), *rows[storage.name], klass='chart')

    def bit_numbers(self) -> Markup:
        numbers = (element('th', str(bit), klass='bit')
                   for bit in reversed(range(self.machine.netlist.code.width)))
        return element('tr', element('th', 'transfer', klass='transfer'), *numbers,
                       element('th', '' if self.wanted is None else 'words', klass='words'))

    def row(self, key: str, pattern: Pattern, mode: int) -> Markup:
        """A transfer with its bits, and the number of words that want it."""
        count = self.wanted[pattern.transfer] if self.wanted is not None else None
        name = row_name(key)
        link = element('a', element('code', pattern.transfer), href=f'#{name}')
        return element('tr', element('td', link, klass='transfer'),
                       *map(bits_cell, self.encoders[mode].stretches(pattern)),
                       element('td', str(count or ''), klass='number'),
                       id=name, klass='unused' if count == 0 else None)

    def lit(self) -> dict[str, dict]:
        """What each transfer lights in the drawing, by its key, and what is told of it. One that
        depends on the mode, which the drawing doesn't tell, lights nothing."""
        found = {}
        for key, pattern, mode in self.patterns():
            encoder, path = self.encoders[mode], path_of(self.machine.graph, pattern)
            fields = (f'{encoder.named(bounds)} = {value}'
                      for bounds, value in encoder.deciding(pattern).items())
            found[key] = {'parts': self.ways.lit(path) if path else [],
                          'told': ', '.join([f'{pattern.transfer}: word {pattern.word}', *fields])}
        return found


def row_name(key: str) -> str:
    """The row of a transfer, by its key; page.js knows this form."""
    return f'transfer-{key}'


def bits_cell(stretch: Stretch) -> Markup:
    """A stretch of bits; what doesn't fit is told where the pointer rests."""
    where = f'{span(stretch.high, stretch.low)} {stretch.text}'
    return element('td', stretch.text, colspan=stretch.width, klass=f'bits {stretch.role.value}',
                   title=None if stretch.role == Role.FREE else where)
