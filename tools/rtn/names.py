"""Cells by the names of an image's variables: memory texts from settings, and states in names."""
from __future__ import annotations

import dataclasses
import re
from collections.abc import Iterable, Iterator

from rtn.images import Image, Place, read_cells
from rtn.operators import mask, signed
from rtn.reading import Fault
from rtn.syntax import Array, Item, Memory

SETTING = re.compile(r'(\w+)(?:\[(\d+)\])?=(-?\d+(?:,-?\d+)*)', re.A)


@dataclasses.dataclass(frozen=True)
class Setting:
    """Values for the cells of a variable, from an index on."""

    name: str
    index: int
    values: tuple[int, ...]


def read_setting(word: str) -> Setting:
    """A setting `NAME=VALUE,..` or `NAME[INDEX]=VALUE,..`."""
    found = SETTING.fullmatch(word)
    if not found:
        raise Fault(f'no setting NAME=VALUE,.. or NAME[INDEX]=VALUE,..: {word}')
    name, index, values = found.groups()
    return Setting(name, int(index or 0), tuple(map(int, values.split(','))))


@dataclasses.dataclass(frozen=True)
class Store:
    """The memories that variables stand in: the data memory, and the bank behind its `span`
    addresses where there is one. Without a width numbers have no sign and no bound."""

    memory: str = 'M'
    width: int | None = None
    bank: str | None = None
    span: int = 0

    @staticmethod
    def of(items: Iterable[Item]) -> Store:
        """The store of a netlist."""
        arrays = {item.array: item for item in items if isinstance(item, Memory)}
        memory, bank = arrays.get(Array.MEMORY), arrays.get(Array.BANK)
        if memory is None:
            raise Fault('no memory is in the netlist')
        return Store(memory.name, memory.width, bank and bank.name, 1 << memory.address_width)

    def cell(self, address: int) -> tuple[str, int]:
        """The memory with the cell of a place, and its address there."""
        if self.bank is not None and address >= self.span:
            return self.bank, address - self.span
        return self.memory, address

    def number(self, value: int) -> int:
        """A value as a cell holds it."""
        if self.width is None:
            if value < 0:
                raise Fault(f'{value} has a sign, and no netlist says how wide a cell is')
            return value
        if not -(1 << self.width - 1) <= value <= mask(self.width):
            raise Fault(f'{value} has more than {self.width} bits')
        return value & mask(self.width)

    def memory_lines(self, image: Image, settings: Iterable[Setting]) -> Iterator[str]:
        """The lines of a memory text that makes these settings."""
        places = {place.name: place for place in image.places}
        for setting in settings:
            place = places.get(setting.name)
            if place is None:
                raise Fault(f'no variable is called {setting.name}')
            if setting.index + len(setting.values) > place.length:
                raise Fault(f'{setting.name} has {place.length} cell{"s" * (place.length != 1)}')
            for address, value in enumerate(setting.values, place.address + setting.index):
                memory, at = self.cell(address)
                yield f'{memory} {at} {self.number(value)}'

    def held(self, place: Place, state: str, is_signed: bool = False) -> list[int]:
        """What a memory text or a state holds in the cells of a place."""
        cells = {name: read_cells(state, name) for name in (self.memory, self.bank) if name}
        found = []
        for address in place.cells():
            memory, at = self.cell(address)
            value = cells[memory].get(at, 0)
            found.append(signed(value, self.width) if is_signed and self.width else value)
        return found

    def named_lines(self, image: Image, state: str, is_signed: bool = False) -> Iterator[str]:
        """What the variables of an image hold in a state, a setting for each of them."""
        if not re.match(r'cycles \d+\n', state) or not state.endswith('\ndone\n'):
            raise Fault('no state')
        for place in image.places:
            yield f'{place.name}={",".join(map(str, self.held(place, state, is_signed)))}'
