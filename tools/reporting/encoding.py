"""How transfers stand in the instruction word: its bits that decide, and those that are operands.
"""
from __future__ import annotations

import dataclasses
import enum
import itertools
import re
from collections.abc import Iterable, Mapping

from drawing.dot import span
from drawing.nets import Graph
from drawing.paths import Path
from reporting.fields import field_name
from reporting.views import Transfer, transfer_of
from rtn.names import Store
from rtn.operators import bits
from rtn.patterns import Pattern
from rtn.reading import Fault
from rtn.syntax import Constant, Item, Name


# A slice of the word, high and low.
Bounds = tuple[int, int]


class Role(enum.Enum):
    """What stretches of bits are for a transfer."""

    DECIDES = 'decides'
    OPERAND = 'operand'
    FREE = 'free'


# What a bit is for, and the slice that it is in.
Owner = tuple[Role, Bounds]
FREE: Owner = Role.FREE, (0, 0)


@dataclasses.dataclass(frozen=True)
class Stretch:
    """Neighbouring bits with one role, from `high` down to `low`: the digits of those that decide
    as the least word has them, and what an operand is called."""

    role: Role
    high: int
    low: int
    text: str = ''

    @property
    def width(self) -> int:
        return self.high - self.low + 1


class Encoder:
    """The words of a netlist in one mode."""

    def __init__(self, items: Iterable[Item], mode: tuple[str, int] | None):
        self.graph = Graph(list(items) if mode is None else in_mode(items, *mode))
        self.code, = self.graph.words
        self.names = {net.bounds: field_name(net) for net in self.graph.made.values()
                      if net.is_field and net.names}

    def stretches(self, pattern: Pattern) -> list[Stretch]:
        """The bits of the word from the top on. Those that keep other drivers off a bus, or other
        storages from changing, aren't told."""
        owners: dict[int, Owner] = {}
        for bounds in self.operands(pattern.transfer):
            owners |= {bit: (Role.OPERAND, bounds) for bit in bits_of(bounds)}
        for bounds in self.deciding(pattern):
            owners |= {bit: (Role.DECIDES, bounds) for bit in bits_of(bounds)}
        return self.grouped(owners, int(pattern.word, 16))

    def deciding(self, pattern: Pattern) -> dict[Bounds, int]:
        """The slices of the word that decide a transfer, with their values in its least word; none
        where its path isn't known."""
        path = path_of(self.graph, pattern)
        return {net.bounds: value for net, value in path.fields().items()} if path else {}

    def operands(self, transfer: str) -> list[Bounds]:
        """The slices of the word in a transfer, and the whole word where it stands alone."""
        name = self.code.name
        slices = re.findall(rf'\bslice\({name},(\d+),(\d+)\)', transfer)
        rest = re.sub(rf'\bslice\({name},\d+,\d+\)', '', transfer)
        whole = [(self.code.width - 1, 0)] if re.search(rf'\b{name}\b', rest) else []
        return whole + [(int(high), int(low)) for high, low in slices]

    def grouped(self, owners: Mapping[int, Owner], word: int) -> list[Stretch]:
        """The bits in stretches."""
        found = []
        bits_down = reversed(range(self.code.width))
        for (role, bounds), some in itertools.groupby(bits_down, lambda bit: owners.get(bit, FREE)):
            high, *rest = some
            low = rest[-1] if rest else high
            text = self.named(bounds) if role == Role.OPERAND else ''
            if role == Role.DECIDES:
                text = f'{bits(word, high, low):0{high - low + 1}b}'
            found.append(Stretch(role, high, low, text))
        return found

    def named(self, bounds: Bounds) -> str:
        """A slice of the word, by its name where it has one."""
        return self.names.get(bounds, self.code.name + span(*bounds))


def path_of(graph: Graph, pattern: Pattern) -> Path | None:
    """The path of a pattern through these nets; None where they don't tell its transfer."""
    transfer = transfer_of(pattern, Store.of(graph.items.values()))
    try:
        path = Path(graph.storages[transfer.storage], int(pattern.word, 16))
    except Fault:
        return None
    found = Pattern(pattern.number, path.text, pattern.word)
    is_told = transfer == Transfer(found.storage, found.address, found.value)
    return path if is_told else None


def bits_of(bounds: Bounds) -> range:
    """The bits of a slice."""
    high, low = bounds
    return range(low, high + 1)


def in_mode(items: Iterable[Item], mode: str, value: int) -> list[Item]:
    """The items with a number in place of the mode register's name."""
    width = next(item.width for item in items if item.name == mode)

    def put(tree):
        if tree == Name(mode):
            return Constant(value, width)
        if isinstance(tree, tuple):
            return tuple(map(put, tree))
        if dataclasses.is_dataclass(tree):
            own = {field.name: put(getattr(tree, field.name)) for field in dataclasses.fields(tree)}
            return dataclasses.replace(tree, **own)
        return tree

    return list(map(put, items))
