"""Which terms have the values that something has in samples: numbers, other values, and sums and
differences of one with a number."""
from __future__ import annotations

import dataclasses
import re
from collections.abc import Iterable, Iterator, Sequence

from rtn.clock import State
from rtn.images import Place
from rtn.operators import bits, mask, signed
from rtn.patterns import Meaning, Pattern
from rtn.syntax import Array, Item, Memory, Register

REACH = 2          # how far from a variable's number an index is looked for
FILE_CELLS = 32    # how many cells of a register file are looked at


@dataclasses.dataclass(frozen=True)
class Term:
    """A term with its width, and its values in samples."""

    text: str
    width: int
    values: tuple[int, ...]

    def resized(self, width: int) -> Iterator[Term]:
        """The term in another width, in the ways that there are."""
        wide = self.width
        if wide == width:
            yield self
        elif wide > width:
            for low in dict.fromkeys((0, wide - width)):
                yield Term(f'slice({self.text},{low + width - 1},{low})', width,
                           tuple(bits(value, low + width - 1, low) for value in self.values))
        else:
            yield Term(f'zext({self.text},{width})', width, self.values)
            yield Term(f'sext({self.text},{width})', width,
                       tuple(signed(value, wide) & mask(width) for value in self.values))


def terms_for(values: Sequence[int], width: int, terms: Iterable[Term]) -> list[str]:
    """Terms with these values, a number first, then the terms themselves, then sums with numbers,
    then differences."""
    if len(set(values)) == 1:
        return [f'{values[0]}#{width}']
    equal, sums, differences = [], [], []
    for term in terms:
        for own in term.resized(width):
            first = values[0] - own.values[0] & mask(width)
            second = values[0] + own.values[0] & mask(width)
            if own.values == tuple(values):
                equal.append(own.text)
            elif all(value - other & mask(width) == first
                     for value, other in zip(values, own.values)):
                sums.append(plus(own.text, first, width))
            elif all(value + other & mask(width) == second
                     for value, other in zip(values, own.values)):
                differences.append(f'sub({second}#{width},{own.text})')
    return [*equal, *sums, *differences]


def names_in(text: str) -> frozenset[str]:
    """The names in a term that are no operators."""
    return frozenset(re.findall(r'\b[a-zA-Z_]\w*\b(?!\()', text))


def plus(text: str, number: int, width: int) -> str:
    """A term and a number, which is subtracted where that is shorter."""
    if number >> width - 1:
        return f'sub({text},{-number & mask(width)}#{width})'
    return f'add({text},{number}#{width})'


class Registers:
    """What words over the registers say: the registers, the cells of the file, and the values that
    transfers have from registers alone."""

    def __init__(self, items: Sequence[Item], counter: str, patterns: Iterable[Pattern]):
        self.meaning, self.counter = Meaning(items), counter
        self.known: dict[int, tuple[State, list[tuple[int, int]]]] = {}
        self.registers = {item.name: item.width for item in items
                          if isinstance(item, Register) and item.name != counter}
        self.files = [item for item in items
                      if isinstance(item, Memory) and item.array == Array.FILE]
        names = {item.name for item in items if isinstance(item, Memory)}
        self.values = {}
        for pattern in patterns:
            text = pattern.transfer.split(' := ')[1]
            words = set(text.replace('(', ' ').replace(')', ' ').replace(',', ' ').split())
            if (words & set(self.registers) and '(' in text
                    and not words & {*names, self.meaning.code, counter, 'select'}):
                self.values[text] = pattern.value

    def heads(self) -> Iterator[tuple[str, str, int]]:
        """The registers and the cells of the file as terms and as holders, with their widths."""
        for name, width in self.registers.items():
            yield name, name, width
        for file in self.files:
            for at in range(min(file.size, FILE_CELLS)):
                term = f'read({file.name},{at}#{file.address_width})'
                yield term, f'{file.name}[{at}]', file.width

    def held(self, state: State) -> Iterator[int]:
        """What these hold in a state, in turn."""
        yield from (state[name] for name in self.registers)
        for file in self.files:
            yield from state[file.name][:FILE_CELLS]

    def computed(self, state: State) -> list[tuple[int, int]]:
        """What transfers compute in a state, with the widths. Each state is looked at once."""
        if id(state) not in self.known:
            self.known[id(state)] = state, [self.meaning.sized(value, state, 0)
                                            for value in self.values.values()]
        return self.known[id(state)][1]

    def terms(self, states: Sequence[State]) -> Iterator[Term]:
        """The terms with their values in these states."""
        for (text, _, width), values in zip(self.heads(), zip(*map(self.held, states))):
            yield Term(text, width, values)
        for text, several in zip(self.values, zip(*map(self.computed, states))):
            yield Term(text, several[0][1], tuple(number for number, _ in several))

    def holders(self, states: Sequence[State]) -> Iterator[Term]:
        """What may hold something, as hints name it, with its values in these states."""
        for (_, name, width), values in zip(self.heads(), zip(*map(self.held, states))):
            yield Term(name, width, values)


def variables(places: Sequence[Place], width: int, stores: Sequence[dict[str, int]]
              ) -> Iterator[Term]:
    """The terms over variables: plain ones, and elements at plain ones and numbers near them."""
    plain = [place.name for place in places if place.length == 1]
    for name in plain:
        yield Term(name, width, tuple(store[name] for store in stores))
    for array in places:
        for name in plain if array.length > 1 else ():
            for offset in range(-REACH, REACH + 1):
                found = tuple(store.get(f'{array.name}[{store[name] + offset}]', -1)
                              for store in stores)
                if -1 not in found:
                    index = plus(name, offset & mask(width), width) if offset else name
                    yield Term(f'read({array.name},{index})', width, found)
