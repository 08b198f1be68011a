"""Reads the texts that `record` writes of code and of states (docs/FORMATS.md): images, the words
of self-tests, memory texts and states. Images are written, too.
"""
from __future__ import annotations

import dataclasses
import re
from collections.abc import Iterable, Iterator

from rtn.reading import Fault

END = 'end'   # the label of the end mark


def cells_of(name: str, length: int) -> list[str]:
    """The names of a variable's cells; an array of one cell is told as a plain variable is."""
    return [name] if length == 1 else [f'{name}[{k}]' for k in range(length)]


@dataclasses.dataclass(frozen=True)
class Place:
    """The cells of a variable."""

    name: str
    address: int
    length: int

    @property
    def line(self) -> str:
        return f'place {self.name} {self.address} {self.length}'

    def cells(self) -> dict[int, str]:
        """The addresses of its cells, each with what the cell is called."""
        return dict(enumerate(cells_of(self.name, self.length), self.address))


@dataclasses.dataclass(frozen=True)
class Word:
    """An instruction word in hexadecimal digits, and the patterns that are wanted of it."""

    digits: str
    patterns: tuple[int, ...] = ()

    @property
    def number(self) -> int:
        return int(self.digits, 16)

    def line(self, address: int) -> str:
        return f'word {address} {self.digits} {",".join(map(str, self.patterns)) or "-"}'


@dataclasses.dataclass(frozen=True)
class Image:
    """An image text. `marks` has the label of each mark by its address."""

    width: int
    temporaries: int
    places: tuple[Place, ...]
    costs: tuple[int, ...]
    marks: dict[int, str]
    words: tuple[Word, ...]

    @property
    def end(self) -> int | None:
        """The address of the end mark, or None."""
        return next((at for at, label in self.marks.items() if label == END), None)

    @property
    def head(self) -> str:
        return f'image {self.width} {len(self.words)}'

    def word(self, address: int) -> int:
        """The word at an address, which is 0 past the last one."""
        return self.words[address].number if address < len(self.words) else 0

    def cells(self) -> dict[int, str]:
        """The addresses of all variables' cells, each with what the cell is called."""
        return {at: name for place in self.places for at, name in place.cells().items()}

    @property
    def text(self) -> str:
        """The image as it is written."""
        return ''.join(f'{line}\n' for line in self.lines())

    def lines(self) -> Iterator[str]:
        yield self.head
        yield f'temps {self.temporaries}'
        yield from (place.line for place in self.places)
        yield from (f'tree {number} {cost}' for number, cost in enumerate(self.costs))
        yield from (mark_line(at, self.marks[at]) for at in sorted(self.marks))
        yield from (word.line(at) for at, word in enumerate(self.words))
        yield 'done'


def mark_line(address: int, label: str) -> str:
    return f'mark {address} {label}'


def read_image(text: str) -> Image:
    """An image text; a Fault where it is none. Its lines of other kinds are passed over."""
    head = re.match(r'image (\d+) \d+\n', text)
    if not head or not text.endswith('\ndone\n'):
        raise Fault('no image text')
    temporaries = re.search(r'^temps (\d+)$', text, re.M)
    places = re.findall(r'^place (\w+) (\d+) (\d+)$', text, re.M)
    marks = re.findall(r'^mark (\d+) (\w+)$', text, re.M)
    return Image(
        int(head[1]), int(temporaries[1]) if temporaries else 0,
        tuple(Place(name, int(at), int(length)) for name, at, length in places),
        tuple(map(int, re.findall(r'^tree \d+ (\d+)$', text, re.M))),
        {int(at): label for at, label in marks}, tuple(read_words(text)))


def read_words(text: str) -> Iterator[Word]:
    """The words of an image or of a self-test, whose lines have no patterns."""
    for digits, listed in re.findall(r'^word \d+ ([0-9a-f]+)(?: (\S+))?$', text, re.M):
        yield Word(digits, tuple(map(int, listed.split(','))) if listed not in ('', '-') else ())


def read_cells(text: str, memory: str = 'M') -> dict[int, int]:
    """The cells of one memory that a memory text or a state names."""
    return {int(at): int(value)
            for at, value in re.findall(rf'^{memory} (\d+) (\d+)$', text, re.M)}


def read_settings(text: str) -> Iterator[tuple[str, int | None, int]]:
    """What a memory text sets, line by line: a register and None, or a memory and an address,
    and the value."""
    for line in text.splitlines():
        name, *numbers = line.split(' ')
        if len(numbers) not in (1, 2) or not all(number.isdecimal() for number in numbers):
            raise Fault(f'no line of a memory text: {line}')
        yield name, int(numbers[0]) if len(numbers) == 2 else None, int(numbers[-1])


def image_text(width: int, words: Iterable[str], *lines: str) -> str:
    """An image of words in hexadecimal digits, with other lines before them."""
    listed = [Word(digits).line(at) for at, digits in enumerate(words)]
    return '\n'.join([f'image {width} {len(listed)}', 'temps 0', *lines, *listed, 'done', ''])
