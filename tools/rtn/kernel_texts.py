"""Writes an image, with the remarks on it, as a kernel that rtn/kernels.py reads back to the same
image.
"""
from __future__ import annotations

import enum
import itertools
import pathlib
import re
from collections import Counter
from collections.abc import Iterator

from rtn.calls import Program
from rtn.images import END, read_image
from rtn.kernels import HERE, Processor, assemble
from rtn.operators import bits
from rtn.patterns import Pattern
from rtn.remarks import Kind, Remark, parted
from rtn.syntax import Case, Expression, Extension, Name, Operation, Read, Slice

ROUNDS = 4   # how often fields are added until `asm` makes a word again
INDENT = '    '


def kernel_of(record: Program, netlist: pathlib.Path, image: str) -> str:
    """The kernel of an image; a Fault where it is none, or the netlist isn't one for `dis`."""
    processor = Processor.at(record, netlist)
    front, remarks = parted(image)
    lines = exact_lines(record, netlist, front)
    return '\n'.join(Writer(processor, front, remarks, lines).lines()) + '\n'


def exact_lines(record: Program, netlist: pathlib.Path, image: str) -> list[str]:
    """Lines of which `asm` makes just the words of an image.

    `dis` writes what a word does; where other bits of the word, on which nothing depends, make
    another one of that, they are added as fields.
    """
    lines = record.on_text(image, 'dis', netlist).done.splitlines()
    words = read_image(image).words
    for last in reversed(range(ROUNDS)):
        again = read_image(assemble(record, netlist, lines).done).words
        for at, (word, made) in enumerate(zip(words, again, strict=True)):
            if word.number != made.number:
                lines[at] = pinned(lines[at], word.number, made.number) if last else (
                    f'raw {word.digits}')
    return lines


def pinned(line: str, word: int, made: int) -> str:
    """A line with the bits as fields that a word has other than the one that was made of it."""
    differ = f'{word ^ made:b}'
    fields = []
    for run in re.finditer('1+', differ):
        high, low = len(differ) - 1 - run.start(), len(differ) - run.end()
        fields.append(f'{high}:{low}={bits(word, high, low)}')
    return ' '.join([line if ' with ' in line else f'{line} with', *fields])


class Use(enum.Enum):
    """What a field of a word is used for."""

    NUMBER = 'number'
    CELL = 'cell'       # an address of the memory, or a part of one
    TARGET = 'target'   # where the program counter goes


def parts_of(of: Expression | None) -> Iterator[Expression]:
    """An expression and all that it is made of."""
    if of is None:
        return
    yield of
    match of:
        case Slice(inner) | Extension(inner) | Read(_, inner):
            yield from parts_of(inner)
        case Case(selector, rows):
            for part in (selector, *(row.value for row in rows)):
                yield from parts_of(part)
        case Operation(_, operands):
            yield from itertools.chain.from_iterable(map(parts_of, operands))


def ways_of(of: Expression) -> list[Expression]:
    """The values that an expression chooses from."""
    if isinstance(of, Case):
        return [way for row in of.rows for way in ways_of(row.value)]
    return [of]


class Writer:
    """The lines of a kernel."""

    def __init__(self, processor: Processor, image: str, remarks: list[Remark] | None,
                 lines: list[str]):
        self.processor, self.remarks = processor, remarks or []
        self.is_bare = remarks == []
        self.text, self.image, self.words = image, read_image(image), lines
        names = Counter(place.name for place in self.image.places)
        self.cells = {at: name for at, name in self.image.cells().items()
                      if names[name.split('[')[0]] == 1}
        self.labels = self.labelled(names)

    def labelled(self, names: Counter) -> dict[int, str]:
        """Labels for the marks and for the words that others turn to, by their addresses."""
        count, found = len(self.words), {}
        taken = {*names, HERE}
        targets = {value for line in self.words for _, value, use in self.fields(line)
                   if use == Use.TARGET and value < count}
        for at in sorted(targets | {at for at in self.image.marks if at < count}):
            mark = self.image.marks.get(at)
            wanted = END if mark == END else f'test{mark}' if mark is not None else f'at{at}'
            wanted = wanted if wanted not in taken else f'at{at}'
            while wanted in taken:
                wanted += '_'
            found[at] = wanted
            taken.add(wanted)
        return found

    def fields(self, line: str) -> Iterator[tuple[str, int, Use]]:
        """The fields of a line: their bits, their value, and what they are used for."""
        transfers, _, items = line.partition(' with ')
        uses = self.uses(transfers) if items else {}
        for item in items.split():
            place, _, value = item.partition('=')
            yield place, int(value), uses.get(place, Use.NUMBER)

    def uses(self, transfers: str) -> dict[str, Use]:
        """What the fields in transfers are used for, by their bits."""
        found = {}
        for text in transfers.split(' & ') if ' := ' in transfers else ():
            transfer = Pattern(0, text, '')
            addresses = [part.address for part in parts_of(transfer.value)
                         if isinstance(part, Read) and part.memory == self.processor.memory]
            if transfer.storage == self.processor.memory:
                addresses.append(transfer.address)
            for part in itertools.chain.from_iterable(map(parts_of, addresses)):
                found |= self.field(part, Use.CELL)
            if transfer.storage == self.processor.counter:
                for way in ways_of(transfer.value):
                    found |= self.field(way, Use.TARGET)
        return found

    def field(self, of: Expression, use: Use) -> dict[str, Use]:
        """A slice of the instruction word as a field with a use; any other expression is none."""
        match of:
            case Slice(Name(self.processor.code.name), high, low):
                return {f'{high}:{low}': use}
            case Extension(inner, _, False):
                return self.field(inner, use)
        return {}

    def value(self, value: int, use: Use) -> str:
        """A field's value by a name, where it has one."""
        names = {Use.TARGET: self.labels, Use.CELL: self.cells, Use.NUMBER: {}}[use]
        return names.get(value, str(value))

    def word(self, at: int) -> str:
        line = self.words[at]
        items = ' '.join(f'{place}={self.value(value, use)}'
                         for place, value, use in self.fields(line))
        wants = ','.join(map(str, self.image.words[at].patterns))
        parts = [self.short(line.partition(' with ')[0]), items and f'with {items}',
                 wants and f'wants {wants}']
        return INDENT + ' '.join(filter(None, parts))

    def short(self, text: str) -> str:
        """The transfers of a line without the step to the next word, which needn't be told."""
        processor = self.processor
        if text == 'keep' or text.startswith('raw '):
            return text
        transfers = text.split(' & ')
        if processor.step in transfers and len(transfers) > 1:
            transfers.remove(processor.step)
        elif processor.step and not any(part.startswith(f'{processor.counter} := ')
                                        for part in transfers):
            transfers.insert(0, processor.stay)
        return ' & '.join(transfers)

    def lines(self) -> Iterator[str]:
        yield f'.temps {self.image.temporaries}'
        yield from (f'.{place.line}' for place in self.image.places)
        yield from (f'.{line}' for line in re.findall(r'^tree \d+ \d+$', self.text, re.M))
        if self.is_bare:
            yield '.remarks'
        yield from (f'.hide {remark.at} {remark.subject}' for remark in self.remarks
                    if remark.kind == Kind.HIDE)
        for at in range(len(self.words)):
            yield from self.before(at)
            yield self.word(at)

    def before(self, at: int) -> Iterator[str]:
        """The label, the mark and the remarks before a word."""
        if at in self.labels:
            yield from ['', f'{self.labels[at]}:']
        if at in self.image.marks:
            yield f'.mark {self.image.marks[at]}'
        yield from (f'.{remark.kind.value} {remark.subject} {remark.value}'
                    for remark in self.remarks
                    if remark.kind != Kind.HIDE and remark.at == str(at))
