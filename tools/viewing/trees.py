"""What the statements of a program compute, as terms over its variables: the trees of its text,
their parts, and both of them a turn of a counter earlier or later."""
from __future__ import annotations

import dataclasses
from collections.abc import Iterator, Sequence

from rtn import sources
from rtn.operators import OPERATORS
from rtn.sources import Cell, Number, Operation, Sized, Source, Value
from viewing.relations import Term

TURNS = (None, 'sub', 'add')   # by 1


@dataclasses.dataclass(frozen=True)
class Part:
    """An operator or an element in a tree of a program, with the width of its place."""

    of: Operation | Cell
    width: int


class Trees:
    """The trees of a program whose cells are `width` bits wide."""

    def __init__(self, source: Source, width: int):
        self.source, self.width = source, width
        self.sizes = sources.Run(source, width, {})
        self.plain = [name for name, length in source.lengths.items() if length == 1]
        self.parts = list(dict.fromkeys(self.all_parts()))

    # the parts

    def all_parts(self) -> Iterator[Part]:
        for of in self.source.trees():
            yield from self.parts_of(of, self.sizes.common(of))

    def parts_of(self, of: Value, width: int) -> Iterator[Part]:
        """The operators and the elements in a value whose place has this width."""
        match of:
            case Cell(_, index) if index is not None:
                yield Part(of, width)
                yield from self.parts_of(index, self.width)
            case Sized(_, inner):
                yield from self.parts_of(inner, self.sizes.common(inner))
            case Operation(_, operands):
                yield Part(of, width)
                for operand in operands:
                    yield from self.parts_of(operand, width)

    # their terms

    def terms(self, stores: Sequence[dict[str, int]]) -> Iterator[Term]:
        """The parts with their values in these stores, but for those that are outside an array."""
        for part in self.parts:
            for name in self.plain:
                for turn in TURNS if has(part.of, name) else ():
                    moved = turned(part.of, name, turn) if turn else part.of
                    try:
                        yield self.term(Part(moved, part.width), stores)
                    except KeyError:
                        continue   # no such element

    def term(self, part: Part, stores: Sequence[dict[str, int]]) -> Term:
        """A part as a term; a KeyError where it reads outside an array."""
        runs = [sources.Run(self.source, self.width, store) for store in stores]
        return Term(self.text(part.of, part.width), width_of(part),
                    tuple(run.value(part.of, part.width) for run in runs))

    def text(self, of: Value, width: int) -> str:
        """A value as hints write it, in a place of this width."""
        match of:
            case Number(value):
                return f'{value}#{width}'
            case Cell(name, index) if index is None or name in self.plain:
                return name
            case Cell(name, index):
                return f'read({name},{self.text(index, self.width)})'
            case Sized(word, inner, wide):
                inside = self.text(inner, self.sizes.common(inner))
                return (f'slice({inside},{wide - 1},0)' if word == 'low'
                        else f'{word}({inside},{wide})')
            case Operation(word, operands):
                return f'{word}({",".join(self.text(operand, width) for operand in operands)})'


def width_of(part: Part) -> int:
    """How wide the value of a part is."""
    if isinstance(part.of, Cell):
        return part.width
    return OPERATORS[part.of.word].width([part.width] * len(part.of.operands))


def has(of: Value, name: str) -> bool:
    """Whether a value has a plain variable."""
    match of:
        case Cell(own, index):
            return own == name or index is not None and has(index, name)
        case Sized(_, inner):
            return has(inner, name)
        case Operation(_, operands):
            return any(has(operand, name) for operand in operands)
    return False


def turned(of: Value, name: str, turn: str) -> Value:
    """A value with a plain variable one less or one more."""
    match of:
        case Cell(own, None) if own == name:
            return Operation(turn, (of, Number(1)))
        case Cell(own, index) if index is not None:
            return Cell(own, turned(index, name, turn))
        case Sized(word, inner, width):
            return Sized(word, turned(inner, name, turn), width)
        case Operation(word, operands):
            return Operation(word, tuple(turned(operand, name, turn) for operand in operands))
    return of
