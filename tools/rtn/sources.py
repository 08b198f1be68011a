"""Reads program texts by the grammar of docs/SOURCE.md, and runs them. It is written apart from the
program that the tools try.

A text is taken to break no rule: nothing is said of a name that isn't declared, or of widths that
differ.
"""
from __future__ import annotations

import dataclasses
import re
from collections.abc import Callable, Iterable, Iterator

from rtn.images import cells_of
from rtn.operators import OPERATORS, mask, signed
from rtn.reading import Fault

TOKEN = re.compile(r'(?:[ \t\r\n]|//[^\n]*)*(?:(0x[0-9A-Fa-f]+|\d+)|(\w+)|'
                   r'(>>>|<<|>>|==|!=|<=|>=|[-+*&|^~=<>(){}\[\],;]))?', re.A)
LEVELS = (('|',), ('^',), ('&',), ('<<', '>>', '>>>'), ('+', '-'), ('*',))
WORDS = {'*': 'mul', '+': 'add', '-': 'sub', '<<': 'shl', '>>': 'shr', '>>>': 'sar', '&': 'and',
         '^': 'xor', '|': 'or'}
ORDERS: dict[str, Callable[[int, int], bool]] = {
    '==': lambda a, b: a == b, '!=': lambda a, b: a != b, '<': lambda a, b: a < b,
    '<=': lambda a, b: a <= b, '>': lambda a, b: a > b, '>=': lambda a, b: a >= b}
SIGNED = {'slt': '<', 'sle': '<=', 'sgt': '>', 'sge': '>='}
OPPOSITE = ('!=', '<=', '>=', 'sle', 'sge')
SIGNS = {'-': 'neg', '~': 'not'}
CALLS = ('zext', 'sext', 'low')

# ---- Trees


@dataclasses.dataclass(frozen=True, slots=True)
class Number:
    """A number, as wide as its place."""

    value: int


@dataclasses.dataclass(frozen=True, slots=True)
class Cell:
    """A variable or, with an index, an element of an array."""

    name: str
    index: Value | None = None


@dataclasses.dataclass(frozen=True, slots=True)
class Operation:
    """An operator of netlists, by its word, with its one or two operands."""

    word: str
    operands: tuple[Value, ...]


@dataclasses.dataclass(frozen=True, slots=True)
class Sized:
    """`zext`, `sext` or `low` of a value."""

    word: str
    of: Value
    width: int


Value = Number | Cell | Operation | Sized


@dataclasses.dataclass(frozen=True, slots=True)
class Test:
    """Two values with an order between them, and the number of the test's tree."""

    tree: int
    order: str
    first: Value
    second: Value

    @property
    def is_opposite(self) -> bool:
        """Whether the test holds where its tree is 0."""
        return self.order in OPPOSITE

    @property
    def comparison(self) -> Operation:
        """The test's tree."""
        order = SIGNED.get(self.order, self.order)
        word = 'eq' if order in ('==', '!=') else 'lts' if self.order in SIGNED else 'ltu'
        is_turned = order in ('>', '<=')
        sides = (self.second, self.first) if is_turned else (self.first, self.second)
        return Operation(word, sides)


@dataclasses.dataclass(frozen=True, slots=True)
class Assignment:
    """What becomes the value of a cell."""

    target: Cell
    value: Value


@dataclasses.dataclass(frozen=True, slots=True)
class If:
    """A test with what is done where it holds, and where it doesn't."""

    test: Test
    block: Block
    other: Block


@dataclasses.dataclass(frozen=True, slots=True)
class While:
    """A test with what is done as long as it holds. A `for` has become assignments and one of
    these."""

    test: Test
    block: Block


Statement = Assignment | If | While
Block = tuple[Statement, ...]


@dataclasses.dataclass(frozen=True, slots=True)
class Source:
    """A program: the length of each array and 1 for each plain variable, in the order of their
    declaration, and its statements."""

    lengths: dict[str, int]
    block: Block

    def trees(self) -> Iterator[Value]:
        """The values of assignments, the indices of what they change, and the trees of tests."""
        return trees_of(self.block)

    def cells(self) -> list[str]:
        """The names of all cells, as an image's places have them."""
        return [cell for name, length in self.lengths.items() for cell in cells_of(name, length)]


def trees_of(block: Block) -> Iterator[Value]:
    """Those in a block."""
    for statement in block:
        match statement:
            case Assignment(Cell(_, index), value):
                yield from (value,) if index is None else (value, index)
            case If(test, then, other):
                yield test.comparison
                yield from trees_of((*then, *other))
            case While(test, inner):
                yield test.comparison
                yield from trees_of(inner)


# ---- Reading


def read_source(text: str) -> Source:
    """The program of a text; a Fault where the text isn't of the grammar."""
    return Reader(text).source()


class Reader:
    """A program text with the token that is looked at. `trees` counts those of the assignments and
    tests, in the order of the text but for the second assignment of a `for`, which stands behind
    its body."""

    def __init__(self, text: str):
        self.text, self.place, self.trees = text, 0, 0
        self.advance()

    def advance(self) -> None:
        """Goes on to the next token."""
        found = TOKEN.match(self.text, self.place)
        self.number, self.name, self.sign = found.groups()
        self.place = found.end()
        if found.lastindex is None and self.place < len(self.text):
            self.fail()

    def fail(self) -> None:
        line = self.text.count('\n', 0, self.place) + 1
        raise Fault(f'no program text: line {line}')

    def take(self, *words: str) -> str | None:
        """The next word or sign where it is one of these, else nothing."""
        word = self.name or self.sign
        if word not in words:
            return None
        self.advance()
        return word

    def need(self, *words: str) -> str:
        return self.take(*words) or self.fail()

    def any_name(self) -> str:
        name = self.name or self.fail()
        self.advance()
        return name

    def any_number(self) -> int:
        digits = self.number or self.fail()
        self.advance()
        return int(digits, 16) if digits.startswith('0x') else int(digits)

    def tree(self) -> int:
        """The number of the next tree."""
        self.trees += 1
        return self.trees - 1

    def source(self) -> Source:
        lengths = {}
        while self.take('var'):
            while True:
                name = self.any_name()
                lengths[name] = self.length()
                if self.need(',', ';') == ';':
                    break
        statements = []
        while self.number or self.name or self.sign:
            statements += self.statement()
        return Source(lengths, tuple(statements))

    def length(self) -> int:
        if not self.take('['):
            return 1
        length = self.any_number()
        self.need(']')
        return length

    def block(self) -> Block:
        self.need('{')
        statements = []
        while not self.take('}'):
            statements += self.statement()
        return tuple(statements)

    def statement(self) -> Iterable[Statement]:
        if self.take('if'):
            test, block = self.test(), self.block()
            return [If(test, block, self.block() if self.take('else') else ())]
        if self.take('while'):
            test = self.test()
            return [While(test, self.block())]
        if self.take('for'):
            return self.loop()
        target = self.cell(self.any_name())
        self.need('=')
        self.tree()
        value = self.value()
        self.need(';')
        return [Assignment(target, value)]

    def loop(self) -> Iterable[Statement]:
        counter = Cell(self.any_name())
        self.need('=')
        first = self.any_number()
        self.need('to')
        self.tree()
        test = Test(self.tree(), '!=', counter, Number(self.any_number() + 1))
        block = self.block()
        self.tree()
        step = Assignment(counter, Operation('add', (counter, Number(1))))
        return [Assignment(counter, Number(first)), While(test, (*block, step))]

    def test(self) -> Test:
        tree, first = self.tree(), self.value()
        order = self.need(*ORDERS, *SIGNED)
        return Test(tree, order, first, self.value())

    def value(self, level: int = 0) -> Value:
        """A value of the operators from this level on, which bind more tightly."""
        if level == len(LEVELS):
            return self.operand()
        found = self.value(level + 1)
        while sign := self.take(*LEVELS[level]):
            found = Operation(WORDS[sign], (found, self.value(level + 1)))
        return found

    def operand(self) -> Value:
        if self.number:
            return Number(self.any_number())
        if sign := self.take(*SIGNS):
            return Operation(SIGNS[sign], (self.operand(),))
        if word := self.take(*CALLS):
            self.need('(')
            of = self.value()
            self.need(',')
            found: Value = Sized(word, of, self.any_number())
        elif self.take('('):
            found = self.value()
        else:
            return self.cell(self.any_name())
        self.need(')')
        return found

    def cell(self, name: str) -> Cell:
        if not self.take('['):
            return Cell(name)
        index = self.value()
        self.need(']')
        return Cell(name, index)


# ---- Running


class Run:
    """A program over a store, `cells`, which has the cells by their names, each of `width` bits."""

    def __init__(self, source: Source, width: int, cells: dict[str, int]):
        self.source, self.width, self.cells = source, width, cells

    def tests(self) -> Iterator[tuple[Test, bool]]:
        """Each test when the program comes to it, and whether it holds."""
        yield from self.steps(self.source.block)

    def steps(self, block: Block) -> Iterator[tuple[Test, bool]]:
        for statement in block:
            match statement:
                case Assignment(target, value):
                    self.cells[self.name(target)] = self.value(value, self.width)
                case If(test, then, other):
                    holds = self.holds(test)
                    yield test, holds
                    yield from self.steps(then if holds else other)
                case While(test, inner):
                    while holds := self.holds(test):
                        yield test, holds
                        yield from self.steps(inner)
                    yield test, holds

    def holds(self, test: Test) -> bool:
        width = self.common(test.first, test.second)
        sides = [self.value(side, width) for side in (test.first, test.second)]
        if test.order in SIGNED:
            sides = [signed(side, width) for side in sides]
        return ORDERS[SIGNED.get(test.order, test.order)](*sides)

    def name(self, cell: Cell) -> str:
        """The name of the cell that is meant."""
        length = self.source.lengths[cell.name]
        if cell.index is None or length == 1:
            return cell.name
        return f'{cell.name}[{self.value(cell.index, self.width)}]'

    def own(self, of: Value) -> int | None:
        """The width that a value has, whatever its place is; a number has none."""
        match of:
            case Number():
                return None
            case Sized(_, _, width):
                return width
            case Operation(_, (operand,)):
                return self.own(operand)
            case Operation(_, operands):
                return self.common(*operands)
        return self.width

    def common(self, *sides: Value) -> int:
        """That of two sides."""
        return next(filter(None, map(self.own, sides)), self.width)

    def value(self, of: Value, width: int) -> int:
        """What a value is in a place of this width."""
        match of:
            case Number(value):
                return value
            case Cell():
                return self.cells[self.name(of)]
            case Operation(word, operands):
                values = [self.value(operand, width) for operand in operands]
                return OPERATORS[word].value(values, [width] * len(values))
            case Sized(word, inner, wide):
                narrow = self.common(inner)
                value = self.value(inner, narrow)
                return (signed(value, narrow) if word == 'sext' else value) & mask(wide)
