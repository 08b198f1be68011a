"""Random programs (docs/SOURCE.md) as trees, their texts, and an interpreter of their own."""
from __future__ import annotations

import dataclasses
import random
from collections.abc import Iterable, Iterator, Sequence

from rtn.operators import mask, signed

WIDTH = 16
LAST = mask(WIDTH)
PLAIN = ('a', 'b', 'c')
COUNTERS = ('i', 'j')

OPERATORS = {
    '+': lambda a, b: a + b, '-': lambda a, b: a - b, '*': lambda a, b: a * b,
    '&': lambda a, b: a & b, '|': lambda a, b: a | b, '^': lambda a, b: a ^ b,
}
TESTS = {
    '==': lambda a, b: a == b, '!=': lambda a, b: a != b,
    '<': lambda a, b: a < b, '<=': lambda a, b: a <= b,
    '>': lambda a, b: a > b, '>=': lambda a, b: a >= b,
    'slt': lambda a, b: signed(a, WIDTH) < signed(b, WIDTH),
    'sle': lambda a, b: signed(a, WIDTH) <= signed(b, WIDTH),
    'sgt': lambda a, b: signed(a, WIDTH) > signed(b, WIDTH),
    'sge': lambda a, b: signed(a, WIDTH) >= signed(b, WIDTH),
}

# ---- Trees


@dataclasses.dataclass(frozen=True)
class Number:
    value: int

    def __str__(self) -> str:
        return str(self.value)


@dataclasses.dataclass(frozen=True)
class Variable:
    name: str

    def __str__(self) -> str:
        return self.name


@dataclasses.dataclass(frozen=True)
class Element:
    array: str
    index: Value

    @property
    def name(self) -> str:
        return self.array

    def __str__(self) -> str:
        return f'{self.array}[{self.index}]'


@dataclasses.dataclass(frozen=True)
class Two:
    """An operator of two values, by its sign."""

    sign: str
    first: Value
    second: Value

    def __str__(self) -> str:
        return f'({self.first} {self.sign} {self.second})'


Value = Number | Variable | Element | Two


@dataclasses.dataclass(frozen=True)
class Test:
    """A test, with a number of its own."""

    number: int
    order: str
    first: Value
    second: Value

    def __str__(self) -> str:
        return f'{self.first} {self.order} {self.second}'


@dataclasses.dataclass(frozen=True)
class Assignment:
    target: Variable | Element
    value: Value

    def __str__(self) -> str:
        return f'{self.target} = {self.value};'


@dataclasses.dataclass(frozen=True)
class If:
    test: Test
    block: Block
    other: Block | None

    def __str__(self) -> str:
        other = f' else {block_text(self.other)}' if self.other is not None else ''
        return f'if {self.test} {block_text(self.block)}{other}'


@dataclasses.dataclass(frozen=True)
class While:
    test: Test
    block: Block

    def __str__(self) -> str:
        return f'while {self.test} {block_text(self.block)}'


@dataclasses.dataclass(frozen=True)
class For:
    """A counter from the first number to the last, with the number of its test."""

    counter: str
    test: int
    first: int
    last: int
    block: Block

    def __str__(self) -> str:
        return f'for {self.counter} = {self.first} to {self.last} {block_text(self.block)}'


Statement = Assignment | If | While | For
Block = Sequence[Statement]


def block_text(block: Block) -> str:
    return '{ ' + ' '.join(map(str, block)) + ' }'


def program_text(declared: Iterable[str], program: Block) -> str:
    """The text of a program with these declarations."""
    return f'var {", ".join(declared)};\n' + '\n'.join(map(str, program)) + '\n'


def assigned(block: Block) -> Iterator[str]:
    """The variables that a block changes."""
    for statement in block:
        match statement:
            case Assignment(target):
                yield target.name
            case If(_, then, other):
                yield from assigned([*then, *(other or ())])
            case While(_, inner):
                yield from assigned(inner)
            case For(counter=counter, block=inner):
                yield counter
                yield from assigned(inner)


# ---- Random programs


class Maker:
    """A random program over three variables, an array of four, and two counters."""

    ARRAYS = {'x': 4}

    def __init__(self, pick: random.Random, operators: Sequence[str]):
        self.pick, self.operators = pick, operators
        self.counters: list[str] = []
        self.tests = 0
        self.left = pick.randint(2, 9)

    @classmethod
    def cells(cls) -> list[str]:
        """The names of all cells of the store."""
        elements = [f'{name}[{k}]' for name, length in cls.ARRAYS.items() for k in range(length)]
        return [*PLAIN, *COUNTERS, *elements]

    def element(self) -> Element:
        """An element of an array."""
        return Element('x', Number(self.pick.randrange(4)))

    def leaf(self) -> Value:
        kind = self.pick.random()
        if kind < 0.2:
            return Number(self.pick.choice([0, 1, 2, 5, 200, self.pick.randrange(256)]))
        if kind < 0.4:
            return self.element()
        return Variable(self.pick.choice(PLAIN))

    def value(self, depth: int) -> Value:
        if depth == 0 or self.pick.random() < 0.3:
            return self.leaf()
        sign = self.pick.choice(self.operators)
        return Two(sign, self.value(depth - 1), self.value(depth - 1))

    def test(self) -> Test:
        self.tests += 1
        number = self.tests
        order = self.pick.choice(['==', '!=', self.pick.choice(sorted(TESTS))])
        return Test(number, order, self.value(1), self.leaf())

    def statement(self, depth: int) -> Statement:
        self.left -= 1
        kind = self.pick.random()
        if depth == 0 or kind < 0.55:
            return self.assignment()
        if kind < 0.8:
            test, block = self.test(), self.block(depth - 1)
            return If(test, block, self.block(depth - 1) if self.pick.random() < 0.5 else None)
        if kind < 0.9 or len(self.counters) == len(COUNTERS):
            return While(self.test(), self.block(depth - 1))
        return self.loop(depth)

    def assignment(self) -> Assignment:
        if self.pick.random() < 0.2:
            return Assignment(self.element(), self.value(2))
        return Assignment(Variable(self.pick.choice(PLAIN)), self.value(2))

    def loop(self, depth: int) -> For:
        """A loop over a counter, which has no other loop in the program."""
        counter = COUNTERS[len(self.counters)]
        self.counters.append(counter)
        first = self.pick.randrange(3)
        self.tests += 1
        test = self.tests
        last = max(0, first + self.pick.randrange(4) - 1)
        return For(counter, test, first, last, self.body(counter, first, last, depth - 1))

    def body(self, counter: str, first: int, last: int, depth: int) -> Block:
        """That of a loop in which the counter goes from one number to another."""
        return self.block(depth)

    def block(self, depth: int) -> Block:
        statements = []
        while self.left > 0 and len(statements) < 3:
            statements.append(self.statement(depth))
            if self.pick.random() < 0.3:
                break
        return statements

    def program(self) -> Block:
        """The program; it is made once."""
        statements = []
        while self.left > 0:
            statements.append(self.statement(2))
        return statements


class Indexing(Maker):
    """A random program with elements of two arrays: at numbers, at counters that stay within the
    array, and at masked values."""

    ARRAYS = {'x': 4, 'y': 5}

    def __init__(self, pick: random.Random, operators: Sequence[str], has_computed_places: bool):
        super().__init__(pick, operators)
        self.around: list[tuple[str, int]] = []
        self.computes = has_computed_places or pick.random() < 0.1

    def element(self) -> Element:
        name, length = self.pick.choice(sorted(self.ARRAYS.items()))
        ways: list[Value] = [Number(self.pick.randrange(length))]
        if not self.computes:
            return Element(name, ways[0])
        for counter, last in self.around:
            ways += [Variable(counter)] * 3 * (last < length)
            ways += [Two('+', Variable(counter), Number(1))] * (last + 1 < length)
        if '&' in self.operators:
            ways.append(Two('&', Variable(self.pick.choice(PLAIN)), Number(3)))
        return Element(name, self.pick.choice(ways))

    def program(self) -> Block:
        """Mostly one that begins with a loop, where it has elements at computed places."""
        begun = [self.loop(2)] if self.computes and self.pick.random() < 0.7 else []
        return [*begun, *super().program()]

    def leaf(self) -> Value:
        if self.computes and self.around and self.pick.random() < 0.5:
            return self.element()
        return super().leaf()

    def body(self, counter: str, first: int, last: int, depth: int) -> Block:
        if last < first:
            return self.block(depth)
        self.around.append((counter, last))
        block = self.block(depth)
        self.around.pop()
        return block


# ---- The interpreter


class Interpreter:
    """Runs a program over a store, `cells`, which has the cells by their names."""

    def __init__(self, cells: dict[str, int]):
        self.cells = cells

    def value(self, of: Value) -> int:
        match of:
            case Number(value):
                return value
            case Variable(name):
                return self.cells[name]
            case Element():
                return self.cells[self.cell(of)]
            case Two(sign, first, second):
                return OPERATORS[sign](self.value(first), self.value(second)) & LAST

    def cell(self, target: Variable | Element) -> str:
        """The name of the cell that is meant."""
        if isinstance(target, Variable):
            return target.name
        return f'{target.array}[{self.value(target.index)}]'

    def holds(self, test: Test) -> bool:
        return TESTS[test.order](self.value(test.first), self.value(test.second))

    def run(self, block: Block) -> Iterator[int]:
        """Yields each test's number before it is decided."""
        for statement in block:
            match statement:
                case Assignment(target, value):
                    self.cells[self.cell(target)] = self.value(value)
                case If(test, then, other):
                    yield test.number
                    yield from self.run(then if self.holds(test) else other or ())
                case While(test, inner):
                    yield test.number
                    while self.holds(test):
                        yield from self.run(inner)
                        yield test.number
                case For():
                    yield from self.loop(statement)

    def loop(self, loop: For) -> Iterator[int]:
        self.cells[loop.counter] = loop.first
        yield loop.test
        while self.cells[loop.counter] != loop.last + 1:
            yield from self.run(loop.block)
            self.cells[loop.counter] = self.cells[loop.counter] + 1 & LAST
            yield loop.test
