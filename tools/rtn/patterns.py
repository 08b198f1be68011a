"""Reads the patterns that `record extract` writes (docs/FORMATS.md), and computes what they mean.
It is written apart from the program that the tools try.
"""
from __future__ import annotations

import dataclasses
import re
from collections.abc import Iterable, Mapping

from rtn.operators import OPERATORS, WIRING, bits, mask, signed
from rtn.reading import Fault
from rtn.syntax import (Case, Code, Constant, Expression, Extension, Item, Memory, Name, Operation,
                        Read, Register, Row, Slice)

LINE = re.compile(r'(\d+) (.*) ; ([0-9a-f]+)')
TOKEN = re.compile(r'\w+#\w+|\w+|[(),]')


@dataclasses.dataclass(frozen=True)
class Pattern:
    """A pattern: its number, its transfer, and the least word that does it, in hexadecimal."""

    number: int
    transfer: str
    word: str

    @property
    def target(self) -> str:
        """The storage as it is written, `NAME` or `NAME[ADDRESS]`."""
        return self.transfer.split(' := ')[0]

    @property
    def storage(self) -> str:
        """The storage's name."""
        return self.target.split('[')[0]

    @property
    def address(self) -> Expression | None:
        """Where a memory is written."""
        _, bracket, rest = self.target.partition('[')
        return read_expression(rest[:-1]) if bracket else None

    @property
    def value(self) -> Expression:
        return read_expression(self.transfer.split(' := ')[1])


def read_patterns(text: str) -> list[list[Pattern]]:
    """The patterns of each mode, of which a netlist without a mode register has one."""
    modes = []
    for line in text.splitlines():
        if line.startswith('patterns '):
            modes.append([])
        elif found := LINE.fullmatch(line):
            modes[-1].append(Pattern(int(found[1]), found[2], found[3]))
    return modes


def read_expression(text: str) -> Expression:
    """The expression of a transfer; a `select` becomes a case."""
    tokens = TOKEN.findall(text)
    found, rest = _expression(tokens)
    if rest:
        raise Fault(f'no expression: {text}')
    return found


def _expression(tokens: list[str]) -> tuple[Expression, list[str]]:
    """An expression, and the tokens behind it."""
    word, *rest = tokens
    if rest[:1] != ['(']:
        return _leaf(word), rest
    parts = []
    while rest[0] != ')':
        part, rest = _expression(rest[1:])
        parts.append(part)
    return _made(word, parts), rest[1:]


def _leaf(word: str) -> Expression:
    value, sign, width = word.partition('#')
    return Constant(int(value), int(width)) if sign else Name(word)


def _made(word: str, parts: list[Expression]) -> Expression:
    """A word with what stands in its parentheses; bare numbers were read as names."""
    if word == 'read':
        return Read(parts[0].name, parts[1])
    if word == 'select':
        return Case(parts[0], (Row((1,), parts[1]), Row((), parts[2])))
    if word == 'slice':
        return Slice(parts[0], int(parts[1].name), int(parts[2].name))
    if word in WIRING:
        return Extension(parts[0], int(parts[1].name), word == 'sext')
    if word in OPERATORS:
        return Operation(word, tuple(parts))
    raise Fault(f'no operator is called {word}')


class Meaning:
    """What expressions mean over the code and the storages of a netlist.

    A state has for each register its number, and for each memory its cells by their addresses, of
    which those that are left out are 0.
    """

    def __init__(self, items: Iterable[Item]):
        self.widths: dict[str, int] = {}
        self.sizes: dict[str, int] = {}
        for item in items:
            match item:
                case Code(name, width):
                    self.code, self.widths[name] = name, width
                case Register(name, width):
                    self.widths[name] = width
                case Memory():
                    self.widths[item.name], self.sizes[item.name] = item.width, item.size

    def value(self, of: Expression, state: Mapping, word: int) -> int:
        """The value of an expression in a state, under a word."""
        return self.sized(of, state, word)[0]

    def sized(self, of: Expression, state: Mapping, word: int) -> tuple[int, int]:
        """The value of an expression, and its width."""
        match of:
            case Constant(value, width):
                return value, width
            case Name(name):
                return word if name == self.code else state[name], self.widths[name]
            case Read(memory, address):
                at = self.value(address, state, word)
                held = state[memory].get(at, 0) if at < self.sizes[memory] else 0
                return held, self.widths[memory]
            case Slice(inner, high, low):
                return bits(self.value(inner, state, word), high, low), high - low + 1
            case Extension(inner, width, is_signed):
                value, narrow = self.sized(inner, state, word)
                return signed(value, narrow) & mask(width) if is_signed else value, width
            case Case(selector, rows):
                number = self.value(selector, state, word)
                row = next(row for row in rows if number in row.numbers or not row.numbers)
                return self.sized(row.value, state, word)
            case Operation(operation, operands):
                values, widths = zip(*(self.sized(part, state, word) for part in operands))
                operator = OPERATORS[operation]
                return operator.value(values, widths), operator.width(widths)
        raise Fault(f'no expression of a pattern: {of}')
