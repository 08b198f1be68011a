"""Reads netlist texts by the grammar of docs/RTN.md."""
from __future__ import annotations

import enum
import re

from rtn.operators import OPERATORS, UNARY, WIRING
from rtn.syntax import (Array, Bus, Case, Code, Constant, Driver, Expression, Extension, Item,
                        Link, Memory, Module, Name, Net, Operation, Output, Part, Port, Read,
                        Register, Row, Slice)

ITEMS = ('code', 'register', 'memory', 'net', 'bus', 'module', 'part')
ADDED = {2: 'file', 3: 'mode', 4: 'bank'}   # the item that each later edition adds
RESERVED = frozenset([*ITEMS, *'size at in out when addr write case else read'.split(), *WIRING,
                      *OPERATORS])
LONGEST_NAME = 32
NUMBER_BITS = 64
LEVELS = 64
TOKEN = re.compile(r'''(?:[ \t\r\n]|//[^\n]*)*
    (?:(?P<name>[A-Za-z_][A-Za-z0-9_]*)
      |(?P<number>(?:0x[0-9A-Fa-f]+|[0-9]+)(?![A-Za-z_0-9]))
      |(?P<sign>[:;,=.#(){}\[\]])
      |(?P<bad>.))?''', re.S | re.X)


class Fault(Exception):
    """What is wrong with a text, as a line for the reader."""


class Kind(enum.Enum):
    """The kinds of tokens."""

    NAME = 'name'
    NUMBER = 'number'
    SIGN = 'sign'
    BAD = 'bad'
    RESERVED = 'reserved'
    END = 'end'


def number_of(digits: str) -> int:
    """The number of a token; leading zeros are decimal."""
    return int(digits, 16) if digits.startswith('0x') else int(digits)


def read_netlist(text: str) -> list[Item]:
    """The items of a netlist text; a Fault where it isn't of the grammar."""
    return Reader(text).items()


class Reader:
    """A netlist text with the token that is looked at."""

    def __init__(self, text: str):
        self.text, self.place = text, 0
        self.reserved, self.added = RESERVED, ()
        self.advance()
        if (self.kind, self.word) == (Kind.NAME, 'version'):
            self.edition()

    # tokens

    def advance(self) -> None:
        """Goes on to the next token."""
        found = TOKEN.match(self.text, self.place)
        self.word = found[found.lastgroup] if found.lastgroup else ''
        self.start, self.place = found.end() - len(self.word), found.end()
        self.kind = self.kind_of(found.lastgroup)

    def kind_of(self, group: str | None) -> Kind:
        """The kind of the token, which is bad where a name or a number is too long."""
        kind = Kind(group or 'end')
        if kind == Kind.NAME and self.word in self.reserved:
            return Kind.RESERVED
        if kind == Kind.NAME and len(self.word) > LONGEST_NAME:
            return Kind.BAD
        if kind == Kind.NUMBER and number_of(self.word) >> NUMBER_BITS:
            return Kind.BAD
        return kind

    def fail(self) -> None:
        line = self.text.count('\n', 0, self.start) + 1
        seen = 'the end' if self.kind == Kind.END else f'"{self.word}"'
        raise Fault(f'no netlist text: byte {self.start}, line {line}, at {seen}')

    def take(self, *words: str) -> str | None:
        """The next word where it is one of these, else nothing."""
        if self.kind in (Kind.RESERVED, Kind.SIGN) and self.word in words:
            word = self.word
            self.advance()
            return word
        return None

    def need(self, *words: str) -> str:
        return self.take(*words) or self.fail()

    def of_kind(self, kind: Kind) -> str:
        if self.kind != kind:
            self.fail()
        word = self.word
        self.advance()
        return word

    def name(self) -> str:
        return self.of_kind(Kind.NAME)

    def number(self) -> int:
        return number_of(self.of_kind(Kind.NUMBER))

    def behind(self, word: str) -> int:
        """The number behind a word."""
        self.need(word)
        return self.number()

    # items

    def edition(self) -> None:
        """The number behind `version`, whose edition reserves its own words."""
        self.advance()
        if self.kind != Kind.NUMBER or number_of(self.word) not in ADDED:
            self.fail()
        added = ADDED[number_of(self.word)]
        self.added, self.reserved = (added,), RESERVED | {'version', added}
        self.advance()
        self.need(';')

    def items(self) -> list[Item]:
        items = []
        while not items or self.kind != Kind.END:
            kind = self.need(*ITEMS, *self.added)
            items.append(getattr(self, kind)(self.name()))
        return items

    def code(self, name: str) -> Code:
        width, size = self.behind(':'), self.behind('size')
        self.need('at')
        return self.ended(Code(name, width, size, self.name()))

    def register(self, name: str, is_mode: bool = False) -> Register:
        width = self.behind(':')
        self.need('in')
        return self.ended(Register(name, width, self.expression(), self.enable(), is_mode))

    def mode(self, name: str) -> Register:
        return self.register(name, is_mode=True)

    def enable(self) -> Expression | None:
        return self.expression() if self.take('when') else None

    def memory(self, name: str, array: Array = Array.MEMORY) -> Memory:
        width, size, addresses = self.behind(':'), self.behind('size'), self.behind('addr')
        if array == Array.BANK and not self.take('write'):
            written = [Constant(0, bits) for bits in (width, addresses, 1)]
        else:
            written = self.written(array)
        return self.ended(Memory(array, name, width, size, addresses, *written))

    def written(self, array: Array) -> tuple[Expression, Expression, Expression | None]:
        """What is written, where and when; the `write` of a bank has been taken."""
        if array != Array.BANK:
            self.need('write')
        value = self.expression()
        self.need('at')
        return value, self.expression(), self.enable()

    def file(self, name: str) -> Memory:
        return self.memory(name, Array.FILE)

    def bank(self, name: str) -> Memory:
        return self.memory(name, Array.BANK)

    def net(self, name: str) -> Net:
        width = self.behind(':')
        self.need('=')
        return self.ended(Net(name, width, self.expression()))

    def bus(self, name: str) -> Bus:
        width, drivers = self.behind(':'), []
        self.need('{')
        while not drivers or not self.take('}'):
            value = self.expression()
            self.need('when')
            drivers.append(self.ended(Driver(value, self.expression())))
        return Bus(name, width, tuple(drivers))

    def module(self, name: str) -> Module:
        ports, equations = [], []
        self.need('(')
        while not ports or self.need(',', ')') == ',':
            is_input = self.need('in', 'out') == 'in'
            ports.append(Port(self.name(), self.behind(':'), is_input))
        self.need('{')
        while not self.take('}'):
            equations.append(self.ended(self.link()))
        return Module(name, tuple(ports), tuple(equations))

    def part(self, name: str) -> Part:
        self.need(':')
        module, links = self.name(), []
        self.need('(')
        while self.need(',', ')') == ',' if links else not self.take(')'):
            links.append(self.link())
        return self.ended(Part(name, module, tuple(links)))

    def link(self) -> Link:
        name = self.name()
        self.need('=')
        return Link(name, self.expression())

    def ended(self, tree):
        """What has been read, behind which a semicolon stands."""
        self.need(';')
        return tree

    # expressions

    def expression(self, level: int = 1) -> Expression:
        if self.kind == Kind.NAME:
            return self.reference()
        if self.kind == Kind.NUMBER:
            value = self.number()
            return Constant(value, self.behind('#'))
        if level > LEVELS:
            self.fail()
        word = self.need(*WIRING, 'read', 'case', *OPERATORS)
        if word == 'case':
            return self.case(level + 1)
        self.need('(')
        found = self.in_parentheses(word, level + 1)
        self.need(')')
        return found

    def in_parentheses(self, word: str, level: int) -> Expression:
        """What stands between the parentheses behind a word."""
        if word == 'read':
            memory = self.name()
            self.need(',')
            return Read(memory, self.expression(level))
        of = self.expression(level)
        if word in UNARY:
            return Operation(word, (of,))
        if word == 'slice':
            return Slice(of, self.behind(','), self.behind(','))
        if word in WIRING:
            return Extension(of, self.behind(','), word == 'sext')
        self.need(',')
        return Operation(word, (of, self.expression(level)))

    def reference(self) -> Expression:
        name = self.name()
        found = Output(name, self.name()) if self.take('.') else Name(name)
        if not self.take('['):
            return found
        high = self.number()
        low = self.number() if self.take(':') else high
        self.need(']')
        return Slice(found, high, low)

    def case(self, level: int) -> Case:
        selector, rows = self.expression(level), []
        self.need('{')
        while self.kind == Kind.NUMBER:
            numbers = [self.number()]
            while self.need(',', ':') == ',':
                numbers.append(self.number())
            rows.append(self.ended(Row(tuple(numbers), self.expression(level))))
        if self.take('else') or not rows and self.need('else'):
            self.need(':')
            rows.append(self.ended(Row((), self.expression(level))))
        self.need('}')
        return Case(selector, tuple(rows))
