"""Netlist texts as trees: their items and their expressions (docs/RTN.md)."""
from __future__ import annotations

import dataclasses
import enum

# ---- Expressions


@dataclasses.dataclass(frozen=True, slots=True)
class Constant:
    """`VALUE#WIDTH`."""

    value: int
    width: int


@dataclasses.dataclass(frozen=True, slots=True)
class Name:
    """A register, the code's word, a net, a bus, or an input of the module around it."""

    name: str

    def __str__(self) -> str:
        return self.name


@dataclasses.dataclass(frozen=True, slots=True)
class Output:
    """`PART.OUTPUT`."""

    part: str
    port: str

    def __str__(self) -> str:
        return f'{self.part}.{self.port}'


@dataclasses.dataclass(frozen=True, slots=True)
class Slice:
    """The bits of an expression from `high` down to `low`."""

    of: Expression
    high: int
    low: int


@dataclasses.dataclass(frozen=True, slots=True)
class Extension:
    """An expression widened by zeros, or by copies of its top bit."""

    of: Expression
    width: int
    is_signed: bool

    @property
    def word(self) -> str:
        return 'sext' if self.is_signed else 'zext'


@dataclasses.dataclass(frozen=True, slots=True)
class Read:
    """The cell of a memory, register file or bank at an address."""

    memory: str
    address: Expression


@dataclasses.dataclass(frozen=True, slots=True)
class Operation:
    """An operator of the table, by its word, with its operands."""

    word: str
    operands: tuple[Expression, ...]


@dataclasses.dataclass(frozen=True, slots=True)
class Row:
    """A row of a case: the selector's numbers that it is for, none for `else`, and its value."""

    numbers: tuple[int, ...]
    value: Expression


@dataclasses.dataclass(frozen=True, slots=True)
class Case:
    """The row with the selector's number, or the rest."""

    selector: Expression
    rows: tuple[Row, ...]


Expression = Constant | Name | Output | Slice | Extension | Read | Operation | Case

# ---- Items


@dataclasses.dataclass(frozen=True, slots=True)
class Code:
    """The instruction memory: words of `width` bits, fetched at the address in a register."""

    name: str
    width: int
    size: int
    counter: str


@dataclasses.dataclass(frozen=True, slots=True)
class Register:
    """A register, with its enable where it has one. A mode register is one, too."""

    name: str
    width: int
    value: Expression
    when: Expression | None
    is_mode: bool = False


class Array(enum.Enum):
    """What an item with cells is."""

    MEMORY = 'memory'
    FILE = 'file'
    BANK = 'bank'


@dataclasses.dataclass(frozen=True, slots=True)
class Memory:
    """A memory, register file or bank: `size` cells of `width` bits, and what is written where.

    A bank without a `write` has zeros as its value, its address and its enable.
    """

    array: Array
    name: str
    width: int
    size: int
    address_width: int
    value: Expression
    address: Expression
    when: Expression | None


@dataclasses.dataclass(frozen=True, slots=True)
class Net:
    """A name for a value."""

    name: str
    width: int
    value: Expression


@dataclasses.dataclass(frozen=True, slots=True)
class Driver:
    """What a bus has the value of where the enable is 1."""

    value: Expression
    when: Expression


@dataclasses.dataclass(frozen=True, slots=True)
class Bus:
    """The value of the one driver that is enabled, and 0 where none is."""

    name: str
    width: int
    drivers: tuple[Driver, ...]


@dataclasses.dataclass(frozen=True, slots=True)
class Port:
    """An input or an output of a module."""

    name: str
    width: int
    is_input: bool


@dataclasses.dataclass(frozen=True, slots=True)
class Link:
    """What an output of a module, or an input of a part, is."""

    port: str
    value: Expression


@dataclasses.dataclass(frozen=True, slots=True)
class Module:
    """A module: its ports in their order, and an equation for each output."""

    name: str
    ports: tuple[Port, ...]
    equations: tuple[Link, ...]


@dataclasses.dataclass(frozen=True, slots=True)
class Part:
    """A copy of a module, with what its inputs are."""

    name: str
    module: str
    links: tuple[Link, ...]


Item = Code | Register | Memory | Net | Bus | Module | Part
