"""The operators of netlist texts (docs/RTN.md), in one table: what each computes, and how it is
written elsewhere.

The operands of an operator are expressions. `slice`, `zext` and `sext` have numbers behind their
operand, and are called wiring. Each value is a number from 0 to 2 to its width, less 1.
"""
import dataclasses
import enum
from collections.abc import Callable, Sequence

WIRING = ('slice', 'zext', 'sext')


class Shape(enum.Enum):
    """The width of a result."""

    ALIKE = 'that of the operands'
    BIT = 'one bit'
    JOINED = 'the sum of those of the operands'


@dataclasses.dataclass(frozen=True)
class Operator:
    """An operator: its word, its operands' number, and what it computes of them.

    `compute` is given the operands and the width of the last one, which is that of each but for
    `cat`; of what it gives the bits within the result's width count. `sign` is the operator's in
    Verilog, and in programs but for `lts`; `drawn` is its sign in a picture.
    """

    word: str
    operands: int
    shape: Shape
    compute: Callable[..., int]
    sign: str
    drawn: str
    is_symmetric: bool = False
    is_control: bool = False   # whether rule N8 lets it decide an enable or a static selector

    def width(self, widths: Sequence[int]) -> int:
        """The width of the result of operands with these widths."""
        match self.shape:
            case Shape.ALIKE:
                return widths[0]
            case Shape.BIT:
                return 1
            case Shape.JOINED:
                return sum(widths)

    def value(self, values: Sequence[int], widths: Sequence[int]) -> int:
        """The result of operands with these values and widths."""
        return self.compute(*values, widths[-1]) & mask(self.width(widths))


def mask(width: int) -> int:
    """The greatest number of a width."""
    return (1 << width) - 1


def signed(value: int, width: int) -> int:
    """What a number of this width is in two's complement."""
    return value - (1 << width) if value >> width - 1 else value


def bits(value: int, high: int, low: int) -> int:
    """The bits of a number from `high` down to `low`."""
    return value >> low & mask(high - low + 1)


_TABLE = (
    Operator('cat', 2, Shape.JOINED, lambda a, b, width: a << width | b, ',', ',',
             is_control=True),
    Operator('add', 2, Shape.ALIKE, lambda a, b, width: a + b, '+', '+', is_symmetric=True),
    Operator('sub', 2, Shape.ALIKE, lambda a, b, width: a - b, '-', '−'),
    Operator('mul', 2, Shape.ALIKE, lambda a, b, width: a * b, '*', '×', is_symmetric=True),
    Operator('and', 2, Shape.ALIKE, lambda a, b, width: a & b, '&', '&',
             is_symmetric=True, is_control=True),
    Operator('or', 2, Shape.ALIKE, lambda a, b, width: a | b, '|', '|',
             is_symmetric=True, is_control=True),
    Operator('xor', 2, Shape.ALIKE, lambda a, b, width: a ^ b, '^', '^',
             is_symmetric=True, is_control=True),
    Operator('not', 1, Shape.ALIKE, lambda a, width: ~a, '~', 'not', is_control=True),
    Operator('neg', 1, Shape.ALIKE, lambda a, width: -a, '-', 'neg'),
    Operator('shl', 2, Shape.ALIKE, lambda a, b, width: a << min(b, width), '<<', '<<'),
    Operator('shr', 2, Shape.ALIKE, lambda a, b, width: a >> min(b, width), '>>', '>>'),
    Operator('sar', 2, Shape.ALIKE, lambda a, b, width: signed(a, width) >> min(b, width),
             '>>>', '>>>'),
    Operator('eq', 2, Shape.BIT, lambda a, b, width: a == b, '==', '=',
             is_symmetric=True, is_control=True),
    Operator('ltu', 2, Shape.BIT, lambda a, b, width: a < b, '<', '<'),
    Operator('lts', 2, Shape.BIT, lambda a, b, width: signed(a, width) < signed(b, width),
             '<', 'signed <'),
)

OPERATORS = {operator.word: operator for operator in _TABLE}
UNARY = tuple(operator.word for operator in _TABLE if operator.operands == 1)
BINARY = tuple(operator.word for operator in _TABLE if operator.operands == 2)
ARITHMETIC = tuple(word for word in BINARY if OPERATORS[word].shape == Shape.ALIKE)
COMPARISONS = tuple(word for word in BINARY if OPERATORS[word].shape == Shape.BIT)
SHIFTS = ('shl', 'shr', 'sar')
