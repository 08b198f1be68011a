"""The words of an expression, and how they are cut, joined and widened.

Terms are made once: equal terms are the same object, so they are compared and looked up by
identity. A `Choice` stands for a multiplexer, with a diagram as its condition.
"""
from __future__ import annotations

import dataclasses
import functools
from collections.abc import Iterable

from .diagrams import ALWAYS, NEVER
from .netlist import Bits, FlipFlop, Memory
from .refusals import Refusal, Rule

WIDEST = 64
# The operators whose low bits come from low bits alone.
FROM_BELOW = frozenset({'add', 'sub', 'mul', 'neg', 'and', 'or', 'xor', 'not'})
BITS = frozenset({'eq', 'ltu', 'lts'})


class Once(type):
    """Classes whose objects of equal parts are the same object."""
    made: dict[tuple, object] = {}

    def __call__(cls, *parts):
        key = (cls, *parts)
        if key not in Once.made:
            Once.made[key] = super().__call__(*parts)
        return Once.made[key]


@dataclasses.dataclass(eq=False)
class Term(metaclass=Once):
    """A word of an expression. Each has its `width` in bits."""


@dataclasses.dataclass(eq=False)
class Const(Term):
    value: int
    width: int


@dataclasses.dataclass(eq=False)
class Word(Term):
    """Bits `high` to `low` of the instruction word."""
    high: int
    low: int

    @property
    def width(self) -> int:
        return self.high - self.low + 1


@dataclasses.dataclass(eq=False)
class Held(Term):
    """What a register holds."""
    register: FlipFlop
    width: int


@dataclasses.dataclass(eq=False)
class Read(Term):
    """The cell of a memory at an address."""
    memory: Memory
    address: Term

    @property
    def width(self) -> int:
        return self.memory.width


@dataclasses.dataclass(eq=False)
class Slice(Term):
    of: Term
    high: int
    low: int

    @property
    def width(self) -> int:
        return self.high - self.low + 1


@dataclasses.dataclass(eq=False)
class Cat(Term):
    """Parts side by side, the highest first."""
    parts: tuple[Term, ...]

    @functools.cached_property
    def width(self) -> int:
        return sum(part.width for part in self.parts)


@dataclasses.dataclass(eq=False)
class Extended(Term):
    """A word made wider, by its sign or by zeros."""
    of: Term
    width: int
    by_sign: bool


@dataclasses.dataclass(eq=False)
class Op(Term):
    """An operator of the netlist language and its operands."""
    operator: str
    operands: tuple[Term, ...]

    @functools.cached_property
    def width(self) -> int:
        return 1 if self.operator in BITS else self.operands[0].width


@dataclasses.dataclass(eq=False)
class Choice(Term):
    """`yes` where the diagram `condition` holds, else `no`."""
    condition: int
    no: Term
    yes: Term

    @functools.cached_property
    def width(self) -> int:
        return self.no.width


@dataclasses.dataclass(eq=False)
class Named(Term):
    """A term that the source names: the value of the net of these bits."""
    bits: Bits
    of: Term

    @property
    def width(self) -> int:
        return len(self.bits)


@dataclasses.dataclass(eq=False)
class Bus(Term):
    """A bus with tri-state drivers."""
    bits: Bits

    @property
    def width(self) -> int:
        return len(self.bits)


@dataclasses.dataclass(eq=False)
class Bad(Term):
    """What can't be said; it refuses only where it is written."""
    why: Refusal
    width: int


ATOMS = (Const, Word, Held, Slice, Extended, Cat, Named, Bus)   # these get no net of their own


def const(value: int, width: int) -> Const:
    return Const(value & (1 << width) - 1, width)


@functools.cache
def has_hole(term: Term) -> bool:
    """Whether some bits of a value can't be said, where others can."""
    match term:
        case Bad():
            return term.why.rule is Rule.COUNTER
        case Cat():
            return any(map(has_hole, term.parts))
        case Choice():
            return has_hole(term.no) or has_hole(term.yes)
        case Slice() | Extended() | Named():
            return has_hole(term.of)
        case Op():
            return any(map(has_hole, term.operands))
    return False


def opened(term: Term) -> Term:
    """A term without the name that the source gives it."""
    while isinstance(term, Named):
        term = term.of
    return term


def is_zero(term: Term) -> bool:
    return isinstance(term, Const) and term.value == 0


def choice(condition: int, no: Term, yes: Term) -> Term:
    if condition == ALWAYS or yes is no:
        return yes
    return no if condition == NEVER else Choice(condition, no, yes)


def zero_extended(term: Term, width: int) -> Term:
    if term.width == width:
        return term
    if isinstance(term, Const):
        return const(term.value, width)
    if isinstance(term, Extended) and not term.by_sign:
        return Extended(term.of, width, False)
    return Extended(term, width, False)


def sign_extended(term: Term, width: int) -> Term:
    if term.width == width:
        return term
    if isinstance(term, Const):
        return const(term.value - (term.value >> term.width - 1 << term.width), width)
    if isinstance(term, Extended):
        return Extended(term.of, width, term.by_sign)
    return Extended(term, width, True)


def extended(term: Term, width: int, by_sign: bool) -> Term:
    return (sign_extended if by_sign else zero_extended)(term, width)


def inverted(term: Term) -> Term:
    if isinstance(term, Const):
        return const(~term.value, term.width)
    if isinstance(term, Op) and term.operator == 'not':
        return term.operands[0]
    return Op('not', (term,))


def joined(above: Term, below: Term) -> Term | None:
    """Two neighbours as one term, or nothing."""
    match above, below:
        case Const(), Const():
            return Const(above.value << below.width | below.value, above.width + below.width)
        case Word(), Word() if above.low == below.high + 1:
            return Word(above.high, below.low)
        case Slice(), Slice() if above.of is below.of and above.low == below.high + 1:
            return cut(above.of, above.high, below.low)
    return None


def cat(parts: Iterable[Term]) -> Term:
    """Parts side by side, the highest first."""
    out: list[Term] = []
    for part in parts:
        for piece in (part.parts if isinstance(part, Cat) else (part,)):
            whole = joined(out[-1], piece) if out else None
            if whole is None:
                out.append(piece)
            else:
                out[-1] = whole
    if len(out) == 1:
        return out[0]
    if is_zero(out[0]):
        rest = cat(out[1:])
        return zero_extended(rest, rest.width + out[0].width)
    return Cat(tuple(out))


@functools.cache
def cut(term: Term, high: int, low: int) -> Term:
    """Bits `high` to `low` of a term."""
    width = high - low + 1
    if width == term.width:
        return term
    match term:
        case Bad():
            return Bad(term.why, width)
        case Const():
            return const(term.value >> low, width)
        case Word():
            return Word(term.low + high, term.low + low)
        case Slice():
            return cut(term.of, term.low + high, term.low + low)
        case Extended() if high < term.of.width:
            return cut(term.of, high, low)
        case Extended(by_sign=False) if low >= term.of.width:
            return const(0, width)
        case Cat():
            return cat(_pieces(term, high, low))
    small = narrowed(term, width) if low == 0 else lowered(term, high, low)
    return Slice(term, high, low) if small is None else small


def _pieces(term: Cat, high: int, low: int) -> list[Term]:
    pieces, at = [], 0
    for part in reversed(term.parts):
        first, last = max(low, at), min(high, at + part.width - 1)
        if first <= last:
            pieces.append(cut(part, last - at, first - at))
        at += part.width
    return pieces[::-1]


@functools.cache
def narrowed(term: Term, width: int) -> Term | None:
    """The low bits of a sum or a choice where no operand has more of its own; else nothing."""
    if term.width <= width:
        return term if term.width == width else None
    match term:
        case Const():
            return const(term.value, width)
        case Extended():
            return extended(term.of, width, term.by_sign) if term.of.width <= width else None
        case Cat():
            return cut(term, width - 1, 0)
        case Op(operator=operator) if operator in FROM_BELOW:
            operands = [narrowed(operand, width) for operand in term.operands]
            return None if None in operands else Op(operator, tuple(operands))
        case Choice() if gains(term, width):
            return choice(term.condition, cut(term.no, width - 1, 0), cut(term.yes, width - 1, 0))
        case Named() if gains(term.of, width):
            return narrowed(term.of, width)
    return None


@functools.cache
def gains(term: Term, width: int) -> bool:
    """Whether some sum within a choice can be as narrow as that."""
    match term:
        case Choice():
            return gains(term.no, width) or gains(term.yes, width)
        case Named():
            return gains(term.of, width)
        case Op(operator=operator) if operator in FROM_BELOW:
            return narrowed(term, width) is not None
    return False


@functools.cache
def low_zeros(term: Term) -> int:
    """How many of the lowest bits are 0 for sure."""
    match term:
        case Const():
            return term.width if not term.value else (term.value & -term.value).bit_length() - 1
        case Cat():
            last = low_zeros(term.parts[-1])
            return last if last < term.parts[-1].width else last + low_zeros(cat(term.parts[:-1]))
        case Op(operator='add' | 'sub'):
            return min(map(low_zeros, term.operands))
        case Choice():
            return min(low_zeros(term.no), low_zeros(term.yes))
        case Named():
            return low_zeros(term.of)
        case Extended():
            return low_zeros(term.of)
        case Op(operator='shl') if isinstance(term.operands[1], Const):
            return min(term.width, term.operands[1].value)
    return 0


@functools.cache
def lowered(term: Term, high: int, low: int) -> Term | None:
    """Bits of a sum to which nothing is carried from below, as the sum of their bits."""
    match term:
        case Named() if lowered(term.of, high, low) is not None:
            return lowered(term.of, high, low)
        case Choice() if lowered(term.no, high, low) or lowered(term.yes, high, low):
            return choice(term.condition, cut(term.no, high, low), cut(term.yes, high, low))
        case Op(operator='add', operands=(a, b)) if low <= max(
                low_zeros(a), low_zeros(b)):
            return Op('add', (cut(a, high, low), cut(b, high, low)))
        case Op(operator='sub', operands=(a, b)) if low_zeros(b) >= low:
            return Op('sub', (cut(a, high, low), cut(b, high, low)))
        case Op(operator='shl', operands=(operand, Const(value=value))) if value == low:
            return cut(operand, high - low, 0)
    return None
