"""A gate of the netlist as a term, by the table of docs/VERILOG.md."""
from __future__ import annotations

from typing import TYPE_CHECKING

from . import terms
from .conditions import extended as extended_bits
from .conditions import rows
from .diagrams import NEVER
from .netlist import Bits, Gate, is_constant
from .refusals import Refused, Rule
from .terms import Choice, Const, Extended, Named, Op, Term

if TYPE_CHECKING:
    from .values import Values

BITWISE = {'$and': 'and', '$or': 'or', '$xor': 'xor', '$xnor': 'xor', '$not': 'not'}
CHOICES = frozenset({'$mux', '$pmux'})
SUMS = {'$add': 'add', '$sub': 'sub', '$mul': 'mul'}
COMPARISONS = {'$eq': 'eq', '$eqx': 'eq', '$ne': 'eq', '$nex': 'eq',
               '$lt': 'lt', '$ge': 'lt', '$gt': 'lt', '$le': 'lt'}
TURNED = frozenset({'$ne', '$nex', '$ge', '$le'})       # the opposite of a comparison
EXCHANGED = frozenset({'$gt', '$le'})                   # the operands change places
LOGIC = frozenset({'$logic_not', '$logic_and', '$logic_or', '$reduce_or', '$reduce_bool',
                   '$reduce_and', '$reduce_xor', '$reduce_xnor'})
SHIFTS = frozenset({'$shl', '$sshl', '$shr', '$sshr', '$shift', '$shiftx'})
WITHOUT = {'$div': 'division', '$divfloor': 'division', '$mod': 'remainder',
           '$modfloor': 'remainder', '$pow': 'power'}


class Gates:
    """The terms of gates, whose operands are the terms of `values`."""

    def __init__(self, values: Values):
        self.values, self.conditions, self.widths = values, values.conditions, values.widths

    @staticmethod
    def is_bitwise(gate: Gate) -> bool:
        """Whether a part of the output needs the same part of the operands alone."""
        return gate.kind in BITWISE or gate.kind in CHOICES

    def term(self, gate: Gate, at: int, width: int) -> Term:
        """Bits `at` to `at + width - 1` of a gate's output; `at` is 0 but for bitwise gates.

        Where `at` is 0 the term may be wider than asked for.
        """
        kind = gate.kind
        if kind in CHOICES:
            return self.choice(gate, at, width)
        if kind in BITWISE:
            return self.bitwise(gate, at, width)
        if kind in SUMS:
            return self.sum(gate, width)
        if kind == '$neg':
            return Op('neg', (self.operand(gate, 'A', self.widths.operation(gate, width)),))
        if kind == '$pos':
            return self.operand(gate, 'A', len(gate.output))
        if kind in COMPARISONS:
            return terms.zero_extended(self.comparison(gate), len(gate.output))
        if kind in LOGIC:
            return terms.zero_extended(self.logic(gate), len(gate.output))
        if kind in SHIFTS:
            return self.shift(gate, width)
        if kind in WITHOUT:
            return self.values.bad(Rule.OPERATOR, f'{WITHOUT[kind]} has no operator in RTN',
                                   gate.place, len(gate.output),
                                   'write it as a shift or a mask where it is by a power of 2')
        raise Refused(Rule.OPERATOR, f'a cell {kind} has no meaning here', gate.place)

    def operand(self, gate: Gate, pin: str, width: int) -> Term:
        """An operand at some width."""
        bits, signed = self.conditions.bits(gate.pins[pin]), pin in gate.signed
        if len(bits) >= width:
            return self.values.of(bits[:width])
        if all(map(is_constant, bits)):
            return self.values.of(extended_bits(gate, pin, width))
        return terms.extended(self.values.of(bits), width, signed)

    def choice(self, gate: Gate, at: int, width: int) -> Term:
        cell = self.values.guards.guarded(gate)
        if cell:
            return self.values.of(cell[at:at + width])
        term = self.values.of(gate.pins['A'][at:at + width])
        for bit, row in reversed(rows(gate)):
            condition = self.conditions.of(bit)
            term = terms.choice(condition, term, self.values.of(row[at:at + width]))
        return term

    # bitwise

    def bitwise(self, gate: Gate, at: int, width: int) -> Term:
        top = at + width if at else self.widths.operation(gate, width)
        a = self.conditions.bits(extended_bits(gate, 'A', top)[at:])
        if gate.kind == '$not':
            return terms.inverted(self.values.of(a))
        b = self.conditions.bits(extended_bits(gate, 'B', top)[at:])
        if gate.kind == '$and':
            for mask, other in ((a, b), (b, a)):
                if self.is_mask(mask):
                    return terms.choice(self.conditions.of(mask[0]), terms.const(0, len(mask)),
                                        self.values.of(other))
        return self.combined(gate.kind, self.values.of(a), self.values.of(b))

    def is_mask(self, bits: Bits) -> bool:
        """Whether bits are copies of one that the word decides."""
        return len(bits) > 1 and len(set(bits)) == 1 and not is_constant(bits[0]) and \
            self.conditions.static(bits[0])

    @staticmethod
    def combined(kind: str, a: Term, b: Term) -> Term:
        if kind == '$or':
            for one, other in ((a, b), (b, a)):
                if terms.is_zero(one):
                    return other
        found = Op(BITWISE[kind], (a, b))
        return Op('not', (found,)) if kind == '$xnor' else found

    # sums

    def sum(self, gate: Gate, width: int) -> Term:
        width = self.widths.operation(gate, width)
        a, b = self.operand(gate, 'A', width), self.operand(gate, 'B', width)
        if terms.is_zero(b) and gate.kind != '$mul':
            return a
        found = self.one_adder(a, b) if gate.kind == '$add' else None
        return found or Op(SUMS[gate.kind], (a, b))

    def one_adder(self, a: Term, b: Term) -> Term | None:
        """x + (s ? ~y : y) + s as a choice of a sum and a difference."""
        for total, carry in ((terms.opened(a), b), (terms.opened(b), a)):
            condition = self.single(carry)
            if condition is None or not isinstance(total, Op) or total.operator != 'add':
                continue
            for x, y in (total.operands, total.operands[::-1]):
                turned = self.turned(y)
                if turned and turned[0] == condition:
                    return terms.choice(condition, Op('add', (x, turned[1])),
                                        Op('sub', (x, turned[1])))
        return None

    def single(self, term: Term) -> int | None:
        """The diagram of a term of one bit, also widened by zeros."""
        while isinstance(term, (Extended, Named)):
            if isinstance(term, Named) and term.width == 1:
                return self.conditions.of(term.bits[0])
            if isinstance(term, Extended) and term.by_sign:
                return None
            term = term.of
        return self.values.diagram_of.get(term)

    def turned(self, term: Term) -> tuple[int, Term] | None:
        """Of `s ? ~y : y` the condition and y."""
        term = terms.opened(term)
        some = self.conditions.diagrams
        if isinstance(term, Choice) and term.yes is terms.inverted(term.no):
            plain = isinstance(term.yes, Op) and term.yes.operator == 'not'
            return (term.condition, term.no) if plain else (some.neither(term.condition), term.yes)
        if isinstance(term, Op) and term.operator == 'xor':
            for x, y in (term.operands, term.operands[::-1]):
                if isinstance(y, Extended) and y.by_sign and self.single(y.of) is not None:
                    return self.single(y.of), x
        return None

    # comparisons and logic

    def compared_width(self, bits: Bits, signed: bool) -> int:
        """How wide an operand of a comparison is, without what only extends it."""
        bits = self.conditions.bits(bits)
        if not all(map(is_constant, bits)) and (signed or bits[-1] != '0'):
            return len(bits)
        width, fill = len(bits), bits[-1] if signed else '0'
        while width > 1 and bits[width - 1] == fill and (not signed or bits[width - 2] == fill):
            width -= 1
        return width

    def comparison(self, gate: Gate) -> Term:
        signed = {'A', 'B'} <= gate.signed
        width = max(self.compared_width(bits, signed) for bits in gate.operands())
        a, b = self.operand(gate, 'A', width), self.operand(gate, 'B', width)
        operator = COMPARISONS[gate.kind]
        if operator == 'lt':
            operator = 'lts' if signed else 'ltu'
        found = Op(operator, (b, a) if gate.kind in EXCHANGED else (a, b))
        return terms.inverted(found) if gate.kind in TURNED else found

    def truth(self, bits: Bits) -> Term:
        """Whether some bit is 1."""
        term = self.values.of(bits)
        if isinstance(term, Extended) and not term.by_sign:
            term = term.of
        if term.width == 1:
            return term
        return Op('not', (Op('eq', (term, terms.const(0, term.width))),))

    def logic(self, gate: Gate) -> Term:
        kind, bits = gate.kind, gate.pins['A']
        if kind == '$logic_not':
            return terms.inverted(self.truth(bits))
        if kind in ('$reduce_or', '$reduce_bool'):
            return self.truth(bits)
        if kind in ('$logic_and', '$logic_or'):
            return Op(kind.removeprefix('$logic_'), (self.truth(bits),
                                                     self.truth(gate.pins['B'])))
        term = self.values.of(bits)
        if kind == '$reduce_and':
            return term if term.width == 1 else Op('eq', (term, terms.const(-1, term.width)))
        odd = terms.cut(term, 0, 0)
        for k in range(1, term.width):
            odd = Op('xor', (odd, terms.cut(term, k, k)))
        return odd if kind == '$reduce_xor' else terms.inverted(odd)

    # shifts

    def shift(self, gate: Gate, wanted: int) -> Term:
        amount = self.amount(gate)
        if amount is None:
            return self.values.bad(Rule.OPERATOR, 'a shift by a signed amount, or a bit range '
                                   'whose place is signed, has no operator in RTN', gate.place,
                                   len(gate.output), 'make the amount unsigned')
        size = self.shifted_width(gate, wanted)
        arithmetic = gate.kind == '$sshr' and 'A' in gate.signed
        operator = 'shl' if gate.kind in ('$shl', '$sshl') else 'sar' if arithmetic else 'shr'
        if not isinstance(amount, Const):
            size = max(size, amount.width)
            by = terms.zero_extended(amount, size)
            return Op(operator, (self.operand(gate, 'A', size), by))
        operand = self.operand(gate, 'A', size)
        if amount.value < size:
            return Op(operator, (operand, terms.const(amount.value, size)))
        return terms.sign_extended(terms.cut(operand, size - 1, size - 1), size) if arithmetic \
            else terms.const(0, size)

    def amount(self, gate: Gate) -> Term | None:
        """By how much a gate shifts, without zeros above; None where it may be negative."""
        bits = self.conditions.bits(gate.pins['B'])
        while len(bits) > 1 and bits[-1] == '0':
            bits = bits[:-1]
        term = self.values.of(bits)
        if isinstance(term, Extended) and not term.by_sign:
            return term.of
        signed = 'B' in gate.signed and gate.kind in ('$shift', '$shiftx')
        if signed and len(bits) == len(gate.pins['B']) and self.conditions.of(bits[-1]) != NEVER:
            return None
        return term

    def shifted_width(self, gate: Gate, wanted: int) -> int:
        """The width at which a shift is done: its own, and for those to the left its use's."""
        bits, full = gate.pins['A'], len(gate.output)
        natural = self.widths.natural(bits)
        if gate.kind in ('$shl', '$sshl'):
            return min(full, max(wanted, natural or 1))
        if gate.kind == '$sshr' or 'A' not in gate.signed:
            return max(natural or len(bits), wanted)
        return max(full, len(bits))
