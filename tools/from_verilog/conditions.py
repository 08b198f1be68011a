"""A bit of the netlist as a diagram over the bits of the instruction word and opaque bits.

A bit is *static* where the word alone decides it. Gates of static operands, and gates of single
bits, are computed; what else a bit is, is a variable of its own. So all of a decoder (comparisons,
ranges, shifts of a one, reductions under a mask) comes out as the set of words that it stands for.
"""
from __future__ import annotations

from collections.abc import Iterable, Mapping

from .diagrams import ALWAYS, NEVER, Diagrams, is_of_word, of_word
from .netlist import Bit, Bits, Gate, Netlist, is_constant

BITWISE = frozenset({'$and', '$or', '$xor', '$xnor', '$not'})
LOGIC = frozenset({'$logic_and', '$logic_or', '$logic_not'})
REDUCTIONS = frozenset({'$reduce_or', '$reduce_bool', '$reduce_and', '$reduce_xor',
                        '$reduce_xnor'})
EQUALITIES = frozenset({'$eq', '$ne', '$eqx', '$nex'})
ORDERS = frozenset({'$lt', '$le', '$gt', '$ge'})
ADDERS = frozenset({'$add', '$sub', '$neg'})
SHIFTS = frozenset({'$shl', '$sshl', '$shr'})
PICKS = frozenset({'$shiftx', '$shift', '$shr'})
LONGEST_AMOUNT = 6      # a shift by more bits is no decoder
MOST_OPAQUE = 24        # a bit that more opaque ones decide is opaque itself


def extended(gate: Gate, pin: str, width: int) -> Bits:
    """An operand at some width, by its sign where it has one."""
    bits = gate.pins[pin]
    fill = bits[-1] if pin in gate.signed and bits else '0'
    return (bits + (fill,) * (width - len(bits)))[:width]


def rows(gate: Gate) -> list[tuple[Bit, Bits]]:
    """The rows of a $mux or a $pmux: the bit that selects, and what it selects."""
    width = len(gate.pins['A'])
    values = gate.pins['B']
    return [(bit, values[k * width:(k + 1) * width]) for k, bit in enumerate(gate.pins['S'])]


class Conditions:
    """The diagrams of a netlist's bits, where some bits are tied and some are the word's."""

    def __init__(self, netlist: Netlist, tied: Mapping[Bit, Bit], word: Mapping[Bit, int]):
        self.netlist, self.tied, self.word = netlist, dict(tied), dict(word)
        self.diagrams = Diagrams()
        self.known: dict[Bit, int] = {}
        self.is_known: dict[Bit, bool] = {}

    def bit(self, bit: Bit) -> Bit:
        return self.tied.get(bit, bit)

    def bits(self, bits: Iterable[Bit]) -> Bits:
        return tuple(self.tied.get(bit, bit) for bit in bits)

    # which bits the word decides

    def static(self, bit: Bit) -> bool:
        """Whether the word alone decides a bit."""
        bit = self.bit(bit)
        if is_constant(bit) or bit in self.word:
            return True
        if bit not in self.is_known:
            self.is_known[bit] = False      # what depends on itself isn't static
            gate, k = self.netlist.drivers.get(bit, (None, 0))
            if gate and gate.kind != '$tribuf':
                self.is_known[bit] = all(map(self.static, self.sources(gate, k)))
        return self.is_known[bit]

    def sources(self, gate: Gate, k: int) -> list[Bit]:
        """The bits that output bit k of a gate depends on."""
        if gate.kind in BITWISE:
            return [extended(gate, pin, k + 1)[k] for pin in 'AB' if pin in gate.pins]
        if gate.kind in ('$mux', '$pmux'):
            chosen = self.only_row(gate)
            if chosen is not None:
                return [chosen[k]]
            return [gate.pins['A'][k], *gate.pins['S'], *(row[k] for _, row in rows(gate))]
        if gate.kind in ADDERS:
            return [bit for pin in 'AB' if pin in gate.pins
                    for bit in extended(gate, pin, k + 1)]
        return [bit for bits in gate.operands() for bit in bits]

    def only_row(self, gate: Gate) -> Bits | None:
        """The row that a choice always takes, or nothing where it may take several."""
        if not all(map(self.static, gate.pins['S'])):
            return None
        found = gate.pins['A']
        for bit, row in reversed(rows(gate)):
            condition = self.of(bit)
            if condition == ALWAYS:
                found = row
            elif condition != NEVER:
                return None
        return found

    def resolved(self, bit: Bit) -> Bit:
        """The bit that a bit is a copy of, behind the choices that take one row alone."""
        bit = self.bit(bit)
        while bit in self.netlist.drivers:
            gate, k = self.netlist.drivers[bit]
            row = self.only_row(gate) if gate.kind in ('$mux', '$pmux') else None
            if row is None:
                return bit
            bit = self.bit(row[k])
        return bit

    # diagrams

    def all(self, bits: Iterable[Bit]) -> list[int]:
        return [self.of(bit) for bit in bits]

    def of(self, bit: Bit) -> int:
        """The diagram of a bit."""
        bit = self.bit(bit)
        if is_constant(bit):
            return ALWAYS if bit == '1' else NEVER
        if bit not in self.known:
            if bit in self.word:
                self.known[bit] = self.diagrams.variable(of_word(self.word[bit]))
                return self.known[bit]
            self.known[bit] = self.diagrams.variable(bit)
            gate, k = self.netlist.drivers.get(bit, (None, 0))
            found = self.of_gate(gate, k) if gate else None
            if found is not None and len(self.opaque(found)) <= MOST_OPAQUE:
                self.known[bit] = found
        return self.known[bit]

    def opaque(self, diagram: int) -> list[Bit]:
        """The opaque bits that a diagram depends on."""
        return [bit for bit in self.diagrams.support(diagram) if not is_of_word(bit)]

    def of_gate(self, gate: Gate, k: int) -> int | None:
        """The diagram of output bit k of a gate, or nothing where it is opaque."""
        kind, some = gate.kind, self.diagrams
        if kind in ('$mux', '$pmux'):
            if sum(not self.static(bit) for bit in gate.pins['S']) > MOST_OPAQUE:
                return None
            found = self.of(gate.pins['A'][k])
            for bit, row in reversed(rows(gate)):
                found = some.choice(self.of(bit), self.of(row[k]), found)
            return found
        if kind in BITWISE:
            return self.bitwise(gate, k)
        if kind in LOGIC | REDUCTIONS | EQUALITIES | ORDERS and k:
            return NEVER
        if kind in LOGIC:
            return self.logic(gate)
        static = all(map(self.static, self.sources(gate, k)))
        if kind in REDUCTIONS:
            return self.reduction(gate) if static or self.many_things(gate.pins['A']) else None
        if kind in EQUALITIES and (static or max(map(len, gate.operands())) == 1):
            return self.equality(gate)
        if kind in PICKS and not static and k == 0 and self.picks_a_bit(gate):
            return self.picked(gate)
        if not static:
            return None
        if kind in ORDERS:
            return self.order(gate)
        if kind in ADDERS:
            return self.sum(gate, k)
        if kind in SHIFTS and len(gate.pins['B']) <= LONGEST_AMOUNT:
            return self.shifted(gate)[k]
        return None

    def bitwise(self, gate: Gate, k: int) -> int:
        some = self.diagrams
        operands = [self.of(extended(gate, pin, k + 1)[k]) for pin in 'AB' if pin in gate.pins]
        if gate.kind == '$not':
            return some.neither(*operands)
        if gate.kind == '$xnor':
            return some.neither(some.differ(*operands))
        return {'$and': some.both, '$or': some.either, '$xor': some.differ}[gate.kind](*operands)

    def logic(self, gate: Gate) -> int | None:
        some, values = self.diagrams, []
        for pin in 'AB':
            bits = self.bits(gate.pins.get(pin, ()))
            if not all(map(self.static, bits)) and sum(bit != '0' for bit in bits) > 1:
                return None
            if pin in gate.pins:
                values.append(some.any(self.all(bits)))
        if gate.kind == '$logic_not':
            return some.neither(*values)
        return some.both(*values) if gate.kind == '$logic_and' else some.either(*values)

    def many_things(self, bits: Bits) -> bool:
        """Whether a reduction is of signals of one bit, and not of one word as in |acc."""
        opaque = [bit for bit in self.bits(bits) if not self.static(bit)]
        return len(opaque) <= 1 or len({self.owner(bit) for bit in opaque}) > 1

    def owner(self, bit: Bit) -> object:
        """What a bit comes from."""
        for found in (self.netlist.stored, self.netlist.read, self.netlist.drivers):
            if bit in found:
                return id(found[bit][-2])
        return bit

    def reduction(self, gate: Gate) -> int:
        some, values = self.diagrams, self.all(gate.pins['A'])
        if gate.kind in ('$reduce_or', '$reduce_bool'):
            return some.any(values)
        if gate.kind == '$reduce_and':
            return some.neither(some.any(map(some.neither, values)))
        odd = NEVER
        for value in values:
            odd = some.differ(odd, value)
        return odd if gate.kind == '$reduce_xor' else some.neither(odd)

    def operands(self, gate: Gate, width: int) -> tuple[list[int], list[int]]:
        return self.all(extended(gate, 'A', width)), self.all(extended(gate, 'B', width))

    def equality(self, gate: Gate) -> int:
        found = self.diagrams.alike(*self.operands(gate, max(map(len, gate.operands()))))
        return found if gate.kind in ('$eq', '$eqx') else self.diagrams.neither(found)

    def order(self, gate: Gate) -> int:
        some = self.diagrams
        a, b = self.operands(gate, max(map(len, gate.operands())))
        if {'A', 'B'} <= gate.signed:
            a[-1], b[-1] = some.neither(a[-1]), some.neither(b[-1])
        if gate.kind in ('$gt', '$le'):
            a, b = b, a
        less = NEVER
        for x, y in zip(a, b):
            less = some.choice(some.differ(x, y), y, less)
        return less if gate.kind in ('$lt', '$gt') else some.neither(less)

    def sum(self, gate: Gate, k: int) -> int:
        """Bit k of a sum, a difference or a negation."""
        some, width = self.diagrams, k + 1
        second = self.all(extended(gate, 'A' if gate.kind == '$neg' else 'B', width))
        first = ([NEVER] * width if gate.kind == '$neg' else self.all(extended(gate, 'A', width)))
        carry = NEVER if gate.kind == '$add' else ALWAYS
        if gate.kind != '$add':
            second = [some.neither(bit) for bit in second]
        total = NEVER
        for x, y in zip(first, second):
            total = some.differ(some.differ(x, y), carry)
            carry = some.either(some.both(x, y), some.both(carry, some.either(x, y)))
        return total

    def shifted(self, gate: Gate) -> list[int]:
        """The bits of a shift to the left, or of a logical one to the right."""
        left = gate.kind != '$shr'
        width = max(len(gate.output), len(gate.pins['A']))
        bits = self.all(extended(gate, 'A', width))
        for i, moves in enumerate(self.all(gate.pins['B'])):
            step = 1 << i if left else -(1 << i)
            moved = [bits[j - step] if 0 <= j - step < width else NEVER for j in range(width)]
            bits = [self.diagrams.choice(moves, there, here) for there, here in zip(moved, bits)]
        return bits

    def picks_a_bit(self, gate: Gate) -> bool:
        amount = gate.pins['B']
        return (len(amount) <= LONGEST_AMOUNT and all(map(self.static, amount))
                and (gate.kind == '$shr' or 'B' not in gate.signed))

    def picked(self, gate: Gate) -> int:
        """The bit of a row of flags that the word picks."""
        some, amount, found = self.diagrams, self.all(gate.pins['B']), NEVER
        for j, bit in enumerate(gate.pins['A'][:1 << len(amount)]):
            here = some.alike(amount, [j >> i & 1 for i in range(len(amount))])
            found = some.choice(here, self.of(bit), found)
        return found
