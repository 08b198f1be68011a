"""How many bits of each gate's output are asked for, and how wide its operands are of their own.

Verilog computes `pc + 1` in 32 bits and uses 8. So an operation is as wide as its use asks for,
but never narrower than an operand of its own.
"""
from __future__ import annotations

from collections.abc import Iterable

from .conditions import Conditions, rows
from .netlist import Bit, Bits, Gate, Netlist, is_constant

BY_DEMAND = frozenset({'$add', '$sub', '$mul', '$and', '$or', '$xor', '$xnor', '$not', '$neg',
                       '$pos'})


class Widths:
    """The widths that are asked for, from the storages and the named wires down.

    `missing` are bits of the counter that the text doesn't have. No operation reaches up to them.
    """

    def __init__(self, netlist: Netlist, conditions: Conditions, named: Iterable[Bits],
                 missing: Iterable[Bit] = ()):
        self.netlist, self.conditions = netlist, conditions
        self.missing = frozenset(missing)
        self.wanted: dict[Gate, int] = {}
        self.waiting: list[Gate] = []
        for register in netlist.flip_flops:
            self.need(register.data)
        for memory in netlist.memories.values():
            for read in memory.reads:
                self.need(read.address)
            for write in memory.writes:
                self.need(write.address + write.data + write.enable)
        for bits in named:
            self.need(bits)
        while self.waiting:
            self.pass_on(self.waiting.pop())

    def need(self, bits: Iterable[Bit]):
        """Asks for some bits."""
        for bit in self.conditions.bits(bits):
            if bit in self.conditions.word or bit not in self.netlist.drivers:
                continue
            gate, k = self.netlist.drivers[bit]
            if self.wanted.get(gate, 0) <= k:
                self.wanted[gate] = k + 1
                self.waiting.append(gate)

    def pass_on(self, gate: Gate):
        """Asks for what a gate needs for what is asked of it."""
        wanted = self.wanted[gate]
        if gate.kind in BY_DEMAND:
            width = self.operation(gate, wanted)
            for bits in gate.operands():
                self.need(bits[:width])
        elif gate.kind in ('$mux', '$pmux'):
            self.need(gate.pins['A'][:wanted] + gate.pins['S'])
            for _, row in rows(gate):
                self.need(row[:wanted])
        else:
            for bits in gate.operands():
                self.need(bits)

    def of(self, gate: Gate) -> int:
        return self.wanted.get(gate, len(gate.output))

    def natural(self, bits: Bits) -> int:
        """How wide a value is without the constants above it; 0 for a constant."""
        bits = self.conditions.bits(bits)
        if all(map(is_constant, bits)):
            return 0
        width = len(bits)
        while bits[width - 1] == '0':
            width -= 1
        gate, k = self.netlist.drivers.get(bits[0], (None, 0))
        if gate and k == 0 and gate.kind in ('$mux', '$pmux') and \
                bits[:width] == gate.output[:width]:
            choices = [gate.pins['A'], *(row for _, row in rows(gate))]
            width = min(width, max(self.natural(row) or self.least(row) for row in choices))
        return width

    def least(self, bits: Bits) -> int:
        """How many bits a constant needs."""
        width = len(bits)
        while width > 1 and self.conditions.bit(bits[width - 1]) != '1':
            width -= 1
        return width

    def operation(self, gate: Gate, wanted: int) -> int:
        """The width of an operation of which so many bits are asked for."""
        natural = max([1, *(self.natural(bits) for bits in gate.operands())])
        return min(self.top(gate), max(wanted, natural))

    def top(self, gate: Gate) -> int:
        """How many bits of an operation can be computed."""
        found = [k for bits in gate.operands() for k, bit in enumerate(bits)
                 if bit in self.missing]
        return max(1, min([len(gate.output), *found]))
