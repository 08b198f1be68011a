"""Tests of the source that an address is within its memory.

Verilog's reads past the last cell are x, so careful sources write `a < 24 ? m[a] : 0` and
`if (a < 24) m[a] <= v`. The netlist language defines just that, so the tests are left out.
"""
from __future__ import annotations

from collections.abc import Iterator

from .conditions import Conditions
from .netlist import Bit, Bits, Gate, Memory, Netlist, is_constant


def number(bits: Bits) -> int:
    return sum((bit == '1') << k for k, bit in enumerate(bits))


class Guards:
    """The comparisons of a netlist that may be such tests."""

    def __init__(self, netlist: Netlist, conditions: Conditions):
        self.netlist, self.conditions = netlist, conditions
        self.found = [gate for gate in netlist.gates if gate.kind == '$lt'
                      and not gate.signed and all(map(is_constant, gate.pins['B']))]

    def sizes(self, memory: Memory) -> list[Gate]:
        """The comparisons with the number of a memory's cells."""
        return [gate for gate in self.found if number(gate.pins['B']) == memory.cells]

    def of(self, memory: Memory, address: Bits) -> Iterator[Bit]:
        """The bits that tell whether an address is within a memory."""
        return (gate.output[0] for gate in self.sizes(memory)
                if self.same(gate.pins['A'], address))

    def same(self, ones: Bits, others: Bits) -> bool:
        """Whether two rows of bits are the same number."""
        width = max(len(ones), len(others))
        one, other = (tuple(map(self.conditions.resolved, bits)) + ('0',) * (width - len(bits))
                      for bits in (ones, others))
        return one == other

    def guarded(self, gate: Gate) -> Bits | None:
        """The cell that a multiplexer gives where the address is within, and else 0."""
        if gate.kind != '$mux':
            return None
        no, yes = (self.conditions.bits(gate.pins[pin]) for pin in 'AB')
        if set(no) != {'0'} or yes[0] not in self.netlist.read:
            return None
        memory, port, _ = self.netlist.read[yes[0]]
        select = self.conditions.resolved(gate.pins['S'][0])
        tests = map(self.conditions.resolved, self.of(memory, port.address))
        return yes if yes == port.data and select in tests else None
