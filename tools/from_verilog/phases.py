"""A netlist whose instructions take a fixed number of clocks, as one of one clock each.

While an instruction is fetched and done, a state register goes through numbers that are known. So
the logic is there once for each of them, with the state as a constant; what a register holds in a
later phase is what it takes in the one before; and a read that follows a write of the same
instruction is the written value where the addresses are equal.

The proof unrolls by code of its own (`cutting`), and the bench clocks the Verilog as it stands.
"""
from __future__ import annotations

import dataclasses
from collections.abc import Iterable

from .mapping import Phases
from .netlist import Bit, Bits, FlipFlop, Gate, Memory, Name, Netlist, ReadPort, WritePort
from .netlist import is_constant
from .refusals import Refused, Rule


@dataclasses.dataclass(frozen=True)
class Unrolled:
    """`checks` are bits of the next state with the digit that each has to have in every case."""
    netlist: Netlist
    phases: Phases
    checks: tuple[tuple[Bit, int], ...]


def state_register(netlist: Netlist, name: str) -> FlipFlop:
    """The register of a name, or of a wire that is one."""
    bits = netlist.names[name].bits if name in netlist.names else ()
    found = [register for register in netlist.flip_flops
             if register.path == name or (bits and register.output == bits)]
    if not found:
        raise Refused(Rule.OPTION, f'--phases: no register is called {name}')
    return found[0]


class _Unroller:
    """Copies the logic of a netlist for each phase. The last phase keeps the netlist's bits."""

    def __init__(self, netlist: Netlist, state: FlipFlop, numbers: tuple[int, ...]):
        self.old, self.state, self.numbers = netlist, state, numbers
        self.last = len(numbers) - 1
        self.inputs = {bit for port in netlist.inputs().values() for bit in port.bits}
        self.digits = {bit: k for k, bit in enumerate(state.output)}
        self.copies: dict[tuple[Bit, int], int] = {}
        self.next = 1 + max((bit for bit in self.all_bits() if not is_constant(bit)), default=1)
        self.gates: list[Gate] = []

    def all_bits(self) -> Iterable[Bit]:
        for gate in self.old.gates:
            for bits in gate.pins.values():
                yield from bits
        for register in self.old.flip_flops:
            yield from register.output + register.data
        for memory in self.old.memories.values():
            for port in memory.reads:
                yield from port.data
        for port in self.old.ports.values():
            yield from port.bits

    def fresh(self) -> int:
        self.next += 1
        return self.next

    def at(self, bit: Bit, phase: int) -> Bit:
        """What stands for a bit in a phase."""
        while True:
            if is_constant(bit) or bit in self.inputs:
                return bit
            if bit in self.digits:
                return str(self.numbers[phase] >> self.digits[bit] & 1)
            if bit not in self.old.stored or phase == 0:
                break
            register, k = self.old.stored[bit]
            bit, phase = register.data[k], phase - 1
        if phase == self.last or bit in self.old.stored:
            return bit
        if (bit, phase) not in self.copies:
            self.copies[bit, phase] = self.fresh()
        return self.copies[bit, phase]

    def row(self, bits: Bits, phase: int) -> Bits:
        return tuple(self.at(bit, phase) for bit in bits)

    def gate(self, kind: str, output: Bits, like: object, **pins: Bits) -> Bits:
        place = getattr(like, 'place', None)
        self.gates.append(Gate(f'{kind}{len(self.gates)}', kind, {**pins, 'Y': output},
                               frozenset(), place))
        return output

    def memory(self, memory: Memory) -> Memory:
        """A memory with its ports in each phase; later ones overrule and see earlier writes."""
        count = len(memory.writes)
        reads, writes = [], []
        for phase in range(self.last + 1):
            for port in memory.reads:
                reads.append(self.read(port, phase, tuple(writes)))
            for port in memory.writes:
                over = {*range(phase * count), *(phase * count + k for k in port.over)}
                writes.append(WritePort(
                    self.row(port.address, phase), self.row(port.data, phase),
                    self.row(port.enable, phase), port.clock, port.rising, port.clocked,
                    frozenset(over), port.place))
        return dataclasses.replace(memory, reads=reads, writes=writes)

    def read(self, port: ReadPort, phase: int, writes: tuple[WritePort, ...]) -> ReadPort:
        """A read in a phase, behind the writes of the phases before."""
        address, data = self.row(port.address, phase), self.row(port.data, phase)
        writes = tuple(write for write in writes if set(write.enable) != {'0'})
        stored = tuple(self.fresh() for _ in data) if writes else data
        value = stored
        for number, write in enumerate(writes):
            last = number == len(writes) - 1
            value = self.forwarded(value, data if last else (), address, write)
        return ReadPort(address, stored, port.clocked, port.place)

    def forwarded(self, value: Bits, output: Bits, address: Bits, write: WritePort) -> Bits:
        """A read value, or the written one where the addresses are equal."""
        width = max(len(address), len(write.address))
        here = self.gate('$eq', (self.fresh(),), write,
                         A=address + ('0',) * (width - len(address)),
                         B=write.address + ('0',) * (width - len(write.address)))
        output = output or tuple(self.fresh() for _ in value)
        for enable in dict.fromkeys(write.enable):
            chosen = self.gate('$and', (self.fresh(),), write, A=here, B=(enable,))
            part = [k for k, bit in enumerate(write.enable) if bit == enable]
            self.gate('$mux', tuple(output[k] for k in part), write, S=chosen,
                      A=tuple(value[k] for k in part), B=tuple(write.data[k] for k in part))
        return output

    def copied(self, gate: Gate, phase: int) -> Gate:
        pins = {pin: self.row(bits, phase) for pin, bits in gate.pins.items()}
        return dataclasses.replace(gate, pins=pins)

    def register(self, register: FlipFlop) -> FlipFlop:
        return dataclasses.replace(register, data=self.row(register.data, self.last))

    def names(self) -> dict[str, Name]:
        """The names as of the last phase, but those of registers, which are as of the first."""
        whole = {register.output for register in self.old.flip_flops}
        return {key: name if name.bits in whole else
                dataclasses.replace(name, bits=self.row(name.bits, self.last))
                for key, name in self.old.names.items()}

    def checks(self) -> tuple[tuple[Bit, int], ...]:
        return tuple((self.at(bit, phase), self.numbers[(phase + 1) % len(self.numbers)] >> k & 1)
                     for phase in range(self.last + 1)
                     for k, bit in enumerate(self.state.data))

    def netlist(self) -> Netlist:
        memories = {name: self.memory(memory) for name, memory in self.old.memories.items()}
        registers = [self.register(register) for register in self.old.flip_flops
                     if register is not self.state]
        gates = [self.copied(gate, phase) for phase in range(self.last + 1)
                 for gate in self.old.gates]
        return Netlist(self.old.top, self.old.ports, self.names(), gates + self.gates, registers,
                       memories)


def unrolled(netlist: Netlist, state: str, numbers: tuple[int, ...]) -> Unrolled:
    """One clock in place of one for each number of the register `state`."""
    register = state_register(netlist, state)
    if any(number >> register.width for number in numbers):
        raise Refused(Rule.OPTION, f'--phases: {register.path} has {register.width} bits, '
                      'which hold no such number')
    unroller = _Unroller(netlist, register, numbers)
    phases = Phases(register.path, register.width, numbers)
    return Unrolled(unroller.netlist(), phases, unroller.checks())
