"""Bits of the netlist as terms.

A row of bits is a constant, a run of one register's, read's or gate's bits, copies of the top bit
(an extension by the sign), zeros above (by zeros), or such parts side by side. Where the source
names exactly these bits, the term is a net of that name.
"""
from __future__ import annotations

import dataclasses

from . import terms
from .conditions import Conditions
from .gates import Gates
from .guards import Guards
from .mapping import Role
from .netlist import Bit, Bits, FlipFlop, Gate, Memory, Netlist, ReadPort, is_constant
from .refusals import Place, Refusal, Refused, Rule
from .roles import Roles, stripped
from .terms import WIDEST, Bad, Bus, Held, Named, Read, Term, Word
from .widths import Widths

WIDEST_ADDRESS = 16     # the counter's and the memories' sizes end at 65,536
LOST = 'a netlist has one data memory, and either a second one of its width (--bank) or a ' \
       'register file that words address (--file)'


@dataclasses.dataclass(frozen=True)
class Constant:
    """What a constant bit comes from."""


@dataclasses.dataclass(frozen=True)
class FromWord:
    """What a bit of the instruction word comes from."""


@dataclasses.dataclass(frozen=True)
class Undriven:
    """What a bit comes from that nothing drives."""


Origin = Constant | FromWord | Undriven | FlipFlop | ReadPort | Gate


def reach(cells: int) -> int:
    """How many bits number so many cells."""
    return max(1, (cells - 1).bit_length())


class Values:
    """The terms of a netlist's bits."""

    def __init__(self, netlist: Netlist, roles: Roles, dropped: frozenset[FlipFlop]):
        self.netlist, self.roles, self.dropped = netlist, roles, dropped
        self.conditions: Conditions = roles.conditions
        self.names = self.named_bits()
        counter = roles.counter
        self.widths = Widths(netlist, self.conditions, self.names,
                             counter.register.output[counter.low + counter.width:])
        self.addresses = {memory: self.address_width(memory) for memory in roles.arrays}
        self.even_banks()
        self.short: dict[Memory, int] = {}
        self.known: dict[tuple[Bits, bool], Term] = {}
        self.diagram_of: dict[Term, int] = {}
        self.of_gate: dict[Gate, Term] = {}
        self.busy: set = set()
        self.guards = Guards(netlist, self.conditions)
        self.gates = Gates(self)

    def named_bits(self) -> dict[Bits, str]:
        """The best name of each row of bits: with fewest dots, no port, the shortest."""
        found: dict[Bits, tuple] = {}
        for name, entry in self.netlist.names.items():
            rank = name.count('.'), name in self.netlist.ports, len(name), name
            for bits in {entry.bits, self.resolved(entry.bits)}:
                if bits not in found or rank < found[bits]:
                    found[bits] = rank
        return {bits: rank[-1] for bits, rank in found.items()}

    def resolved(self, bits: Bits) -> Bits:
        return tuple(map(self.conditions.resolved, bits))

    # addresses

    def address_width(self, memory: Memory) -> int:
        """How wide addresses of a memory are in the text."""
        used = [port.address for port in memory.reads if port in self.roles.reads]
        used += [port.address for port in memory.writes
                 if any(map(self.conditions.of, port.enable))]
        width = max([len(stripped(self.conditions.bits(bits))) for bits in used], default=1)
        least = reach(memory.cells)
        if width > min(WIDEST_ADDRESS, memory.width):
            return least
        return max(least, width)

    def even_banks(self):
        """A bank's addresses are as wide as the memory's."""
        pair = [memory for memory, role in self.roles.arrays.items() if role is not Role.FILE]
        widest = max((self.addresses[memory] for memory in pair), default=0)
        if len(pair) == 2:
            self.addresses.update({memory: widest for memory in pair})

    def address(self, memory: Memory, bits: Bits, root: bool = False) -> Term:
        """The address of a port, as wide as the text has it."""
        width = self.addresses[memory]
        bits = self.conditions.bits(bits)
        if len(stripped(bits)) > width:
            self.short[memory] = width
        if len(bits) < width:
            return terms.zero_extended(self.of(bits, root), width)
        return self.of(bits[:width], root)

    # terms

    def of(self, bits: Bits, root: bool = False) -> Term:
        """The term of some bits; at the `root` it isn't the net of its own name."""
        bits = self.conditions.bits(bits)
        key = bits, root
        if key not in self.known:
            self.enter(key, bits)
            term = self.parts(bits)
            if len(bits) == 1 and not isinstance(term, (terms.Const, Bad)):
                self.diagram_of[term] = self.conditions.of(bits[0])
            if not root:
                term = self.called(bits, term)
            self.known[key] = term
            self.busy.discard(key)
        return self.known[key]

    def enter(self, key: object, bits: Bits):
        """Notes that a value is being made; Refused where it is already."""
        if key in self.busy:
            gate, _ = self.netlist.drivers.get(bits[0], (None, 0))
            raise Refused(Rule.LOOP, f'{self.netlist.name_of(bits)} depends on itself without a '
                          'register between', gate.place if gate else None)
        self.busy.add(key)

    def called(self, bits: Bits, term: Term) -> Term:
        """A term by the name that the source has for its bits."""
        if bits not in self.names or isinstance(term, (*terms.ATOMS, Bad)):
            return term
        if len(bits) == 1 and self.conditions.static(bits[0]) or terms.has_hole(term):
            return term
        return Named(bits, term)

    def origin(self, bit: Bit) -> tuple[Origin, int]:
        """Where a bit comes from, and its number there."""
        if is_constant(bit):
            return Constant(), 0
        if bit in self.conditions.word:
            return FromWord(), self.conditions.word[bit]
        if bit in self.netlist.stored:
            return self.netlist.stored[bit]
        if bit in self.netlist.read:
            return self.netlist.read[bit][1:]
        return self.netlist.drivers.get(bit, (Undriven(), 0))

    def follows(self, bits: Bits, k: int, j: int) -> bool:
        """Whether bit j goes on with the run that begins at bit k."""
        (first, at), (other, there) = self.origin(bits[k]), self.origin(bits[j])
        if isinstance(first, Undriven):
            return False
        same = first is other or (first == other and isinstance(first, (Constant, FromWord)))
        return same and (isinstance(first, Constant) or there == at + j - k)

    def parts(self, bits: Bits) -> Term:
        if len(bits) > WIDEST:
            gate, _ = self.netlist.drivers.get(bits[0], (None, 0))
            raise Refused(Rule.LIMIT, f'{self.netlist.name_of(bits)} has {len(bits)} bits',
                          gate.place if gate else None, f'{WIDEST} at most')
        width = len(bits)
        top = width
        while top > 1 and not is_constant(bits[-1]) and bits[top - 2] == bits[-1]:
            top -= 1
        if top < width:
            return terms.sign_extended(self.of(bits[:top]), width)
        runs, k = [], 0
        while k < width:
            j = k + 1
            while j < width and self.follows(bits, k, j):
                j += 1
            copies = j
            while j == k + 1 and copies < width and bits[copies] == bits[k] and \
                    not is_constant(bits[k]):
                copies += 1
            runs.append(terms.sign_extended(self.run(bits[k:j]), copies - k)
                        if copies > j else self.run(bits[k:j]))
            k = copies
        return terms.cat(runs[::-1])

    def run(self, bits: Bits) -> Term:
        """A run of bits from one origin."""
        origin, at = self.origin(bits[0])
        width = len(bits)
        match origin:
            case Constant():
                return terms.const(sum((bit == '1') << k for k, bit in enumerate(bits)), width)
            case FromWord():
                return Word(at + width - 1, at)
            case FlipFlop():
                return self.register(origin, at, width)
            case ReadPort():
                return self.read(bits[0], at, width)
            case Gate():
                return self.gate(origin, at, width)
        return self.undriven(bits[0])

    def bad(self, rule: Rule, what: str, place: Place | None, width: int, advice: str = '') -> Bad:
        return Bad(Refusal(rule, what, place, advice), width)

    def register(self, register: FlipFlop, at: int, width: int) -> Term:
        counter = self.roles.counter
        if register in self.dropped:
            return self.bad(Rule.OPTION, f'register {register.path} is left out, but something '
                            'depends on it', register.place, width)
        if register is not counter.register and \
                self.resolved(register.data) == register.output:
            return self.bad(Rule.RESET, f'register {register.path} never changes once the reset '
                            'is over, so it is a constant', register.place, width,
                            'write the constant itself')
        if register is not counter.register:
            return terms.cut(Held(register, register.width), at + width - 1, at)
        low = at - counter.low
        if low < 0 or low + width > counter.width:
            return self.beyond(width)
        return terms.cut(Held(register, counter.width), low + width - 1, low)

    def beyond(self, width: int) -> Bad:
        """What depends on bits of the counter that don't address the code."""
        counter = self.roles.counter
        high, low = counter.low + counter.width - 1, counter.low
        return self.bad(Rule.COUNTER, f'something depends on all of {counter.register.path}, and '
                        f'only its bits {high} to {low} address the instruction memory',
                        counter.register.place, width,
                        'make the program counter as wide as the addresses of the code')

    def read(self, bit: Bit, at: int, width: int) -> Term:
        memory, port, _ = self.netlist.read[bit]
        if memory is self.roles.word.memory:
            return self.bad(Rule.CODE, f'{memory.path} is read at another address than the '
                            'program counter: the instruction words are no data', port.place,
                            width, 'keep constants in the data memory')
        if memory not in self.roles.arrays:
            return self.bad(Rule.MEMORY, f'memory {memory.path} has no role', memory.place, width,
                            LOST)
        term: Term = Read(memory, self.address(memory, port.address))
        term = self.called(port.data, term)
        return terms.cut(term, at + width - 1, at)

    def undriven(self, bit: Bit) -> Bad:
        for port in self.netlist.inputs().values():
            if bit in port.bits:
                name = self.netlist.names.get(port.name)
                return self.bad(Rule.INPUT, f'input {port.name} decides something: a netlist has '
                                'no inputs beside the word', name.place if name else None, 1,
                                f'--tie {port.name}=N gives it a value')
        name = self.netlist.name_of((bit,))
        place = self.netlist.names[name].place if name in self.netlist.names else None
        return self.bad(Rule.DRIVER, f'{name} has no driver', place, 1)

    def gate(self, gate: Gate, at: int, width: int) -> Term:
        """Bits of a gate's output."""
        if gate.kind == '$tribuf':
            return terms.cut(Bus(gate.output), at + width - 1, at)
        wanted = self.widths.of(gate)
        whole = gate.output[:wanted]
        if self.gates.is_bitwise(gate) and width < wanted and \
                whole not in self.names and gate.output not in self.names:
            return terms.cut(self.gates.term(gate, at, width), width - 1, 0)
        term = self.whole(gate)
        if at + width > term.width:
            known = max(0, term.width - at)
            missing = self.beyond(width - known)
            return terms.cat([missing, terms.cut(term, at + known - 1, at)]) if known else missing
        for bits in (gate.output, whole):
            if at + width <= len(bits) <= term.width:
                part = terms.cut(term, len(bits) - 1, 0)
                if self.called(bits, part) is not part:
                    return terms.cut(self.called(bits, part), at + width - 1, at)
        return terms.cut(term, at + width - 1, at)

    def whole(self, gate: Gate) -> Term:
        """As much of a gate's output as is asked for."""
        if gate not in self.of_gate:
            self.enter(gate, gate.output)
            self.of_gate[gate] = self.gates.term(gate, 0, self.widths.of(gate))
            self.busy.discard(gate)
        return self.of_gate[gate]
