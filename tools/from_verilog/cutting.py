"""A flat module of Yosys' JSON, cut at its storages, for the proof.

`Side` has the gates of a module over one clock or several. What its registers hold at first, what
reads of memories give, the instruction word and the products are inputs of the cut; what registers
take at the last clock, addresses, writes and the factors are outputs. What is left out (other
registers and memories, inputs that aren't tied, division) is free at each clock. A bit that the
Verilog gives no value (x, z) is 0.
"""
from __future__ import annotations

import dataclasses
import enum
import re
from collections.abc import Iterable, Mapping

from .mapping import Array, Map, Register, Source
from .netlist import FLIP_FLOPS, LATCHES, READS, SILENT, WRITES, Bit, Bits, number_of
from .refusals import Place, Refused, Rule

UNDECIDED = frozenset({'$div', '$mod', '$divfloor', '$modfloor', '$pow'})   # free in the proof
ASYNCHRONOUS = {'CLR': 'CLR_POLARITY', 'SET': 'SET_POLARITY', 'ARST': 'ARST_POLARITY',
                'ALOAD': 'ALOAD_POLARITY'}


class Reset(enum.Enum):
    """What the reset is while a module is looked at."""
    IDLE = 'idle'
    ACTIVE = 'active'


@dataclasses.dataclass(frozen=True)
class Pin:
    """A pin of the cut module: bits that stand for each other's name in the miter."""
    name: str
    inward: bool
    bits: Bits

    @property
    def width(self) -> int:
        return len(self.bits)


@dataclasses.dataclass(frozen=True)
class Read:
    """A read of an array at a clock: the pins of its address and of what it gives."""
    clock: int
    address: Pin
    data: Pin


@dataclasses.dataclass(frozen=True)
class Write:
    """A write of an array at a clock; `over` tells by the number which others it overrules."""
    clock: int
    number: int
    address: Pin
    data: Pin
    enable: Pin
    over: frozenset[int]


@dataclasses.dataclass(frozen=True)
class Cells:
    """The accesses of an array in the order of time."""
    reads: tuple[Read, ...]
    writes: tuple[Write, ...]


@dataclasses.dataclass(frozen=True)
class Product:
    """A product of two factors, all as wide as the result."""
    left: Pin
    right: Pin
    result: Pin


class Side:
    """One module over `clocks` clocks, which is called `tag`.

    `flip_flops` has the cell and the place in it of each bit that a register holds.
    """

    def __init__(self, tag: str, module: Mapping, chart: Map, reset: Reset = Reset.IDLE):
        self.tag, self.module, self.chart, self.reset = tag, module, chart, reset
        self.clocks = len(chart.phases.numbers) if chart.phases else 1
        self.last = self.clocks - 1
        self.pins: dict[str, Pin] = {}
        self.gates: dict[str, dict] = {}
        self.cells = {name: cell for name, cell in module['cells'].items()
                      if cell['type'] not in SILENT}
        self.span = 2 + max((bit for bit in self.all_bits() if isinstance(bit, int)), default=0)
        self.flip_flops: dict[Bit, tuple[Mapping, int]] = {}
        self.constants: dict[Bit, Bit] = self.tied()
        self.first: dict[Bit, Bit] = {}   # what registers are known to hold at the first clock
        self.has_unknown = False
        self.word_bits: dict[Bit, int] = {}
        self.find_flip_flops()
        self.hold_state()

    # ---- bits

    def all_bits(self) -> Iterable[Bit]:
        for cell in self.cells.values():
            for bits in cell['connections'].values():
                yield from bits
        for name in (*self.module['netnames'].values(), *self.module['ports'].values()):
            yield from name['bits']

    def named(self, path: str, what: str) -> Bits:
        """The bits of a declared name, or of a part of one (`state[23:16]`)."""
        part = re.fullmatch(r'(.*)\[(\d+)(?::(\d+))?\]', path)
        if part and path not in self.module['netnames']:
            high, low = int(part[2]), int(part[3] or part[2])
            return self.named(part[1], what)[low:high + 1]
        if path not in self.module['netnames']:
            raise Refused(Rule.EQUAL, f'the proof finds no {what} {path} in the Verilog')
        return tuple(self.module['netnames'][path]['bits'])

    def tied(self) -> dict[Bit, Bit]:
        """The inputs that are constants, the reset at the level that is asked for."""
        values = {tied.name: tied.value for tied in self.chart.tied}
        if self.chart.reset:
            values[self.chart.reset] = self.chart.active ^ (self.reset is Reset.IDLE)
        return {bit: str(value >> k & 1) for name, value in values.items()
                for k, bit in enumerate(self.port(name))}

    def port(self, name: str) -> Bits:
        if name not in self.module['ports']:
            raise Refused(Rule.EQUAL, f'the proof finds no port {name} of {self.chart.top}')
        return tuple(self.module['ports'][name]['bits'])

    def at(self, bit: Bit, clock: int) -> Bit:
        """A bit as it is used at a clock."""
        if bit in self.constants:
            return self.constants[bit]
        if isinstance(bit, str):
            self.has_unknown |= bit not in '01'
            return '1' if bit == '1' else '0'
        if bit in self.word_bits:
            return self.word_bits[bit] + clock * self.span
        if bit in self.flip_flops:
            cell, k = self.flip_flops[bit]
            return self.at(self.taken(cell, k), clock - 1) if clock else self.first.get(bit, bit)
        return bit + clock * self.span

    def all_at(self, bits: Iterable[Bit], clock: int) -> Bits:
        return tuple(self.at(bit, clock) for bit in bits)

    def fresh(self, bits: Iterable[Bit], clock: int) -> Bits:
        """The bits of an output of a gate at a clock."""
        return tuple(bit if isinstance(bit, str) else bit + clock * self.span for bit in bits)

    def called(self, pin: Pin) -> str:
        """The name of a pin of this side in the miter."""
        return f'{self.tag}_{pin.name}'

    def pin(self, name: str, inward: bool, bits: Bits) -> Pin:
        return self.pins.setdefault(name, Pin(name, inward, bits))

    # ---- registers

    def find_flip_flops(self) -> None:
        """Enters the registers; all have the one clock, and no asynchronous pin that isn't idle."""
        for name, cell in self.cells.items():
            if cell['type'] in LATCHES:
                raise Refused(Rule.LATCH, f'the proof finds a latch ({name})')
            if cell['type'] in FLIP_FLOPS:
                self.check_clock(cell)
                for k, bit in enumerate(cell['connections']['Q']):
                    self.flip_flops[bit] = cell, k

    def check_clock(self, cell: Mapping) -> None:
        clock, parameters = self.port(self.chart.clock), cell['parameters']
        is_clocked = number_of(parameters.get('CLK_ENABLE', '1'))
        rising = bool(number_of(parameters['CLK_POLARITY']))
        if (not is_clocked or rising != self.chart.rising
                or tuple(cell['connections']['CLK']) != clock):
            place = Place.of_source(cell.get('attributes', {}).get('src', ''))
            raise Refused(Rule.CLOCK, f'not all that is compared changes at one edge of '
                          f'{self.chart.clock}', place)

    def forced(self, cell: Mapping, k: int) -> Bit | None:
        """What an asynchronous pin that is active gives a bit of a register; None where none is."""
        pins, parameters = cell['connections'], cell['parameters']
        for pin, polarity in ASYNCHRONOUS.items():
            if pin not in pins:
                continue
            bit = self.at(pins[pin][min(k, len(pins[pin]) - 1)], 0)
            if bit not in ('0', '1'):
                place = Place.of_source(cell.get('attributes', {}).get('src', ''))
                raise Refused(Rule.RESET, 'an asynchronous reset that is no input of the top '
                              'module', place)
            if number_of(bit) == number_of(parameters[polarity]):
                return {'ARST': lambda: parameters['ARST_VALUE'][::-1][k],
                        'ALOAD': lambda: pins['AD'][k],
                        'SET': lambda: '1', 'CLR': lambda: '0'}[pin]()
        return None

    def taken(self, cell: Mapping, k: int) -> Bit:
        """What a bit of a register takes at a clock."""
        forced = self.forced(cell, k)
        return cell['connections']['D'][k] if forced is None else forced

    def hold_state(self) -> None:
        """While the reset is active, the registers that it resets asynchronously hold its number.
        Else the register of the phases begins with its first one, and the bits of an aligned
        counter that address no word are 0."""
        if self.reset is Reset.ACTIVE:
            forced = {bit: self.forced(*place) for bit, place in self.flip_flops.items()}
            self.first = {bit: value for bit, value in forced.items() if value in ('0', '1')}
            return
        if self.chart.phases:
            bits = self.named(self.chart.phases.path, 'register')
            self.first = {bit: str(self.chart.phases.numbers[0] >> k & 1)
                          for k, bit in enumerate(bits)}
        self.first |= {bit: '0' for bit in self.below(self.chart.counter)}

    def next_bits(self, bits: Iterable[Bit], what: str) -> Bits:
        """What the registers that these bits are of take at the last clock."""
        taken = []
        for bit in bits:
            if bit not in self.flip_flops:
                raise Refused(Rule.EQUAL, f'the proof finds that {what} is no register')
            taken.append(self.at(self.taken(*self.flip_flops[bit]), self.last))
        return tuple(taken)

    def held(self, register: Register) -> Bits:
        bits = self.named(register.path, 'register')
        if len(bits) != register.full:
            raise Refused(Rule.EQUAL, f'the proof finds {len(bits)} bits of {register.path}')
        return bits[register.low:register.low + register.width]

    def below(self, register: Register) -> Bits:
        """The low bits of an aligned counter, which address no word."""
        if not register.aligned:
            return ()
        return self.named(register.path, 'program counter')[:register.low]

    def register(self, register: Register) -> tuple[Pin, Pin]:
        """The pins of what a register holds and of what it takes."""
        bits = self.held(register)
        taken = self.next_bits(bits, register.path)
        return (self.pin(f'q_{register.name}', True, self.all_at(bits, 0)),
                self.pin(f'd_{register.name}', False, taken))

    def next_of(self, path: str, bits: Bits = ()) -> Pin:
        """The pin of what the register at a path takes, or some bits of it."""
        taken = self.next_bits(bits or self.named(path, 'register'), path)
        return self.pin(f'next_{len(self.pins)}', False, taken)

    # ---- the instruction word

    def words(self) -> list[Read]:
        """The reads of the instruction word, after which its bits are inputs.

        Behind an input or a wire the word at the counter is taken to stand: a read at the counter.
        """
        code = self.chart.code
        if code.source is Source.ARRAY and not code.ahead:
            return list(self.accesses(code.path, 'word').reads)
        path = code.ahead if code.source is Source.ARRAY else code.path
        bits = self.named(path, 'instruction word')
        for k, bit in enumerate(bits):
            if isinstance(bit, int):
                self.word_bits[bit] = self.span * (self.clocks + 1) + k
        counter = self.named(self.chart.counter.path, 'program counter')
        counter = counter[self.chart.counter.low:][:self.chart.counter.width]
        found = []
        for clock in range(self.clocks):
            data = self.pin(f'word_{clock}', True, self.all_at(bits, clock))
            address = self.pin(f'word_at_{clock}', False, self.all_at(counter, clock))
            found.append(Read(clock, address, data))
        return found

    def words_are_written(self) -> bool:
        """Whether the processor writes the array that its words stand in."""
        code = self.chart.code
        return code.source is Source.ARRAY and any(
            self.is_of(cell, code.path, WRITES) and self.may_write(cell)
            for cell in self.cells.values())

    # ---- arrays

    def accesses(self, path: str, name: str) -> Cells:
        """The reads and writes of the array at a path, at each clock."""
        reads = [cell for cell in self.cells.values() if self.is_of(cell, path, READS)]
        writes = sorted((cell for cell in self.cells.values()
                         if self.is_of(cell, path, WRITES) and self.may_write(cell)),
                        key=lambda cell: number_of(cell['parameters']['PORTID']))
        return Cells(tuple(self.read(name, k, cell, clock) for clock in range(self.clocks)
                           for k, cell in enumerate(reads)),
                     tuple(self.write(name, k, cell, clock) for clock in range(self.clocks)
                           for k, cell in enumerate(writes)))

    @staticmethod
    def is_of(cell: Mapping, path: str, kinds: frozenset[str]) -> bool:
        return cell['type'] in kinds and cell['parameters']['MEMID'].lstrip('\\') == path

    def may_write(self, cell: Mapping) -> bool:
        """Whether a write is ever enabled: not those of a reset that is idle."""
        return any(self.at(bit, 0) != '0' for bit in cell['connections']['EN'])

    def read(self, name: str, k: int, cell: Mapping, clock: int) -> Read:
        pins = cell['connections']
        if number_of(cell['parameters']['CLK_ENABLE']):
            raise Refused(Rule.EQUAL, f'the proof finds a clocked read of {name}')
        return Read(clock,
                    self.pin(f'ra_{clock}_{k}_{name}', False, self.all_at(pins['ADDR'], clock)),
                    self.pin(f'rd_{clock}_{k}_{name}', True, self.fresh(pins['DATA'], clock)))

    def write(self, name: str, k: int, cell: Mapping, clock: int) -> Write:
        self.check_clock(cell)
        pins, mask = cell['connections'], cell['parameters']['PRIORITY_MASK'][::-1]
        address, data, enable = (
            self.pin(f'{short}_{clock}_{k}_{name}', False, self.all_at(pins[pin], clock))
            for short, pin in (('wa', 'ADDR'), ('wd', 'DATA'), ('we', 'EN')))
        return Write(clock, number_of(cell['parameters']['PORTID']), address, data, enable,
                     frozenset(other for other, bit in enumerate(mask) if bit == '1'))

    def array(self, array: Array) -> Cells:
        """The accesses of an array of the netlist, also of one behind the ports."""
        if not array.outside:
            return self.accesses(array.path, array.name)
        ports, name = self.chart.ports, array.name
        enables = self.port(ports.write_enable)
        enable = [enables[k * len(enables) // array.width] for k in range(array.width)]
        reads, writes = [], []
        for clock in range(self.clocks):
            given = self.fresh(self.port(ports.read_data), clock)
            reads.append(Read(clock, self.out(f'ra_{clock}_0_{name}', ports.read_address, clock),
                              self.pin(f'rd_{clock}_0_{name}', True, given)))
            writes.append(Write(clock, 0,
                                self.out(f'wa_{clock}_0_{name}', ports.write_address, clock),
                                self.out(f'wd_{clock}_0_{name}', ports.write_data, clock),
                                self.pin(f'we_{clock}_0_{name}', False,
                                         self.all_at(enable, clock)),
                                frozenset()))
        return Cells(tuple(reads), tuple(writes))

    def out(self, name: str, port: str, clock: int) -> Pin:
        return self.pin(name, False, self.all_at(self.port(port), clock))

    def output(self, port: str) -> Pin:
        """An output of the module at the first clock."""
        return self.pin(port, False, self.all_at(self.port(port), 0))

    # ---- gates

    def products(self) -> list[Product]:
        """The products, after which they are inputs: those of two factors that aren't constants."""
        found = []
        for clock in range(self.clocks):
            for cell in self.cells.values():
                if self.is_product(cell):
                    found.append(self.product(cell, clock, len(found)))
        return found

    def is_product(self, cell: Mapping) -> bool:
        return cell['type'] == '$mul' and not any(
            all(isinstance(self.at(bit, 0), str) for bit in cell['connections'][pin])
            for pin in 'AB')

    def product(self, cell: Mapping, clock: int, number: int) -> Product:
        pins = cell['connections']
        width = len(pins['Y'])
        signed = all(number_of(cell['parameters'][f'{pin}_SIGNED']) for pin in 'AB')
        factors = []
        for pin, name in (('A', 'left'), ('B', 'right')):
            bits = self.all_at(pins[pin], clock)[:width]
            bits += (bits[-1] if signed else '0',) * (width - len(bits))
            factors.append(self.pin(f'{name}_{number}', False, bits))
        return Product(*factors, self.pin(f'product_{number}', True, self.fresh(pins['Y'], clock)))

    def finish(self) -> dict:
        """The cut module in Yosys' JSON; all that nothing drives is a free input."""
        storages = FLIP_FLOPS | READS | WRITES | UNDECIDED
        for name, cell in self.cells.items():
            if cell['type'] in storages or self.is_product(cell) or 'port_directions' not in cell:
                continue
            for clock in range(self.clocks):
                self.gates[f'{name}~{clock}'] = self.gate(cell, clock)
        driven = {bit for pin in self.pins.values() if pin.inward for bit in pin.bits}
        used = {bit for pin in self.pins.values() if not pin.inward for bit in pin.bits}
        for gate in self.gates.values():
            for pin, bits in gate['connections'].items():
                (driven if gate['port_directions'][pin] == 'output' else used).update(bits)
        free = sorted(bit for bit in used - driven if isinstance(bit, int))
        if free:
            self.pin('free', True, tuple(free))
        order = sorted(self.pins.values(), key=lambda pin: not pin.inward)
        ports = {pin.name: {'direction': 'input' if pin.inward else 'output',
                            'bits': list(pin.bits)} for pin in order}
        return {'attributes': {}, 'ports': ports, 'cells': self.gates, 'netnames': {}}

    def gate(self, cell: Mapping, clock: int) -> dict:
        """A gate at a clock. What `$shiftx` leaves open is 0, as `$shift` gives it."""
        directions = cell['port_directions']
        return {'hide_name': 1, 'type': '$shift' if cell['type'] == '$shiftx' else cell['type'],
                'parameters': cell['parameters'], 'attributes': {}, 'port_directions': directions,
                'connections': {
                    pin: list((self.fresh if directions[pin] == 'output' else self.all_at)
                              (bits, clock))
                    for pin, bits in cell['connections'].items()}}
