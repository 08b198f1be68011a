"""Flip-flops, memories with their ports, and gates of a flat design, with their paths and places.

`Netlist.of_module` takes a module of Yosys' JSON (flat, memories not collected) and the names that
the sources declare as registers (`load.Loaded`). A bit is a number, or '0', '1', 'x' or 'z'.
"""
from __future__ import annotations

import dataclasses
from collections.abc import Iterable, Iterator, Mapping

from .refusals import Place, Refused, Rule

Bit = int | str
Bits = tuple[Bit, ...]

FLIP_FLOPS = frozenset({'$dff', '$dffe', '$adff', '$adffe', '$sdff', '$sdffe', '$sdffce', '$aldff',
                        '$aldffe', '$dffsr', '$dffsre'})
LATCHES = frozenset({'$dlatch', '$adlatch', '$dlatchsr', '$sr'})
READS = frozenset({'$memrd', '$memrd_v2'})
WRITES = frozenset({'$memwr', '$memwr_v2'})
BITWISE = frozenset({'$mux', '$pmux', '$and', '$or', '$xor', '$xnor', '$not', '$tribuf'})
SILENT = frozenset({'$assert', '$assume', '$cover', '$check', '$print', '$initstate', '$anyconst',
                    '$scopeinfo', '$meminit', '$meminit_v2', '$live', '$fair'})


def is_constant(bit: Bit) -> bool:
    return isinstance(bit, str)


def number_of(parameter: str) -> int:
    """A parameter of a cell, whose numbers Yosys writes as binary digits."""
    return int(parameter, 2) if parameter and set(parameter) <= {'0', '1'} else 0


@dataclasses.dataclass(eq=False)
class Gate:
    """A cell without a state: `pins` has its operands and its output Y."""
    name: str
    kind: str
    pins: dict[str, Bits]
    signed: frozenset[str]
    place: Place | None

    @property
    def output(self) -> Bits:
        return self.pins['Y']

    def operands(self) -> Iterator[Bits]:
        return (bits for pin, bits in self.pins.items() if pin != 'Y')


@dataclasses.dataclass(eq=False)
class FlipFlop:
    """A register: it takes `data` at the clock's edge where `enable` is `enabling`.

    `path` is the declared one, or '' where nothing declares it; `asynchronous` the input that
    resets it with its active level and the number that it gives, or None.
    """
    path: str
    place: Place | None
    output: Bits
    data: Bits
    clock: Bit
    rising: bool
    enable: Bit = '1'
    enabling: int = 1
    asynchronous: tuple[Bit, int, int] | None = None
    initial: str = ''
    attribute: str = ''

    @property
    def width(self) -> int:
        return len(self.output)


@dataclasses.dataclass(eq=False)
class ReadPort:
    """A read of a memory: `data` is the cell at `address`."""
    address: Bits
    data: Bits
    clocked: bool
    place: Place | None


@dataclasses.dataclass(eq=False)
class WritePort:
    """A write of a memory at the clock: of the bits of `data` whose bits of `enable` are 1.

    `over` has the ports, by their number, that this one overrules where both write a cell.
    """
    address: Bits
    data: Bits
    enable: Bits
    clock: Bit
    rising: bool
    clocked: bool
    over: frozenset[int]
    place: Place | None


@dataclasses.dataclass(eq=False)
class Memory:
    """An array: `cells` of `width` bits, the first of which has the number `first` there."""
    path: str
    place: Place | None
    width: int
    cells: int
    first: int
    reads: list[ReadPort]
    writes: list[WritePort]
    attribute: str = ''


@dataclasses.dataclass
class Port:
    """A port of the top module; one with `both` directions is an inout."""
    name: str
    inward: bool
    bits: Bits
    both: bool = False


@dataclasses.dataclass
class Name:
    """A name of the flat design for some bits."""
    name: str
    bits: Bits
    place: Place | None
    attributes: Mapping[str, str]


@dataclasses.dataclass
class Netlist:
    """A flat design, and who drives which bit.

    `drivers`, `stored` and `read` tell for a bit which gate, flip-flop or read port it comes from,
    and its number there. Drivers of a tri-state bus are gates of kind $tribuf with one output.
    """
    top: str
    ports: dict[str, Port]
    names: dict[str, Name]
    gates: list[Gate]
    flip_flops: list[FlipFlop]
    memories: dict[str, Memory]

    def __post_init__(self):
        self.drivers: dict[Bit, tuple[Gate, int]] = {}
        self.stored: dict[Bit, tuple[FlipFlop, int]] = {}
        self.read: dict[Bit, tuple[Memory, ReadPort, int]] = {}
        self.buses: dict[Bits, list[Gate]] = {}
        for gate in self.gates:
            self.enter_gate(gate)
        for flip_flop in self.flip_flops:
            for k, bit in enumerate(flip_flop.output):
                self.once(bit, flip_flop.place, flip_flop.path)
                self.stored[bit] = flip_flop, k
        for memory in self.memories.values():
            for port in memory.reads:
                for k, bit in enumerate(port.data):
                    self.read[bit] = memory, port, k

    def enter_gate(self, gate: Gate):
        if gate.kind == '$tribuf':
            self.buses.setdefault(gate.output, []).append(gate)
        for k, bit in enumerate(gate.output):
            if gate.kind != '$tribuf':
                self.once(bit, gate.place, '')
            elif bit in self.drivers and self.drivers[bit][0].output != gate.output:
                raise Refused(Rule.DRIVER, f'the drivers of {self.name_of(gate.output)} drive '
                              'different parts of it', gate.place,
                              'let each driver give the whole bus, or 0 in the rest')
            self.drivers[bit] = gate, k

    def once(self, bit: Bit, place: Place | None, path: str):
        if bit in self.drivers or bit in self.stored:
            name = path or self.name_of((bit,))
            raise Refused(Rule.DRIVER, f'{name} has two drivers', place,
                          'assign each register and wire in one block only')

    def inputs(self) -> dict[str, Port]:
        return {name: port for name, port in self.ports.items() if port.inward}

    def name_of(self, bits: Bits) -> str:
        """A name for some bits, or for something that they are part of."""
        exact = [name for name, found in self.names.items() if found.bits == bits]
        within = [name for name, found in self.names.items() if bits[0] in found.bits]
        return min(exact or within or ['a value'], key=lambda name: (name.count('.'), len(name)))

    @classmethod
    def of_module(cls, top: str, module: Mapping, declared: Iterable[str] = ()) -> Netlist:
        """The netlist of a flat module of Yosys' JSON; `declared` are the paths of registers."""
        return _Builder(top, module, frozenset(declared)).netlist()


def _known(bits: Iterable[Bit]) -> Bits:
    """Bits with 0 for x and z."""
    return tuple('0' if bit in ('x', 'z') else bit for bit in bits)


class _Builder:
    """Makes a netlist of a module in JSON."""

    def __init__(self, top: str, module: Mapping, declared: frozenset[str]):
        self.top, self.module, self.declared = top, module, declared
        self.names = {
            name: Name(name, _known(net['bits']), self.place(net), net['attributes'])
            for name, net in module['netnames'].items()
            if not net.get('hide_name') and '$' not in name}

    @staticmethod
    def place(thing: Mapping) -> Place | None:
        return Place.of_source(thing.get('attributes', {}).get('src', ''))

    def netlist(self) -> Netlist:
        cells = self.module['cells']
        ports = {name: Port(name, port['direction'] != 'output', _known(port['bits']),
                            port['direction'] == 'inout')
                 for name, port in self.module['ports'].items()}
        memories = self.memories(cells)
        gates = [self.gate(name, cell) for name, cell in cells.items()
                 if cell['type'] not in FLIP_FLOPS | READS | WRITES | SILENT]
        flip_flops = [self.flip_flop(cell) for cell in cells.values()
                      if cell['type'] in FLIP_FLOPS]
        return Netlist(self.top, ports, self.names, gates, self.joined(flip_flops), memories)

    def gate(self, name: str, cell: Mapping) -> Gate:
        kind, place = cell['type'], self.place(cell)
        pins = {pin: _known(bits) for pin, bits in cell['connections'].items()}
        if kind in LATCHES:
            output = pins.get('Q', ())
            names = [n for n, found in self.names.items() if found.bits == output]
            what = min(names, key=lambda n: n.count('.')) if names else 'a value'
            raise Refused(Rule.LATCH, f'latch: {what} keeps its value where the block gives it '
                          'none', place, 'give it a default at the head of the block')
        if not kind.startswith('$'):
            raise Refused(Rule.SYNTAX, f'the module {kind} of {name} is only declared', place,
                          'name the file with its body')
        if 'Y' not in pins:
            raise Refused(Rule.OPERATOR, f'a cell {kind} has no meaning here', place)
        signed = frozenset(pin for pin in pins
                           if number_of(cell['parameters'].get(f'{pin}_SIGNED', '0')))
        return Gate(name, kind, pins, signed, place)

    def flip_flop(self, cell: Mapping) -> FlipFlop:
        pins = {pin: _known(bits) for pin, bits in cell['connections'].items()}
        parameters = {key: value for key, value in cell['parameters'].items()}
        kind = cell['type']
        if kind in ('$aldff', '$aldffe', '$dffsr', '$dffsre'):
            raise Refused(Rule.RESET, f'{self.called(pins["Q"])} is set or loaded without the '
                          'clock', self.place(cell), 'reset it to a constant')
        asynchronous = None
        if 'ARST' in pins:
            asynchronous = (pins['ARST'][0], number_of(parameters['ARST_POLARITY']),
                            number_of(parameters['ARST_VALUE'].replace('x', '0')))
        return FlipFlop(
            path='', place=self.place(cell), output=tuple(cell['connections']['Q']),
            data=pins['D'], clock=pins['CLK'][0],
            rising=bool(number_of(parameters['CLK_POLARITY'])),
            enable=pins['EN'][0] if 'EN' in pins else '1',
            enabling=number_of(parameters.get('EN_POLARITY', '1')), asynchronous=asynchronous)

    def called(self, bits: Bits) -> str:
        return next((name for name, found in self.names.items() if found.bits == bits), 'a value')

    def memories(self, cells: Mapping) -> dict[str, Memory]:
        found = {}
        for name, memory in self.module.get('memories', {}).items():
            found[name] = Memory(name, self.place(memory), memory['width'], memory['size'],
                                 memory['start_offset'], [], [],
                                 memory['attributes'].get('record', '').strip())
        for cell in cells.values():
            if cell['type'] in READS | WRITES:
                name = cell['parameters']['MEMID'].lstrip('\\')
                self.memory_port(found[name], cell)
        for name, memory in found.items():
            memory.writes.sort(key=lambda write: write[0])
            memory.writes = [write for _, write in memory.writes]
        return found

    def memory_port(self, memory: Memory, cell: Mapping):
        pins = {pin: _known(bits) for pin, bits in cell['connections'].items()}
        parameters, place = cell['parameters'], self.place(cell)
        clocked = bool(number_of(parameters['CLK_ENABLE']))
        if cell['type'] in READS:
            memory.reads.append(ReadPort(pins['ADDR'], pins['DATA'], clocked, place))
            return
        mask = parameters.get('PRIORITY_MASK', '')
        over = frozenset(k for k, digit in enumerate(reversed(mask)) if digit == '1')
        port = WritePort(pins['ADDR'], pins['DATA'], pins['EN'], pins['CLK'][0],
                         bool(number_of(parameters['CLK_POLARITY'])), clocked, over, place)
        memory.writes.append((number_of(parameters.get('PORTID', '0')), port))

    def joined(self, flip_flops: list[FlipFlop]) -> list[FlipFlop]:
        """Flip-flops with their declared paths; the parts of one register as one."""
        of_bit = {bit: flip_flop for flip_flop in flip_flops for bit in flip_flop.output}
        out, taken = [], set()
        for path in sorted(self.declared & self.names.keys()):
            name = self.names[path]
            parts = self.parts_of(name.bits, of_bit)
            if not parts or any(id(part) in taken for part in parts):
                continue
            taken |= {id(part) for part in parts}
            registers = list(self.registers(name, parts))
            if len(registers) == 1 and self.is_struct(name):
                registers = list(self.fields(name, parts, registers[0]))
            out += registers
        out += [part for part in flip_flops if id(part) not in taken]
        return out

    @staticmethod
    def is_struct(name: Name) -> bool:
        """Whether a name is of a packed struct, as far as Yosys tells."""
        enums = any(key.startswith('enum_value') for key in name.attributes)
        return not enums and ('wiretype' in name.attributes or name.place is None)

    def neighbours(self) -> set[tuple[Bit, Bit]]:
        """Bits that stand side by side in an operand which isn't taken bit by bit."""
        rows = [bits for cell in self.module['cells'].values() if cell['type'] not in BITWISE
                and cell['type'] not in FLIP_FLOPS for bits in cell['connections'].values()]
        rows += [entry.bits for entry in self.names.values() if not self.is_struct(entry)]
        return {pair for bits in rows for pair in zip(bits, bits[1:])}

    def fields(self, name: Name, parts: list[FlipFlop],
               register: FlipFlop) -> Iterator[FlipFlop]:
        """The fields of a register that is a packed struct, by what is used together."""
        together = self.neighbours()
        if len(parts) > 1:
            together |= {pair for part in parts for pair in zip(part.output, part.output[1:])}
        low = 0
        for k, bit in enumerate(register.output):
            if register.output[k:k + 2] not in together or k + 1 == register.width:
                path = f'{name.name}[{k}:{low}]' if k > low else f'{name.name}[{k}]'
                reset = register.asynchronous
                yield dataclasses.replace(
                    register, path=path if register.width > k + 1 - low else name.name,
                    output=register.output[low:k + 1], data=register.data[low:k + 1],
                    initial=register.initial[::-1][low:k + 1][::-1],
                    asynchronous=reset and (*reset[:2], reset[2] >> low & (2 << k - low) - 1))
                low = k + 1

    @staticmethod
    def parts_of(bits: Bits, of_bit: Mapping[Bit, FlipFlop]) -> list[FlipFlop]:
        """The flip-flops that hold some of these bits and no others."""
        parts: list[FlipFlop] = []
        for bit in bits:
            part = of_bit.get(bit)
            if part and part not in parts and set(part.output) <= set(bits):
                parts.append(part)
        return parts

    @staticmethod
    def registers(name: Name, parts: list[FlipFlop]) -> Iterator[FlipFlop]:
        """A register of its parts, or each part where they aren't the whole."""
        attribute = name.attributes.get('record', '').strip()
        joined = sum((part.output for part in parts), ())
        alike = {(part.clock, part.rising, part.enable) for part in parts}
        if len(joined) == len(name.bits) and len(alike) == 1:
            data = dict(zip(joined, sum((part.data for part in parts), ())))
            yield dataclasses.replace(
                parts[0], path=name.name, place=name.place, attribute=attribute,
                output=name.bits, data=tuple(data[bit] for bit in name.bits),
                asynchronous=_joined_reset(name.bits, parts),
                initial=name.attributes.get('init', ''))
            return
        for part in parts:
            low, high = name.bits.index(part.output[0]), name.bits.index(part.output[-1])
            yield dataclasses.replace(part, path=f'{name.name}[{high}:{low}]', place=name.place,
                                      attribute=attribute)


def _joined_reset(bits: Bits, parts: list[FlipFlop]) -> tuple[Bit, int, int] | None:
    """The asynchronous reset of a register of parts; None where a part has none."""
    resets = [part.asynchronous for part in parts]
    if any(reset is None for reset in resets) or len({reset[:2] for reset in resets}) > 1:
        return None
    digit = {bit: reset[2] >> k & 1 for part, reset in zip(parts, resets)
             for k, bit in enumerate(part.output)}
    signal, level = resets[0][:2]
    return signal, level, sum(digit[bit] << k for k, bit in enumerate(bits))
