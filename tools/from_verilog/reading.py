"""A processor's Verilog as a netlist text with its map: all steps in order."""
from __future__ import annotations

import dataclasses
import sys

from . import hints, phases, ports, roles
from .conditions import Conditions
from .load import Loaded, load
from .mapping import Array, Code, Map, Register, Role
from .netlist import FlipFlop, Netlist
from .options import Options
from .refusals import Note, Refused, Rule
from .roles import Roles
from .vhdl import as_verilog
from .writing import Writer

DEEP = 100_000      # long chains of gates are followed by calls within calls


@dataclasses.dataclass(frozen=True)
class Reading:
    """What was read: `text` is the netlist, `map` what stands for what, `notes` what to know.

    `options` name the files that were read, which may be copies (`Loaded`). `loaded` is what Yosys
    read; `netlist` what the text was made of (unrolled where there are
    phases).
    """
    options: Options
    loaded: Loaded
    netlist: Netlist
    map: Map
    text: str
    notes: tuple[Note, ...]


class Resets:
    """What the reset gives registers, or the source where there is no reset."""

    def __init__(self, netlist: Netlist, found: Roles):
        self.netlist, self.has_reset = netlist, found.reset is not None
        tied = {bit: str(tied.value >> k & 1) for tied in found.inputs
                for k, bit in enumerate(netlist.ports[tied.name].bits)}
        if found.reset:
            name, level = found.reset
            tied[netlist.ports[name].bits[0]] = str(level)
        self.conditions = Conditions(netlist, tied, found.word.bits)

    def number(self, register: FlipFlop) -> int | None:
        """The number that a register has when a program begins, where it is known."""
        if register.asynchronous:
            return register.asynchronous[2]
        if not self.has_reset:
            initial = register.initial
            return int(initial, 2) if initial and set(initial) <= {'0', '1'} else None
        digits = [self.conditions.of(bit) for bit in register.data]
        if any(digit > 1 for digit in digits):
            return None
        return sum(digit << k for k, digit in enumerate(digits))


def register_map(register: FlipFlop, writer: Writer, resets: Resets) -> Register:
    """What the map says of a register that is written."""
    found, counter = writer.roles, writer.roles.counter
    role = Role.COUNTER if register is counter.register else \
        Role.MODE if register is found.mode else Role.REGISTER
    name, reset = writer.names.given[register], resets.number(register)
    path, place = register.path, register.place
    if role is Role.COUNTER:
        return Register(name, role, path, place, counter.width, register.width, counter.low,
                        counter.aligned, reset)
    return Register(name, role, path, place, register.width, register.width, reset=reset)


def check_start(registers: tuple[Register, ...], writer: Writer):
    """The counter and the mode begin at 0, as all programs do."""
    for register in registers:
        if register.role is Role.REGISTER:
            continue
        what = 'the program counter' if register.role is Role.COUNTER else 'the mode register'
        if register.reset is None:
            writer.note(f'{what} {register.path} is taken to be 0 when a program begins: no reset '
                        'is known that puts it to a number', register.place)
        elif register.reset:
            raise Refused(Rule.RESET, f'{what} {register.path} begins at {register.reset}',
                          register.place, 'programs begin at 0, and in mode 0')


def map_of(writer: Writer, resets: Resets, options: Options, loaded: Loaded) -> Map:
    """The map of a text that is written."""
    found, values = writer.roles, writer.values
    word = found.word
    code = Code(writer.word, word.source, word.path, word.place, word.width, writer.words,
                word.ahead.path if word.ahead else '')
    registers = tuple(register_map(register, writer, resets) for register in writer.written)
    check_start(registers, writer)
    arrays = tuple(Array(writer.names.given[memory], role, memory.path, memory.place,
                         memory.width, memory.cells, values.addresses[memory], memory.first,
                         bool(options.ports and options.ports.name == memory.path))
                   for memory, role in found.arrays.items())
    reset, active = found.reset or ('', 1)
    outside = options.ports
    if outside:
        enable = loaded.module['ports'][outside.write_enable]['bits']
        outside = dataclasses.replace(outside, enables=len(enable))
    return Map(writer.netlist.top, found.clock, found.rising, reset, active, code, registers,
               arrays, found.inputs, writer.phases, outside, tuple(writer.premises()))


def read(options: Options) -> Reading:
    """The processor of some files; Refused with the reason where it can't be said."""
    sys.setrecursionlimit(max(DEEP, sys.getrecursionlimit()))
    options = as_verilog(options)
    loaded = load(options)
    netlist = Netlist.of_module(loaded.top, loaded.module, loaded.registers)
    if options.ports:
        netlist = ports.connected(netlist, options.ports)
    clocked, unrolled = netlist, None
    if options.phases:
        unrolled = phases.unrolled(netlist, *options.phases)
        netlist = unrolled.netlist
    found = roles.found(netlist, loaded, options)
    check_phases(unrolled, found)
    writer = Writer(netlist, found, options, unrolled.phases if unrolled else None)
    text = writer.text()
    reading_map = map_of(writer, Resets(clocked, found), options, loaded)
    writer.notes += hints.hints(netlist, found, writer.next_value(found.counter.register)[0])
    options = dataclasses.replace(options, files=loaded.files, includes=loaded.includes)
    return Reading(options, loaded, netlist, reading_map, text, tuple(writer.notes))


def check_phases(unrolled: phases.Unrolled | None, found: Roles):
    for bit, digit in unrolled.checks if unrolled else ():
        if found.conditions.of(bit) != digit:
            raise Refused(Rule.PHASES, f'{unrolled.phases.path} does not go through these numbers '
                          'under every word', None, 'a number of clocks that varies is not read')
