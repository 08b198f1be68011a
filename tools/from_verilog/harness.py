"""A processor's own Verilog in a bench: its pins, its word, and its storages by their paths."""
from __future__ import annotations

import re
from collections.abc import Iterator

from .mapping import Array, Map, Register, Source

DESIGN = 'designer'     # the instance of the processor in a bench
DEPOSITED = 32          # bits
PLAIN = re.compile(r'[A-Za-z_][\w$]*(\[[\d:]+\])*')


def span(width: int) -> str:
    return f'[{width - 1}:0] ' if width > 1 else ''


class Harness:
    """The processor as the instance `designer`, with the bench's registers `clock` and `reset` on
    its pins.

    Where its words don't stand in an array of its own, they stand in the bench's array `words`,
    and so do the cells of a memory outside in one of the bench.
    """

    def __init__(self, chart: Map):
        self.chart = chart
        self.is_inside = chart.code.source is Source.ARRAY

    # ---- names

    @staticmethod
    def path(path: str) -> str:
        """A declared path from the bench; a name that isn't plain is escaped."""
        parts = (part if PLAIN.fullmatch(part) else f'\\{part} ' for part in path.split('.'))
        return '.'.join([DESIGN, *parts])

    def array(self, array: Array) -> str:
        return f'cells_{array.name}' if array.outside else self.path(array.path)

    def cell(self, array: Array, number: str) -> str:
        """The cell with a number, from 0 on."""
        return f'{self.array(array)}[{number}{f" + {array.first}" if array.first else ""}]'

    @property
    def words(self) -> str:
        """The array of the words."""
        return self.path(self.chart.code.path) if self.is_inside else 'words'

    def value(self, register: Register) -> str:
        """What a register of the netlist holds."""
        path = self.path(register.path)
        if register.width == register.full:
            return path
        high = register.low + register.width - 1
        return f'{path}[{high}:{register.low}]' if register.width > 1 else f'{path}[{high}]'

    @property
    def counter(self) -> str:
        return self.value(self.chart.counter)

    def word_there(self) -> str:
        """The word at the program counter."""
        first = self.chart.code.first if self.is_inside else 0
        return f'{self.words}[{self.counter}{f" + {first}" if first else ""}]'

    # ---- the text

    def declarations(self) -> Iterator[str]:
        """What is declared in the bench for the instance."""
        code, chart = self.chart.code, self.chart
        yield '  reg clock, reset;'
        if not self.is_inside:
            yield f'  reg {span(code.width)}words [0:{code.words - 1}];'
            yield f'  wire {span(code.width)}word = {self.word_there()};'
        for array in chart.arrays:
            if array.outside:
                yield from self.outside(array)

    def outside(self, array: Array) -> Iterator[str]:
        """A memory of the bench behind the ports of the processor."""
        ports, name = self.chart.ports, array.name
        yield f'  reg {span(array.width)}cells_{name} [0:{array.cells - 1}];'
        yield f'  wire {span(array.address)}read_{name};'
        yield f'  wire {span(array.address)}write_{name}' \
              f'{f" = read_{name}" if ports.write_address == ports.read_address else ""};'
        yield f'  wire {span(array.width)}data_{name};'
        yield f'  wire {span(ports.enables)}enable_{name};'
        edge = 'posedge' if self.chart.rising else 'negedge'
        count = array.width // ports.enables
        bits = (f'enable_{name}[{k}]' if ports.enables > 1 else f'enable_{name}'
                for k in reversed(range(ports.enables)))
        mask = '{' + ', '.join(f'{{{count}{{{bit}}}}}' for bit in bits) + '}'
        cell = f'cells_{name}[write_{name}]'
        yield f'  always @({edge} clock) if (enable_{name} != 0)'
        yield f'    {cell} <= (data_{name} & {mask}) | ({cell} & ~{mask});'

    def pins(self) -> Iterator[str]:
        chart, code = self.chart, self.chart.code
        yield f'.{chart.clock}(clock)'
        if chart.reset:
            yield f'.{chart.reset}(reset)'
        for tied in chart.tied:
            if tied.name != chart.reset:
                yield f".{tied.name}({tied.width}'d{tied.value})"
        if code.source is Source.INPUT:
            yield f'.{code.path}(word)'
        for array in chart.arrays:
            if array.outside:
                ports, name = chart.ports, array.name
                yield f'.{ports.read_data}(cells_{name}[read_{name}])'
                links = {ports.write_address: f'write_{name}', ports.read_address: f'read_{name}',
                         ports.write_data: f'data_{name}', ports.write_enable: f'enable_{name}'}
                yield from (f'.{port}({wire})' for port, wire in links.items())

    def instance(self) -> str:
        return f'  {self.chart.top} {DESIGN} ({", ".join(self.pins())});'

    def level(self, is_active: bool) -> str:
        """The reset's pin while it is active, and once it is over."""
        return f"1'd{self.chart.active if is_active else 1 - self.chart.active}"

    def ticks(self) -> Iterator[str]:
        """The task `tick`: one clock. A word behind a wire is put there before it."""
        low, high = ("1'd0", "1'd1") if self.chart.rising else ("1'd1", "1'd0")
        yield from ['  task tick;', '    begin']
        if self.chart.code.source is Source.WIRE:
            yield f'      force {self.path(self.chart.code.path)} = word;'
        yield from [f'      #5 clock = {high};', f'      #5 clock = {low};', '      #1;',
                    '    end', '  endtask']

    def idle_clock(self) -> str:
        return "1'd0" if self.chart.rising else "1'd1"

    def put(self, path: str, value: str, width: int) -> str:
        """Puts a value into the whole register at a path. $deposit asks for no cast to an enum,
        but takes no element of an array, and Icarus 11 gives it 32 bits at most."""
        if path.endswith(']') or width > DEPOSITED:
            return f'{self.path(path)} = {value};'
        return f'$deposit({self.path(path)}, {value});'

    def set_register(self, register: Register, value: str) -> str:
        """Puts a value into a register, or into the bits of it that the netlist has."""
        if register.width == register.full:
            return self.put(register.path, value, register.full)
        return f'{self.value(register)} = {value};'
