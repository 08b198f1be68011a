"""Writes a test bench in Verilog-2001 that clocks a netlist on an image."""
from __future__ import annotations

from collections.abc import Iterator

from rtn.clock import Netlist
from rtn.endings import end_of
from rtn.images import Image, read_image, read_settings
from rtn.reading import Fault
from rtn.syntax import Array, Register
from rtn.verilog import Names, Processor, processor_of, span

LONGEST = 1_000_000


class Bench:
    """The test bench of a processor with an image and a memory text, and where the code ends."""

    def __init__(self, processor: Processor, image: Image, memory: str, end: int | None):
        self.processor, self.image, self.memory, self.end = processor, image, memory, end
        self.registers = {item.name: item.width for item in processor.of_kind(Register)}

    def lines(self) -> Iterator[str]:
        """The lines of the module `bench`, and of `variables` behind it where there are any."""
        yield from ['module bench;', *self.declarations(), *self.core(), *self.clocks()]
        yield from ['endmodule', '']
        if self.image.places:
            yield from self.variables()

    def declarations(self) -> Iterator[str]:
        code, counter, count = self.processor.code, self.processor.counter, len(self.image.words)
        yield '  reg clk, reset;'
        yield f'  reg {span(code.width)}words [0:{max(count, 1) - 1}];'
        yield from ['  integer k, cycle, cycles;', '  reg [8191:0] file;']
        yield f'  wire {span(counter.width)}counter;'
        yield (f"  wire {span(code.width)}word = counter < {counter.width + 32}'d{count}"
               f" ? words[counter] : {code.width}'d0;")
        marks = ' || '.join(f'counter == {mark}' for mark in self.image.marks)
        yield f'  wire at_mark = {marks or 0};'

    def core(self) -> Iterator[str]:
        """The processor with its pins, and the variables."""
        processor, clashes = self.processor, len(self.processor.clashes)
        counter = processor.counter.text
        pins = ['.clk(clk)', '.reset(reset)', f'.{processor.scope.own(processor.code.name)}(word)',
                f'.{counter}(counter)']
        if clashes:
            yield f'  wire {span(clashes)}clash;'
            pins.append('.clash(clash)')
        yield f'  {processor.name} core ({", ".join(pins)});'
        if self.image.places:
            yield '  variables variables();'

    def clocks(self) -> Iterator[str]:
        """The start, the clocks, and the state at the end."""
        width, end = self.processor.code.width, self.end
        yield from ['  initial begin : clocks', "    clk = 1'd0;", "    reset = 1'd0;"]
        for at, word in enumerate(self.image.words):
            yield f"    words[{at}] = {width}'h{word.digits[-(-(-width // 4)):]};"
        yield from [*self.start(), *self.waves()]
        bound = LONGEST if end is None else -1
        yield f'    if (!$value$plusargs("cycles=%d", cycles)) cycles = {bound};'
        going = 'cycle < cycles'
        if end is not None:
            going = f'cycles < 0 ? cycle < {LONGEST} && counter != {end} : {going}'
        yield from ['    #1;', f'    for (cycle = 0; {going}; cycle = cycle + 1) begin']
        yield from self.stops()
        yield from ["      #4 clk = 1'd1;", "      #5 clk = 1'd0;", '      #1;', '    end']
        yield from [*self.state(), '    $finish;', '  end']

    def start(self) -> Iterator[str]:
        """The state that the netlist starts in: 0, and then what the memory text says."""
        arrays, scope = self.processor.scope.arrays, self.processor.scope
        for cells in arrays.values():
            yield (f'    for (k = 0; k < {cells.item.size}; k = k + 1)'
                   f" core.{cells.own}[k] = {cells.item.width}'d0;")
        for name, width in self.registers.items():
            yield f"    core.{scope.own(name)} = {width}'d0;"
        for name, at, value in read_settings(self.memory):
            if at is not None and name in arrays:
                cells = arrays[name]
                yield f"    core.{cells.own}[{at}] = {cells.item.width}'d{value};"
            elif at is None and name in self.registers:
                yield f"    core.{scope.own(name)} = {self.registers[name]}'d{value};"
            else:
                line = f'{name} {value}' if at is None else f'{name} {at} {value}'
                raise Fault(f'no line of a memory text: {line}')

    def waves(self) -> Iterator[str]:
        seen = 'clk, cycle, at_mark, core' + (', variables' if self.image.places else '')
        yield '    if ($value$plusargs("vcd=%s", file)) begin'
        yield from ['      $dumpfile(file);', f'      $dumpvars(0, {seen});', '    end']

    def stops(self) -> Iterator[str]:
        """Stops at the first bus that clashes."""
        clashes = self.processor.clashes
        for k, (name, _) in enumerate(clashes):
            yield f'      if (clash{f"[{k}]" if len(clashes) > 1 else ""}) begin'
            yield f'        $display("error clash %0d {name}", cycle);'
            yield from ['        $finish;', '        disable clocks;', '      end']

    def state(self) -> Iterator[str]:
        """Writes the state in the form of `record run`."""
        processor = self.processor
        yield '    $display("cycles %0d", cycle);'
        for name in self.registers:
            yield f'    $display("{name} %0d", core.{processor.scope.own(name)});'
        for kind in (Array.FILE, Array.MEMORY, Array.BANK):
            for cells in processor.arrays(kind):
                own = f'core.{cells.own}[k]'
                yield f'    for (k = 0; k < {cells.item.size}; k = k + 1)'
                yield f'      if ({own} != 0) $display("{cells.item.name} %0d %0d", k, {own});'
        yield '    $display("done");'

    def variables(self) -> Iterator[str]:
        """The cells of the variables by their names, for the waves."""
        cells = [(f'bench.core.{array.own}[{k}]', array.item.width)
                 for array in self.processor.memory_first for k in range(array.item.size)]
        names = Names('bench')
        yield 'module variables;'
        for place in self.image.places:
            there = cells[place.address:place.address + place.length]
            for k, (cell, width) in enumerate(there):
                name = names.new(f'{place.name}_{k}' if place.length > 1 else place.name)
                yield f'  wire {span(width)}{name} = {cell};'
        yield from ['endmodule', '']


def verilog_text(netlist: str, title: str, image: str | None = None, memory: str = '') -> str:
    """The Verilog of a netlist text, with a test bench where there is an image text."""
    processor = processor_of(netlist, title)
    lines = list(processor.lines())
    if image is not None:
        lines = ['`timescale 1ns / 1ns', *lines]
        code = read_image(image)
        lines += Bench(processor, code, memory, end_of(Netlist(netlist), code)).lines()
    return '\n'.join(lines)
