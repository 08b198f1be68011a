"""The Verilog and the netlist side by side under Icarus, on random words and states.

The designer's files are never seen by Yosys here. For each of some random states, which both are
given by the declared paths of the registers and arrays, both are clocked on one list of random
words. After each instruction the registers are compared, and behind the last one all cells.
"""
from __future__ import annotations

import dataclasses
import pathlib
import re
from collections.abc import Iterator

from rtn.verilog import Processor, processor_of

from .calls import SYSTEM_VERILOG, called, said
from .harness import Harness
from .mapping import Array, Register, Role
from .reading import Reading
from .refusals import Refusal, Refused, Rule

INSTRUCTIONS = 40       # for each state
SHOWN = 5               # differences that are told
NETLIST = 'netlist'     # the instance of the netlist's Verilog
MODULE = 'record_netlist'
BENCH = 'record_bench'


@dataclasses.dataclass(frozen=True)
class Run:
    """What a bench showed: how many instructions were compared, each storage that differs, and
    the arrays whose cells aren't compared, since addresses reach beyond them."""
    compared: int
    differences: tuple[Refusal, ...]
    open_arrays: tuple[str, ...]

    def __str__(self):
        found = f'{len(self.differences)} storages differ' if self.differences else 'none differs'
        left = ''.join(f'; the cells of {name} are not compared, since its addresses reach beyond '
                       'them' for name in self.open_arrays)
        return f'bench: {self.compared} instructions on random states, {found}{left}'


def random(width: int) -> str:
    """A random value of at least so many bits."""
    return '{' + ', '.join(['$random'] * -(-width // 32)) + '}'


class SideBySide:
    """The bench of a reading."""

    def __init__(self, reading: Reading, processor: Processor):
        self.chart, self.states = reading.map, reading.options.random
        self.harness = Harness(self.chart)
        self.processor = processor
        self.is_clashing = bool(processor.clashes)
        self.beyond = tuple(array.name for array in self.chart.arrays
                            if any(line.startswith(f'addresses of {array.path} ')
                                   for line in self.chart.premises))

    # ---- the netlist's side

    def ours(self, register: Register) -> str:
        return f'{NETLIST}.{self.processor.scope.own(register.name)}'

    def our_cells(self, array: Array) -> str:
        return f'{NETLIST}.{self.processor.scope.arrays[array.name].own}'

    def netlist(self) -> Iterator[str]:
        code, width = self.chart.code, len(self.processor.clashes)
        counter = self.ours(self.chart.counter)
        yield f'  reg [{code.width - 1}:0] listed [0:{code.words - 1}];'
        yield f'  wire [{code.width - 1}:0] our_word = listed[{counter}];'
        yield '  reg our_clock;'
        pins = ['.clk(our_clock)', ".reset(1'd0)",
                f'.{self.processor.scope.own(code.name)}(our_word)']
        if self.is_clashing:
            yield f'  wire [{width - 1}:0] clash;'
            pins.append('.clash(clash)')
        yield f'  {self.processor.name} {NETLIST} ({", ".join(pins)});'

    # ---- a state

    def fill(self) -> Iterator[str]:
        """Gives both sides random words and one random state."""
        code, harness = self.chart.code, self.harness
        first = f' + {code.first}' if code.first and harness.is_inside else ''
        yield f'for (k = 0; k < {code.words}; k = k + 1) begin'
        yield f'  listed[k] = {random(code.width)};'
        yield f'  {harness.words}[k{first}] = listed[k];'
        yield 'end'
        for register in self.chart.registers:
            yield from self.set(register)
        if code.ahead:
            yield harness.put(code.ahead, 'our_word', code.width)
        if self.chart.phases:
            phases = self.chart.phases
            yield harness.put(phases.path, f"{phases.width}'d{phases.numbers[0]}", phases.width)
        for array in self.chart.arrays:
            cells = self.our_cells(array)
            yield f'for (k = 0; k < {array.cells}; k = k + 1) begin'
            yield f'  {cells}[k] = {random(array.width)};'
            yield f'  {harness.cell(array, "k")} = {cells}[k];'
            yield 'end'

    def set(self, register: Register) -> Iterator[str]:
        """A register's random value, below the number of words for the counter. Bits of it that
        the netlist doesn't have are random, too, but 0 below an aligned counter."""
        ours, path = self.ours(register), self.harness.path(register.path)
        value = random(register.width)
        if register.role is Role.COUNTER:
            value = f'{{$random}} % {self.chart.code.words}'
        yield f'{ours} = {value};'
        if register.width < register.full:
            yield f'{path} = {random(register.full)};'
        if register.aligned:
            yield f'{path} = 0;'
        yield self.harness.set_register(register, ours)
        yield '#1;'

    # ---- what is compared

    def compare(self) -> Iterator[str]:
        for k, register in enumerate(self.chart.registers):
            designers, ours = self.harness.value(register), self.ours(register)
            yield f'if (!over && {designers} !== {ours}) begin'
            yield from self.differ(k, designers, ours)
            yield 'end'

    def compare_cells(self) -> Iterator[str]:
        for k, array in enumerate(self.chart.arrays, len(self.chart.registers)):
            if array.name in self.beyond:
                continue
            designers, ours = self.harness.cell(array, 'k'), f'{self.our_cells(array)}[k]'
            yield f'for (k = 0; k < {array.cells}; k = k + 1)'
            yield f'  if (!over && {designers} !== {ours}) begin'
            yield from (f'  {line}' for line in self.differ(k, designers, ours))
            yield '  end'

    def differ(self, storage: int, designers: str, ours: str) -> Iterator[str]:
        """What is done about a difference. An x that comes of an address beyond an array's cells,
        of which the netlist says nothing, is none: the state is left."""
        if self.beyond:
            yield f'  if (^({designers}) === 1\'bx) over = 1; else begin'
        yield f'  $display("differ {storage} %0d %0d %h %h", state, done, {designers}, {ours});'
        yield '  found = found + 1; over = 1;'
        if self.beyond:
            yield '  end'

    # ---- the run

    def lines(self) -> Iterator[str]:
        harness = self.harness
        yield from ['`timescale 1ns / 1ns', f'module {BENCH};']
        yield '  integer state, done, found, compared, k; reg over;'
        yield from [*harness.declarations(), *self.netlist(), harness.instance(), *harness.ticks()]
        yield '  initial begin'
        yield f'    clock = {harness.idle_clock()}; our_clock = 0; reset = {harness.level(False)};'
        yield '    found = 0; compared = 0; #1;'
        going = f'state < {self.states} && found < {SHOWN}'
        yield f'    for (state = 0; {going}; state = state + 1) begin'
        yield from (f'      {line}' for line in self.fill())
        yield '      over = 0; #1;'
        yield f'      for (done = 0; done < {INSTRUCTIONS} && !over; done = done + 1) begin'
        yield from (f'        {line}' for line in self.instruction())
        yield '      end'
        yield from (f'      {line}' for line in self.compare_cells())
        yield '    end'
        yield '    $display("compared %0d", compared);'
        yield from ['    $finish;', '  end', 'endmodule', '']

    def instruction(self) -> Iterator[str]:
        """One instruction on both sides. A bus that clashes ends the state: such a word is left
        out, or the program has none."""
        if self.is_clashing:
            yield 'if (clash !== 0) over = 1; else begin'
        clocks = len(self.chart.phases.numbers) if self.chart.phases else 1
        yield f'repeat ({clocks}) tick;'
        yield '#1 our_clock = 1; #1 our_clock = 0; #1;'
        yield from self.compare()
        yield 'if (!over) compared = compared + 1;'
        if self.is_clashing:
            yield 'end'


def bench(reading: Reading, folder: pathlib.Path) -> Run:
    """What Icarus shows; the bench's texts go to the folder."""
    processor = processor_of(reading.text, MODULE)
    text = '\n'.join(processor.lines())
    both = SideBySide(reading, processor)
    try:
        folder.mkdir(parents=True, exist_ok=True)
        (folder / 'netlist.v').write_text(text)
        (folder / 'bench.v').write_text('\n'.join(both.lines()))
    except OSError as error:
        raise Refused(Rule.OPTION, f'{error.filename}: {error.strerror}') from error
    simulation = folder / 'bench.vvp'
    compile_bench(reading, [folder / 'netlist.v', folder / 'bench.v'], simulation)
    answer = called('vvp', '-n', simulation)
    compared = re.search(r'^compared (\d+)$', answer.stdout, re.M)
    if not compared:
        raise Refused(Rule.TOOL, f'vvp: {said(answer)}')
    return Run(int(compared[1]), tuple(differences(reading, answer.stdout)), both.beyond)


def compile_bench(reading: Reading, benches: list[pathlib.Path], simulation: pathlib.Path) -> None:
    """Compiles the designer's files with a bench; Refused with what Icarus says against them."""
    options = reading.options
    words = [f'-I{folder}' for folder in options.includes]
    words += [f'-D{macro}' for macro in options.macros]
    answer = called('iverilog', *SYSTEM_VERILOG, '-s', BENCH, '-o', simulation, *words,
                    *options.files, *benches)
    if answer.returncode:
        raise Refused(Rule.TOOL, f'iverilog: {said(answer)}', None,
                      'the bench compares what Icarus can read')


def differences(reading: Reading, answer: str) -> Iterator[Refusal]:
    """A refusal for each storage that a run's lines tell of, at its first difference."""
    storages = [*reading.map.registers, *reading.map.arrays]
    seen = set()
    for storage, state, done, designers, ours in re.findall(
            r'^differ (\d+) (\d+) (\d+) (\w+) (\w+)$', answer, re.M):
        if storage not in seen:
            seen.add(storage)
            found = storages[int(storage)]
            yield Refusal(Rule.EQUAL, f'{found.role.value} {found.name} differs in the bench',
                          found.place, f'in state {state}, at instruction {done}, the Verilog has '
                          f'{designers} and the netlist {ours}')
