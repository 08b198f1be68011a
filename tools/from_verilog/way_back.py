"""The way back: a compiled program as files for $readmemh, and a bench in which the designer's own
Verilog runs it."""
from __future__ import annotations

import dataclasses
import pathlib
import re
from collections.abc import Iterator, Mapping

from rtn.calls import Program
from rtn.images import Image, read_settings
from rtn.reading import Fault, read_netlist
from rtn.syntax import Code, Memory, Register

from .calls import SYSTEM_VERILOG, called, said
from .harness import Harness
from .mapping import Array, Map, Role
from .mapping import Register as Declared

BENCH = 'record_bench'
LONGEST = 1_000_000     # instructions
RESET_CLOCKS = 4
WORDS, BENCH_FILE = 'words.hex', 'bench.v'


def hexadecimal(values: list[int], width: int, first: int) -> str:
    """A text for $readmemh: the number of the first cell, and a value of each cell in a line."""
    digits = -(-width // 4)
    return ''.join([f'@{first:x}\n', *(f'{value:0{digits}x}\n' for value in values)])


@dataclasses.dataclass(frozen=True)
class Cell:
    """A cell of a variable: the variable's name with the index, and where the cell is."""
    name: str
    array: Array
    number: int


@dataclasses.dataclass(frozen=True)
class Start:
    """What a memory text gives registers and cells."""
    registers: Mapping[str, int]
    cells: Mapping[str, Mapping[int, int]]


def start_of(chart: Map, text: str) -> Start:
    """The settings of a memory text; a Fault where it names what the netlist doesn't have."""
    registers, cells = {}, {array.name: {} for array in chart.arrays}
    widths = {register.name: register.width for register in chart.registers}
    arrays = {array.name: array for array in chart.arrays}
    for name, at, value in read_settings(text):
        if at is None and name in widths:
            is_there, width = True, widths[name]
            registers[name] = value
        else:
            is_there = at is not None and name in arrays and at < arrays[name].cells
            width = arrays[name].width if is_there else 0
            if is_there:
                cells[name][at] = value
        if not is_there or value >> width:
            line = f'{name} {value}' if at is None else f'{name} {at} {value}'
            raise Fault(f'the memory text has {line}, which the netlist has no place for')
    return Start(registers, cells)


class WayBack:
    """An image, with a memory text, in the memories that a map tells of."""

    def __init__(self, chart: Map, image: Image, memory: str):
        self.chart, self.image, self.harness = chart, image, Harness(chart)
        self.start = start_of(chart, memory)
        if image.width != chart.code.width:
            raise Fault(f'the image has words of {image.width} bits, '
                        f'and the processor of {chart.code.width}')
        if len(image.words) > chart.code.words:
            raise Fault(f'the image has {len(image.words)} words, and {chart.code.path} '
                        f'{chart.code.words}')

    # ---- the files

    def files(self) -> dict[str, str]:
        """The texts by the names of their files."""
        code = self.chart.code
        words = [self.image.word(k) for k in range(code.words)]
        first = code.first if self.harness.is_inside else 0
        found = {WORDS: hexadecimal(words, code.width, first)}
        for array in self.chart.arrays:
            cells = self.start.cells[array.name]
            values = [cells.get(k, 0) for k in range(array.cells)]
            found[self.file(array)] = hexadecimal(values, array.width, array.first)
        return found | {BENCH_FILE: '\n'.join(self.bench())}

    @staticmethod
    def file(array: Array) -> str:
        return f'{array.name}.hex'

    # ---- the variables

    def variables(self) -> Iterator[Cell]:
        """The cells of the program's variables. Behind the memory's addresses the bank begins."""
        memory, bank = self.chart.array(Role.MEMORY), self.chart.array(Role.BANK)
        for at, name in self.image.cells().items():
            is_banked = bank is not None and at >> memory.address
            yield Cell(name, bank if is_banked else memory,
                       at - (1 << memory.address) if is_banked else at)

    # ---- the bench

    def bench(self) -> Iterator[str]:
        harness = self.harness
        yield from [f'// Runs {WORDS} on {self.chart.top}: vvp, in this folder.',
                    '`timescale 1ns / 1ns', f'module {BENCH};']
        yield from [*harness.declarations(), harness.instance(), *harness.ticks()]
        yield from ['  integer instructions, most;', '  initial begin']
        yield from (f'    {line}' for line in self.begin())
        yield from (f'    {line}' for line in self.clocks())
        yield from ['    $finish;', '  end', 'endmodule', '']

    def begin(self) -> Iterator[str]:
        """The reset with the words in place, and behind it the cells and registers."""
        harness, chart = self.harness, self.chart
        yield f'clock = {harness.idle_clock()};'
        yield f'reset = {harness.level(is_active=True)};'
        yield '#1;   // behind what the processor\'s own `initial` blocks do'
        yield f'$readmemh("{WORDS}", {harness.words});'
        if chart.reset:
            yield f'repeat ({RESET_CLOCKS}) tick;'
            yield f'reset = {harness.level(is_active=False)};'
        else:
            yield from self.put_start()
        yield '#1;'
        for array in chart.arrays:
            yield f'$readmemh("{self.file(array)}", {harness.array(array)});'
        for register in chart.registers:
            if register.name in self.start.registers:
                yield self.set(register, self.start.registers[register.name])
        yield '#1;'

    def put_start(self) -> Iterator[str]:
        """Where there is no reset, what it would give."""
        for register in self.chart.registers:
            if register.role in (Role.COUNTER, Role.MODE):
                yield self.set(register, 0)
        if phases := self.chart.phases:
            first = f"{phases.width}'d{phases.numbers[0]}"
            yield self.harness.put(phases.path, first, phases.width)

    def set(self, register: Declared, value: int) -> str:
        return self.harness.set_register(register, f"{register.width}'d{value}")

    def clocks(self) -> Iterator[str]:
        """Runs to the end mark, where the program counter stands when a word is to be fetched."""
        counter, end = self.harness.counter, self.image.end
        clocks = len(self.chart.phases.numbers) if self.chart.phases else 1
        going = 'instructions < most' if end is None else \
            f'instructions < most && {counter} !== {end}'
        yield f'if (!$value$plusargs("instructions=%d", most)) most = {LONGEST};'
        yield f'for (instructions = 0; {going}; instructions = instructions + 1)'
        yield f'  repeat ({clocks}) tick;'
        if end is not None:
            yield f'if ({counter} !== {end}) $display("not at the end mark {end}");'
        yield '$display("instructions %0d", instructions);'
        for cell in self.variables():
            where = self.harness.cell(cell.array, str(cell.number))
            yield f'$display("{cell.name} = %0d", {where});'


# ---- a run


@dataclasses.dataclass(frozen=True)
class Ran:
    """How a bench ended: after how many instructions, at the end mark or not, with what lines."""
    instructions: int
    is_ended: bool
    variables: Mapping[str, int]


def run(folder: pathlib.Path, files: list[str]) -> Ran:
    """Runs a bench that was written on the designer's files."""
    if missing := [file for file in files if not pathlib.Path(file).is_file()]:
        raise Fault(f'there is no file {missing[0]}')
    simulation = folder.resolve() / 'bench.vvp'
    made = called('iverilog', *SYSTEM_VERILOG, '-s', BENCH, '-o', simulation, *files,
                  folder / BENCH_FILE)
    if made.returncode:
        raise Fault(f'iverilog: {said(made)}')
    answer = called('vvp', '-n', simulation, folder=folder)
    count = re.search(r'^instructions (\d+)$', answer.stdout, re.M)
    if not count:
        raise Fault(f'vvp: {said(answer)}')
    values = re.findall(r'^(\w+(?:\[\d+\])?) = (\d+|x|X)$', answer.stdout, re.M)
    unknown = next((name for name, value in values if not value.isdecimal()), None)
    if unknown:
        raise Fault(f'{unknown} has no value (x) at the end: is what the bench has loaded read?')
    return Ran(int(count[1]), 'not at the end mark' not in answer.stdout,
               {name: int(value) for name, value in values})


def expected(program: Program, net: str, image: str, memory: str, way: WayBack,
             instructions: int) -> dict[str, int]:
    """What `record run` leaves in the variables after so many clocks."""
    state = program.done('run', net, image, memory, instructions)
    cells = {array.name: {} for array in way.chart.arrays}
    for name, at, value in re.findall(r'^(\w+) (\d+) (\d+)$', state, re.M):
        cells.setdefault(name, {})[int(at)] = int(value)
    return {cell.name: cells[cell.array.name].get(cell.number, 0) for cell in way.variables()}


# ---- the texts


def map_in(path: str) -> Map:
    """The map in a file."""
    text = pathlib.Path(path).read_text()
    try:
        return Map.of_json(text)
    except (ValueError, KeyError, TypeError, AttributeError):
        raise Fault(f'{path} is no map that from-verilog wrote') from None


def check_net(chart: Map, net: str) -> None:
    """A Fault where a netlist text isn't the one that a map was written beside."""
    items = read_netlist(net)
    said = {(item.name, item.width) for item in items if isinstance(item, (Code, Register))}
    said |= {(item.name, item.width, item.size) for item in items if isinstance(item, Memory)}
    known = {(chart.code.name, chart.code.width)}
    known |= {(register.name, register.width) for register in chart.registers}
    known |= {(array.name, array.width, array.cells) for array in chart.arrays}
    if said != known:
        name = min(said ^ known, key=str)[0]
        raise Fault(f'the map is of another netlist: they differ in {name}')


def image_of(program: Program, command: str, net: str, source: str, part: str) -> str:
    """The image of a file, which is one or a program to be compiled."""
    text = pathlib.Path(source).read_text()
    if text.startswith('image '):
        return text
    answer = program(command, net, source, *([part] if part else []))
    if answer.status:
        raise Fault(answer.fault)
    return answer.text


def written(way: WayBack, folder: pathlib.Path) -> list[str]:
    """Writes the files; gives their names."""
    folder.mkdir(parents=True, exist_ok=True)
    for name, text in way.files().items():
        (folder / name).write_text(text)
    return list(way.files())


def check_fit(program: Program, chart: Map, net: str, image: str, memory: str) -> None:
    """A Fault with what the program says where the texts don't fit the netlist. A netlist with a
    bank is clocked by no command."""
    if not chart.array(Role.BANK):
        program.done('run', net, image, memory, 0)

