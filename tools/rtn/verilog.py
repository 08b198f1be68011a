"""Writes netlists as Verilog-2001."""
from __future__ import annotations

import dataclasses
import re
from collections.abc import Iterable, Iterator

from rtn.operators import OPERATORS
from rtn.reading import Fault, read_netlist
from rtn.syntax import (Array, Bus, Case, Code, Constant, Expression, Extension, Item, Memory,
                        Module, Name, Net, Operation, Output, Part, Port, Read, Register, Slice)

KEYWORDS = frozenset('''
    always and assign automatic begin buf bufif0 bufif1 case casex casez cell cmos config deassign
    default defparam design disable edge else end endcase endconfig endfunction endgenerate
    endmodule endprimitive endspecify endtable endtask event for force forever fork function
    generate genvar highz0 highz1 if ifnone incdir include initial inout input instance integer join
    large liblist library localparam macromodule medium module nand negedge nmos nor noshowcancelled
    not notif0 notif1 or output parameter pmos posedge primitive pull0 pull1 pulldown pullup
    pulsestyle_ondetect pulsestyle_onevent rcmos real realtime reg release repeat rnmos rpmos rtran
    rtranif0 rtranif1 scalared showcancelled signed small specify specparam strong0 strong1 supply0
    supply1 table task time tran tranif0 tranif1 tri tri0 tri1 triand trior trireg unsigned use
    vectored wait wand weak0 weak1 while wire wor xnor xor'''.split())


class Names:
    """The names of one scope, each taken once."""

    def __init__(self, *taken: str):
        self.taken = {*KEYWORDS, *taken}

    def new(self, wanted: str) -> str:
        """The wanted name, with a number behind it where that is taken."""
        name, number = wanted, 1
        while name in self.taken:
            number += 1
            name = f'{wanted}_{number}'
        self.taken.add(name)
        return name


def span(width: int) -> str:
    """The range of a declaration, with a space behind it; nothing for one bit."""
    return f'[{width - 1}:0] ' if width > 1 else ''


def bare(text: str) -> str:
    """A text without the parentheses that are round the whole of it."""
    depth = 0
    for place, sign in enumerate(text):
        depth += {'(': 1, ')': -1}.get(sign, 0)
        if depth == 0:
            is_whole = place and place == len(text) - 1 and text[0] == '('
            return text[1:-1] if is_whole else text
    return text


def joined(texts: Iterable[str], between: str = ', ') -> str:
    """One text as it is, and several as a concatenation."""
    texts = list(texts)
    return '{' + between.join(texts) + '}' if len(texts) > 1 else texts[0]


def bit(name: str, place: int, width: int) -> str:
    """A bit of a name of this width; of one bit it is the name."""
    return f'{name}[{place}]' if width > 1 else name


@dataclasses.dataclass(frozen=True)
class Sized:
    """A text of Verilog with its width."""

    text: str
    width: int


@dataclasses.dataclass(frozen=True)
class Cells:
    """An array of registers: its name, and the item that it is."""

    own: str
    item: Memory


class Scope:
    """The body of a module in the making: what names stand for, its wires, what these are assigned.

    The texts of expressions stand in parentheses where they are operators. Two operands have one
    width, so that none is extended where it stands.
    """

    def __init__(self, names: Names):
        self.names = names
        self.known: dict[Name | Output, Sized] = {}
        self.arrays: dict[str, Cells] = {}
        self.wires: list[str] = []
        self.assigns: list[str] = []

    def own(self, name: str) -> str:
        """What an item is called here."""
        return self.known[Name(name)].text

    def wire(self, wanted: str, width: int) -> str:
        name = self.names.new(wanted)
        self.wires.append(f'  wire {span(width)}{name};')
        return name

    def assign(self, name: str, text: str) -> None:
        self.assigns.append(f'  assign {name} = {text};')

    def give(self, name: str, expression: Expression) -> None:
        """Assigns an expression to a wire that is there."""
        if isinstance(expression, Case):
            text, _ = self.choice(expression, name)
            self.assign(name, bare(text.text))
        else:
            self.assign(name, self.value(expression, name))

    def value(self, expression: Expression, wanted: str) -> str:
        """An expression as the whole right side of an assignment."""
        return bare(self.text(expression, wanted).text)

    def named(self, expression: Expression, wanted: str) -> Sized:
        """An expression as a name: its own name, or that of a new wire."""
        found = self.text(expression, wanted)
        if re.fullmatch(r'\w+', found.text):
            return found
        name = self.wire(wanted, found.width)
        self.assign(name, bare(found.text))
        return Sized(name, found.width)

    def text(self, expression: Expression, wanted: str) -> Sized:
        """An expression in Verilog; `wanted` is how wires in it are called."""
        match expression:
            case Name() | Output():
                if expression not in self.known:
                    raise Fault(f'{expression} stands for nothing')
                return self.known[expression]
            case Constant(value, width):
                return Sized(f"{width}'d{value}", width)
            case Case():
                return self.case(expression, wanted)
            case Read(memory, address):
                return self.read(memory, address, wanted)
            case Slice():
                return self.slice(expression, wanted)
            case Extension():
                return self.extension(expression, wanted)
            case Operation(word, operands):
                found = [self.text(operand, wanted) for operand in operands]
                width = OPERATORS[word].width([operand.width for operand in found])
                return Sized(self.operation(word, [operand.text for operand in found]), width)

    @staticmethod
    def operation(word: str, texts: list[str]) -> str:
        sign = OPERATORS[word].sign
        match word, texts:
            case 'cat', _:
                return '{' + ', '.join(map(bare, texts)) + '}'
            case 'sar', [of, amount]:
                return f'{{$signed({bare(of)}) {sign} {amount}}}'
            case 'lts', [one, other]:
                return f'($signed({bare(one)}) {sign} $signed({bare(other)}))'
            case _, [one]:
                return f'({sign}{one})'
            case _, [one, other]:
                return f'({one} {sign} {other})'

    def slice(self, part: Slice, wanted: str) -> Sized:
        of, width = self.named(part.of, f'{wanted}_of'), part.high - part.low + 1
        if width == of.width:
            return of
        where = f'{part.high}' if width == 1 else f'{part.high}:{part.low}'
        return Sized(f'{of.text}[{where}]', width)

    def extension(self, extension: Extension, wanted: str) -> Sized:
        if extension.is_signed:
            of = self.named(extension.of, f'{wanted}_of')
            added, sign = extension.width - of.width, bit(of.text, of.width - 1, of.width)
            return Sized(f'{{{{{added}{{{sign}}}}}, {of.text}}}', extension.width)
        of = self.text(extension.of, wanted)
        return Sized(f"{{{extension.width - of.width}'d0, {bare(of.text)}}}", extension.width)

    def read(self, memory: str, address: Expression, wanted: str) -> Sized:
        """A cell; 0 past the last one."""
        if memory not in self.arrays:
            raise Fault(f'no memory is called {memory}')
        array, item = self.arrays[memory].own, self.arrays[memory].item
        at = self.named(address, f'{wanted}_at')
        name = self.wire(f'{wanted}_read', item.width)
        text = f'{array}[{at.text}]'
        if item.size != 1 << at.width:
            text = f"{at.text} < {at.width + 1}'d{item.size} ? {text} : {item.width}'d0"
        self.assign(name, text)
        return Sized(name, item.width)

    def case(self, case: Case, wanted: str) -> Sized:
        """A case inside an expression: what it is a choice of gets a wire."""
        found, is_choice = self.choice(case, wanted)
        if not is_choice:
            return found
        name = self.wire(f'{wanted}_case', found.width)
        self.assign(name, found.text)
        return Sized(name, found.width)

    def choice(self, case: Case, wanted: str) -> tuple[Sized, bool]:
        """A case as a text, and whether it is a choice.

        One row is none, and a test that gives 1 is the test alone. The last row is the rest.
        """
        found = [self.text(row.value, wanted) for row in case.rows]
        if len(found) == 1:
            return found[0], False
        of = self.named(case.selector, f'{wanted}_select')
        tests = [' || '.join(equal(of, number) for number in row.numbers) for row in case.rows[:-1]]
        texts = [row.text for row in found]
        if texts == ["1'd1", "1'd0"]:
            return Sized(f'({tests[0]})', 1), False
        arms = [f'{test} ? {bare(text)}' for test, text in zip(tests, texts)]
        return Sized('\n    : '.join([*arms, bare(texts[-1])]), found[0].width), True


def equal(of: Sized, number: int) -> str:
    """The test whether a name has a value."""
    if of.width > 1:
        return f"{of.text} == {of.width}'d{number}"
    return of.text if number else f'!{of.text}'


class Processor:
    """The Verilog of a netlist's items."""

    def __init__(self, items: list[Item], name: str):
        self.items = items
        self.file_names = Names('bench', 'variables')
        self.name = self.file_names.new(name)
        self.scope = Scope(Names('clk', 'reset', 'clash'))
        self.modules = {item.name: item for item in self.of_kind(Module)}
        self.module_names: dict[str, str] = {}
        self.clashes: list[tuple[str, str]] = []   # each bus with the wire of its clash
        if len(self.of_kind(Code)) != 1 or len(self.of_array(Array.MEMORY)) != 1:
            raise Fault('not one code and one memory')
        self.code: Code = self.of_kind(Code)[0]
        self.declare()

    def of_kind(self, *kinds: type) -> list:
        return [item for item in self.items if isinstance(item, kinds)]

    def of_array(self, *arrays: Array) -> list[Memory]:
        return [item for item in self.of_kind(Memory) if item.array in arrays]

    def arrays(self, *arrays: Array) -> list[Cells]:
        return [self.scope.arrays[item.name] for item in self.of_array(*arrays)]

    @property
    def memory_first(self) -> list[Cells]:
        """The memory, and behind it the register file or the bank."""
        return self.arrays(Array.MEMORY) + self.arrays(Array.FILE, Array.BANK)

    @property
    def memory_last(self) -> list[Cells]:
        return self.arrays(Array.FILE, Array.BANK) + self.arrays(Array.MEMORY)

    @property
    def counter(self) -> Sized:
        """The program counter."""
        if Name(self.code.counter) not in self.scope.known:
            raise Fault(f'no register is called {self.code.counter}')
        return self.scope.known[Name(self.code.counter)]

    # declarations

    def declare(self) -> None:
        """Gives each item its name, before any is used."""
        scope = self.scope
        for item in self.of_kind(Code, Register, Memory):
            own = scope.names.new(item.name)
            if isinstance(item, Memory):
                scope.arrays[item.name] = Cells(own, item)
            else:
                scope.known[Name(item.name)] = Sized(own, item.width)
        for item in self.of_kind(Net, Bus):
            scope.known[Name(item.name)] = Sized(scope.wire(item.name, item.width), item.width)
        for item in self.of_kind(Module):
            self.module_names[item.name] = self.file_names.new(item.name)
        for part in self.of_kind(Part):
            for port in self.ports(part):
                if not port.is_input:
                    wire = scope.wire(f'{part.name}_{port.name}', port.width)
                    scope.known[Output(part.name, port.name)] = Sized(wire, port.width)

    def ports(self, part: Part) -> tuple[Port, ...]:
        if part.module not in self.modules:
            raise Fault(f'no module is called {part.module}')
        return self.modules[part.module].ports

    # modules and parts

    def module(self, module: Module) -> Iterator[str]:
        scope, heads = Scope(Names()), []
        for port in module.ports:
            own = scope.names.new(port.name)
            scope.known[Name(port.name)] = Sized(own, port.width)
            heads.append(f'  {"input" if port.is_input else "output"} {span(port.width)}{own}')
        for link in module.equations:
            if Name(link.port) not in scope.known:
                raise Fault(f'{module.name} has no output {link.port}')
            scope.give(scope.own(link.port), link.value)
        yield from [f'module {self.module_names[module.name]} (', ',\n'.join(heads), ');']
        yield from [*scope.wires, *scope.assigns, 'endmodule', '']

    def part(self, part: Part) -> str:
        own, names = self.module_names[part.module], Names()
        pins = [f'.{names.new(port.name)}({self.pin(part, port)})' for port in self.ports(part)]
        return f'  {own} {self.scope.names.new(part.name)} ({", ".join(pins)});'

    def pin(self, part: Part, port: Port) -> str:
        """What a port of a part is connected to."""
        if not port.is_input:
            return self.scope.known[Output(part.name, port.name)].text
        links = {link.port: link.value for link in part.links}
        if port.name not in links:
            raise Fault(f'{part.name} leaves its input {port.name} open')
        return self.scope.value(links[port.name], f'{part.name}_{port.name}')

    # buses

    def bus(self, bus: Bus) -> None:
        """The value of the driver that is enabled, 0 where none is, and whether two are."""
        scope, own, count = self.scope, self.scope.own(bus.name), len(bus.drivers)
        enables = [scope.value(driver.when, f'{own}_when_{k}')
                   for k, driver in enumerate(bus.drivers, 1)]
        enabled, clash = scope.wire(f'{own}_enabled', count), scope.wire(f'{own}_clash', 1)
        scope.assign(enabled, joined(reversed(enables), ',\n    '))
        several = f"({enabled} & ({enabled} - {count}'d1)) != {count}'d0"
        scope.assign(clash, several if count > 1 else "1'd0")
        values = [scope.text(driver.value, f'{own}_{k}').text
                  for k, driver in enumerate(bus.drivers, 1)]
        arms = [f'{bit(enabled, k, count)} ? {bare(value)}' for k, value in enumerate(values)]
        scope.assign(own, '\n    : '.join([*arms, f"{bus.width}'d0"]))
        self.clashes.append((bus.name, clash))

    # storages

    def edges(self) -> Iterator[str]:
        """What each storage takes at a clock edge where `reset` is 0."""
        for register in self.of_kind(Register):
            own = self.scope.own(register.name)
            text = f'{own} <= {self.taken(own, register)};'
            if register.when:
                text = f'if ({self.scope.value(register.when, f"{own}_when")}) {text}'
            yield text
        for cells in self.memory_last:
            yield self.write(cells)

    def write(self, cells: Cells) -> str:
        own, item = cells.own, cells.item
        at = self.scope.named(item.address, f'{own}_at')
        tests = [self.scope.text(item.when, f'{own}_when').text] if item.when else []
        if item.size < 1 << at.width:
            tests.append(f"({at.text} < {at.width + 1}'d{item.size})")
        text = f'{own}[{at.text}] <= {self.taken(own, item)};'
        return f'if ({bare(" && ".join(tests))}) {text}' if tests else text

    def taken(self, own: str, storage: Register | Memory) -> str:
        """What a storage takes; a case has a wire of its own."""
        if not isinstance(storage.value, Case):
            return self.scope.value(storage.value, f'{own}_in')
        name = self.scope.wire(f'{own}_in', storage.width)
        self.scope.give(name, storage.value)
        return name

    # the text

    def lines(self) -> Iterator[str]:
        """The lines of the processor's module, and of the netlist's modules behind it."""
        scope = self.scope
        parts = [self.part(part) for part in self.of_kind(Part)]
        for net in self.of_kind(Net):
            scope.give(scope.own(net.name), net.value)
        for bus in self.of_kind(Bus):
            self.bus(bus)
        edges = list(self.edges())
        if self.clashes:
            scope.assign('clash', joined(clash for _, clash in reversed(self.clashes)))
        yield from [f'module {self.name} (', ',\n'.join(self.heads()), ');']
        yield from (f'  reg {span(cells.item.width)}{cells.own} [0:{cells.item.size - 1}];'
                    for cells in self.memory_last)
        yield from [*scope.wires, *parts, *scope.assigns]
        yield '  always @(posedge clk)'
        yield f'    if (reset) {self.counter.text} <= 0;'
        yield from ['    else begin', *(f'      {line}' for line in edges), '    end']
        yield from ['endmodule', '']
        for module in self.of_kind(Module):
            yield from self.module(module)

    def heads(self) -> Iterator[str]:
        """The ports."""
        yield from ['  input clk', '  input reset']
        yield f'  input {span(self.code.width)}{self.scope.own(self.code.name)}'
        for register in self.of_kind(Register):
            yield f'  output reg {span(register.width)}{self.scope.own(register.name)}'
        if self.clashes:
            yield f'  output {span(len(self.clashes))}clash'


def processor_of(text: str, title: str) -> Processor:
    """The Verilog of a netlist text, whose module is called after the title."""
    return Processor(read_netlist(text), re.sub(r'\W|^(?=\d)', '_', title) or 'netlist')
