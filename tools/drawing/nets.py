"""The nets of a netlist for a drawing: expressions that are alike are one net."""
from __future__ import annotations

import dataclasses
import enum
from collections.abc import Iterator

from rtn.operators import OPERATORS, WIRING
from rtn.reading import Fault
from rtn.syntax import (Bus, Case, Code, Constant, Expression, Extension, Item, Memory, Module,
                        Name, Operation, Output, Part, Read, Register, Slice)
from rtn import syntax

CONSTANT, PORT, READ, CASE, SLICE = 'const', 'port', 'read', 'case', 'slice'


class Kind(enum.Enum):
    """What a storage is. A net of a word, register or bus has this as its operator."""

    WORD = 'word'
    REGISTER = 'reg'
    MEMORY = 'memory'
    BUS = 'bus'


WORD, REGISTER, BUS = Kind.WORD.value, Kind.REGISTER.value, Kind.BUS.value


@dataclasses.dataclass(eq=False)
class Net:
    """A value: what makes it, from which other values, its width, the part that it is in, and its
    names. The other fields are those of one kind of nets each."""

    op: str
    parts: tuple[Net, ...]
    width: int
    home: str = ''
    storage: Storage | None = None              # of a register, a word, a bus and a read
    number: int = 0                             # of a constant
    bounds: tuple[int, int] = (0, 0)            # of a slice, high and low
    rows: tuple[tuple[int, ...], ...] = ()      # of a case, the numbers of each
    port: str = ''                              # of an input of a part
    names: list[str] = dataclasses.field(default_factory=list)
    uses: int = 0

    def __post_init__(self):
        is_held = self.op in (REGISTER, READ, BUS)
        self.is_static = not is_held and all(part.is_static for part in self.parts)

    @property
    def name(self) -> str:
        return ', '.join(self.names)

    @property
    def is_field(self) -> bool:
        """Whether it is a slice of the instruction word."""
        return self.op == SLICE and self.parts[0].op == WORD

    def inputs(self) -> Iterator[Net]:
        """The nets that its value comes from, those of a bus's drivers too."""
        yield from self.parts
        if self.op == BUS:
            yield from (part for driver in self.storage.drivers for part in driver)


@dataclasses.dataclass(eq=False)
class Storage:
    """A register, a memory with an address, the instruction word with its counter as its address,
    or a bus with its drivers as pairs of a value and an enable."""

    kind: Kind
    name: str
    width: int
    size: int = 0
    value: Net | None = None
    at: Net | None = None
    when: Net | None = None
    drivers: list[tuple[Net, Net]] = dataclasses.field(default_factory=list)

    def inputs(self) -> Iterator[Net]:
        """The nets that it takes its value, its place and its enable from."""
        yield from filter(None, (self.value, self.at, self.when))
        yield from (part for driver in self.drivers for part in driver)


KINDS = {Code: Kind.WORD, Register: Kind.REGISTER, Memory: Kind.MEMORY, Bus: Kind.BUS}


class Graph:
    """The nets of a netlist's items. Expressions that are alike and in one part are one net."""

    def __init__(self, items: list[Item]):
        self.items: dict[str, Item] = {}
        self.made: dict[tuple, Net] = {}
        self.known: dict[tuple | str, Net | None] = {}
        for item in items:
            if item.name in self.items:
                raise Fault(f'two items are called {item.name}')
            self.items[item.name] = item
        self.storages = {item.name: Storage(KINDS[type(item)], item.name, item.width)
                         for item in items if type(item) in KINDS}
        self.words = [storage for storage in self.storages.values() if storage.kind == Kind.WORD]
        for storage in self.storages.values():
            self.connect(storage, self.items[storage.name])
        self.count_uses()

    # storages

    def connect(self, storage: Storage, item: Item) -> None:
        """Finds the nets that a storage takes."""
        match item:
            case Code(size=size, counter=counter):
                found = self.storages.get(counter)
                if found is None or found.kind != Kind.REGISTER:
                    raise Fault(f'no register is called {counter}')
                storage.size = size
                storage.at = self.net(REGISTER, (), found.width, storage=found)
            case Register(value=value, when=when):
                storage.value, storage.when = self.expression(value), self.enable(when)
            case Memory():
                storage.size, storage.value = item.size, self.expression(item.value)
                storage.at, storage.when = self.expression(item.address), self.enable(item.when)
            case Bus(drivers=drivers):
                storage.drivers = [(self.expression(driver.value), self.expression(driver.when))
                                   for driver in drivers]

    def enable(self, when: Expression | None) -> Net | None:
        return self.expression(when) if when else None

    def of_kind(self, name: str, *kinds: Kind) -> Storage | None:
        """The storage of this name where it is of one of these kinds."""
        found = self.storages.get(name)
        return found if found and found.kind in kinds else None

    # nets

    def net(self, op: str, parts: tuple[Net, ...], width: int, home: str = '', **own) -> Net:
        """The net of this kind, which is made where there is none like it."""
        is_anywhere = op in (WORD, REGISTER, BUS, CONSTANT, *WIRING)
        home_of_it = '' if is_anywhere else home
        key = op, width, home_of_it, tuple(own.values()), tuple(map(id, parts))
        if key not in self.made:
            self.made[key] = Net(op, parts, width, home, **own)
        return self.made[key]

    def named(self, name: str) -> Net:
        """What a name outside the modules stands for."""
        storage = self.of_kind(name, Kind.WORD, Kind.REGISTER, Kind.BUS)
        if storage:
            return self.net(storage.kind.value, (), storage.width, storage=storage)
        item = self.items.get(name)
        if not isinstance(item, syntax.Net):
            raise Fault(f'no register, code, net or bus is called {name}')
        return self.once(name, item.value, name)

    def once(self, key: tuple | str, of: Expression, name: str,
             inputs: dict[str, int] | None = None, home: str = '') -> Net:
        """The net of an expression that has a name; the name is its own where it isn't another
        one's."""
        if key not in self.known:
            self.known[key] = None
            net = self.expression(of, inputs, home)
            if not isinstance(of, Name | Output | Constant) and name not in net.names:
                net.names.append(name)
            self.known[key] = net
        if self.known[key] is None:
            raise Fault(f'{name} depends on itself')
        return self.known[key]

    # parts

    def part(self, name: str) -> Part:
        item = self.items.get(name)
        if not isinstance(item, Part):
            raise Fault(f'no part is called {name}')
        return item

    def module(self, part: Part) -> Module:
        item = self.items.get(part.module)
        if not isinstance(item, Module):
            raise Fault(f'no module is called {part.module}')
        return item

    def output(self, name: str, port: str) -> Net:
        module = self.module(self.part(name))
        equations = {link.port: link.value for link in module.equations}
        if port not in equations:
            raise Fault(f'{name} has no output {port}')
        inputs = {port.name: port.width for port in module.ports if port.is_input}
        return self.once((name, port), equations[port], port, inputs, name)

    def input(self, part: str, port: str, width: int) -> Net:
        if (part, port, 'in') not in self.known:
            links = {link.port: link.value for link in self.part(part).links}
            if port not in links:
                raise Fault(f'{part} leaves its input {port} open')
            linked = self.expression(links[port])
            self.known[part, port, 'in'] = self.net(PORT, (linked,), width, part, port=port)
        return self.known[part, port, 'in']

    # expressions

    def expression(self, of: Expression, inputs: dict[str, int] | None = None,
                   home: str = '') -> Net:
        """The net of an expression; `inputs` are those of the module where it stands in one."""
        match of:
            case Name(name):
                return self.named(name) if inputs is None else self.inside(name, inputs, home)
            case Output(part, port):
                return self.output(part, port)
            case Constant(value, width):
                return self.net(CONSTANT, (), width, number=value)
            case Read(memory, address):
                found = self.of_kind(memory, Kind.MEMORY)
                if not found:
                    raise Fault(f'no memory is called {memory}')
                at = self.expression(address, inputs, home)
                return self.net(READ, (at,), found.width, storage=found)
            case Slice(inner, high, low):
                part = self.expression(inner, inputs, home)
                return self.net(SLICE, (part,), high - low + 1, bounds=(high, low))
            case Extension(inner, width):
                return self.net(of.word, (self.expression(inner, inputs, home),), width)
            case Case(selector, rows):
                parts = [self.expression(part, inputs, home)
                         for part in (selector, *(row.value for row in rows))]
                numbers = tuple(row.numbers for row in rows)
                return self.net(CASE, tuple(parts), parts[1].width, home, rows=numbers)
            case Operation(word, operands):
                parts = [self.expression(part, inputs, home) for part in operands]
                width = OPERATORS[word].width([part.width for part in parts])
                return self.net(word, tuple(parts), width, home)

    def inside(self, name: str, inputs: dict[str, int], home: str) -> Net:
        """What a name stands for in the module of a part."""
        if name not in inputs:
            raise Fault(f'{home} has no input {name}')
        return self.input(home, name, inputs[name])

    def count_uses(self) -> None:
        """Counts the uses of each net, and refuses values that come back to themselves by way of a
        bus."""
        is_done: dict[Net, bool] = {}

        def visit(net: Net) -> None:
            if is_done.get(net) is False:
                raise Fault(f'{net.name or net.op} depends on itself')
            if net not in is_done:
                is_done[net] = False
                for part in net.inputs():
                    part.uses += 1
                    visit(part)
                is_done[net] = True

        for storage in self.storages.values():
            for net in storage.inputs():
                net.uses += storage.kind != Kind.BUS
                visit(net)
