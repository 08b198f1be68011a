"""Flattens, numbers and clocks netlists (docs/RTN.md). It is written apart from the program that
the tools try.
"""
from __future__ import annotations

import dataclasses
import graphlib
from collections.abc import Callable, Iterator, Mapping, Sequence

from rtn.operators import OPERATORS, bits, mask, signed
from rtn.reading import Fault, read_netlist
from rtn.syntax import (Array, Bus, Case, Code, Constant, Expression, Extension, Item, Memory,
                        Module, Name, Operation, Output, Part, Read, Register, Slice)
from rtn import syntax

# The number in each register and the list of the cells of each memory, by their names.
State = dict[str, int | list[int]]

# A net by its number or, until all are numbered, by the name that it will have.
Reference = int | Name | Output


class Clash(Exception):
    """Two drivers of a bus are enabled: the first such bus, by its name."""


@dataclasses.dataclass
class Net:
    """A numbered net: the item that it is of, what it is, its width, the nets that it uses, and
    its value by theirs, the state and the word."""

    item: str
    kind: str
    width: int
    uses: Sequence[Reference]
    compute: Callable[[Sequence[int], State, int], int]


@dataclasses.dataclass(frozen=True)
class Stuck:
    """A bit of a net that is seen at one value by whatever uses the net."""

    net: int
    bit: int
    value: int

    def seen(self, value: int) -> int:
        """The net's value as it is seen."""
        return value | 1 << self.bit if self.value else value & ~(1 << self.bit)


@dataclasses.dataclass
class Edge:
    """What a storage takes at a clock edge, where a memory takes it, and when: always if None."""

    value: Reference
    when: Reference | None
    address: Reference | None = None


class Netlist:
    """A netlist text as numbered nets, which can be clocked. It is taken to break no rule.

    `nets` has them by their numbers (docs/RTN.md, "The numbers of nets"), and `outputs` says which
    one a name stands for.
    """

    def __init__(self, text: str):
        self.items = read_netlist(text)
        self.code: Code = self.only(Code)
        self.memory: Memory = self.only(Memory, lambda item: item.array == Array.MEMORY)
        self.registers = self.by_name(Register)
        self.memories = self.by_name(Memory)
        self.modules = self.by_name(Module)
        self.nets: list[Net] = []
        self.outputs: dict[Name | Output, int] = {}
        self.edges: dict[str, Edge] = {}
        self.enables: dict[str, list[Reference]] = {}   # those of each bus
        self.widths = dict(self.declared())
        for item in self.items:
            self.add(item)
        self.resolve()
        self.order = self.ordered()

    # items

    def by_name(self, kind: type) -> dict:
        return {item.name: item for item in self.items if isinstance(item, kind)}

    def only(self, kind: type, is_wanted=lambda item: True) -> Item:
        """The one item of a kind."""
        found = [item for item in self.items if isinstance(item, kind) and is_wanted(item)]
        if len(found) != 1:
            raise Fault(f'{len(found)} items are a {kind.__name__.lower()}')
        return found[0]

    def declared(self) -> Iterator[tuple[Name | Output, int]]:
        """What has a name as a value, with its width."""
        for item in self.items:
            if isinstance(item, Code | Register | syntax.Net | Bus):
                yield Name(item.name), item.width
            elif isinstance(item, Part):
                for port in self.module_of(item).ports:
                    yield Output(item.name, port.name), port.width

    def module_of(self, part: Part) -> Module:
        if part.module not in self.modules:
            raise Fault(f'no module is called {part.module}')
        return self.modules[part.module]

    def add(self, item: Item) -> None:
        """Numbers the nets of an item."""
        match item:
            case Code(name, width):
                self.give(name, Name(name), 'word', width, lambda of, state, word: word)
            case Register(name, width, value, when):
                self.edges[name] = self.edge(name, value, when)
                self.give(name, Name(name), 'output', width, lambda of, state, word: state[name])
            case Memory(name=name, value=value, address=address, when=when):
                self.edges[name] = self.edge(name, value, when, address)
            case syntax.Net(name, width, value):
                of = self.expression(name, value)
                self.give(name, Name(name), 'net', width, lambda of, state, word: of[0], [of])
            case Bus():
                self.bus(item)
            case Part():
                self.part(item)

    def new(self, item: str, kind: str, width: int, compute, uses=()) -> int:
        self.nets.append(Net(item, kind, width, uses, compute))
        return len(self.nets) - 1

    def give(self, item: str, name: Name | Output, kind: str, width: int, compute, uses=()) -> None:
        """A new net, for which a name stands."""
        self.outputs[name] = self.new(item, kind, width, compute, uses)

    def edge(self, name: str, value: Expression, when: Expression | None,
             address: Expression | None = None) -> Edge:
        """The edge of a storage, whose expressions are numbered in the order of its text."""
        of = self.expression(name, value)
        at = None if address is None else self.expression(name, address)
        return Edge(of, None if when is None else self.expression(name, when), at)

    def bus(self, bus: Bus) -> None:
        uses = []
        for driver in bus.drivers:
            uses += [self.expression(bus.name, part) for part in (driver.value, driver.when)]
        self.enables[bus.name] = uses[1::2]
        self.give(bus.name, Name(bus.name), 'bus', bus.width, driven, uses)

    def part(self, part: Part) -> None:
        """The inputs of a part with what they are linked to, its outputs, and what these are."""
        module, known = self.module_of(part), {}
        links = {link.port: link.value for link in part.links}
        equations = {link.port: link.value for link in module.equations}
        for port in module.ports:
            if port.is_input:
                of = self.expression(part.name, self.linked(links, port.name, part.name))
                known[Name(port.name)] = self.new(part.name, f'input {port.name}', port.width,
                                                  lambda of, state, word: of[0], [of])
        outputs = [port for port in module.ports if not port.is_input]
        for port in outputs:
            self.give(part.name, Output(part.name, port.name), f'output {port.name}', port.width,
                      lambda of, state, word: of[0])
        for port in outputs:
            value = self.linked(equations, port.name, module.name)
            of = self.expression(part.name, value, known)
            self.nets[self.outputs[Output(part.name, port.name)]].uses = [of]

    @staticmethod
    def linked(links: Mapping[str, Expression], port: str, owner: str) -> Expression:
        if port not in links:
            raise Fault(f'{owner} leaves {port} open')
        return links[port]

    # expressions

    def expression(self, item: str, of: Expression,
                   known: Mapping[Name, int] | None = None) -> Reference:
        """The net of an expression; `known` are the inputs of the module where it stands in one.

        A name outside the modules may be given a net later, so it stands for itself until then.
        """
        match of:
            case Name() | Output():
                return self.named(of, known)
            case Constant(value, width):
                return self.new(item, 'const', width, lambda of, state, word: value)
            case Slice(inner, high, low):
                return self.new(item, 'slice', high - low + 1,
                                lambda of, state, word: bits(of[0], high, low),
                                [self.expression(item, inner, known)])
            case Extension():
                return self.extension(item, of, known)
            case Read(memory, address):
                return self.read(item, memory, self.expression(item, address, known))
            case Case():
                return self.case(item, of, known)
            case Operation(word, operands):
                nets = [self.expression(item, operand, known) for operand in operands]
                operator, widths = OPERATORS[word], [self.width(net) for net in nets]
                return self.new(item, word, operator.width(widths),
                                lambda of, state, word: operator.value(of, widths), nets)

    def named(self, name: Name | Output, known: Mapping[Name, int] | None) -> Reference:
        if name not in (self.widths if known is None else known):
            raise Fault(f'{name} stands for nothing')
        return name if known is None else known[name]

    def extension(self, item: str, of: Extension, known: Mapping[Name, int] | None) -> int:
        net = self.expression(item, of.of, known)
        narrow, wide = self.width(net), mask(of.width)
        if of.is_signed:
            return self.new(item, of.word, of.width,
                            lambda of, state, word: signed(of[0], narrow) & wide, [net])
        return self.new(item, of.word, of.width, lambda of, state, word: of[0], [net])

    def read(self, item: str, memory: str, address: Reference) -> int:
        if memory not in self.memories:
            raise Fault(f'no memory is called {memory}')
        size = self.memories[memory].size
        return self.new(item, 'read', self.memories[memory].width,
                        lambda of, state, word: state[memory][of[0]] if of[0] < size else 0,
                        [address])

    def case(self, item: str, case: Case, known: Mapping[Name, int] | None) -> int:
        selector = self.expression(item, case.selector, known)
        rows = [self.expression(item, row.value, known) for row in case.rows]
        places = {number: place for place, row in enumerate(case.rows, 1) for number in row.numbers}
        rest = len(rows)
        return self.new(item, 'case', self.width(rows[0]),
                        lambda of, state, word: of[places.get(of[0], rest)], [selector, *rows])

    def width(self, net: Reference) -> int:
        return self.nets[net].width if isinstance(net, int) else self.widths[net]

    # order

    def resolve(self) -> None:
        """Puts the numbers of nets in place of their names."""
        for net in self.nets:
            net.uses = tuple(map(self.number, net.uses))
        self.enables = {bus: list(map(self.number, enables))
                        for bus, enables in self.enables.items()}
        for edge in self.edges.values():
            edge.value, edge.when, edge.address = map(
                self.number, (edge.value, edge.when, edge.address))

    def number(self, net: Reference | None) -> int | None:
        return net if net is None or isinstance(net, int) else self.outputs[net]

    def ordered(self) -> list[int]:
        """The nets, each behind those that it uses."""
        uses = {number: net.uses for number, net in enumerate(self.nets)}
        try:
            return list(graphlib.TopologicalSorter(uses).static_order())
        except graphlib.CycleError as cycle:
            raise Fault(f'{self.nets[cycle.args[1][0]].item} depends on itself') from cycle

    # clocks

    def zeros(self) -> State:
        """The state in which all registers and cells are 0."""
        return {**{name: 0 for name in self.registers},
                **{name: [0] * memory.size for name, memory in self.memories.items()}}

    def values(self, state: State, word: int, stuck: Stuck | None = None) -> list[int]:
        """The value of each net under a word, with a bit stuck where one is given."""
        values = [0] * len(self.nets)
        for number in self.order:
            net = self.nets[number]
            value = net.compute([values[use] for use in net.uses], state, word)
            values[number] = stuck.seen(value) if stuck and stuck.net == number else value
        return values

    def clock(self, state: State, word: int, stuck: Stuck | None = None) -> State:
        """The state after a clock; a Clash where two drivers of a bus are enabled."""
        values = self.values(state, word, stuck)
        for bus, enables in self.enables.items():
            if sum(values[enable] for enable in enables) > 1:
                raise Clash(bus)
        after = dict(state)
        for name, edge in self.edges.items():
            if edge.when is not None and not values[edge.when]:
                continue
            if edge.address is None:
                after[name] = values[edge.value]
            elif values[edge.address] < self.memories[name].size:
                after[name] = state[name][:]
                after[name][values[edge.address]] = values[edge.value]
        return after


def copied(state: State) -> State:
    """A state with memories of its own."""
    return {name: held[:] if isinstance(held, list) else held for name, held in state.items()}


def driven(of: Sequence[int], state: State, word: int) -> int:
    """The value of a bus, whose drivers' values and enables stand in turn."""
    return next((value for value, enable in zip(of[::2], of[1::2]) if enable), 0)
