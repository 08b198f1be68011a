"""The miter of a proof, as Verilog: both sides under one word and one state.

A claim is an output that has to be 1 wherever the output `given`, the conjunction of the premises,
is 1. Cells of an array are compared at an address that is free: what it holds before the clock is
one value for both sides, and reads at equal addresses give equal values.
"""
from __future__ import annotations

import dataclasses
import itertools
from collections.abc import Iterable, Sequence

from .cutting import Cells, Pin, Product, Read, Side, Write
from .mapping import Array, Register
from .refusals import Place


@dataclasses.dataclass(frozen=True)
class Claim:
    """An output of the miter that has to be 1: the storage that it is of, what is said where it
    isn't, and where the storage is declared.

    `shown` are the names whose values tell about a case against it.
    """
    output: str
    storage: str
    fault: str
    place: Place | None
    shown: tuple[str, ...] = ()


def span(width: int) -> str:
    return f'[{width - 1}:0]'


def both(tests: Iterable[str]) -> str:
    return ' && '.join(f'({test})' for test in tests) or "1'd1"


class Miter:
    """The text in the making. Names of a side's own wires begin with its tag."""

    def __init__(self, name: str):
        self.name = name
        self.inputs: dict[str, int] = {}
        self.wires: dict[str, int] = {}
        self.assigned: list[tuple[str, str]] = []
        self.instances: list[str] = []
        self.premises: list[str] = []
        self.claims: list[Claim] = []
        self.numbers: dict[str, str] = {}   # of the cell at an address, by the address

    # ---- what is in it

    def free(self, name: str, width: int) -> str:
        """An input, which has any value."""
        self.inputs[name] = width
        return name

    def wire(self, name: str, width: int, value: str) -> str:
        self.wires[name] = width
        self.assigned.append((name, value))
        return name

    def given(self, test: str) -> None:
        self.premises.append(test)

    def claim(self, storage: Register | Array, fault: str, test: str,
              shown: Sequence[str] = ()) -> None:
        """Claims a test of a storage of the netlist; `fault` says what is wrong without it."""
        told = f'{storage.role.value} {storage.name} {fault}'
        self.claim_of(storage.path, told, storage.place, test, shown)

    def claim_of(self, path: str, fault: str, place: Place | None, test: str,
                 shown: Sequence[str] = ()) -> None:
        """Claims a test of what stands at a path of the Verilog."""
        output = f'claim_{len(self.claims)}'
        self.claims.append(Claim(output, path, fault, place, tuple(shown)))
        self.assigned.append((output, test))

    def consistent(self, known: Sequence[tuple[str, str]]) -> None:
        """Gives that reads of one cell give one value."""
        for (cell, value), (other, another) in itertools.combinations(known, 2):
            self.given(f'{cell} != {other} || {value} == {another}')

    # ---- arrays

    def array(self, array: Array, sides: Sequence[tuple[Side, Array, Cells]]) -> None:
        """Claims that an array holds the same behind the last clock, at a free address."""
        width = 1 + max([access.address.width for _, _, cells in sides
                         for access in (*cells.reads, *cells.writes)] + [array.address])
        at = self.free(f'at_{array.name}', width)
        held = self.free(f'held_{array.name}', array.width)
        self.given(f"{at} < {width}'d{array.cells}")
        known, results = [(at, held)], []
        for side, own, cells in sides:
            for access in (*cells.reads, *cells.writes):
                self.number(side, access.address, own, width)
            known += [self.read(side, own, cells, read) for read in cells.reads]
            results.append(self.after(side, own, cells.writes, at, held,
                                      f'after_{side.tag}_{array.name}'))
            self.no_two_writes(side, own, cells.writes)
        self.consistent(known)
        first, second = results
        self.claim(array, 'differs', f'{first} == {second}', (at, held, first, second))

    def number(self, side: Side, pin: Pin, array: Array, width: int) -> None:
        """Enters the number of the cell at an address, in `width` bits: the first cell's is 0.

        An address that is wider than the netlist's is taken by its low bits.
        """
        name = side.called(pin)
        full = self.wire(f'full_{name}', width,
                         f"{{{width - pin.width}'d0, {name}}} - {width}'d{array.first}")
        if pin.width > array.address:
            low = f"{{{width - array.address}'d0, {full}[{array.address - 1}:0]}}"
            full = self.wire(f'low_{name}', width, low)
        self.numbers[name] = full

    def read(self, side: Side, array: Array, cells: Cells, read: Read) -> tuple[str, str]:
        """A read's cell and what that holds at first. Past the last cell it is 0."""
        number, data = self.numbers[side.called(read.address)], side.called(read.data)
        earlier = [write for write in cells.writes if write.clock < read.clock]
        first = self.free(f'first_{data}', array.width)
        value = self.after(side, array, earlier, number, first, f'now_{data}')
        self.wire(data, array.width, f"{number} < {array.cells} ? {value} : {array.width}'d0")
        return number, first

    def after(self, side: Side, array: Array, writes: Sequence[Write], cell: str, before: str,
              called: str) -> str:
        """What the cell with a number holds behind some writes."""
        width, value = array.width, before
        for k, write in enumerate(writes):
            is_there = f'{{{width}{{{self.numbers[side.called(write.address)]} == {cell}}}}}'
            enabled = self.wire(f'enabled_{k}_{called}', width,
                                f'{side.called(write.enable)} & {is_there}')
            value = self.wire(f'behind_{k}_{called}', width,
                              f'({side.called(write.data)} & {enabled}) | ({value} & ~{enabled})')
        return self.wire(called, width, value)

    def no_two_writes(self, side: Side, array: Array, writes: Sequence[Write]) -> None:
        """Claims that no cell is given two values at a clock of which the Verilog prefers none."""
        tests = []
        for first, second in itertools.combinations(writes, 2):
            if first.clock != second.clock or first.number in second.over:
                continue
            cells = [self.numbers[side.called(write.address)] for write in (first, second)]
            bits = ' & '.join(side.called(write.enable) for write in (first, second))
            data = ' ^ '.join(side.called(write.data) for write in (first, second))
            tests.append(f'!({cells[0]} == {cells[1]} && ({bits} & ({data})) != 0)')
        if tests:
            self.claim(array, 'is given two values for one cell at one clock', both(tests))

    # ---- products

    def products(self, first: Side, left: Sequence[Product],
                 second: Side, right: Sequence[Product]) -> None:
        """Gives that products of equal factors are equal, in as many low bits as these have."""
        for side, products in ((first, left), (second, right)):
            for product in products:
                self.free(side.called(product.result), product.result.width)
        for one, other in itertools.product(left, right):
            low = f'[{min(one.result.width, other.result.width) - 1}:0]'
            a, b, product = (first.called(pin) + low for pin in (one.left, one.right, one.result))
            c, d, another = (second.called(pin) + low
                             for pin in (other.left, other.right, other.result))
            equal = f'({a} == {c} && {b} == {d}) || ({a} == {d} && {b} == {c})'
            self.given(f'!({equal}) || {product} == {another}')

    # ---- the text

    def instance(self, side: Side) -> None:
        """A side with its pins. Of an input that the miter says nothing of, the value is free."""
        for pin in side.pins.values():
            name = side.called(pin)
            if not pin.inward:
                self.wires[name] = pin.width
            elif name not in self.wires:
                self.free(name, pin.width)
        pins = ', '.join(f'.{pin.name}({side.called(pin)})' for pin in side.pins.values())
        self.instances.append(f'{side.tag} {side.tag}_side ({pins});')

    def text(self) -> str:
        heads = [f'  input {span(width)} {name}' for name, width in self.inputs.items()]
        heads += [f'  output {claim.output}' for claim in self.claims] + ['  output given']
        body = [f'wire {span(width)} {name};' for name, width in self.wires.items()]
        body += [f'assign {name} = {value};' for name, value in self.assigned]
        body += [f'assign given = {both(self.premises)};', *self.instances]
        return '\n'.join([f'module {self.name} (', ',\n'.join(heads), ');',
                          *(f'  {line}' for line in body), 'endmodule', ''])
