"""The path of a pattern: what a storage's value passes under the pattern's least word."""
from __future__ import annotations

import re
from collections.abc import Callable

from drawing.nets import (BUS, CASE, CONSTANT, PORT, READ, REGISTER, SLICE, WORD, Kind, Net,
                          Storage)
from rtn.operators import OPERATORS, WIRING, bits, mask, signed
from rtn.reading import Fault


def evaluated(net: Net, word: int) -> int:
    """The value of a net that the word decides alone, by the gates that may stand in control."""
    if net.op == WORD:
        return word
    if net.op == CONSTANT:
        return net.number
    if net.op == CASE:
        return evaluated(net.parts[1 + selected(net, word)], word)
    values = [evaluated(part, word) for part in net.parts]
    if net.op == SLICE:
        return bits(values[0], *net.bounds)
    if net.op == 'sext':
        return signed(values[0], net.parts[0].width) & mask(net.width)
    if net.op in (PORT, 'zext'):
        return values[0]
    if net.op not in OPERATORS or not OPERATORS[net.op].is_control:
        raise Fault(f'{net.name or net.op} is control, and {net.op} has no place there')
    return OPERATORS[net.op].value(values, [part.width for part in net.parts])


def selected(net: Net, word: int) -> int:
    """The row of a case that the word decides."""
    number = evaluated(net.parts[0], word)
    for row, numbers in enumerate(net.rows):
        if number in numbers or not numbers:
            return row
    raise Fault(f'{net.name or "a case"} has no row for {number}')


class Path:
    """What a storage's value passes under a word: the nets and storages, the inputs by which they
    are reached, what decides, and the transfer as `extract` writes it."""

    def __init__(self, storage: Storage, word: int):
        self.word = word
        self.nets: set[Net | Storage] = {storage}
        self.inputs: set[tuple[Net | Storage, int | str]] = set()
        self.deciding: list[Net] = []
        if storage.when:
            self.deciding.append(storage.when)
            if not evaluated(storage.when, word):
                raise Fault(f'{storage.name} takes nothing under the word {word:#x}')
        value, address = self.input(storage, 'value', storage.value), ''
        if storage.kind == Kind.MEMORY:
            address = f'[{self.input(storage, "at", storage.at)}]'
        self.text = f'{storage.name}{address} := {value}'

    def input(self, sink: Net | Storage, slot: int | str, net: Net) -> str:
        self.inputs.add((sink, slot))
        return self.expression(net)

    def expression(self, net: Net) -> str:
        """The expression of a net as `extract` writes it, with what it passes noted."""
        self.nets.add(net)
        if net.op in (REGISTER, WORD):
            self.nets.add(net.storage)
            return net.storage.name
        if net.op == CONSTANT:
            return f'{net.number}#{net.width}'
        of_several: dict[str, Callable[[Net], str]] = {BUS: self.bus, CASE: self.case}
        if net.op in of_several:
            return of_several[net.op](net)
        parts = [self.input(net, k, part) for k, part in enumerate(net.parts)]
        if net.op == PORT:
            return parts[0]
        if net.op == READ:
            self.nets.add(net.storage)
            return f'read({net.storage.name},{parts[0]})'
        if net.op == SLICE:
            return self.slice(net, parts[0])
        return f'{net.op}({",".join(parts)}' + (f',{net.width})' if net.op in WIRING else ')')

    @staticmethod
    def slice(net: Net, part: str) -> str:
        high, low = net.bounds
        if net.width == net.parts[0].width:
            return part
        inner = re.fullmatch(r'slice\((.*),(\d+),(\d+)\)', part)
        if inner:
            part, high, low = inner[1], high + int(inner[3]), low + int(inner[3])
        return f'slice({part},{high},{low})'

    def bus(self, net: Net) -> str:
        self.nets.add(net.storage)
        found = f'0#{net.width}'
        for k, (value, when) in enumerate(net.storage.drivers):
            if evaluated(when, self.word):
                self.deciding.append(when)
                found = self.input(net.storage, k, value)
        return found

    def case(self, net: Net) -> str:
        selector = net.parts[0]
        if selector.is_static:
            self.deciding.append(selector)
            row = 1 + selected(net, self.word)
            return self.input(net, row, net.parts[row])
        chosen = self.input(net, 0, selector)
        rows = {number: row for row, numbers in reversed([*enumerate(net.rows, 1)])
                for number in numbers or (0, 1)}
        one, zero = (self.input(net, rows[number], net.parts[rows[number]]) for number in (1, 0))
        return f'select({chosen},{one},{zero})'

    def fields(self) -> dict[Net, int]:
        """The slices of the word that decide, with their values."""
        found, left, seen = {}, list(self.deciding), set()
        while left:
            net = left.pop()
            if net.is_field:
                found[net] = evaluated(net, self.word)
            elif net not in seen:
                seen.add(net)
                left += net.parts
        return found
