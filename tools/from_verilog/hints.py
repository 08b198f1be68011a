"""What a processor lacks for `record compile`, where its netlist is right all the same."""
from __future__ import annotations

from collections.abc import Iterator

from .conditions import Conditions, rows
from .diagrams import NEVER
from .mapping import Role
from .netlist import Bit, Bits, Gate, Memory, Netlist
from .refusals import Note
from .roles import Roles
from .terms import Cat, Choice, Const, Extended, Named, Slice, Term, Word


def is_zero(bits: Bits, conditions: Conditions) -> int:
    """The words under which all of some bits are 0."""
    return conditions.diagrams.neither(conditions.diagrams.any(conditions.all(bits)))


class ZeroCell:
    """Whether cell 0 of a register file reads as 0, or isn't written, whatever it holds."""

    def __init__(self, netlist: Netlist, conditions: Conditions, file: Memory):
        self.netlist, self.conditions, self.file = netlist, conditions, file
        self.diagrams = conditions.diagrams

    def masks(self, gate: Gate, data: Bits, address: Bits) -> bool:
        """Whether a choice gives 0 in place of a cell where its address is 0."""
        choices = [gate.pins['A'], *(row for _, row in rows(gate))]
        if data not in choices or not any(set(row) == {'0'} for row in choices):
            return False
        shown = NEVER if choices[0] != data else self.diagrams.neither(
            self.diagrams.any(self.conditions.of(bit) for bit, _ in rows(gate)))
        for bit, row in rows(gate):
            if row == data:
                shown = self.diagrams.either(shown, self.conditions.of(bit))
        return self.diagrams.both(shown, is_zero(address, self.conditions)) == NEVER

    def reads(self, reads: frozenset) -> bool:
        choices = [gate for gate in self.netlist.gates if gate.kind in ('$mux', '$pmux')]
        return any(self.masks(gate, port.data, port.address)
                   for port in reads.intersection(self.file.reads) for gate in choices)

    def written(self, bit: Bit) -> bool:
        """Whether a bit enables something, and is no word's alone to forbid."""
        return self.conditions.of(bit) != NEVER

    def writes(self) -> bool:
        """Whether no port ever writes cell 0, though each could by its address."""
        used = [port for port in self.file.writes if any(map(self.written, port.enable))]
        return bool(used) and all(
            self.diagrams.both(self.diagrams.any(self.conditions.all(port.enable)),
                               is_zero(port.address, self.conditions)) == NEVER for port in used)


def zero_cell(netlist: Netlist, found: Roles) -> Iterator[Note]:
    """The note on a register file whose cell 0 is always 0."""
    for memory, role in found.arrays.items():
        cell = ZeroCell(netlist, found.conditions, memory)
        if role is Role.FILE and (cell.reads(found.reads) or cell.writes()):
            yield Note(f'cell 0 of the register file {memory.path} reads as 0 or is not written: '
                       'the netlist says so, but `compile` takes a file only where each address '
                       f'shows every cell. Leave out the tests for 0, as in {memory.path}[rs], '
                       'and let programs keep a 0 where they need one', memory.place)


def leaves(term: Term) -> Iterator[Term]:
    match term:
        case Choice():
            yield from leaves(term.no)
            yield from leaves(term.yes)
        case Named() | Slice(of=Choice()):
            yield from leaves(term.of)
        case _:
            yield term


def is_field(term: Term) -> bool:
    """Whether a term is a part of the word, perhaps beside constants."""
    match term:
        case Word():
            return True
        case Extended(by_sign=False):
            return is_field(term.of)
        case Cat():
            return any(map(is_field, term.parts)) and all(
                is_field(part) or isinstance(part, Const) for part in term.parts)
    return False


def hints(netlist: Netlist, found: Roles, counter: Term) -> list[Note]:
    """What to know before `compile` is called; `counter` is what the program counter takes."""
    notes = list(zero_cell(netlist, found))
    if not any(map(is_field, leaves(counter))):
        notes.append(Note('no word puts a field of its own into the program counter: `compile` '
                          'needs such a jump, beside those that add to it',
                          found.counter.register.place))
    return notes
