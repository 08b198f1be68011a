"""Bugs planted in the reader: the proof refuses what it then writes, at the right storages."""
from __future__ import annotations

import contextlib
import dataclasses
import unittest
from collections.abc import Callable, Iterator
from unittest import mock

from tests.processors import ALL, HAS_YOSYS, NO_YOSYS, STYLES

from from_verilog import gates, phases, proving, roles, terms, values, writing
from from_verilog.choices import Field
from from_verilog.conditions import Conditions
from from_verilog.diagrams import ALWAYS, NEVER
from from_verilog.options import parse
from from_verilog.reading import read

CACHED = (terms.cut, terms.narrowed, terms.gains, terms.low_zeros, terms.lowered, terms.has_hole)


@dataclasses.dataclass(frozen=True)
class Bug:
    """A bug: what is put in place of what, and storages of a processor that then differ."""
    what: str
    where: object
    name: str
    wrong: Callable[[object], object]     # what is right, as what is wrong
    words: tuple[str, ...]
    storages: tuple[str, ...]

    @contextlib.contextmanager
    def planted(self) -> Iterator[None]:
        right = self.where.__dict__[self.name]
        try:
            with mock.patch.object(self.where, self.name, self.wrong(right)):
                yield
        finally:
            for function in CACHED:
                function.cache_clear()


def words(name: str) -> tuple[str, ...]:
    return tuple(ALL[name].words())


def style(name: str, *options: str) -> tuple[str, ...]:
    return (str(STYLES / f'{name}.v'), *options)


def at_most(conditions: Conditions, gate) -> int:
    """The order of two static words, with `less or equal` in place of `less`."""
    a, b = conditions.operands(gate, max(map(len, gate.operands())))
    a, b = (b, a) if gate.kind in ('$gt', '$le') else (a, b)
    less = ALWAYS
    for x, y in zip(a, b):
        less = conditions.diagrams.choice(conditions.diagrams.differ(x, y), y, less)
    return less if gate.kind in ('$lt', '$gt') else conditions.diagrams.neither(less)


def reversed_values(field: Field, number: int) -> dict[int, int]:
    return {-1 - place: number >> field.high - place & 1 for place in field.places}


def unchecked(finder: roles.Finder, word, counter) -> tuple:
    """The counter taken to be aligned whatever the words do to its low bits."""
    zeros = {bit: '0' for bit in counter.register.output[:counter.low]}
    return (dataclasses.replace(counter, aligned=bool(zeros)),
            Conditions(finder.netlist, {**finder.tied, **zeros}, word.bits))


def less_one(amount: terms.Term) -> terms.Term:
    if not isinstance(amount, terms.Const):
        return amount
    return terms.const(amount.value - 1, amount.width)


def without_first_writes(right: Callable) -> Callable:
    """A memory of several phases with the writes of the last one alone."""
    def memory(unroller, old):
        found = right(unroller, old)
        return dataclasses.replace(found, writes=found.writes[-len(old.writes):])
    return memory


def exchanged(right: Callable) -> Callable:
    """The sum and the difference of one adder, one in place of the other."""
    def one_adder(gates_, a, b):
        found = right(gates_, a, b)
        return found and terms.choice(found.condition, found.yes, found.no)
    return one_adder


BUGS = (
    Bug('a difference is a sum', gates, 'SUMS', lambda right: {**right, '$sub': 'add'},
        words('a16'), ('acc',)),
    Bug('the opposite of a comparison is the comparison', gates, 'TURNED',
        lambda right: frozenset(), style('riscv', '--never', 'opcode=111'), ('pc',)),
    Bug('copies of the top bit are zeros', terms, 'sign_extended',
        lambda right: terms.zero_extended, words('c10i'), ('acc_q',)),
    Bug('a shift is by one too few', gates.Gates, 'amount',
        lambda right: lambda self, gate: less_one(right(self, gate)), words('f16z'), ('acc',)),
    Bug('the bits of a field are read from the other end', Field, 'values',
        lambda right: reversed_values, words('a16'), ('pc', 'acc', 'ram')),
    Bug('writes before the last phase are forgotten', phases._Unroller, 'memory',
        without_first_writes, style('four_states', '--phases', 'state=0,1,2,3'), ('ram',)),
    Bug('the lowest bit of an address is lost', values.Values, 'address',
        lambda right: lambda self, memory, bits, root=False: right(
            self, memory, (*bits[1:], '0'), root), words('a16'), ('acc', 'ram')),
    Bug('of a cell the bits are written that are not enabled', writing.Writer, 'by_parts',
        lambda right: lambda self, enables, old, new: right(self, enables, new, old),
        words('bytes'), ('ram',)),
    Bug('low bits of the counter are taken to be 0', roles.Finder, 'aligned',
        lambda right: unchecked, style('riscv', '--never', 'opcode=111'), ('pc',)),
    Bug('less is less or equal', Conditions, 'order', lambda right: at_most, words('twin'),
        ('a', 'flag')),
    Bug('a one is shifted by one too few', Conditions, 'shifted',
        lambda right: lambda self, gate: [*right(self, gate)[1:], NEVER], words('andor'),
        ('acc', 'ram')),
    Bug('one adder subtracts where it adds', gates.Gates, 'one_adder', exchanged,
        words('addsub'), ('acc',)),
    Bug('of two writes one is forgotten', writing.Writer, 'groups',
        lambda right: lambda self, memory: right(self, memory)[:1], words('f16z'), ('ram',)),
)


@unittest.skipUnless(HAS_YOSYS, NO_YOSYS)
class Planted(unittest.TestCase):
    """Each bug makes a text that the proof refuses."""

    def test_each(self):
        for bug in BUGS:
            with self.subTest(bug.what), bug.planted():
                found = read(parse(list(bug.words)))
                differing = ' '.join(map(str, proving.prove(found).differences))
                self.assertTrue(differing)
                for storage in bug.storages:
                    self.assertIn(storage, differing)


if __name__ == '__main__':
    unittest.main()
