"""Diagrams, and how terms are cut and joined, against what they mean."""
from __future__ import annotations

import itertools
import random
import unittest

import tests.processors  # noqa: F401  (puts the tools on the path)

from from_verilog import terms
from from_verilog.diagrams import ALWAYS, NEVER, Diagrams, of_word
from from_verilog.netlist import FlipFlop
from from_verilog.terms import Cat, Choice, Const, Extended, Held, Op, Slice, Term, Word
from from_verilog.writing import laid_out
from rtn.operators import OPERATORS, bits, mask, signed

VARIABLES = [of_word(0), of_word(1), of_word(2), 7, 9]


def holds(some: Diagrams, diagram: int, values: dict[int, int]) -> bool:
    while diagram > ALWAYS:
        variable, low, high = some.nodes[diagram]
        diagram = high if values[variable] else low
    return bool(diagram)


def assignments():
    for digits in itertools.product((0, 1), repeat=len(VARIABLES)):
        yield dict(zip(VARIABLES, digits))


class Sets(unittest.TestCase):
    """Operations on diagrams, for each value of five variables."""

    def setUp(self):
        self.some, self.pick = Diagrams(), random.Random(1)

    def random(self) -> int:
        found = NEVER
        for values in assignments():
            if self.pick.random() < 0.3:
                point = ALWAYS
                for variable, digit in values.items():
                    bit = self.some.variable(variable)
                    point = self.some.both(point, bit if digit else self.some.neither(bit))
                found = self.some.either(found, point)
        return found

    def test_operations(self):
        for _ in range(20):
            one, other = self.random(), self.random()
            made = {'both': self.some.both(one, other), 'but': self.some.but(one, other),
                    'either': self.some.either(one, other), 'differ': self.some.differ(one, other)}
            for values in assignments():
                a, b = (holds(self.some, diagram, values) for diagram in (one, other))
                self.assertEqual({name: holds(self.some, diagram, values)
                                  for name, diagram in made.items()},
                                 {'both': a and b, 'but': a and not b, 'either': a or b,
                                  'differ': a != b})

    def test_settled_is_for_all_opaque_bits(self):
        one = self.random()
        settled = self.some.settled(one)
        for values in assignments():
            others = [{**values, 7: x, 9: y} for x in (0, 1) for y in (0, 1)]
            self.assertEqual(holds(self.some, settled, values),
                             all(holds(self.some, one, other) for other in others))

    def test_simplified_is_the_same_where_it_matters(self):
        for _ in range(20):
            one, care = self.random(), self.random()
            simple = self.some.simplified(one, care)
            for values in assignments():
                if holds(self.some, care, values):
                    self.assertEqual(holds(self.some, simple, values),
                                     holds(self.some, one, values))

    def test_equal_sets_have_equal_numbers(self):
        one, other = self.random(), self.random()
        self.assertEqual(self.some.neither(self.some.both(one, other)),
                         self.some.either(self.some.neither(one), self.some.neither(other)))


REGISTERS = [FlipFlop(name, None, tuple(range(width)), (), 0, True)
             for name, width in (('a', 8), ('b', 8), ('c', 5))]


class Meaning:
    """What a term means for the values of registers and of a word."""

    def __init__(self, pick: random.Random, some: Diagrams):
        self.held = {register: pick.getrandbits(register.width) for register in REGISTERS}
        self.word, self.some = pick.getrandbits(8), some

    def of(self, term: Term) -> int:
        match term:
            case Const():
                return term.value
            case Word():
                return bits(self.word, term.high, term.low)
            case Held():
                return self.held[term.register]
            case Slice():
                return bits(self.of(term.of), term.high, term.low)
            case Extended():
                value, width = self.of(term.of), term.of.width
                return (signed(value, width) if term.by_sign else value) & mask(term.width)
            case Cat():
                value = 0
                for part in term.parts:
                    value = value << part.width | self.of(part)
                return value
            case Op():
                widths = [part.width for part in term.operands]
                return OPERATORS[term.operator].value(list(map(self.of, term.operands)), widths)
            case Choice():
                chosen = holds(self.some, term.condition, {
                    of_word(k): self.word >> k & 1 for k in range(8)})
                return self.of(term.yes if chosen else term.no)
        raise AssertionError(term)


class Cuts(unittest.TestCase):
    """Cut, joined and widened terms mean what a slice, a cat and an extension mean."""

    def setUp(self):
        self.pick, self.some = random.Random(2), Diagrams()

    def random(self, depth: int) -> Term:
        pick = self.pick
        if not depth:
            register = pick.choice(REGISTERS)
            return pick.choice([Held(register, register.width), Word(6, 1), Word(7, 0),
                                terms.const(pick.getrandbits(8), 8), terms.const(4, 5)])
        a, b = self.random(depth - 1), self.random(depth - 1)
        wide = max(a.width, b.width)
        both = tuple(terms.extended(part, wide, pick.random() < 0.5) for part in (a, b))
        match pick.randrange(5):
            case 0 if a.width + b.width < 40:
                return terms.cat([a, b])
            case 1:
                return terms.choice(self.some.variable(of_word(pick.randrange(8))), *both)
            case 2:
                return Op('shl', (both[0], terms.const(pick.randrange(5), wide)))
            case 3:
                return terms.extended(a, a.width + 3, pick.random() < 0.5)
        return Op(pick.choice(['add', 'sub', 'mul', 'and', 'xor']), both)

    def test_cuts(self):
        for _ in range(2000):
            term = self.random(self.pick.randrange(4))
            low = self.pick.randrange(term.width)
            high = self.pick.randrange(low, term.width)
            cut, meaning = terms.cut(term, high, low), Meaning(self.pick, self.some)
            self.assertEqual(cut.width, high - low + 1)
            self.assertEqual(meaning.of(cut), bits(meaning.of(term), high, low))

    def test_low_zeros(self):
        for _ in range(1000):
            term, meaning = self.random(self.pick.randrange(4)), Meaning(self.pick, self.some)
            self.assertEqual(meaning.of(term) & mask(terms.low_zeros(term)), 0)

    def test_equal_terms_are_the_same(self):
        one = Op('add', (Word(7, 0), terms.const(1, 8)))
        self.assertIs(one, Op('add', (Word(7, 0), terms.const(257, 8))))


class Layout(unittest.TestCase):
    """Long cases on several lines."""

    def test_short_text_stays(self):
        text = 'case op { 1: a; else: b; }'
        self.assertEqual(laid_out(text), text)

    def test_rows_within_rows(self):
        inner = f'case eq(acc, 0#16) {{ 1: {"a" * 50}; 0: {"b" * 50}; }}'
        self.assertEqual(laid_out(f'case op {{ 1: {inner}; else: c; }}').splitlines(), [
            'case op {', '  1: case eq(acc, 0#16) {', f'    1: {"a" * 50};', f'    0: {"b" * 50};',
            '  };', '  else: c;', '}'])


if __name__ == '__main__':
    unittest.main()
