"""Program texts: how they are read, and what they do."""
import itertools
import random
import unittest

from rtn.random_programs import Indexing, Interpreter, program_text
from rtn.reading import Fault
from rtn.sources import (ORDERS, SIGNED, Assignment, Cell, If, Number, Operation, Run, Sized, Test,
                         While, read_source)
from tests.support import example

A, B, I = Cell('a'), Cell('b'), Cell('i')


def value(text: str):
    """The tree of an expression."""
    return read_source(f'var a, b, i, x[4]; a = {text};').block[0].value


def ran(text: str, tests: int = 100, **cells: int) -> tuple[list[tuple[int, bool]], dict]:
    """The trees of the tests, each with whether it holds, and the cells at the end, which begin
    with 0 where nothing is said."""
    source = read_source(text)
    run = Run(source, 16, {cell: cells.get(cell, 0) for cell in source.cells()})
    passed = [(test.tree, holds) for test, holds in itertools.islice(run.tests(), tests)]
    return passed, run.cells


class Reading(unittest.TestCase):
    """The trees of texts."""

    def test_operators_bind(self):
        self.assertEqual(value('a - b - i'),
                         Operation('sub', (Operation('sub', (A, B)), I)))
        order = (('|', 'or'), ('^', 'xor'), ('&', 'and'), ('>>', 'shr'), ('+', 'add'), ('*', 'mul'))
        for (loose, outer), (tight, inner) in itertools.pairwise(order):
            both = Operation(outer, (A, Operation(inner, (B, I))))
            self.assertEqual(value(f'a {loose} b {tight} i'), both)
            turned = Operation(outer, (Operation(inner, (A, B)), I))
            self.assertEqual(value(f'a {tight} b {loose} i'), turned)
        self.assertEqual(value('(a + b) * i'), Operation('mul', (Operation('add', (A, B)), I)))
        self.assertEqual(value('a >>> b >> i'), Operation('shr', (Operation('sar', (A, B)), I)))

    def test_operands(self):
        self.assertEqual(value('-~a'), Operation('neg', (Operation('not', (A,)),)))
        self.assertEqual(value('low(sext(a, 32), 0x10)'), Sized('low', Sized('sext', A, 32), 16))
        self.assertEqual(value('x[i + 1]'), Cell('x', Operation('add', (I, Number(1)))))

    def test_statements_and_numbers_of_trees(self):
        """A test's number is how many assignments and tests stand before it, where the step of a
        `for` stands behind its body."""
        source = read_source('var a, b, i; // declared\n'
                             'for i = 0 to 3 { if a < b { a = b; } else { b = a; } }\n'
                             'while i sgt 0 { i = i - 1; }')
        choice = If(Test(2, '<', A, B), (Assignment(A, B),), (Assignment(B, A),))
        step = Assignment(I, Operation('add', (I, Number(1))))
        down = Assignment(I, Operation('sub', (I, Number(1))))
        self.assertEqual(source.block, (
            Assignment(I, Number(0)), While(Test(1, '!=', I, Number(4)), (choice, step)),
            While(Test(6, 'sgt', I, Number(0)), (down,))))

    def test_declarations(self):
        source = read_source('var a, x[2]; var y[1]; a = 1;')
        self.assertEqual(source.lengths, {'a': 1, 'x': 2, 'y': 1})
        self.assertEqual(source.cells(), ['a', 'x[0]', 'x[1]', 'y'])

    def test_trees(self):
        """Those of tests are comparisons, which are 0 where `!=`, `<=` and `>=` hold."""
        source = read_source('var a, b, i, x[4]; if a sgt b { x[i] = a; } else { i = b; }\n'
                             'while a <= b { }')
        self.assertEqual(list(source.trees()),
                         [Operation('lts', (B, A)), A, I, B, Operation('ltu', (B, A))])
        tests = [source.block[0].test, source.block[1].test]
        self.assertEqual([test.is_opposite for test in tests], [False, True])
        for order, (word, is_turned, is_opposite) in {
                '==': ('eq', False, False), '!=': ('eq', False, True), '<': ('ltu', False, False),
                '>=': ('ltu', False, True), 'slt': ('lts', False, False),
                'sge': ('lts', False, True), 'sle': ('lts', True, True)}.items():
            test = Test(0, order, A, B)
            self.assertEqual(test.comparison, Operation(word, (B, A) if is_turned else (A, B)))
            self.assertEqual(test.is_opposite, is_opposite, order)

    def test_comparisons_are_tests(self):
        """A test holds where its tree is 1, or is 0 for an opposite order."""
        for first, order, second in itertools.product((0, 1, 0x8000), (*ORDERS, *SIGNED),
                                                      (0, 1, 0xFFFF)):
            run = Run(read_source('var a, b;'), 16, {'a': first, 'b': second})
            test = Test(0, order, A, B)
            self.assertEqual(run.holds(test), run.value(test.comparison, 16) != test.is_opposite,
                             (first, order, second))

    def test_faults(self):
        for text in ('var a; a = ;', 'var a; a = 1', 'var a; if a { }', 'var a; a = 1 + ;',
                     'a ? b', 'var a; a = (1;', 'var a; }', 'var a; for i = a to 3 { }'):
            with self.subTest(text=text), self.assertRaisesRegex(Fault, 'no program text: line 1'):
                read_source(text)

    def test_examples(self):
        """The trees of an example, with a test in a loop of a loop."""
        source = read_source(example('crc.src'))
        self.assertEqual(list(source.lengths), ['crc', 'poly', 'top', 'i', 'j', 'm'])
        outer = source.block[1]
        self.assertEqual((outer.test.tree, outer.block[2].test.tree), (1, 4))


class Running(unittest.TestCase):
    """Runs against such by hand."""

    def test_tests_in_order(self):
        tests, cells = ran('var a, i; for i = 0 to 1 { if a == i { a = a + 5; } }', a=1)
        self.assertEqual(tests, [(1, True), (2, False), (1, True), (2, True), (1, False)])
        self.assertEqual(cells, {'a': 6, 'i': 2})

    def test_values_wrap(self):
        self.assertEqual(ran('var a; a = a - 1;')[1], {'a': 65535})
        self.assertEqual(ran('var a; a = -a;', a=1)[1], {'a': 65535})
        self.assertEqual(ran('var a; a = ~5;')[1], {'a': 65530})

    def test_widths(self):
        text = 'var a, b; a = low(sext(a, 32) * sext(b, 32) >>> 15, 16);'
        self.assertEqual(ran(text, a=0x8000, b=0x4000)[1]['a'], 0xC000)
        self.assertEqual(ran('var a; a = low(zext(a, 32) << 16 >> 16, 16);', a=0xFFFF)[1]['a'],
                         0xFFFF)
        self.assertEqual(ran('var a; if zext(a, 32) + 1 == 0x10000 { a = 7; }', a=0xFFFF)[1]['a'],
                         7)

    def test_shifts(self):
        self.assertEqual(ran('var a; a = a >>> 1;', a=0x8000)[1]['a'], 0xC000)
        self.assertEqual(ran('var a; a = a << 16;', a=3)[1]['a'], 0)
        self.assertEqual(ran('var a; a = a >>> 99;', a=0x8000)[1]['a'], 0xFFFF)

    def test_orders(self):
        for order, holds in (('<', False), ('slt', True), ('>=', True), ('sge', False),
                             ('!=', True), ('sle', True), ('>', True), ('sgt', False)):
            tests, _ = ran(f'var a; if a {order} 1 {{ }}', a=0xFFFF)
            self.assertEqual(tests, [(0, holds)], order)

    def test_arrays(self):
        cells = ran('var i, x[3], y[1]; for i = 0 to 2 { x[i] = i * i; y[0] = x[i]; }')[1]
        self.assertEqual(cells, {'i': 3, 'x[0]': 0, 'x[1]': 1, 'x[2]': 4, 'y': 4})

    def test_endless(self):
        self.assertEqual(ran('var a; while a == a { }', tests=4)[0], [(0, True)] * 4)

    def test_as_random_programs(self):
        """The texts of random programs do what their trees do."""
        for seed in range(30):
            pick = random.Random(seed)
            program = Indexing(pick, ['+', '-', '*', '&', '|', '^'], True).program()
            text = program_text(['a', 'b', 'c', 'i', 'j', 'x[4]', 'y[5]'], program)
            start = {cell: pick.choice([0, 1, 2, pick.randrange(1 << 16)])
                     for cell in Indexing.cells()}
            run = Run(read_source(text), 16, dict(start))
            other = Interpreter(dict(start))
            for _ in zip(itertools.islice(run.tests(), 200), other.run(program)):
                self.assertEqual(run.cells, other.cells, text)


if __name__ == '__main__':
    unittest.main()
