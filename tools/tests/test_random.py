"""The makers of random netlists and programs: one seed gives one text, and the texts are taken."""
import itertools
import pathlib
import random
import tempfile
import unittest

from rtn.clock import Clash, Netlist
from rtn.random_gates import Gates
from rtn.random_processors import Kind, random_processor
from rtn.random_programs import (Assignment, Element, For, If, Indexing, Interpreter, Maker, Number,
                                 Test, Two, Variable, While, assigned, program_text)
from rtn.reading import read_netlist
from rtn.syntax import Memory, Register
from tests.support import needs_record, record

SEEDS = range(12)
ACCEPTED = ('patterns ', 'mode 0', 'error net N10 ', 'error net N12 ', 'error net N13 ')


def gates(seed: int) -> Gates:
    return Gates(random.Random(seed), with_file=seed % 3 == 2)


class Determinism(unittest.TestCase):
    """One seed gives one text, and several give several."""

    def test_gates(self):
        def texts(seed: int) -> tuple[str, str, str]:
            made = gates(seed)
            return made.text(), made.image(), made.memory()

        self.assertEqual([texts(seed) for seed in SEEDS], [texts(seed) for seed in SEEDS])
        self.assertEqual(len({texts(seed) for seed in SEEDS}), len(SEEDS))

    def test_processors(self):
        for kind in Kind:
            made = [[random_processor(random.Random(seed), kind) for seed in SEEDS]
                    for _ in range(2)]
            self.assertEqual(made[0], made[1])
            self.assertEqual(len({processor.text for processor in made[0]}), len(SEEDS))

    def test_programs(self):
        for make in (Maker, lambda pick, signs: Indexing(pick, signs, True)):
            made = [[make(random.Random(seed), ['+', '-', '&']).program() for seed in SEEDS]
                    for _ in range(2)]
            self.assertEqual(made[0], made[1])


class Readable(unittest.TestCase):
    """The texts are netlists that can be clocked."""

    def test_gates(self):
        for seed in SEEDS:
            made = gates(seed)
            netlist = Netlist(made.text())
            try:
                netlist.clock(netlist.zeros(), made.number(made.word_width))
            except Clash:
                pass

    def test_processors(self):
        for kind in Kind:
            for seed in SEEDS:
                made = random_processor(random.Random(seed), kind)
                netlist = Netlist(made.text)
                self.assertEqual(netlist.clock(netlist.zeros(), 0)['PC'] in range(256), True)
                self.assertLessEqual(set(made.registers), set(netlist.registers))

    def test_kinds(self):
        """Each kind has what it is called after."""
        for seed in SEEDS:
            texts = {kind: random_processor(random.Random(seed), kind).text for kind in Kind}
            items = {kind: read_netlist(text) for kind, text in texts.items()}
            arrays = {kind: sorted(item.array.value for item in found if isinstance(item, Memory))
                      for kind, found in items.items()}
            self.assertEqual(arrays, {Kind.PLAIN: ['memory'], Kind.FILE: ['file', 'memory'],
                                      Kind.MODE: ['memory'], Kind.WIDE: ['memory'],
                                      Kind.BANK: ['bank', 'memory']})
            registers = [item for item in items[Kind.MODE] if isinstance(item, Register)]
            self.assertEqual([item.name for item in registers if item.is_mode], ['S'])
            self.assertGreater(next(item.width for item in items[Kind.WIDE]
                                    if isinstance(item, Register)), 16)


@needs_record
class Accepted(unittest.TestCase):
    """The program takes the texts: it breaks off at a bound of their patterns at most."""

    def extracted(self, text: str) -> str:
        with tempfile.TemporaryDirectory() as folder:
            path = pathlib.Path(folder) / 'n.rtn'
            path.write_text(text)
            return record()('extract', path).line

    def test_processors(self):
        for kind in Kind:
            for seed in SEEDS:
                line = self.extracted(random_processor(random.Random(seed), kind).text)
                self.assertRegex(line, '^(patterns|mode) ', f'{kind} {seed}')

    def test_gates(self):
        for seed in SEEDS:
            self.assertTrue(self.extracted(gates(seed).text()).startswith(ACCEPTED), seed)


class Programs(unittest.TestCase):
    """The texts of programs, and the interpreter against runs by hand."""

    A, I = Variable('a'), Variable('i')

    def run_program(self, *program, tests: int = 100, **cells: int) -> tuple[list[int], dict]:
        """The numbers of the tests, and the store at the end."""
        interpreter = Interpreter(cells)
        numbers = list(itertools.islice(interpreter.run(program), tests))
        return numbers, interpreter.cells

    def test_texts(self):
        test = Test(1, '<', self.A, Number(3))
        add = Assignment(self.A, Two('+', self.A, Number(1)))
        put = Assignment(Element('x', self.I), Number(0))
        self.assertEqual(
            program_text(['a', 'i', 'x[4]'], [If(test, [add], None), While(test, []),
                                              If(test, [], [put]), For('i', 2, 0, 3, [put])]),
            'var a, i, x[4];\n'
            'if a < 3 { a = (a + 1); }\n'
            'while a < 3 {  }\n'
            'if a < 3 {  } else { x[i] = 0; }\n'
            'for i = 0 to 3 { x[i] = 0; }\n')

    def test_assigned(self):
        put = Assignment(Element('x', self.I), Number(0))
        test = Test(1, '==', self.A, self.A)
        self.assertEqual(set(assigned([For('i', 2, 0, 3, [If(test, [], [put])])])), {'i', 'x'})
        self.assertEqual(set(assigned([While(test, [Assignment(self.A, self.I)])])), {'a'})

    def test_values_wrap(self):
        less = Assignment(self.A, Two('-', self.A, Number(1)))
        self.assertEqual(self.run_program(less, a=0), ([], {'a': 65535}))
        twice = Assignment(self.A, Two('*', self.A, Number(2)))
        self.assertEqual(self.run_program(twice, a=32769), ([], {'a': 2}))

    def test_orders(self):
        for order, due in (('<', 0), ('slt', 1), ('>=', 1), ('sge', 0), ('!=', 1), ('sle', 1)):
            test = If(Test(1, order, self.A, Number(1)), [Assignment(self.I, Number(1))], None)
            self.assertEqual(self.run_program(test, a=65535, i=0)[1]['i'], due, order)

    def test_loop(self):
        total = Assignment(self.A, Two('+', self.A, Element('x', self.I)))
        cells = {'a': 0, 'i': 7, 'x[0]': 5, 'x[1]': 6}
        interpreter = Interpreter(cells)
        self.assertEqual(list(interpreter.run([For('i', 4, 0, 1, [total])])), [4, 4, 4])
        self.assertEqual((cells['a'], cells['i']), (11, 2))

    def test_while(self):
        down = While(Test(1, '!=', self.A, Number(0)),
                     [Assignment(self.A, Two('-', self.A, Number(1)))])
        self.assertEqual(self.run_program(down, a=3), ([1, 1, 1, 1], {'a': 0}))
        endless = While(Test(1, '==', self.A, self.A), [])
        self.assertEqual(self.run_program(endless, tests=5, a=0)[0], [1] * 5)

    def test_indexes_stay_within(self):
        """Elements at computed places never leave their arrays."""
        for seed in range(40):
            program = Indexing(random.Random(seed), ['+', '-', '&'], True).program()
            interpreter = Interpreter({cell: seed * k % 9 for k, cell in
                                       enumerate(Indexing.cells())})
            for _ in itertools.islice(interpreter.run(program), 200):
                pass


if __name__ == '__main__':
    unittest.main()
