"""The reader of netlist texts: each construct, and where it refuses a text."""
import unittest

from rtn.reading import Fault, read_netlist
from rtn.syntax import (Array, Bus, Case, Code, Constant, Driver, Extension, Link, Memory, Module,
                        Name, Net, Operation, Output, Part, Port, Read, Register, Row, Slice)
from tests.support import EXAMPLES

A, PC = Name('A'), Name('PC')


def expression(text: str):
    """The tree of an expression."""
    return read_netlist(f'net x : 8 = {text};')[0].value


class Expressions(unittest.TestCase):
    """Each kind of expression."""

    def check(self, text: str, due) -> None:
        self.assertEqual(expression(text), due)

    def test_names(self):
        self.check('A', A)
        self.check('p.y', Output('p', 'y'))

    def test_constants(self):
        self.check('5#8', Constant(5, 8))
        self.check('0xFf#8', Constant(255, 8))
        self.check('007#3', Constant(7, 3))

    def test_slices(self):
        self.check('A[7:4]', Slice(A, 7, 4))
        self.check('A[7]', Slice(A, 7, 7))
        self.check('p.y[0]', Slice(Output('p', 'y'), 0, 0))
        self.check('slice(not(A), 7, 4)', Slice(Operation('not', (A,)), 7, 4))

    def test_extensions(self):
        self.check('zext(A, 16)', Extension(A, 16, False))
        self.check('sext(A, 16)', Extension(A, 16, True))

    def test_operators(self):
        self.check('neg(A)', Operation('neg', (A,)))
        self.check('sub(A, PC)', Operation('sub', (A, PC)))
        self.check('cat(A, 1#1)', Operation('cat', (A, Constant(1, 1))))

    def test_read(self):
        self.check('read(M, A)', Read('M', A))

    def test_case(self):
        self.check('case A { 0: PC; 1, 2: A; else: 3#8; }',
                   Case(A, (Row((0,), PC), Row((1, 2), A), Row((), Constant(3, 8)))))
        self.check('case A { else: PC; }', Case(A, (Row((), PC),)))
        self.check('case A { 1: PC; }', Case(A, (Row((1,), PC),)))

    def test_blanks_and_remarks(self):
        self.check('add( // a remark; with {signs}\n\tA,\r\n PC )', Operation('add', (A, PC)))

    def test_sixty_four_levels(self):
        deepest = 'not(' * 64 + 'A' + ')' * 64
        self.assertEqual(expression(deepest).word, 'not')
        with self.assertRaises(Fault):
            expression(f'not({deepest})')


class Items(unittest.TestCase):
    """Each kind of item."""

    def check(self, text: str, *due) -> None:
        self.assertEqual(read_netlist(text), list(due))

    def test_code(self):
        self.check('code I : 8 size 16 at PC;', Code('I', 8, 16, 'PC'))

    def test_registers(self):
        self.check('register A : 4 in PC;', Register('A', 4, PC, None))
        self.check('register A : 4 in PC when A[0];', Register('A', 4, PC, Slice(A, 0, 0)))

    def test_memory(self):
        self.check('memory M : 5 size 4 addr 2 write A at PC;',
                   Memory(Array.MEMORY, 'M', 5, 4, 2, A, PC, None))
        self.check('memory M : 5 size 4 addr 2 write A at PC when A;',
                   Memory(Array.MEMORY, 'M', 5, 4, 2, A, PC, A))

    def test_file(self):
        self.check('version 2; file F : 5 size 4 addr 2 write A at PC when A;',
                   Memory(Array.FILE, 'F', 5, 4, 2, A, PC, A))

    def test_mode(self):
        self.check('version 3; mode W : 1 in A when PC;', Register('W', 1, A, PC, is_mode=True))
        self.check('version 3; mode W : 1 in A;', Register('W', 1, A, None, is_mode=True))

    def test_bank(self):
        zeros = Constant(0, 5), Constant(0, 2), Constant(0, 1)
        self.check('version 4; bank N : 5 size 4 addr 2;',
                   Memory(Array.BANK, 'N', 5, 4, 2, *zeros))
        self.check('version 4; bank N : 5 size 4 addr 2 write A at PC;',
                   Memory(Array.BANK, 'N', 5, 4, 2, A, PC, None))

    def test_net_and_bus(self):
        self.check('net x : 8 = A;', Net('x', 8, A))
        self.check('bus B : 8 { A when PC; PC when A; }',
                   Bus('B', 8, (Driver(A, PC), Driver(PC, A))))

    def test_module_and_part(self):
        self.check('module M (in a : 4, out y : 2) { y = A; }',
                   Module('M', (Port('a', 4, True), Port('y', 2, False)), (Link('y', A),)))
        self.check('part p : M (a = A, b = PC);',
                   Part('p', 'M', (Link('a', A), Link('b', PC))))
        self.check('part p : M ();', Part('p', 'M', ()))

    def test_words_of_editions_are_names_elsewhere(self):
        self.check('net file : 1 = version;', Net('file', 1, Name('version')))
        self.check('version 2; net mode : 1 = bank;', Net('mode', 1, Name('bank')))

    def test_examples(self):
        for path in EXAMPLES.glob('*.rtn'):
            items = read_netlist(path.read_text())
            self.assertEqual(sum(isinstance(item, Code) for item in items), 1, path.name)


# A text that isn't of the grammar, with the byte and the word of its fault.
FAULTS = (
    ('', 0, 'the end'), ('   ', 3, 'the end'), ('// nothing', 10, 'the end'),
    ('wire x;', 0, '"wire"'), ('net : 8 = A;', 4, '":"'), ('net x 8 = A;', 6, '"8"'),
    ('net x : 8 = A', 13, 'the end'), ('net x : 8 = A;;', 14, '";"'),
    ('net x : 8 = ;', 12, '";"'), ('net x : 8 = 5;', 13, '";"'), ('net x : 8 = 5#;', 14, '";"'),
    ('net x : 8 = add(A);', 17, '")"'), ('net x : 8 = not(A, A);', 17, '","'),
    ('net x : 8 = frob(A);', 16, '"("'), ('net x : 8 = read(5#1, A);', 17, '"5"'),
    ('net x : 8 = A[3;', 15, '";"'), ('net x : 8 = A[B];', 14, '"B"'),
    ('net x : 8 = case A { };', 21, '"}"'), ('net x : 8 = case A { 0, : A; };', 24, '":"'),
    ('net x : 8 = case A { else: A; 0: A; };', 30, '"0"'),
    ('net add : 8 = A;', 4, '"add"'), ('net x : 8 = 12ab#8;', 12, '"1"'),
    ('net x : 8 = 0x#8;', 12, '"0"'), (f'net {"n" * 33} : 8 = A;', 4, f'"{"n" * 33}"'),
    ('net x : 18446744073709551616 = A;', 8, '"18446744073709551616"'),
    ('net x : 8 = A $ B;', 14, '"$"'), ('bus B : 8 { }', 12, '"}"'),
    ('bus B : 8 { A; }', 13, '";"'), ('module M () { }', 10, '")"'),
    ('module M (inout a : 1) { }', 10, '"inout"'), ('part p : M (a = A,);', 18, '")"'),
    ('part p : M (a, b);', 13, '","'), ('memory M : 5 size 4 addr 2;', 26, '";"'),
    ('file F : 5 size 4 addr 2 write A at PC;', 0, '"file"'),
    ('version 1; net x : 1 = A;', 8, '"1"'), ('version 5; net x : 1 = A;', 8, '"5"'),
    ('version; net x : 1 = A;', 7, '";"'), ('version 2;', 10, 'the end'),
    ('version 2; mode W : 1 in A;', 11, '"mode"'), ('version 2; net file : 1 = A;', 15, '"file"'),
    ('version 2; version 2;', 11, '"version"'), ('net x : 8 = \u00e9;', 12, '"\u00e9"'),
)


class Faults(unittest.TestCase):
    """Texts that aren't of the grammar."""

    def test_places(self):
        for text, byte, word in FAULTS:
            with self.subTest(text=text), self.assertRaises(Fault) as caught:
                read_netlist(text)
            line = text.count('\n', 0, byte) + 1
            self.assertEqual(str(caught.exception),
                             f'no netlist text: byte {byte}, line {line}, at {word}')

    def test_line(self):
        with self.assertRaisesRegex(Fault, 'line 3, at "="'):
            read_netlist('net x : 8 = A;\n// a remark\nnet y = A;')

    def test_fronts_of_a_text(self):
        """No front of a good text ends in anything but a Fault, or in fewer items."""
        text = (EXAMPLES / 'pair.rtn').read_text()
        whole = len(read_netlist(text))
        for length in range(len(text)):
            try:
                self.assertLessEqual(len(read_netlist(text[:length])), whole)
            except Fault:
                pass


if __name__ == '__main__':
    unittest.main()
