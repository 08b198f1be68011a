"""Texts of code, states and patterns, and what patterns mean."""
import unittest

from rtn.checkpoints import Watch, read_checkpoint, read_checkpoints, store_after
from rtn.images import (Place, image_text, read_cells, read_image, read_settings, read_words)
from rtn.patterns import Meaning, read_expression, read_patterns
from rtn.random_programs import Assignment, Number, Test, Variable, While
from rtn.reading import Fault, read_netlist
from rtn.syntax import (Case, Constant, Extension, Name, Operation, Read, Row, Slice)

IMAGE = '''image 16 3
temps 2
place a 2 1
place x 3 2
tree 0 4
tree 1 2
mark 1 0
mark 2 end
word 0 0100 -
word 1 02ff 0,3
word 2 0602 7
done
'''
PATTERNS = '''mode 0
patterns 2
0 PC := add(PC,1#4) ; 00
1 M[slice(I,6,5)] := slice(I,4,0) ; 1f
done
mode 1
patterns 1
0 PC := slice(I,3,0) ; 80
done
'''
NETLIST = '''code I : 8 size 16 at PC; register PC : 4 in PC; register A : 8 in I;
    memory M : 8 size 3 addr 2 write A at I[1:0];'''


class Images(unittest.TestCase):
    """Images and memory texts."""

    def test_image(self):
        image = read_image(IMAGE)
        self.assertEqual((image.width, image.temporaries, image.costs), (16, 2, (4, 2)))
        self.assertEqual(image.places, (Place('a', 2, 1), Place('x', 3, 2)))
        self.assertEqual(image.cells(), {2: 'a', 3: 'x[0]', 4: 'x[1]'})
        self.assertEqual((image.marks, image.end), ({1: '0', 2: 'end'}, 2))
        self.assertEqual([word.number for word in image.words], [0x100, 0x2ff, 0x602])
        self.assertEqual([word.patterns for word in image.words], [(), (0, 3), (7,)])
        self.assertEqual([image.word(at) for at in (1, 2, 3)], [0x2ff, 0x602, 0])

    def test_writing(self):
        self.assertEqual(read_image(IMAGE).text, IMAGE)
        text = image_text(8, ['00', '1f'], 'place a 2 1', 'mark 1 end')
        self.assertEqual(read_image(text).text, text)

    def test_no_end(self):
        self.assertIsNone(read_image(image_text(8, ['00', '1f'])).end)

    def test_no_image(self):
        for text in ('', 'error no jump\n', IMAGE[:-1], IMAGE[:40], 'image 8\ndone\n'):
            with self.subTest(text=text), self.assertRaises(Fault):
                read_image(text)

    def test_words_of_a_self_test(self):
        words = list(read_words('tested 1\nskipped 0\nwords 2\nword 0 1f\nword 1 82\nfaults 0\n'))
        self.assertEqual([word.number for word in words], [0x1f, 0x82])

    def test_memory_text(self):
        self.assertEqual(list(read_settings('A 5\nM 3 7\n')), [('A', None, 5), ('M', 3, 7)])
        self.assertEqual(read_cells('cycles 4\nPC 1\nM 3 7\nMM 4 8\nM 1 9\ndone\n'), {3: 7, 1: 9})
        for text in ('A\n', 'A 1 2 3\n', 'A x\n', 'A  1\n'):
            with self.subTest(text=text), self.assertRaises(Fault):
                list(read_settings(text))


class Patterns(unittest.TestCase):
    """Patterns and their expressions."""

    def test_modes(self):
        modes = read_patterns(PATTERNS)
        self.assertEqual([[pattern.number for pattern in mode] for mode in modes], [[0, 1], [0]])
        store = modes[0][1]
        self.assertEqual((store.target, store.storage, store.word), ('M[slice(I,6,5)]', 'M', '1f'))
        self.assertEqual(store.address, Slice(Name('I'), 6, 5))
        self.assertEqual(store.value, Slice(Name('I'), 4, 0))
        self.assertIsNone(modes[0][0].address)

    def test_expressions(self):
        for text, due in (
                ('A', Name('A')), ('5#8', Constant(5, 8)),
                ('not(A)', Operation('not', (Name('A'),))),
                ('zext(A,9)', Extension(Name('A'), 9, False)),
                ('sext(A,9)', Extension(Name('A'), 9, True)),
                ('read(M,slice(I,1,0))', Read('M', Slice(Name('I'), 1, 0))),
                ('cat(A,1#1)', Operation('cat', (Name('A'), Constant(1, 1)))),
                ('select(A,1#1,0#1)', Case(Name('A'), (Row((1,), Constant(1, 1)),
                                                       Row((), Constant(0, 1)))))):
            self.assertEqual(read_expression(text), due, text)

    def test_no_expression(self):
        for text in ('frob(A)', 'A B', 'add(A,A))'):
            with self.subTest(text=text), self.assertRaises(Fault):
                read_expression(text)

    def test_meaning(self):
        meaning = Meaning(read_netlist(NETLIST))
        state = {'PC': 3, 'A': 200, 'M': {0: 7, 2: 255, 3: 9}}
        for text, due in (
                ('I', 0b01000010), ('slice(I,7,6)', 1), ('PC', 3), ('add(A,100#8)', 44),
                ('read(M,slice(I,1,0))', 255), ('read(M,1#2)', 0), ('read(M,3#2)', 0),
                ('sext(slice(A,7,4),8)', 0b11111100), ('zext(slice(A,7,4),8)', 0b00001100),
                ('sar(A,1#8)', 228), ('lts(A,1#8)', 1), ('cat(PC,PC)', 0x33),
                ('select(eq(PC,3#4),A,0#8)', 200), ('select(eq(PC,2#4),A,0#8)', 0)):
            self.assertEqual(meaning.value(read_expression(text), state, 0b01000010), due, text)


class Checkpoints(unittest.TestCase):
    """Checkpoints beside a program: `while a != 2 { a = 2; }`."""

    PROGRAM = [While(Test(1, '!=', Variable('a'), Number(2)),
                     [Assignment(Variable('a'), Number(2))])]
    RIGHT = 'at 1 0 a=1\nat 4 0 a=2\nat 6 end\nend\n'

    def differs(self, text: str, longest: int = 3, cycles: int = 100) -> str | None:
        watch = Watch(self.PROGRAM, {'a': 1}, longest)
        return watch.differs(*read_checkpoints(text), cycles)

    def test_reading(self):
        checkpoint = read_checkpoint('at 4 end a=2 x[1]=3')
        self.assertEqual((checkpoint.cycle, checkpoint.is_end), (4, True))
        self.assertEqual(store_after([checkpoint], ['a', 'b', 'x[1]']),
                         {'a': 2, 'b': 0, 'x[1]': 3})
        with self.assertRaises(Fault):
            read_checkpoints('error no jump\nno\n')

    def test_right(self):
        self.assertIsNone(self.differs(self.RIGHT))
        self.assertIsNone(self.differs('at 1 0 a=1\nbudget\n', cycles=3))

    def test_wrong(self):
        for text, told in (
                (self.RIGHT.replace('a=2', 'a=3'), "the store is {'a': 2}"),
                (self.RIGHT.replace('end\nend', 'end a=2\nend'), 'a was told before'),
                (self.RIGHT.replace('at 4', 'at 5'), 'the last was at 1'),
                (self.RIGHT.replace('at 4 0', 'at 4 1'), 'the test is 1'),
                (self.RIGHT.replace('6 end', '6 0'), 'the test is None'),
                (self.RIGHT.replace('6 end\nend', '6 end\nbudget'), 'budget after 6'),
                ('at 1 0 a=1\nbudget\n', 'budget after 1')):
            with self.subTest(text=text):
                self.assertIn(told, self.differs(text) or 'nothing')


if __name__ == '__main__':
    unittest.main()
