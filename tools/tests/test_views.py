"""Guesses of marks and views: the terms that have the values of samples, and what is accepted."""
import pathlib
import re
import unittest

from rtn.images import Place
from rtn.operators import mask
from rtn.runs import texts_of
from rtn.sources import read_source
from tests.support import EXAMPLES, RECORD, InFolder, blocks_of, needs_record, run_here
from viewing.relations import Term, plus, terms_for, variables
from viewing.trees import Trees

A16, RR4 = EXAMPLES / 'a16.rtn', EXAMPLES / 'rr4.rtn'
SOURCE, WORDS = (EXAMPLES / 'checked' / name for name in ('down.src', 'down.a16.asm'))
EXCEPTION = '''.temps 3
.place a 3 1
        ACC := zext(slice(I,7,0),16) with 7:0=200
        M[slice(I,7,0)] := ACC with 7:0=1
        ACC := zext(slice(I,7,0),16) with 7:0=1
        M[slice(I,7,0)] := ACC with 7:0=0
        ACC := read(M,slice(I,7,0)) with 7:0=a
        ACC := sub(ACC,read(M,slice(I,7,0))) with 7:0=1
        PC := select(eq(ACC,0#16),slice(I,7,0),add(PC,1#8)) with 7:0=end
        ACC := read(M,slice(I,7,0)) with 7:0=a
loop:   PC := select(eq(ACC,0#16),slice(I,7,0),add(PC,1#8)) with 7:0=out
        ACC := sub(ACC,read(M,slice(I,7,0))) with 7:0=0
        PC := slice(I,7,0) with 7:0=loop
out:    M[slice(I,7,0)] := ACC with 7:0=a
end:    PC := slice(I,7,0) with 7:0=end
'''
UPWARDS = '''.temps 7
.place s 7 1
.place i 8 1
.place x 9 8
.place y 17 8
        R1 := sext(slice(I,9,0),16) with 9:0=0
        R0 := R1
loop:   R2 := read(M,slice(add(R0,zext(slice(I,7,0),16)),7,0)) with 7:0=x
        R3 := read(M,slice(add(R0,zext(slice(I,7,0),16)),7,0)) with 7:0=y
        R2 := mul(R2,R3)
        R1 := add(R1,R2)
        R0 := add(R0,sext(slice(I,9,0),16)) with 9:0=1
        R2 := sext(slice(I,9,0),16) with 9:0=8
        PC := select(eq(R0,R2),add(PC,1#9),slice(I,8,0)) with 8:0=loop
        M[slice(I,7,0)] := R1 with 7:0=s
end:    PC := slice(I,8,0) with 8:0=end
'''


class Terms(unittest.TestCase):
    """Terms by their values."""

    def test_kinds(self):
        terms = [Term('A', 4, (1, 2, 3)), Term('B', 4, (15, 14, 13))]
        self.assertEqual(terms_for((1, 2, 3), 4, terms), ['A', 'sub(0#4,B)'])
        self.assertEqual(terms_for((3, 4, 5), 4, terms), ['add(A,2#4)', 'sub(2#4,B)'])
        self.assertEqual(terms_for((0, 1, 2), 4, terms), ['sub(A,1#4)', 'sub(15#4,B)'])
        self.assertEqual(terms_for((9, 8, 7), 4, terms), ['sub(B,6#4)', 'sub(10#4,A)'])
        self.assertEqual(terms_for((5, 5, 5), 4, terms), ['5#4'])
        self.assertEqual(terms_for((1, 2, 4), 4, terms), [])

    def test_widths(self):
        wide = Term('A', 8, (0x1e, 0x2f))
        self.assertEqual(terms_for((0xe, 0xf), 4, [wide])[0], 'slice(A,3,0)')
        self.assertEqual(terms_for((1, 2), 4, [wide])[0], 'slice(A,7,4)')
        narrow = Term('A', 4, (0x7, 0xe))
        self.assertEqual(terms_for((0x7, 0xe), 8, [narrow]), ['zext(A,8)'])
        self.assertEqual(terms_for((0x7, 0xfe), 8, [narrow]), ['sext(A,8)'])

    def test_sums(self):
        self.assertEqual(plus('A', 3, 16), 'add(A,3#16)')
        self.assertEqual(plus('A', mask(16), 16), 'sub(A,1#16)')

    def test_elements(self):
        places = [Place('x', 4, 3), Place('i', 7, 1)]
        stores = [{'i': at, 'x[0]': 5, 'x[1]': 6, 'x[2]': 9} for at in (1, 2)]
        found = {term.text: term.values for term in variables(places, 16, stores)}
        self.assertEqual(found, {'i': (1, 2), 'read(x,i)': (6, 9), 'read(x,sub(i,1#16))': (5, 6)})


class OfStatements(unittest.TestCase):
    """Terms that statements compute."""

    STORE = {'s': 1, 'i': 1, 'x[0]': 3, 'x[1]': 5, 'x[2]': 7, 'y[0]': 0, 'y[1]': 0, 'y[2]': 2}

    def terms(self, text: str = 's = s + x[i] * y[2];', **changes: int) -> dict[str, Term]:
        trees = Trees(read_source(f'var s, i, x[3], y[3]; {text}'), 16)
        return {term.text: term for term in trees.terms([self.STORE | changes])}

    def test_parts_and_turns(self):
        found = {text: term.values for text, term in self.terms().items()}
        self.assertEqual(found['mul(read(x,i),read(y,2#16))'], (10,))
        self.assertEqual(found['mul(read(x,sub(i,1#16)),read(y,2#16))'], (6,))
        self.assertEqual(found['mul(read(x,add(i,1#16)),read(y,2#16))'], (14,))
        self.assertEqual(found['add(s,mul(read(x,i),read(y,2#16)))'], (11,))
        self.assertEqual(found['read(x,i)'], (5,))
        self.assertNotIn('read(y,2#16)', found)

    def test_elements_at_computed_places(self):
        found = {text: term.values for text, term in self.terms('s = x[2 - i] * 3;').items()}
        self.assertEqual(found['read(x,sub(2#16,i))'], (5,))
        self.assertEqual(found['read(x,sub(2#16,sub(i,1#16)))'], (7,))

    def test_outside_an_array(self):
        found = self.terms(i=0)
        self.assertIn('mul(read(x,i),read(y,2#16))', found)
        self.assertNotIn('mul(read(x,sub(i,1#16)),read(y,2#16))', found)

    def test_widths(self):
        """Wide operators, indices and tests, whose trees are one bit."""
        found = self.terms('x[i + 1] = low(zext(s, 32) * 3 >> 1, 16);')
        self.assertEqual(found['mul(zext(s,32),3#32)'], Term('mul(zext(s,32),3#32)', 32, (3,)))
        self.assertEqual(found['add(i,1#16)'].values, (2,))
        for test, text, value in (('s != i', 'eq(s,i)', 1), ('s sgt i', 'lts(i,s)', 0),
                                  ('s >= 2', 'ltu(s,2#16)', 1), ('s <= i', 'ltu(i,s)', 0)):
            found = self.terms(f'while {test} {{ }}')
            self.assertEqual(found[text], Term(text, 1, (value,)))


@needs_record
class Guesses(InFolder):
    """Guesses by the program."""

    def accepted(self, netlist: pathlib.Path, source: pathlib.Path, words: str, *more) -> str:
        """The kernel that is printed for words, which `check` takes again."""
        path = self.file('words', words)
        run = run_here('views.py', RECORD, netlist, source, path, '--runs', 4, *more)
        self.assertEqual((run.returncode, run.stderr), (0, ''))
        kernel = self.file('found.kernel', run.stdout)
        run = run_here('kernel.py', RECORD, netlist, kernel, '--check', source)
        self.assertEqual((run.returncode, run.stderr), (0, ''))
        return kernel.read_text()

    def test_an_assembler_text(self):
        """Without places the variables stand where `compile` has them."""
        kernel = self.accepted(A16, SOURCE, WORDS.read_text())
        self.assertRegex(kernel, r'(?m)^\.mark 0\n\.view a ACC$')
        self.assertIn('.hold M[0] 1#16\n', kernel)
        self.assertIn('.place a 3 1\n', kernel)

    def test_the_page(self):
        """What docs/DESIGNING.md says of its kernel."""
        blocks = blocks_of('DESIGNING.md')
        text = next(block for block in blocks if block.startswith('// a counts down'))
        due = next(block for block in blocks if block.startswith('test0:'))
        bare = re.sub(r'(?m)^\.(mark|view|hold) .*\n', '', text)
        self.assertIn(due, self.accepted(A16, SOURCE, bare))

    def test_code_by_hand(self):
        """Registers of which a view has several, places that keep something else behind a mark, and
        no hint that isn't needed."""
        for name, *hidden in (('dot.xy', 'i'), ('dot.c10w', 'i'), ('crc.xy', 'i', 'j')):
            with self.subTest(name=name):
                path = EXAMPLES / 'hand' / f'{name}.kernel'
                texts = texts_of(path)
                hiding = [word for variable in hidden for word in ('--hide', variable)]
                kernel = self.accepted(texts.netlist, texts.source, path.read_text(), *hiding)
                for hint in re.findall(r'(?m)^\.(?:hold|know) .*\n', kernel):
                    self.file('less.kernel', kernel.replace(hint, '', 1))
                    run = run_here('kernel.py', RECORD, texts.netlist, self.folder / 'less.kernel',
                                   '--check', texts.source)
                    self.assertEqual(run.returncode, 1, hint)

    def test_a_test_before_the_loop(self):
        """The first test of a loop is at another word, and the counter isn't stored."""
        kernel = self.accepted(RR4, EXAMPLES / 'dot.src', UPWARDS, '--hide', 'i')
        self.assertEqual(len(re.findall(r'(?m)^\.mark 2$', kernel)), 2)
        self.assertRegex(kernel, r'(?m)^\.view s R1\n\.view i R0$')
        self.assertEqual(re.findall(r'(?m)^\.hide .*$', kernel), ['.hide end i'])

    def refused(self, netlist: pathlib.Path, source: pathlib.Path, words: str, *more) -> str:
        """What is told of words for which nothing is accepted."""
        run = run_here('views.py', RECORD, netlist, source, self.file('words', words), '--runs', 4,
                       *more)
        self.assertEqual((run.returncode, run.stdout), (1, ''))
        return run.stderr

    def test_wrong_words(self):
        """What no guess makes right is refused, and nothing is hidden that isn't named."""
        source = EXAMPLES / 'dot.src'
        self.assertEqual(self.refused(RR4, source, UPWARDS),
                         "views: i isn't in its place at the end, and may not be hidden\n")
        self.assertEqual(self.refused(RR4, source, UPWARDS, '--hide', 'n'),
                         'views: no variable is called n\n')
        wrong = UPWARDS.replace('mul(R2,R3)', 'add(R2,R3)')
        self.assertEqual(self.refused(RR4, source, wrong, '--hide', 'i'),
                         "views: s isn't in its place at the end, and may not be hidden\n")

    def test_texts_that_are_refused(self):
        """What `check` says of places and of the program comes before any guess."""
        words = WORDS.read_text()
        self.assertEqual(self.refused(A16, SOURCE, f'.place b 3 1\n{words}'),
                         'views: error place a\n')
        self.assertEqual(self.refused(A16, SOURCE, f'.place a 300 1\n{words}'),
                         'views: error place a\n')
        source = self.file('unknown.src', 'var a; while b != 0 { a = 1; }\n')
        self.assertEqual(self.refused(A16, source, f'.place a 3 1\n{words}'),
                         'views: error source S2 Unknown 13\n')

    def test_the_segment_that_is_refused(self):
        """These words are wrong where a begins with 200 alone: -o has the guess."""
        output = self.folder / 'guess'
        told = self.refused(A16, SOURCE, EXCEPTION, '--ask', 9, '-o', output)
        self.assertRegex(told, r'\Aviews: error follow start .*\n\Z')
        self.assertRegex(output.read_text(), r'(?m)^\.mark 0\n\.view a ACC$')

    def test_no_guess(self):
        run = run_here('views.py', RECORD, A16, SOURCE,
                       self.file('never', 'PC := slice(I,7,0) with 7:0=0\n'), '--hide', 'a')
        self.assertEqual((run.returncode, run.stdout), (1, ''))
        self.assertRegex(run.stderr, r'\Aviews: no words can have the marks')


if __name__ == '__main__':
    unittest.main()
