"""Kernels: what is read of their lines, at which line a fault is told, and that an image becomes a
kernel and the same image again."""
import pathlib
import re
import unittest

from rtn.kernel_texts import kernel_of
from rtn.kernels import Kernel, KernelFault, Processor, line_at, plain
from tests.support import (EXAMPLES, RECORD, InFolder, blocks_of, example, needs_record, record,
                           run_here)

A16 = EXAMPLES / 'a16.rtn'
SOURCE, IMAGE = EXAMPLES / 'checked' / 'down.src', example('checked/down.a16.img')
DOWN = '''// a counts down in ACC, and cell 0 holds 1
.temps 3
.place a 3 1
        ACC := zext(slice(I, 7, 0), 16) with 7:0 = 1
        M[slice(I,7,0)]:=ACC with 7:0=0
        ACC := read(M, slice(I,7,0)) with 7:0=a
loop:
.mark 0
.view a ACC
.hold M[0] 1#16
        PC := select(eq(ACC,0#16), slice(I,7,0), add(PC,1#8)) with 7:0=out
        ACC := sub(ACC, read(M, slice(I,7,0))) with 7:0=0
        PC := slice(I,7,0) with 7:0=loop
out:    M[slice(I,7,0)] := ACC with 7:0=a   // a goes to its place
end:
.mark end
        PC := slice(I,7,0) with 7:0=end
'''
PATTERNS = '''patterns 3
0 PC := slice(I,7,0) ; 0600
1 PC := add(PC,1#8) ; 0000
2 ACC := read(M,slice(I,7,0)) ; 0100
done
'''


def kernel(text: str, patterns: str = PATTERNS) -> Kernel:
    """A kernel for a16 that is read without a program."""
    return Kernel(pathlib.Path('k'), text, Processor(A16.read_text(), patterns))


class Lines(unittest.TestCase):
    """What is read of a kernel, and what `asm` is given."""

    def test_space_and_remarks(self):
        self.assertEqual(plain('  A:=add ( A , 1#16 )&B := C   with 7:0=1 // so'),
                         'A := add(A,1#16) & B := C with 7:0=1')
        self.assertEqual(plain('.hold M[0]  sub( i, 1#16 )'), '.hold M[0] sub(i,1#16)')
        self.assertEqual(plain(' // nothing'), '')

    def test_words(self):
        lines = {
            'ACC := read(M,slice(I,7,0))': 'PC := add(PC,1#8) & ACC := read(M,slice(I,7,0))',
            'PC := PC & ACC := X with 3:0=2': 'ACC := X with 3:0=2',
            'PC := PC': 'keep', 'PC := PC with 1:0=1': 'keep with 1:0=1', 'keep': 'keep',
            'raw 0501 wants 3': 'raw 0501', 'with 7:0=3': 'PC := add(PC,1#8) with 7:0=3',
            'PC := X wants 1,2': 'PC := X'}
        for line, asked in lines.items():
            self.assertEqual(kernel(line).asm_lines(), [asked], line)
        self.assertEqual([word.patterns for word in kernel('raw 00\nraw 00 wants 1,2').words],
                         [(), (1, 2)])

    def test_no_step(self):
        """Where the counter goes on in no known way, a line stays as it is."""
        only = '\n'.join(line for line in PATTERNS.split('\n') if 'add(PC' not in line)
        self.assertEqual(kernel('ACC := X', only).asm_lines(), ['ACC := X'])
        other = PATTERNS.replace('add(PC,1#8)', 'add(1#8,PC)')
        self.assertEqual(kernel('ACC := X', other).asm_lines(), ['PC := add(1#8,PC) & ACC := X'])

    def test_values(self):
        head = '.place s 5 1\n.place x 6 4\nfirst: keep\nsecond:\n'
        values = {'s': 5, 'x': 6, 'x[3]': 9, 'first': 0, 'second': 1, 'here': 1, 'x[3]-s+2': 6,
                  'first-here': 255, '-128': 128, '255': 255, '0': 0}
        for value, number in values.items():
            line = kernel(f'{head}PC := X with 7:0={value}').asm_lines()[1]
            self.assertEqual(line, f'PC := X with 7:0={number}', value)

    def test_faults(self):
        faults = {
            '.temps': 1, '.temps x': 1, '.temps 01': 1, '.place a 1': 1, '.nothing 3': 1,
            '.place a 1 1\n.place a 2 1': 2, 'a: a: keep': 1, 'here: keep': 1,
            'keep\n.mark 2\n': 2, 'keep\nend:': 2, '.mark 1\n.mark 2\nkeep': 2, '.mark x\nkeep': 1,
            '.view a ACC\nkeep': 1, '\n.know a 1\nkeep': 2, '.hold Q 1#16\nkeep': 1,
            '.hold Q[1] 1#16\nkeep': 1, '.place a 1 1\n.hide 1 a\nkeep': 2, '.hide x a': 1,
            '.place a 1 1\n.know a x\nkeep': 2, 'keep wants x': 1, 'keep wants 1,': 1}
        for text, line in faults.items():
            with self.subTest(text=text), self.assertRaisesRegex(KernelFault, f'^k:{line}: '):
                kernel(text)

    def test_faults_of_fields(self):
        for field in ('7:0', '7=1', '7:0=', '7:0=b', '7:0=256', '7:0=-129', '0:7=1', '7:0=a[1]',
                      '12:0=1', '99999999999:0=1', '7:0=' + '9' * 5000, '7:0=x[2]', '7:0=1+',
                      '7:0=1x', '7:0=both', '7:0=here[0]', '7:0=1[0]'):
            text = f'.place a 1 1\n.place x 2 2\n.place both 4 1\nboth:\nPC := X with {field}'
            with self.subTest(field=field), self.assertRaisesRegex(KernelFault, '^k:5: '):
                kernel(text).asm_lines()

    def test_lines_of_bytes(self):
        lines = ['ab', '', 'é']
        self.assertEqual([line_at(lines, at) for at in range(8)], [0, 0, 0, 1, 2, 2, 2, 3])
        self.assertEqual(line_at([], 0), 0)

    def test_nearest_transfer(self):
        processor = Processor(A16.read_text(), PATTERNS)
        self.assertIsNone(processor.unknown(['PC := add(PC,1#8)']))
        self.assertEqual(processor.unknown(['PC := add(PC,1#8)', 'ACC := PC']),
                         'no transfer ACC := PC; the nearest is ACC := read(M,slice(I,7,0))')


@needs_record
class Images(InFolder):
    """Kernels by the program."""

    def made(self, text: str, *words):
        """What kernel.py does with a kernel's text on a16."""
        return run_here('kernel.py', RECORD, A16, self.file('down.kernel', text), *words)

    def again(self, netlist: pathlib.Path, image: str) -> tuple[str, str]:
        """An image as a kernel, and the image of that."""
        text = kernel_of(record(), netlist, image)
        processor = Processor.at(record(), netlist)
        lines = Kernel(pathlib.Path('k'), text, processor).image(record(), netlist)
        return text, ''.join(f'{told.text}\n' for told in lines)

    def test_an_image(self):
        run = self.made(DOWN)
        self.assertEqual((run.returncode, run.stdout, run.stderr), (0, IMAGE, ''))
        run = self.made(DOWN, '-o', self.folder / 'down.img')
        self.assertEqual((run.returncode, run.stdout, run.stderr), (0, '', ''))
        self.assertEqual((self.folder / 'down.img').read_text(), IMAGE)

    def test_check(self):
        run = self.made(DOWN, '--check', SOURCE, '-o', self.folder / 'down.img')
        self.assertEqual((run.returncode, run.stderr), (0, ''))
        self.assertRegex(run.stdout, r'\Afollowed 2\n(.*\n)*mark 3 0 3 3\ndone\n\Z')
        self.assertEqual((self.folder / 'down.img').read_text(), IMAGE)

    def test_refusals(self):
        """Each with the line of the kernel."""
        changes = [('.hold M[0] 1#16\n', '', 8, 'error follow 3 0 var a'),
                   ('=loop', '=lop', 13, 'no label and no variable is called lop'),
                   ('sub(ACC, read', 'sub(read', 12, 'no transfer ACC := sub'),
                   ('with 7:0=loop', 'with 8:0=511', 13, 'no word does this: PC := slice'),
                   ('.place a 3 1', '.place a 255 1\n.place b 1 1', 4, 'error place b'),
                   ('M[0] 1#16', 'M[0] 1#8', 10, 'error image text 181: hold 3 M[0] 1#8'),
                   ('out:  ', 'out:\n.mark 1\n', 15, 'error mark 6 1'),
                   ('.view a ACC', '.view a ACC\n.view a 0#16', 9, 'error view 3 a'),
                   ('7:0=end', '7:0=loop', 17, 'error end word'),
                   ('sub(ACC, read(M, slice(I,7,0))) with 7:0=0',
                    'sub(ACC, read(M, slice(I,7,0))) with 7:0=1', 8, 'error follow 3 0 var a')]
        for old, new, line, message in changes:
            with self.subTest(new=new):
                self.assertIn(old, DOWN)
                run = self.made(DOWN.replace(old, new), '--check', SOURCE)
                self.assertEqual((run.returncode, run.stdout), (1, ''))
                self.assertRegex(run.stderr, rf'\Akernel: .*down\.kernel:{line}: '
                                             rf'{re.escape(message)}.*\n\Z')

    def test_the_page(self):
        """The kernel of docs/DESIGNING.md, its answer, and the three refusals."""
        blocks = blocks_of('DESIGNING.md')
        text = next(block for block in blocks if block.startswith('// a counts down'))
        answer = next(block for block in blocks if block.startswith('followed '))
        told = next(block for block in blocks if block.startswith('kernel: down')).splitlines()
        run = self.made(text, '--check', SOURCE)
        self.assertEqual((run.returncode, run.stdout, run.stderr), (0, answer, ''))
        changes = [('.hold M[0] 1#16\n', ''), ('=loop', '=lop'), ('] := ACC', '] := PC')]
        for line, (old, new) in zip(told, changes, strict=True):
            run = self.made(text.replace(old, new, 1), '--check', SOURCE)
            self.assertEqual(run.stderr.replace(f'{self.folder}/', ''), f'{line}\n')

    def test_the_word_at_fault(self):
        """A word that can't be followed is told, and from where it was come to."""
        kernel_ = Kernel(pathlib.Path('k'), DOWN,
                         Processor.at(record(), A16))
        self.assertEqual(kernel_.placed('error follow 3 1 word 6', []),
                         'k:14: error follow 3 1 word 6, from the mark in line 8')
        self.assertEqual(kernel_.placed('error follow start clash 1', []),
                         'k:5: error follow start clash 1')
        self.assertEqual(kernel_.placed('error follow start clocks', []),
                         'k:4: error follow start clocks')
        self.assertEqual(kernel_.placed('error mark 3', []), 'k: error mark 3')
        bare = re.sub(r'\.(mark 0|hold .*)\n', '', DOWN)
        run = self.made(bare, '--check', SOURCE)
        self.assertRegex(run.stderr, r'\Akernel: .*down\.kernel: error mark 0\n\Z')

    def test_there_and_back(self):
        """Images by `compile`, and one with remarks."""
        cases = [(A16, IMAGE), (A16, IMAGE.split('view ')[0] + 'done\n')]
        for processor in ('a16', 'a16r', 'xy', 'rrf'):
            netlist = EXAMPLES / f'{processor}.rtn'
            for program in ('add', 'count', 'dot', 'wht'):
                answer = record()('compile', netlist, EXAMPLES / f'{program}.src')
                if not answer.status:
                    cases.append((netlist, answer.text))
        self.assertGreater(len(cases), 12)
        for netlist, image in cases:
            with self.subTest(netlist=netlist.name):
                text, made = self.again(netlist, image)
                self.assertEqual(made, image)
                self.assertNotRegex(text, r'(?m)^ +raw ')

    def test_bits_on_which_nothing_depends(self):
        """A word with such bits set is made again: operation 12 of a16 does nothing."""
        image = IMAGE.replace('word 6 0403', 'word 6 0c05')
        text, made = self.again(A16, image)
        self.assertEqual(made, image)
        self.assertIn('    PC := add(PC,1#8) with 11:10=3 2:2=1 0:0=1\n', text)

    def test_names_of_a_listing(self):
        path = self.file('down.img', IMAGE)
        run = run_here('listing.py', RECORD, A16, '--kernel', path)
        self.assertEqual((run.returncode, run.stderr), (0, ''))
        self.assertIn('test0:\n.mark 0\n.view a ACC\n.hold M[0] 1#16\n', run.stdout)
        self.assertIn('    PC := slice(I,7,0) with 7:0=test0\n', run.stdout)
        self.assertIn('    ACC := read(M,slice(I,7,0)) with 7:0=a\n', run.stdout)

    def test_what_is_no_image(self):
        for text in ('', 'image 12 1\n', IMAGE.replace('view 3', 'vie 3')):
            run = run_here('listing.py', RECORD, A16, '--kernel', self.file('no.img', text))
            self.assertEqual((run.returncode, run.stdout), (1, ''))
            self.assertRegex(run.stderr, r'\Alisting: .+\n\Z')


if __name__ == '__main__':
    unittest.main()
