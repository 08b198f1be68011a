"""What tools/checking.py says of answers to images, by programs that answer all images alike."""
from __future__ import annotations

import pathlib
import re
import textwrap
import unittest

from rtn.checks import check
from rtn.images import read_cells, read_image
from rtn.runs import texts_of
from rtn.sources import Run, read_source
from tests.support import (DOCS, EXAMPLES, TOP, InFolder, blocks_of, example, needs_record, record,
                           run_here)
from tests.test_checks import ANSWER
from tests.test_following import IMAGE, SOURCE

REFUSAL = 'error follow 3 0 var a\n'


class Answers(InFolder):
    """Images in a folder, as `down` in examples/checked or with texts of their own."""

    def setUp(self):
        super().setUp()
        self.images = self.folder / 'images'
        self.images.mkdir()

    def program(self, text: str, status: int = 0) -> pathlib.Path:
        """A program that answers with this text."""
        path = self.file('program', f"#!/bin/sh\ncat <<'END'\n{text}END\nexit {status}\n")
        path.chmod(0o755)
        return path

    def put(self, name: str = 'down', image: str = IMAGE, **files: str) -> None:
        """An image with its texts in a folder of its own."""
        folder = self.images / name
        folder.mkdir()
        texts = {'net.rtn': (EXAMPLES / 'a16.rtn').read_text(), 'prog.src': SOURCE, 'img': image}
        for file, text in (texts | files).items():
            (folder / file).write_text(text)

    def check(self, program: pathlib.Path, due: str, *words) -> None:
        """The tool's output; its status is 1 where an image is answered otherwise."""
        run = run_here('checking.py', program, *words, self.images)
        status = int('otherwise' in due)
        self.assertEqual((run.returncode, run.stdout, run.stderr), (status, due, ''))

    def test_accepted(self):
        self.put()
        self.put('from_three', mem='M 3 3\n')
        self.check(self.program(ANSWER), '2 accepted\n')

    def test_named_by_program_and_processor(self):
        for name in ('down.src', 'down.a16.img'):
            (self.images / name).write_text((EXAMPLES / 'checked' / name).read_text())
        self.check(self.program(ANSWER), '1 accepted\n')

    def test_a_program_of_its_own(self):
        for name in ('down.src', 'down.a16.img'):
            (self.images / name).write_text((EXAMPLES / 'checked' / name).read_text())
        (self.images / 'down.a16.src').write_text('var a; while a != 0 { a = a - 2; }\n')
        run = run_here('checking.py', self.program(ANSWER), self.images)
        self.assertEqual(run.returncode, 1)
        self.assertRegex(run.stdout, r'^down\.a16: clock 6, mark 3: a is ')

    def test_no_program(self):
        (self.images / 'nothing.a16.img').write_text(IMAGE)
        run = run_here('checking.py', self.program(ANSWER), self.images)
        self.assertEqual((run.returncode, run.stdout), (2, ''))
        self.assertRegex(run.stderr, r'^checking: .*nothing\.a16\.img: there is no nothing\.src$')

    def test_refused(self):
        self.put()
        self.check(self.program(REFUSAL, 21), f'down: {REFUSAL}1 otherwise\n')

    def test_wrong_images(self):
        self.put('one', image=IMAGE.replace('0501', '0502'), why='other numbers')
        self.check(self.program(REFUSAL, 21), '1 refused\n')
        self.check(self.program(ANSWER), 'one: followed 2\n1 otherwise\n')

    def test_right_ones_among_wrong_ones(self):
        self.put('one-right', why='as it was')
        self.check(self.program(ANSWER), '1 accepted\n')

    def test_other_answers(self):
        self.put()
        self.check(self.program('error image text 0\n', 12),
                   'down: status 12: error image text 0\n1 otherwise\n')

    def test_accepted_though_wrong(self):
        """Clocks find what should have been refused, and clocks that are told wrongly."""
        self.put('one', image=IMAGE.replace('0501', '0502'), mem='M 3 3\n')
        run = run_here('checking.py', self.program(ANSWER), self.images)
        self.assertEqual(run.returncode, 1)
        self.assertRegex(run.stdout, r'^one: clock 6, mark 3: a is \d+, not \d+\n1 otherwise\n$')
        run = run_here('checking.py', self.program(ANSWER.replace('3 3\n', '4 3\n')), self.images)
        self.assertRegex(run.stdout, r'^one: clock 3, mark 3: 3 clocks, where 4 to 3 is told\n')

    def test_changed(self):
        """Of images that are all accepted, many are wrong."""
        self.put()
        run = run_here('checking.py', self.program(ANSWER), '--changed', self.images, 15)
        self.assertEqual(run.returncode, 1)
        self.assertRegex(run.stdout, r'(?m)^down, bit \d+ of word \d+: clock \d+')
        self.assertRegex(run.stdout, r'\n\d+ otherwise(, \d+ accepted)?\n$')
        run = run_here('checking.py', self.program(REFUSAL, 21), '--changed', self.images, 15)
        self.assertEqual((run.returncode, run.stderr), (2, 'checking: no image is accepted\n'))

    def refusing(self) -> pathlib.Path:
        """A program that accepts all images, and has none for any program."""
        text = f"#!/bin/sh\n[ $1 = check ] || exit 9\ncat <<'END'\n{ANSWER}END\n"
        path = self.file('refusing', text)
        path.chmod(0o755)
        return path

    def test_compiled(self):
        """Of a program that is refused no image is asked."""
        for words in ((), ('--files',)):
            run = run_here('checking.py', self.refusing(), '--compiled', *words, 2)
            self.assertEqual((run.returncode, run.stderr), (0, ''))
            self.assertRegex(run.stdout, r'^\d+ without code\n$')
        run = run_here('checking.py', self.refusing(), '--compiled', '--indexed', 2)
        self.assertEqual((run.returncode, run.stdout), (2, ''))
        self.assertRegex(run.stderr, '^checking: no processor of examples/ has code')

    def test_table(self):
        """Where `compile` refuses a program the cells for it are empty."""
        self.put(mem='M 3 3\n')
        self.check(self.refusing(), '| image | words | by `compile` | cycles | by `compile` |\n'
                   '|---|---|---|---|---|\n| `down` | 8 |  | 14 |  |\n', '--table')


@needs_record
class Page(unittest.TestCase):
    """What docs/CHECKING.md shows is what the program answers."""

    NETLIST, SOURCE = EXAMPLES / 'a16.rtn', EXAMPLES / 'checked' / 'down.src'
    WITHOUT_STORE = (('image 12 8', 'image 12 7'), ('mark 7 end', 'mark 6 end'),
                     ('word 6 0403', 'word 6 0606'), ('word 7 0607 -\n', ''),
                     ('view', 'hide end a\nview'))

    def check(self, image: str) -> None:
        answer = check(record(), self.NETLIST, self.SOURCE, image)
        self.assertIn(answer.text, blocks_of('CHECKING.md'))

    def test_what_compile_writes(self):
        self.check(record().done('compile', self.NETLIST, self.SOURCE))

    def test_words_by_hand(self):
        lines = EXAMPLES / 'checked' / 'down.a16.asm'
        self.assertIn(lines.read_text(), blocks_of('CHECKING.md'))
        self.assertIn(self.SOURCE.read_text(), blocks_of('CHECKING.md'))
        made = read_image(record().done('asm', self.NETLIST, lines))
        self.assertEqual(made.words, read_image(IMAGE).words)

    def test_answers(self):
        self.check(IMAGE)
        self.check(IMAGE.replace('hold 3 M[0] 1#16\n', ''))
        hidden = IMAGE
        for old, new in self.WITHOUT_STORE:
            hidden = hidden.replace(old, new)
        self.check(hidden)

    def test_a_loop_of_two_words(self):
        """The kernel, its program, and what `check` and `compile` come to."""
        page, netlist = (DOCS / 'CHECKING.md').read_text(), EXAMPLES / 'xy.rtn'
        kernel, source = (EXAMPLES / 'hand' / f'dot.xy.{kind}' for kind in ('kernel', 'src'))
        for path in (kernel, source):
            self.assertIn(textwrap.indent(path.read_text(), '    '), page)
        run = run_here('kernel.py', record().path, netlist, kernel, '--check', source)
        self.assertIn(run.stdout, blocks_of('CHECKING.md'))
        dot = EXAMPLES / 'dot.src'
        answer = check(record(), netlist, dot, record().done('compile', netlist, dot))
        self.assertIn(answer.text, blocks_of('CHECKING.md'))


class OwnPrograms(unittest.TestCase):
    """The programs that code by hand has of its own show other checkpoints than those of examples/,
    from the starts of which examples/README.md tells."""

    CHANGED = {'crc': {6: 16384}, 'crc8': {8: 384}}   # cells of the memory texts

    def checkpoints(self, source: pathlib.Path, cells: dict[str, int]) -> list:
        """The tests of a program with the cells before each, and those at its end."""
        run = Run(read_source(source.read_text()), 16, dict(cells))
        return [*((test.tree, dict(run.cells)) for test, _ in run.tests()), run.cells]

    def test_other_checkpoints(self):
        for own in sorted((EXAMPLES / 'hand').glob('*.src')):
            program = own.name.split('.')[0]
            image = read_image(own.with_suffix('.img').read_text())
            held = read_cells(example(f'{program}.mem')) | self.CHANGED.get(program, {})
            cells = {cell: held.get(at, 0) for at, cell in image.cells().items()}
            with self.subTest(program=own.name):
                self.assertNotEqual(self.checkpoints(own, cells),
                                    self.checkpoints(EXAMPLES / f'{program}.src', cells))


@needs_record
class Kernels(unittest.TestCase):
    """The code by hand in examples/hand."""

    def test_images(self):
        """Each image is what its kernel makes, and is accepted."""
        kernels = sorted((EXAMPLES / 'hand').glob('*.kernel'))
        images = sorted((EXAMPLES / 'hand').glob('*.img'))
        self.assertEqual([path.stem for path in kernels], [path.stem for path in images])
        for kernel, image in zip(kernels, images):
            with self.subTest(kernel=kernel.name):
                texts = texts_of(image)
                run = run_here('kernel.py', record().path, texts.netlist, kernel)
                self.assertEqual((run.returncode, run.stdout), (0, image.read_text()))
                answer = check(record(), texts.netlist, texts.source, run.stdout)
                self.assertEqual(answer.status, 0, answer.line)

    def test_tables(self):
        """The words and cycles that the pages tell of the images of a folder."""
        for page, folder in (('docs/CHECKING.md', 'checked'), ('examples/README.md', 'hand')):
            with self.subTest(page=page):
                told = re.search(rf'<!-- tools/checking.py BINARY --table examples/{folder} -->\n\n'
                                 r'((?:\|.*\n)+)', (TOP / page).read_text())
                run = run_here('checking.py', record().path, '--table', EXAMPLES / folder)
                self.assertEqual(run.stdout, told[1])


if __name__ == '__main__':
    unittest.main()
