"""The tools that try the program, on a few seeds each, and those that show what it does."""
import ast
import pathlib
import tempfile
import unittest

from tests.support import (EXAMPLES, RECORD, TOOLS, needs_icarus, needs_record, record,
                           run_here)

A16, M16 = EXAMPLES / 'a16.rtn', EXAMPLES / 'm16.rtn'
DOT, COUNT = EXAMPLES / 'dot.src', EXAMPLES / 'count.src'


@needs_record
class Tries(unittest.TestCase):
    """Each finds nothing wrong, and has tried something."""

    def check(self, tool: str, *words, last: str) -> None:
        run = run_here(tool, RECORD, *words)
        self.assertEqual((run.returncode, run.stderr), (0, ''), run.stdout)
        self.assertRegex(run.stdout, last)

    def test_programs(self):
        for words in ([6], ['--files', 6], ['--modes', 6], ['--tune', 6],
                      ['--wide', '--tune', 6, 3]):
            with self.subTest(words=words):
                self.check('programs.py', *words, last=r'(?m)^ +\d+ as it should be$')

    def test_checking(self):
        checked, hand = EXAMPLES / 'checked', EXAMPLES / 'hand'
        self.check('checking.py', checked, hand, last=r'^\d+ accepted$')
        for folder in (checked, hand):
            self.check('checking.py', '--changed', folder, 20, last=r'^\d+ \w+(, \d+ \w+)?$')
        self.check('checking.py', '--compiled', '--indexed', 20,
                   last=r'^\d+ accepted(, \d+ without code)?$')

    def test_banks(self):
        self.check('banks.py', 4, last='as it should be|with an empty part|error no')

    def test_meanings(self):
        self.check('meanings.py', EXAMPLES / 's8.rtn', 3, last=r's8\.rtn: 3 patterns, 9 clocks, 0')
        self.check('meanings.py', M16, 1, last=r'm16\.rtn: 50 patterns, 50 clocks, 0 wrong')
        self.check('meanings.py', '--files', 1, last='^1 netlists, .* 0 wrong')

    def test_faults(self):
        self.check('faults.py', EXAMPLES / 's8.rtn', last='^tested$')
        self.check('faults.py', 'missed', EXAMPLES / 's8.rtn', last='^59 of 76 faults')

    @needs_icarus
    def test_cosim(self):
        self.check('cosim.py', 4, last=r'(?m)^ +\d+ (state|clash)$')
        files = [A16, EXAMPLES / 'sum.img', EXAMPLES / 'sum.mem']
        self.check('cosim.py', *files, 4, last='^alike$')

    @needs_icarus
    def test_cosim_of_modes(self):
        with tempfile.TemporaryDirectory() as folder:
            image = pathlib.Path(folder) / 'gain.img'
            image.write_text(record().done('compile', M16, EXAMPLES / 'gain.src'))
            self.check('cosim.py', M16, image, EXAMPLES / 'gain.mem', 60, last='^alike$')


@needs_record
class Shows(unittest.TestCase):
    """What is shown of examples."""

    def test_listing(self):
        for path in EXAMPLES.glob('*.lst'):
            program, processor, _ = path.name.split('.')
            run = run_here('listing.py', RECORD, EXAMPLES / f'{processor}.rtn',
                           EXAMPLES / f'{program}.src', '--check', path)
            self.assertEqual((run.returncode, run.stdout, run.stderr), (0, '', ''), path.name)

    def test_a_refused_program(self):
        run = run_here('listing.py', RECORD, A16, DOT)
        self.assertEqual((run.returncode, run.stdout, run.stderr),
                         (1, '', 'listing: error no cover 3\n'))

    def test_change(self):
        run = run_here('change.py', RECORD, A16, A16, COUNT)
        self.assertEqual((run.returncode, run.stderr), (0, ''))
        first, *_, last = run.stdout.splitlines()
        self.assertRegex(first, r'^\d+ in both$')
        self.assertRegex(last, r'^count\.src +(\d+) +-> +\1$')

    def test_picture_of_a_pattern(self):
        run = run_here('picture.py', A16, '--pattern', 3, '--binary', RECORD)
        self.assertEqual((run.returncode, run.stderr), (0, ''))
        self.assertRegex(run.stdout, 'label="pattern 3: .* := ')
        run = run_here('picture.py', A16, '--pattern', 999, '--binary', RECORD)
        self.assertEqual((run.returncode, run.stdout), (1, ''))
        self.assertRegex(run.stderr, r'^picture: .*a16\.rtn: there is no pattern 999; patterns \d+')


class Drawn(unittest.TestCase):
    """Each example is drawn, and written as Verilog, the same each time."""

    def test_examples(self):
        for path in sorted(EXAMPLES.glob('*.rtn')):
            for tool, first in (('picture.py', 'digraph netlist {'),
                                ('verilog.py', f'module {path.stem} (')):
                with self.subTest(tool=tool, netlist=path.name):
                    one, other = run_here(tool, path), run_here(tool, path)
                    self.assertEqual((one.returncode, one.stderr), (0, ''))
                    self.assertEqual(one.stdout.split('\n')[0], first)
                    self.assertEqual(one.stdout, other.stdout)


class Sources(unittest.TestCase):
    """The form of the tools' own texts."""

    def files(self):
        yield from TOOLS.rglob('*.py')
        yield from (path for path in TOOLS.iterdir() if path.is_file() and not path.suffix)

    def test_lines_wrap(self):
        wide = [f'{path.relative_to(TOOLS)}:{number}' for path in self.files()
                for number, line in enumerate(path.read_text().splitlines(), 1)
                if len(line) > 100]
        self.assertEqual(wide, [])

    def test_each_file_says_what_it_is(self):
        silent = [str(path.relative_to(TOOLS)) for path in self.files()
                  if not ast.get_docstring(ast.parse(path.read_text()))]
        self.assertEqual(silent, [])


if __name__ == '__main__':
    unittest.main()
