"""The command lines of all tools: wrong words and unusable files are told in one line `TOOL: ..`
with the status that the tool tells, never by a traceback."""
import ast
import os
import pathlib
import subprocess
import sys
import tempfile
import unittest

from tests.support import EXAMPLES, TOOLS, call, run_here

MODULES = ('command_line', 'definitions')   # what has no command line
BINARY = sys.executable   # a program that is there, and isn't asked

# The words of tools that need some, all wrong.
WRONG = {
    'banks.py': ([BINARY, 'many'], [BINARY, '1', '-1'], [BINARY, '1', '2', '3'], []),
    'change.py': ([BINARY, 'a.rtn'], [BINARY, 'a.rtn', 'b.rtn', 'm.mem'],
                  [BINARY, 'a.rtn', 'b.rtn', 'p.src', 'm.mem', 'm.mem'], []),
    'checking.py': ([BINARY], [], [BINARY, '--files', 'a'], [BINARY, '--indexed', 'a'],
                    [BINARY, '--compiled', '--files', '--indexed'], [BINARY, '--compiled', 'x'],
                    [BINARY, '--changed', 'a', '1', '2', '3'], [BINARY, 'no/such/folder'],
                    [BINARY, '--table', '--changed', 'a']),
    'clauses.py': ([], ['..', 'name'], ['..', 'a=b=c'], ['/nowhere']),
    'cosim.py': ([BINARY, 'x'], [BINARY, '1', '2', '3'], []),
    'faults.py': ([BINARY, '1', 'x'], [BINARY, '1', '2', '3'], []),
    'fuzz.py': ([BINARY, 'x'], []),
    'kernel.py': ([BINARY, 'a.rtn'], [BINARY, 'a.rtn', 'k', '--check'],
                  [BINARY, 'a.rtn', 'k', '-o'], [BINARY, 'a.rtn', 'k', 'p.src'], []),
    'listing.py': ([BINARY, 'a.rtn'], [BINARY, 'a.rtn', 'p.src', '--check'],
                   [BINARY, 'a.rtn', 'p.src', '--kernel', 'a.img'],
                   [BINARY, '--tune', 'a.rtn', '--kernel', 'a.img'], []),
    'meanings.py': ([BINARY], [BINARY, '--files'], [BINARY, '--files', 'x'], []),
    'memory.py': ([], ['a.img', '--signed', '--net', 'a.rtn'], ['a.img', 'x=1', '--state', 's'],
                  ['a.img', '--state', 's', '--signed']),
    'picture.py': ([], ['a.rtn', '--pattern', '3'], ['a.rtn', '--pattern', 'x', '--binary', BINARY],
                   ['a.rtn', 'b.rtn']),
    'plant.py': ([], ['--stale', 'rec_bits'], ['no_such_crate'], ['rec_bits', 'no such bug']),
    'profile.py': ([BINARY, 'a.rtn'], [BINARY, 'a.rtn', 'p.src', '--mem'], []),
    'programs.py': ([BINARY, '--files', '--modes'], [BINARY, '--tune', '--files'], [BINARY, 'x'],
                    []),
    'reading.py': (['no_such_clause'], ['/etc/passwd'], ['no/such/file']),
    'report.py': ([BINARY, 'a.rtn'], [BINARY, 'a.rtn', '-o'], []),
    'rows.py': (['--fill'], ['--check', '--fill', BINARY], ['a']),
    'verilog.py': ([], ['a', 'b', 'c', 'd']),
    'views.py': ([BINARY, 'a.rtn', 'p.src'], [BINARY, 'a.rtn', 'p.src', 'k', '--runs', '0'],
                 [BINARY, 'a.rtn', 'p.src', 'k', '--ask', 'x'], []),
}

# Files that can't be used; these tools say that their status is then 1.
UNUSABLE = {
    'kernel.py': ([BINARY, 'no.rtn', 'no'], [BINARY, EXAMPLES / 'a16.rtn', 'no']),
    'listing.py': ([BINARY, 'no.rtn', 'no.src'], [BINARY, EXAMPLES / 'a16.rtn', '--kernel', 'no']),
    'memory.py': (['no.img', 'x=1'], [EXAMPLES / 'sum.mem'], [EXAMPLES / 'sum.img', 'x'],
                  [EXAMPLES / 'sum.img', 'no=1'], [EXAMPLES / 'sum.img', '--state', 'no.state'],
                  [EXAMPLES / 'sum.img', '--net', EXAMPLES / 'sum.mem', 'x=1']),
    'picture.py': (['no.rtn'], [EXAMPLES / 'sum.mem'], [EXAMPLES]),
    'profile.py': ([BINARY, 'no.rtn', 'p.src'], [BINARY, EXAMPLES / 'a16.rtn', 'm.mem'],
                   [BINARY, EXAMPLES / 'a16.rtn', 'p.src', '--mem', 'x']),
    'report.py': ([BINARY, 'no.rtn', '-o', '/tmp'],
                  [BINARY, EXAMPLES / 'a16.rtn', 'm.mem', '-o', '/tmp']),
    'verilog.py': (['no.rtn'], [EXAMPLES / 'sum.mem'], [EXAMPLES],
                   [EXAMPLES / 'a16.rtn', EXAMPLES / 'sum.mem'],
                   [EXAMPLES / 'a16.rtn', EXAMPLES / 'sum.img', EXAMPLES / 'sum.src']),
    'views.py': ([BINARY, 'no.rtn', 'p.src', 'k'],),
}


def tools() -> list[str]:
    """The tools that have a command line of this kind."""
    return [path.name for path in sorted(TOOLS.glob('*.py')) if path.stem not in MODULES]


def scripts() -> list[str]:
    """The tools whose names have no suffix, each of which has a package behind it."""
    return [path.name for path in sorted(TOOLS.iterdir()) if path.is_file() and not path.suffix]


class CommandLines(unittest.TestCase):
    """Each tool by its command line."""

    def check(self, cases: list[tuple[str, list]], status: int) -> None:
        for tool, words in cases:
            with self.subTest(tool=tool, words=words):
                run = run_here(tool, *words)
                first, *rest = run.stderr.splitlines() or ['']
                self.assertNotIn('Traceback', run.stderr)
                self.assertTrue(first.startswith(f'{pathlib.Path(tool).stem}: '), run.stderr)
                self.assertTrue(all(line.startswith('usage: ') for line in rest), run.stderr)
                self.assertEqual((run.returncode, run.stdout), (status, ''))

    def test_an_option_that_there_is_none(self):
        self.check([(tool, ['--no-such-option']) for tool in [*tools(), *scripts()]], 2)

    def test_wrong_words(self):
        self.check([(tool, words) for tool, several in WRONG.items() for words in several], 2)
        self.check([(script, words) for script in scripts() for words in ([], ['no.v'])], 2)

    def test_a_program_that_there_is_none(self):
        trying = [tool for tool in tools() if 'add_program' in (TOOLS / tool).read_text()]
        self.assertGreater(len(trying), 10)
        self.check([(tool, ['/no/such/program', 'a.rtn', 'b.rtn']) for tool in trying], 2)

    def test_unusable_files(self):
        cases = [(tool, words) for tool, several in UNUSABLE.items() for words in several]
        self.check(cases, 1)

    def test_help(self):
        for tool in tools():
            with self.subTest(tool=tool):
                run = run_here(tool, '--help')
                told = ast.get_docstring(ast.parse((TOOLS / tool).read_text()), clean=False)
                self.assertEqual((run.returncode, run.stdout, run.stderr),
                                 (0, told.strip() + '\n', ''))

    def test_help_of_scripts(self):
        for script in scripts():
            with self.subTest(script=script):
                run = run_here(script, '--help')
                self.assertEqual((run.returncode, run.stderr), (0, ''))
                self.assertIn(script, run.stdout)

    def test_from_a_shell(self):
        """The same by processes of their own."""
        for tool in ('verilog.py', 'cosim.py'):
            for words in (['--help'], ['--no-such-option'], []):
                run, here = call(tool, *words), run_here(tool, *words)
                self.assertEqual((run.returncode, run.stdout, run.stderr),
                                 (here.returncode, here.stdout, here.stderr))

    def test_a_reader_that_has_enough(self):
        """A tool whose output is read no further says nothing."""
        tool = [sys.executable, TOOLS / 'verilog.py', EXAMPLES / 'dsp.rtn']
        with subprocess.Popen(tool, stdout=subprocess.PIPE, stderr=subprocess.PIPE) as run:
            run.stdout.close()
            self.assertEqual(run.stderr.read(), b'')

    def test_each_tool_says_its_usage(self):
        for tool in tools():
            told = ast.get_docstring(ast.parse((TOOLS / tool).read_text()))
            self.assertRegex(told, rf'(?m)^Usage: {tool}', tool)

    def test_each_tool_can_be_run(self):
        for tool in tools():
            path = TOOLS / tool
            self.assertTrue(path.read_text().startswith('#!/usr/bin/env python3\n'), tool)
            self.assertTrue(os.access(path, os.X_OK), f'{tool} has no run bit')

    def test_nesting(self):
        """A text that nests deeply is refused as any other."""
        with tempfile.TemporaryDirectory() as folder:
            deep = pathlib.Path(folder) / 'deep.rtn'
            deep.write_text('net x : 1 = ' + 'not(' * 100_000)
            self.check([(tool, [deep]) for tool in ('verilog.py', 'picture.py')], 1)


if __name__ == '__main__':
    unittest.main()
