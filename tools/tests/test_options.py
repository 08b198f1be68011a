"""The words of the command `from-verilog`, good and malformed."""
from __future__ import annotations

import contextlib
import io
import unittest

import tests.processors  # noqa: F401  (puts the tools on the path)

from from_verilog import __main__ as command
from from_verilog.mapping import Ports
from from_verilog.options import Left, parse
from from_verilog.refusals import Refused, Rule

MALFORMED = (
    ('', 'no file is named'),
    ('a.v --bogus', 'no option is called --bogus'),
    ('a.v --top', '--top: what it is said of is missing'),
    ('a.v --top --prove', '--top: what it is said of is missing'),
    ('a.v --top a --top b', '--top is said twice'),
    ('a.v --top 1a', "--top: '1a' is no name"),
    ('a.v --words many', "--words: 'many' is no number"),
    ('a.v --words 0', '--words: 0 is too few'),
    ('a.v --reset rst=2', 'the level is 0 or 1'),
    ('a.v --tie x', 'it has the form --tie NAME=N'),
    ('a.v --tie x=', 'it has the form --tie NAME=N'),
    ('a.v --tie x=z', "'z' is no number"),
    ('a.v --never op', 'it has the form --never FIELD=N,..'),
    ('a.v --never op=', 'it has the form --never FIELD=N,..'),
    ('a.v --never op=1,', 'is no number'),
    ('a.v --never 0:3=1', 'and 0 lies below 3'),
    ('a.v --never 1:0=4', 'the bits 1 to 0 hold no such number'),
    ('a.v --phases state', 'it has the form --phases NAME=N,N..'),
    ('a.v --phases state=1', 'two numbers at least'),
    ('a.v --phases state=1,1', 'two numbers at least, all different'),
    ('a.v --ports ram', 'it has the form --ports'),
    ('a.v --ports ram:a,b,c', 'it has the form --ports'),
)


class Words(unittest.TestCase):
    """What `parse` makes of words."""

    def test_malformed(self):
        for words, what in MALFORMED:
            with self.subTest(words), self.assertRaises(Refused) as caught:
                parse(words.split())
            self.assertIs(caught.exception.refusal.rule, Rule.OPTION)
            self.assertIn(what, str(caught.exception))

    def test_well_formed(self):
        options = parse("a.v b.v --top cpu -o n.rtn --prove --never op=1,0x2 --never 15:12=9 "
                        "--tie ce=1 --tie d=4'b0110 --phases st=0,1 --reset rst=0 -Ilib -D N=4 "
                        '--ports ram:ra,rd,wa,wd,we --code=w'.split())
        self.assertEqual(options.files, ('a.v', 'b.v'))
        self.assertEqual((options.top, options.output, options.prove), ('cpu', 'n.rtn', True))
        self.assertEqual(options.never, (Left('op', 'op', -1, -1, (1, 2)),
                                         Left('15:12', '', 15, 12, (9,))))
        self.assertEqual(options.tied, (('ce', 1), ('d', 6)))
        self.assertEqual(options.phases, ('st', (0, 1)))
        self.assertEqual((options.reset, options.active), ('rst', 0))
        self.assertEqual((options.includes, options.macros), (('lib',), ('N=4',)))
        self.assertEqual(options.ports, Ports('ram', 'ra', 'rd', 'wa', 'wd', 'we'))
        self.assertEqual(options.code, 'w')


class Command(unittest.TestCase):
    """The command's status, and that it says one line."""

    def said(self, *words: str) -> tuple[int, str]:
        errors = io.StringIO()
        with contextlib.redirect_stderr(errors), contextlib.redirect_stdout(io.StringIO()):
            status = command.main(list(words))
        return status, errors.getvalue()

    def test_malformed_words_end_it_with_2(self):
        for words, what in MALFORMED:
            with self.subTest(words):
                status, said = self.said(*words.split())
                self.assertEqual(status, 2)
                self.assertRegex(said, r'\Afrom-verilog: [^\n]*\n\Z')
                self.assertIn(what, said)

    def test_a_file_that_is_not_there(self):
        status, said = self.said('/there/is/no.v', '--top', 'a')
        self.assertEqual((status, said), (2, 'from-verilog: there is no file /there/is/no.v\n'))

    def test_help(self):
        self.assertEqual(self.said('--help'), (0, ''))


if __name__ == '__main__':
    unittest.main()
