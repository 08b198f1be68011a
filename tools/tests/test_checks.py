"""What `record check` answers, as it is read."""
import unittest

from rtn.checks import Unfollowed, Way, Ways, read_unfollowed, read_ways
from rtn.reading import Fault

ANSWER = '''followed 2
view 3 a ACC
start 3 3
mark 3 1 2 7
mark 3 0 3 3
done
'''
WAYS = Ways(Way(3, 3), {(3, 1): Way(2, 7), (3, 0): Way(3, 3)})


class Answers(unittest.TestCase):
    """Clocks from mark to mark, and refusals."""

    def test_ways(self):
        self.assertEqual(read_ways(ANSWER), WAYS)
        self.assertEqual(read_ways(ANSWER.replace('2 7', 'never')),
                         Ways(WAYS.start, {**WAYS.turns, (3, 1): None}))
        for text in ('', 'error follow 3 0 var a\n', ANSWER.replace('start', 'begin')):
            with self.subTest(text=text), self.assertRaisesRegex(Fault, 'no clocks'):
                read_ways(text)

    def test_words_that_are_not_followed(self):
        cases = {'error follow start clocks': Unfollowed(None, None, 'clocks', ''),
                 'error follow 3 0 var a': Unfollowed(3, 0, 'var', 'a'),
                 'error follow 3 1 hold M[0]': Unfollowed(3, 1, 'hold', 'M[0]'),
                 'error follow 12 1 word 6': Unfollowed(12, 1, 'word', '6')}
        for line, due in cases.items():
            self.assertEqual(read_unfollowed(line), due)
        self.assertEqual([found.word for found in cases.values()], [None, None, None, 6])
        for line in ('error mark 3', 'error follow 3 var a', 'followed 2', ''):
            self.assertIsNone(read_unfollowed(line), line)


if __name__ == '__main__':
    unittest.main()
