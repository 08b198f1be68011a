"""The operators' table against docs/RTN.md, and its values against some that were worked by
hand."""
import re
import unittest

from rtn.operators import (ARITHMETIC, BINARY, COMPARISONS, OPERATORS, SHIFTS, UNARY, WIRING, Shape,
                           bits, mask, signed)
from tests.support import DOCS

# An operator with the values of its operands, their widths, and its result.
WORKED = (
    ('not', [0b1010], [4], 0b0101), ('not', [0], [1], 1),
    ('neg', [1], [4], 15), ('neg', [0], [4], 0), ('neg', [8], [4], 8),
    ('add', [15, 1], [4, 4], 0), ('add', [1, 1], [1, 1], 0), ('add', [200, 100], [8, 8], 44),
    ('sub', [0, 1], [8, 8], 255), ('sub', [5, 5], [3, 3], 0),
    ('mul', [16, 16], [8, 8], 0), ('mul', [7, 7], [4, 4], 1),
    ('and', [12, 10], [4, 4], 8), ('or', [12, 10], [4, 4], 14), ('xor', [12, 10], [4, 4], 6),
    ('shl', [1, 3], [4, 4], 8), ('shl', [1, 4], [4, 4], 0), ('shl', [3, 15], [4, 4], 0),
    ('shr', [8, 3], [4, 4], 1), ('shr', [8, 4], [4, 4], 0), ('shr', [15, 1], [4, 4], 7),
    ('sar', [8, 1], [4, 4], 12), ('sar', [8, 15], [4, 4], 15), ('sar', [7, 9], [4, 4], 0),
    ('sar', [1, 1], [1, 1], 1),
    ('eq', [3, 3], [2, 2], 1), ('eq', [3, 2], [2, 2], 0),
    ('ltu', [1, 15], [4, 4], 1), ('ltu', [15, 1], [4, 4], 0), ('ltu', [3, 3], [4, 4], 0),
    ('lts', [15, 1], [4, 4], 1), ('lts', [1, 15], [4, 4], 0), ('lts', [8, 7], [4, 4], 1),
    ('cat', [1, 0], [1, 2], 4), ('cat', [2, 1], [2, 3], 17),
    ('shl', [1, 2 ** 64 - 1], [64, 64], 0), ('add', [2 ** 64 - 1, 1], [64, 64], 0),
)


def section(heading: str) -> str:
    """A section of docs/RTN.md."""
    text = (DOCS / 'RTN.md').read_text()
    return re.search(rf'^## {heading}\n(.*?)(?=^## )', text, re.M | re.S)[1]


class Table(unittest.TestCase):
    """The table is the page's."""

    def told(self) -> dict[str, str]:
        """Each operator that the page's list of expressions names, with the line that it is in."""
        lines = re.findall(r'^    ((?:\w+\(E|\w+\(E, E\))[^\n]*)', section('Expressions'), re.M)
        words = {}
        for line in lines:
            head = re.split(r'\s{2,}', line)[0]
            for word in re.findall(r'\b[a-z]+\b', re.sub(r'\([^)]*\)', ' ', head)):
                words[word] = line
        return words

    def test_all_that_the_page_names(self):
        self.assertEqual(set(self.told()) - set(WIRING), set(OPERATORS))
        self.assertLessEqual(set(WIRING), set(self.told()))

    def test_reserved_words(self):
        reserved = re.search(r'names, are\n\n(.*?)\n\n', section('Words'), re.S)[1].split()
        self.assertLessEqual({*OPERATORS, *WIRING}, set(reserved))
        self.assertEqual(reserved[reserved.index('slice'):], [*WIRING, *OPERATORS])

    def test_operands(self):
        for word, line in self.told().items():
            if word in OPERATORS:
                self.assertEqual(OPERATORS[word].operands, 2 if '(E, E)' in line else 1, word)

    def test_shapes(self):
        for word, line in self.told().items():
            if word in OPERATORS:
                is_bit = 'a result of one bit' in line
                shape = Shape.JOINED if word == 'cat' else Shape.BIT if is_bit else Shape.ALIKE
                self.assertEqual(OPERATORS[word].shape, shape, word)

    def test_control(self):
        """Rule N8 names the gates that may decide control."""
        told = re.search(r'\| N8 ControlOp \|.*?other than (.*?); so with', section('Rules'))[1]
        named = set(re.findall(r'`(\w+)`', told)) & set(OPERATORS)
        self.assertEqual(named, {word for word in OPERATORS if OPERATORS[word].is_control})

    def test_lists(self):
        self.assertEqual(set(UNARY) | set(BINARY), set(OPERATORS))
        self.assertEqual({*ARITHMETIC, *COMPARISONS, 'cat'}, set(BINARY))
        self.assertLessEqual(set(SHIFTS), set(ARITHMETIC))


class Values(unittest.TestCase):
    """The values are the language's."""

    def test_worked(self):
        for word, values, widths, due in WORKED:
            with self.subTest(word=word, values=values):
                self.assertEqual(OPERATORS[word].value(values, widths), due)

    def test_each_operator_is_worked(self):
        self.assertEqual({word for word, *_ in WORKED}, set(OPERATORS))

    def test_symmetric(self):
        for word in BINARY:
            pairs = [(a, b) for a in range(8) for b in range(8)]
            is_symmetric = all(OPERATORS[word].value([a, b], [3, 3])
                               == OPERATORS[word].value([b, a], [3, 3]) for a, b in pairs)
            self.assertEqual(is_symmetric, OPERATORS[word].is_symmetric, word)

    def test_results_fit(self):
        for word, operator in OPERATORS.items():
            widths = [3] * operator.operands
            for a in range(8):
                for b in range(8):
                    value = operator.value([a, b][:operator.operands], widths)
                    self.assertEqual(value, value & mask(operator.width(widths)), word)
                    self.assertIs(type(value), int)

    def test_helpers(self):
        self.assertEqual([signed(value, 2) for value in range(4)], [0, 1, -2, -1])
        self.assertEqual(bits(0b1101, 2, 1), 0b10)
        self.assertEqual([mask(1), mask(8)], [1, 255])


if __name__ == '__main__':
    unittest.main()
