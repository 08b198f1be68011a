"""Remarks on images: how they are read and written, and their order."""
import unittest

from rtn.reading import Fault, read_netlist
from rtn.remarks import Kind, Order, Remark, parted, read_remark, remarked
from tests.support import example


class Remarks(unittest.TestCase):
    """Remarks as lines, and their order."""

    def test_order(self):
        items = read_netlist(example('rrf.rtn'))
        registers = [item.name for item in items if hasattr(item, 'is_mode')]
        lines = ['hide 2 y', 'hide 11 x', 'hide end x', 'view 2 x R', 'view 2 y R', 'view 11 x R',
                 f'hold 2 {registers[0]} x', f'hold 2 {registers[-1]} x', 'hold 2 R[0] x',
                 'hold 2 R[10] x', 'hold 2 M[0] x', f'hold 11 {registers[0]} x', 'know 2 x 1',
                 'know 2 y 1', 'know 11 x 1']
        order = Order(items, ['x', 'y'])
        remarks = [read_remark(line) for line in lines]
        for turned in (remarks[::-1], sorted(remarks, key=str), remarks):
            self.assertEqual([remark.line for remark in sorted(turned, key=order.key)], lines)

    def test_no_remarks(self):
        for line in ('hide 2', 'hide x y', 'view end x R', 'view 2 x', 'know 2 x 1 2', 'mark 2 3'):
            with self.assertRaises(Fault, msg=line):
                read_remark(line)

    def test_parts(self):
        front = 'image 12 0\ntemps 0\ndone\n'
        self.assertEqual(parted(front), (front, None))
        self.assertEqual(parted(front + 'done\n'), (front, []))
        self.assertEqual(parted(front + 'know 1 x 2\ndone\n'),
                         (front, [Remark(Kind.KNOW, '1', 'x', '2')]))
        for text in ('', 'image 12 0\n', front + 'know 1 x 2\n'):
            with self.assertRaises(Fault, msg=text):
                parted(text)

    def test_writing(self):
        text = front = 'image 12 0\ntemps 0\ndone\n'
        self.assertEqual(remarked(front, []), text)
        text += 'hide end x\nview 1 x R\ndone\n'
        self.assertEqual(remarked(*parted(text)), text)


if __name__ == '__main__':
    unittest.main()
