"""The clock against rows that were worked by hand."""
import unittest

from rtn.clock import Clash, Netlist, Stuck
from rtn.reading import Fault
from rtn.runs import clocked_text
from rtn.images import read_image
from tests.support import EXAMPLES

SMALL = '''
    code I : 8 size 16 at PC;
    register PC : 4 in case I[7] { 0: add(PC, 1#4); 1: I[3:0]; };
    memory M : 5 size 4 addr 2 write I[4:0] at I[6:5] when not(I[7]);
'''
FRAME = '''
    code I : 8 size 16 at PC;
    register PC : 4 in add(PC, 1#4);
    memory M : 4 size 3 addr 2 write {value} at I[1:0] when {when};
'''


def netlist(*items: str, value: str = 'I[7:4]', when: str = '0#1', head: str = '') -> Netlist:
    """A netlist with these items beside a code, a counter and a memory."""
    return Netlist(head + FRAME.format(value=value, when=when) + '\n'.join(items))


class Small(unittest.TestCase):
    """The small processor of docs/RTN.md."""

    def setUp(self):
        self.netlist = Netlist(SMALL)

    def test_start(self):
        self.assertEqual(self.netlist.zeros(), {'PC': 0, 'M': [0, 0, 0, 0]})

    def test_store(self):
        # 0 10 11111: the word stores 31 in cell 2 and steps
        after = self.netlist.clock(self.netlist.zeros(), 0b01011111)
        self.assertEqual(after, {'PC': 1, 'M': [0, 0, 31, 0]})

    def test_jump(self):
        # 1 xxx 1001: the word goes to 9 and writes nothing
        after = self.netlist.clock({'PC': 4, 'M': [1, 2, 3, 4]}, 0b11111001)
        self.assertEqual(after, {'PC': 9, 'M': [1, 2, 3, 4]})

    def test_step_wraps(self):
        after = self.netlist.clock({'PC': 15, 'M': [0, 0, 0, 0]}, 0)
        self.assertEqual(after['PC'], 0)

    def test_the_state_before_is_kept(self):
        before = self.netlist.zeros()
        self.netlist.clock(before, 0b01011111)
        self.assertEqual(before, self.netlist.zeros())

    def test_numbers_of_nets(self):
        """Item by item, inner expressions first, and one of its own behind them."""
        kinds = [(net.item, net.kind, net.width) for net in self.netlist.nets]
        self.assertEqual(kinds, [
            ('I', 'word', 8),
            ('PC', 'slice', 1), ('PC', 'const', 4), ('PC', 'add', 4), ('PC', 'slice', 4),
            ('PC', 'case', 4), ('PC', 'output', 4),
            ('M', 'slice', 5), ('M', 'slice', 2), ('M', 'slice', 1), ('M', 'not', 1)])

    def test_a_stuck_bit(self):
        # bit 0 of the register's output stuck at 1: 4 is seen as 5, and 6 is next
        stuck = Stuck(6, 0, 1)
        self.assertEqual(self.netlist.clock({'PC': 4, 'M': [0] * 4}, 0, stuck)['PC'], 6)
        # bit 7 of the word stuck at 0: the jump becomes a store of 25 in cell 3
        after = self.netlist.clock(self.netlist.zeros(), 0b11111001, Stuck(0, 7, 0))
        self.assertEqual(after, {'PC': 1, 'M': [0, 0, 0, 25]})


class Storages(unittest.TestCase):
    """What storages take, and what reads give."""

    def test_all_change_together(self):
        swap = netlist('register A : 4 in B;', 'register B : 4 in A;')
        after = swap.clock(swap.zeros() | {'A': 3, 'B': 12}, 0)
        self.assertEqual((after['A'], after['B']), (12, 3))

    def test_enable(self):
        kept = netlist('register A : 4 in I[7:4] when I[0];')
        self.assertEqual(kept.clock(kept.zeros() | {'A': 9}, 0b01010000)['A'], 9)
        self.assertEqual(kept.clock(kept.zeros() | {'A': 9}, 0b01010001)['A'], 5)

    def test_past_the_size(self):
        """A read gives 0 and a write does nothing."""
        short = netlist('register A : 4 in read(M, I[3:2]);', when='1#1')
        before = short.zeros() | {'M': [1, 2, 3]}
        self.assertEqual(short.clock(before, 0b01011111), before | {'PC': 1, 'A': 0})
        after = short.clock(before, 0b01011010)
        self.assertEqual((after['A'], after['M']), (3, [1, 2, 5]))

    def test_read_and_write_at_one_edge(self):
        both = netlist('register A : 4 in read(M, I[1:0]);', when='1#1')
        after = both.clock(both.zeros() | {'M': [7, 0, 0]}, 0b01010000)
        self.assertEqual((after['A'], after['M']), (7, [5, 0, 0]))

    def test_file(self):
        item = 'file F : 4 size 3 addr 2 write I[7:4] at I[3:2] when I[1];'
        file = netlist(item, 'register A : 4 in read(F, I[3:2]);', head='version 2;')
        after = file.clock(file.zeros() | {'F': [1, 2, 3]}, 0b11110110)
        self.assertEqual((after['A'], after['F']), (2, [1, 15, 3]))
        after = file.clock(file.zeros() | {'F': [1, 2, 3]}, 0b11111110)
        self.assertEqual((after['A'], after['F']), (0, [1, 2, 3]))

    def test_mode(self):
        mode = netlist('mode W : 1 in I[0] when I[1];',
                       'register A : 4 in case W { 0: 3#4; else: 5#4; };', head='version 3;')
        after = mode.clock(mode.zeros(), 0b11)
        self.assertEqual((after['W'], after['A']), (1, 3))
        after = mode.clock(after, 0b01)
        self.assertEqual((after['W'], after['A']), (1, 5))

    def test_bank(self):
        item = 'bank N : 4 size 2 addr 1 write I[7:4] at I[0] when I[1];'
        bank = netlist(item, head='version 4;')
        self.assertEqual(bank.clock(bank.zeros(), 0b01110011)['N'], [0, 7])
        fixed = netlist('bank N : 4 size 2 addr 1;', head='version 4;')
        self.assertEqual(fixed.clock(fixed.zeros() | {'N': [1, 2]}, 255)['N'], [1, 2])


class Values(unittest.TestCase):
    """What expressions, buses and parts give."""

    def value(self, text: str, width: int, word: int, *items: str) -> int:
        found = netlist(*items, f'register A : {width} in {text};')
        return found.clock(found.zeros(), word)['A']

    def test_wiring(self):
        self.assertEqual(self.value('I[6:3]', 4, 0b01011000), 0b1011)
        self.assertEqual(self.value('zext(I[3:0], 8)', 8, 0b1010), 0b00001010)
        self.assertEqual(self.value('sext(I[3:0], 8)', 8, 0b1010), 0b11111010)
        self.assertEqual(self.value('cat(I[1:0], I[7:6])', 4, 0b01000010), 0b1001)

    def test_case(self):
        case = 'case I[2:0] { 0: 1#4; 1, 3: 2#4; else: 7#4; }'
        self.assertEqual([self.value(case, 4, word) for word in range(8)], [1, 2, 7, 2, 7, 7, 7, 7])

    def test_nets_before_their_declaration(self):
        self.assertEqual(self.value('x', 4, 0b0110, 'net x : 4 = y;', 'net y : 4 = not(I[3:0]);'),
                         0b1001)

    def test_bus(self):
        bus = 'bus B : 4 { 5#4 when I[0]; 9#4 when I[1]; }'
        self.assertEqual([self.value('B', 4, word, bus) for word in (0, 1, 2)], [0, 5, 9])

    def test_clash(self):
        """Two drivers clash that are enabled, equal values too, even where nothing uses the bus."""
        alike = netlist('bus B : 4 { 5#4 when I[0]; 5#4 when I[1]; }')
        with self.assertRaisesRegex(Clash, '^B$'):
            alike.clock(alike.zeros(), 0b11)

    def test_part(self):
        """Two parts of a module, of which the second takes the first one's output."""
        module = 'module INC (in a : 4, out y : 4, out z : 1) { y = add(a, 1#4); z = eq(a, 0#4); }'
        parts = ('part one : INC (a = I[3:0]);', 'part two : INC (a = one.y);')
        self.assertEqual(self.value('two.y', 4, 14, module, *parts), 0)
        self.assertEqual(self.value('two.z', 1, 15, module, *parts), 1)

    def test_numbers_of_a_part(self):
        """Inputs with what they are linked to, then the outputs, then their expressions."""
        found = netlist('module M (in a : 4, out y : 4) { y = not(a); }',
                        'part p : M (a = add(I[3:0], 1#4));')
        kinds = [(net.kind, net.width) for net in found.nets if net.item == 'p']
        self.assertEqual(kinds, [('slice', 4), ('const', 4), ('add', 4), ('input a', 4),
                                 ('output y', 4), ('not', 4)])


class Faults(unittest.TestCase):
    """What can't be clocked is a Fault, never another exception."""

    def test_faults(self):
        for item, told in (
                ('register A : 4 in x;', 'x stands for nothing'),
                ('register A : 4 in p.y;', r'p\.y stands for nothing'),
                ('register A : 4 in read(N, I[0]);', 'no memory is called N'),
                ('part p : M ();', 'no module is called M'),
                ('net x : 4 = y; net y : 4 = x;', 'depends on itself'),
                ('module M (in a : 1) { } part p : M ();', 'p leaves a open'),
                ('code J : 8 size 1 at PC;', '2 items are a code')):
            with self.subTest(item=item), self.assertRaisesRegex(Fault, told):
                netlist(item)


class Runs(unittest.TestCase):
    """Images, clocked from a memory text."""

    def run_example(self, cycles: int) -> str:
        texts = [(EXAMPLES / name).read_text() for name in ('a16.rtn', 'sum.img', 'sum.mem')]
        return clocked_text(texts[0], read_image(texts[1]), texts[2], cycles)

    def test_start(self):
        cells = (EXAMPLES / 'sum.mem').read_text()
        self.assertEqual(self.run_example(0), f'cycles 0\nPC 0\nACC 0\n{cells}done\n')

    def test_clash(self):
        text = FRAME.format(value='I[7:4]', when='0#1')
        text += 'bus B : 4 { 5#4 when I[0]; 9#4 when I[1]; }'
        image = read_image('image 8 2\ntemps 0\nword 0 01 -\nword 1 03 -\ndone\n')
        self.assertEqual(clocked_text(text, image, '', 2), 'error clash 1 B\n')
        self.assertEqual(clocked_text(text, image, '', 1), 'cycles 1\nPC 1\ndone\n')


if __name__ == '__main__':
    unittest.main()
