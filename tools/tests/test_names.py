"""Where code ends, and memory by names."""
import pathlib
import tempfile
import unittest

from rtn.bench import verilog_text
from rtn.clock import Netlist
from rtn.endings import end_of, goes_to_itself
from rtn.icarus import Icarus
from rtn.images import image_text, read_image
from rtn.names import Setting, Store, read_setting
from rtn.reading import Fault, read_netlist
from rtn.runs import ran
from tests.support import EXAMPLES, needs_icarus, needs_record, record, run_here

# Bits 11:8 say what the counter does: 1 a jump, 2 a branch where A is 0, 3 a jump to a place behind
# it, 4 to one that A tells, 5 by a bus; else it steps.
TURNS = '''
    code I : 12 size 256 at PC;
    net f : 8 = I[7:0];
    net next : 8 = add(PC, 1#8);
    bus B : 8 { f when I[0]; A when not(I[0]); }
    register PC : 8 in case I[11:8] {
      1: f; 2: case eq(A, 0#8) { 1: f; 0: next; }; 3: add(PC, f); 4: A; 5: B; else: next;
    };
    register A : 8 in f when eq(I[11:8], 6#4);
    memory M : 8 size 200 addr 8 write A at f when eq(I[11:8], 7#4);
'''
IMAGE = '''image 12 1
temps 2
place a 2 1
place x 3 3
word 0 0100 -
done
'''
STATE = 'cycles 4\nPC 0\nA 7\nM 0 9\nM 2 5\nM 4 255\nM 9 1\ndone\n'
BANKED = '''version 4;
    code I : 8 size 16 at PC; register PC : 4 in I[3:0];
    memory L : 8 size 16 addr 4 write I at PC when 0#1;
    bank R : 8 size 16 addr 4 write I at PC when 0#1;
'''


class Endings(unittest.TestCase):
    """The first word that goes to itself from every state."""

    def test_words(self):
        netlist = Netlist(TURNS)
        for word, address, due in (
                (0x105, 5, True), (0x105, 4, False), (0x205, 5, False), (0x300, 9, True),
                (0x301, 9, False), (0x400, 0, False), (0x505, 5, True), (0x504, 4, False),
                (0x000, 0, False)):
            self.assertEqual(goes_to_itself(netlist, word, address), due, f'{word:x} at {address}')

    def test_images(self):
        netlist = Netlist(TURNS)
        for words, lines, due in (
                (['0600', '0201', '0102', '0103'], [], 2), (['0600', '0100'], [], None),
                ([], [], None),
                (['0100', '0101'], ['mark 1 end'], 1)):
            self.assertEqual(end_of(netlist, read_image(image_text(12, words, *lines))), due, words)

    def test_a_bench_stops_there(self):
        image = image_text(12, ['0605', '0101'])
        self.assertIn('counter != 1 :', verilog_text(TURNS, 'n', image))

    @needs_icarus
    def test_waves_stop_there(self):
        image = image_text(12, ['0605', '0101'])
        with tempfile.TemporaryDirectory() as folder:
            answer = Icarus().run(pathlib.Path(folder), verilog_text(TURNS, 'n', image))
        self.assertEqual(answer.text, 'cycles 1\nPC 1\nA 5\ndone\n')

    @needs_record
    def test_a_run_stops_there(self):
        with tempfile.TemporaryDirectory() as name:
            files = [pathlib.Path(name) / file for file in ('n.rtn', 'n.img', 'n.mem')]
            for file, text in zip(files, (TURNS, image_text(12, ['0605', '0101']), '')):
                file.write_text(text)
            self.assertEqual(ran(record(), *files).cycles, 1)


class Names(unittest.TestCase):
    """Settings, memory texts and states."""

    def setUp(self):
        self.image, self.store = read_image(IMAGE), Store.of(read_netlist(TURNS))

    def lines(self, *words: str, store: Store | None = None) -> list[str]:
        return list((store or self.store).memory_lines(self.image, map(read_setting, words)))

    def test_settings(self):
        self.assertEqual(read_setting('x=1,-2'), Setting('x', 0, (1, -2)))
        self.assertEqual(read_setting('x[4]=7'), Setting('x', 4, (7,)))
        for word in ('x', 'x=', 'x=1,', 'x=a', '=1', 'x[]=1', 'x[-1]=1', 'x = 1', 'x=1;'):
            with self.subTest(word=word), self.assertRaises(Fault):
                read_setting(word)

    def test_memory_text(self):
        self.assertEqual(self.lines('a=5', 'x=1,2', 'x[2]=-1'),
                         ['M 2 5', 'M 3 1', 'M 4 2', 'M 5 255'])
        self.assertEqual(self.lines('a=70000', store=Store()), ['M 2 70000'])

    def test_what_is_refused(self):
        for word, told in (('b=1', 'no variable is called b'), ('a=1,2', 'a has 1 cell'),
                           ('x[2]=1,2', 'x has 3 cells'), ('x[3]=1', 'x has 3 cells'),
                           ('a=256', '256 has more than 8 bits'),
                           ('a=-129', '-129 has more than 8 bits')):
            with self.subTest(word=word), self.assertRaisesRegex(Fault, told):
                self.lines(word)
        with self.assertRaisesRegex(Fault, 'has a sign'):
            self.lines('a=-1', store=Store())

    def test_state(self):
        self.assertEqual(list(self.store.named_lines(self.image, STATE)), ['a=5', 'x=0,255,0'])
        self.assertEqual(list(self.store.named_lines(self.image, STATE, is_signed=True)),
                         ['a=5', 'x=0,-1,0'])
        for text in ('', 'M 2 5\n', 'error clash 0 B\n', STATE[:-5]):
            with self.subTest(text=text), self.assertRaises(Fault):
                list(self.store.named_lines(self.image, text))

    def test_a_bank(self):
        store = Store.of(read_netlist(BANKED))
        image = read_image(image_text(8, ['00'], 'place a 1 1', 'place x 16 2'))
        text = list(store.memory_lines(image, map(read_setting, ('a=3', 'x=4,5'))))
        self.assertEqual(text, ['L 1 3', 'R 0 4', 'R 1 5'])
        state = '\n'.join(['cycles 0', 'PC 0', *text, 'done', ''])
        self.assertEqual(list(store.named_lines(image, state)), ['a=3', 'x=4,5'])

    def test_the_tool(self):
        with tempfile.TemporaryDirectory() as name:
            image, state = pathlib.Path(name) / 'n.img', pathlib.Path(name) / 'n.state'
            image.write_text(IMAGE)
            state.write_text(STATE)
            run = run_here('memory.py', image, 'a=1', 'x[1]=2')
            self.assertEqual((run.returncode, run.stdout, run.stderr), (0, 'M 2 1\nM 4 2\n', ''))
            run = run_here('memory.py', image, '--state', state, '--net', EXAMPLES / 'a16.rtn')
            self.assertEqual((run.returncode, run.stdout, run.stderr),
                             (0, 'a=5\nx=0,255,0\n', ''))
            run = run_here('memory.py', image, 'a=1', 'y=2')
            self.assertEqual((run.returncode, run.stdout, run.stderr),
                             (1, '', 'memory: no variable is called y\n'))


if __name__ == '__main__':
    unittest.main()
