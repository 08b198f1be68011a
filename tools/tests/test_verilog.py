"""Verilog out: texts by hand, and that Icarus Verilog agrees with the clock."""
import pathlib
import random
import tempfile
import unittest

from rtn.bench import verilog_text
from rtn.icarus import Icarus
from rtn.images import image_text, read_image
from rtn.random_gates import Gates
from rtn.random_processors import Kind, random_processor
from rtn.reading import Fault
from rtn.runs import clocked_text
from tests.support import EXAMPLES, needs_icarus

FRAME = '''code I : 8 size 16 at PC; register PC : 4 in add(PC, 1#4);
    memory M : 4 size 3 addr 2 write I[7:4] at I[1:0] when I[2];'''
WHOLE = '''module n (
  input clk,
  input reset,
  input [7:0] I,
  output reg [3:0] PC
);
  reg [3:0] M [0:2];
  always @(posedge clk)
    if (reset) PC <= 0;
    else begin
      PC <= PC + 4'd1;
      if (I[2] && (M_at < 3'd3)) M[M_at] <= I[7:4];
    end
endmodule
'''


class Texts(unittest.TestCase):
    """What is written, by hand."""

    def assigned(self, text: str, width: int = 4) -> list[str]:
        """What a net of this value is assigned, and the wires before it."""
        made = verilog_text(f'{FRAME} net x : {width} = {text};', 'n')
        return [line.strip() for line in made.splitlines() if line.startswith('  assign')][:-1]

    def test_whole(self):
        self.assertEqual(
            verilog_text(FRAME, 'n'),
            WHOLE.replace('  always', "  wire [1:0] M_at;\n  assign M_at = I[1:0];\n  always"))

    def test_operators(self):
        for text, due in (
                ('not(PC)', '~PC'), ('neg(PC)', '-PC'), ('sub(PC, 1#4)', "PC - 4'd1"),
                ('mul(PC, PC)', 'PC * PC'), ('shl(PC, PC)', 'PC << PC'),
                ('shr(PC, PC)', 'PC >> PC'), ('sar(PC, PC)', '{$signed(PC) >>> PC}'),
                ('xor(PC, or(PC, PC))', 'PC ^ (PC | PC)')):
            self.assertEqual(self.assigned(text), [f'assign x = {due};'], text)
        for text, due in (('eq(PC, 1#4)', "PC == 4'd1"), ('ltu(PC, 1#4)', "PC < 4'd1"),
                          ('lts(PC, 1#4)', "$signed(PC) < $signed(4'd1)")):
            self.assertEqual(self.assigned(text, 1), [f'assign x = {due};'], text)

    def test_wiring(self):
        self.assertEqual(self.assigned('I[6:3]'), ['assign x = I[6:3];'])
        self.assertEqual(self.assigned('I[7:0]', 8), ['assign x = I;'])
        self.assertEqual(self.assigned('zext(PC, 6)', 6), ["assign x = {2'd0, PC};"])
        self.assertEqual(self.assigned('sext(PC, 6)', 6), ['assign x = {{2{PC[3]}}, PC};'])
        self.assertEqual(self.assigned('cat(PC, PC)', 8), ['assign x = {PC, PC};'])
        self.assertEqual(self.assigned('slice(not(I), 3, 0)'),
                         ['assign x_of = ~I;', 'assign x = x_of[3:0];'])

    def test_read_past_the_size(self):
        self.assertEqual(self.assigned('read(M, I[1:0])'), [
            'assign x_at = I[1:0];', "assign x_read = x_at < 3'd3 ? M[x_at] : 4'd0;",
            'assign x = x_read;'])

    def test_case(self):
        self.assertEqual(self.assigned('case I[1:0] { 0: PC; 1, 2: 3#4; else: not(PC); }'), [
            'assign x_select = I[1:0];',
            "assign x = x_select == 2'd0 ? PC"])

    def test_names(self):
        """Keywords and names of the module's own get a number behind them."""
        text = FRAME + 'net wire : 1 = I[0]; net clk : 1 = I[1]; net reset_2 : 1 = I[2];'
        made = verilog_text(text, '3 a/b')
        for line in ('module _3_a_b (', '  assign wire_2 = I[0];', '  assign clk_2 = I[1];',
                     '  assign reset_2 = I[2];'):
            self.assertIn(line, made.splitlines())

    def test_bus(self):
        made = verilog_text(FRAME + 'bus B : 4 { PC when I[0]; 9#4 when I[1]; }', 'n')
        self.assertIn('  assign B_enabled = {I[1],\n    I[0]};', made)
        arms = '\n    : '.join(['B_enabled[0] ? PC', "B_enabled[1] ? 4'd9", "4'd0;"])
        self.assertIn(f'  assign B = {arms}', made)
        self.assertIn("  assign B_clash = (B_enabled & (B_enabled - 2'd1)) != 2'd0;", made)
        self.assertIn('  output clash', made)

    def test_faults(self):
        for item, told in (('net x : 4 = y;', 'y stands for nothing'),
                           ('net x : 4 = read(N, PC);', 'no memory is called N'),
                           ('part p : Q ();', 'no module is called Q'),
                           ('module Q (in a : 1) { } part p : Q ();', 'p leaves its input a open'),
                           ('code J : 8 size 1 at PC;', 'not one code and one memory')):
            with self.subTest(item=item), self.assertRaisesRegex(Fault, told):
                verilog_text(FRAME + item, 'n')
        with self.assertRaisesRegex(Fault, 'no image text'):
            verilog_text(FRAME, 'n', 'image 8 0\n')
        with self.assertRaisesRegex(Fault, 'no line of a memory text: Q 1'):
            verilog_text(FRAME, 'n', image_text(8, []), 'Q 1\n')


@needs_icarus
class Benches(unittest.TestCase):
    """The test bench ends as the clock does."""

    def check(self, netlist: str, image: str, memory: str, cycles: int) -> None:
        with tempfile.TemporaryDirectory() as folder:
            answer = Icarus().run(pathlib.Path(folder), verilog_text(netlist, 'n', image, memory),
                                  f'+cycles={cycles}')
        self.assertEqual(answer.status, 0, answer.errors)
        self.assertEqual(answer.text, clocked_text(netlist, read_image(image), memory, cycles))

    def test_random_gates(self):
        for seed in range(9):
            made = Gates(random.Random(seed), with_file=seed % 3 == 2)
            with self.subTest(seed=seed):
                self.check(made.text(), made.image(), made.memory(), (0, 2, 20)[seed % 3])

    def test_random_processors(self):
        for seed, kind in enumerate(Kind):
            pick = random.Random(seed)
            made = random_processor(pick, kind)
            width = next(int(line.split()[3]) for line in made.text.splitlines()
                         if line.startswith('code '))
            words = [f'{pick.getrandbits(width):0{2 * (width + 7 >> 3)}x}' for _ in range(20)]
            with self.subTest(kind=kind):
                self.check(made.text, image_text(width, words), 'M 3 12345\n', 15)

    def test_bus(self):
        """Each driver has its enable, and a clash stops the clocks."""
        netlist = FRAME + """register A : 4 in B;
            bus B : 4 { 5#4 when I[0]; 9#4 when I[1]; 12#4 when I[7]; }"""
        for words in (['01'], ['02'], ['80'], ['00'], ['01', '02', '80'], ['02', '82', '01']):
            with self.subTest(words=words):
                self.check(netlist, image_text(8, words), 'A 15\n', len(words))

    def test_example(self):
        texts = [(EXAMPLES / name).read_text() for name in ('a16.rtn', 'sum.img', 'sum.mem')]
        self.check(*texts, 4)


if __name__ == '__main__':
    unittest.main()
