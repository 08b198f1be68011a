"""VHDL: a GHDL that gets a trial wrong is refused by name, and one that doesn't is taken."""
from __future__ import annotations

import os
import pathlib
import shutil
import tempfile
import unittest
from unittest import mock

from tests.processors import CASES, HAS_YOSYS, NO_YOSYS

from from_verilog import vhdl
from from_verilog.options import Options
from from_verilog.refusals import Refused, Rule

RIGHT = """#!/usr/bin/env python3
# A GHDL whose synthesis is right for the three trials, and for `acc16`.
import pathlib, sys
if sys.argv[1:] == ['--version']:
    print('GHDL 9.9.9 (made up)')
    sys.exit()
text = pathlib.Path(sys.argv[-3]).read_text()
if 'others =>' in text and 'rom' not in text:
    print('module trial (input [1:0] a, output reg [1:0] y);'
          ' always @* case (a) 0: y = 2; 1: y = 0; default: y = 3; endcase endmodule')
elif 'shift_right' in text:
    print('module trial (input [3:0] a, output [3:0] y); assign y = {a[3], a[3:1]}; endmodule')
elif 'acc16' in text:
    print('module acc16 (input clk); endmodule')
else:
    words = ' '.join(f'm[{k}] = {0x10 + 7 * k};' for k in range(16))
    print('module trial (input [3:0] a, output [7:0] y); reg [7:0] m [0:15];'
          f' initial begin {words} end assign y = m[a]; endmodule')
"""
BACKWARDS = RIGHT.replace("m[{k}] =", "m[{15 - k}] =").replace("y = m[a]", "y = m[15 - a]")
LOGICAL = RIGHT.replace('{a[3], a[3:1]}', 'a >> 1')


@unittest.skipUnless(HAS_YOSYS, NO_YOSYS)
class Ghdl(unittest.TestCase):
    def setUp(self):
        self.folder = tempfile.TemporaryDirectory()
        self.addCleanup(self.folder.cleanup)

    def put(self, text: str):
        """Puts a GHDL of this text before any other on the path."""
        file = pathlib.Path(self.folder.name) / 'ghdl'
        file.write_text(text)
        file.chmod(0o755)
        path = f'{self.folder.name}{os.pathsep}{os.environ["PATH"]}'
        patch = mock.patch.dict(os.environ, {'PATH': path})
        patch.start()
        self.addCleanup(patch.stop)

    def test_one_that_is_right_is_taken(self):
        self.put(RIGHT)
        self.assertEqual(vhdl.faults(), [])
        output = pathlib.Path(self.folder.name) / 'n.rtn'
        options = vhdl.as_verilog(Options((str(CASES / 'ghdl_rom.vhdl'),), 'acc16', str(output)))
        self.assertEqual(options.files, (str(output.with_suffix('.ghdl.v')),))
        self.assertIn('module acc16', output.with_suffix('.ghdl.v').read_text())

    def test_one_that_turns_roms_is_refused_by_name(self):
        self.put(BACKWARDS)
        with self.assertRaises(Refused) as caught:
            vhdl.as_verilog(Options((str(CASES / 'ghdl_rom.vhdl'),), 'acc16'))
        self.assertEqual(caught.exception.refusal.rule, Rule.TOOL)
        self.assertIn("GHDL 9.9.9 turns the order of a ROM's words, so", str(caught.exception))

    def test_one_that_shifts_wrongly_is_refused_by_name(self):
        self.put(LOGICAL)
        self.assertEqual(vhdl.faults(), ['makes a logical shift of an arithmetic one'])

    @unittest.skipUnless(shutil.which('ghdl'), 'GHDL is not installed')
    def test_the_one_at_hand(self):
        expected = ['drops the `others` of a case', 'makes a logical shift of an arithmetic one',
                    "turns the order of a ROM's words"]
        if vhdl.version() == 'GHDL 2.0.0':
            self.assertEqual(vhdl.faults(), expected)

    def test_verilog_needs_none(self):
        options = Options(('a.v',), 'a')
        self.assertIs(vhdl.as_verilog(options), options)

    def test_an_entity_has_to_be_named(self):
        with self.assertRaises(Refused):
            vhdl.as_verilog(Options((str(CASES / 'ghdl_rom.vhdl'),)))


if __name__ == '__main__':
    unittest.main()
