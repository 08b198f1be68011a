"""What processors in Verilog are read as, and why others are refused."""
from __future__ import annotations

import contextlib
import io
import pathlib
import re
import tempfile
import unittest

from tests.processors import ALL, HAS_YOSYS, NO_YOSYS, STYLES, reading

from from_verilog import __main__ as command
from from_verilog.mapping import Map, Role
from from_verilog.options import parse
from from_verilog.reading import read
from from_verilog.refusals import Refused, Rule
from rtn.reading import read_netlist

REFUSED = (     # the file with its options, the rule, the place, and what is said
    ('style/r_pipeline.v', Rule.PIPELINE, '7.14', 'register ir_q keeps the instruction word for a '
     'later clock'),
    ('style/r_latch.v', Rule.LATCH, '9.3', 'latch: b keeps its value where the block gives it '
     'none'),
    ('style/r_gated.v', Rule.CLOCK, '2.28', 'the clock of register acc is no input'),
    ('style/r_div.v', Rule.OPERATOR, '8.84', 'division has no operator in RTN (it is used by '
     'words with op 2)'),
    ('style/r_input.v', Rule.INPUT, '1.86', 'input gpio decides something'),
    ('style/r_stack.v', Rule.MEMORY, '7.13', 'memory st has no role'),
    ('style/r_negedge.v', Rule.CLOCK, '2.28', '2 clocks or edges'),
    ('style/r_twowrites.v', Rule.MEMORY, '9.140', 'two writes of memory ram at once'),
    ('style/r_wide.v', Rule.LIMIT, '8.14', 'register mac has 80 bits'),
    ('style/r_loop.v', Rule.LOOP, '8.29', 'q depends on itself without a register between'),
    ('style/r_reset100.v', Rule.RESET, '2.13', 'the program counter pc begins at 16'),
    ('style/r_stall.v', Rule.INPUT, '1.79', 'input stall decides something'),
    ('style/r_fsm.v', Rule.PHASES, '3.28', 'register ir keeps the instruction word'),
    ('style/r_fsm.v --phases state=1,0', Rule.CODE, '6.20', 'rom is read at another address than '
     'the program counter'),
    ('style/four_states.v --phases state=0,1,3', Rule.PHASES, '', 'state does not go through '
     'these numbers under every word'),
    ('style/r_inout.v', Rule.MEMORY, '1.52', 'the data memory stands behind the inout port d'),
    ('style/r_two_blocks.v', Rule.DRIVER, '4.3', 'acc has two drivers'),
    ('style/riscv.v', Rule.COUNTER, '3.85', 'something depends on all of pc'),
    ('style/noname2.v', Rule.SYNTAX, '3', 'Yosys: syntax error'),
    ('style/ext_ram.v', Rule.MEMORY, '', 'there is no data memory'),
    ('style/rom_case.v', Rule.CODE, '2.68', 'ir is a table of pc: the words are wired in: '
     '--code ir --pc pc'),
    ('cases/von.v', Rule.CODE, '2.73', 'one memory for words and data (a von Neumann machine)'),
    ('cases/up3.v', Rule.CODE, '11.33', 'a von Neumann machine'),
    ('cases/pipe2.v', Rule.PIPELINE, '3.65', 'register ir keeps the instruction word'),
    ('cases/stackm.v', Rule.MEMORY, '3.50', 'memory stk has no role (it is used by words with '
     '15:12 9)'),
    ('cases/import_body.sv', Rule.SYNTAX, '2', 'this Yosys reads no `import`'),
    ('style/addsub.v --memory dram', Rule.OPTION, '', 'no memory is called dram'),
    ('style/addsub.v --pc nothing --code ir', Rule.OPTION, '', 'no register is called nothing'),
    ('style/addsub.v --code nothing', Rule.OPTION, '', 'no memory, input or wire is called '
     'nothing'),
    ('style/addsub.v --tie nothing=1', Rule.OPTION, '', 'no input is called nothing'),
    ('style/addsub.v --tie rst=2', Rule.OPTION, '', 'it has 1 bits'),
    ('style/addsub.v --drop nothing', Rule.OPTION, '', 'no register is called nothing'),
    ('style/addsub.v --drop acc', Rule.OPTION, '2.28', 'register acc is left out, but something '
     'depends on it'),
    ('style/addsub.v --never sum=1', Rule.OPTION, '', 'sum is no field of the instruction word'),
    ('style/addsub.v --never op=16', Rule.OPTION, '', 'op has 4 bits'),
    ('style/addsub.v --never 12:9=1', Rule.OPTION, '', 'and no bit 12'),
    ('style/addsub.v --phases acc2=0,1', Rule.OPTION, '', 'no register is called acc2'),
    ('style/addsub.v --ports m:a,b,c,d,e', Rule.OPTION, '', '--ports: no output is called a'),
    ('style/addsub.v --words 257', Rule.OPTION, '', 'the program counter reaches 256'),
    ('style/addsub.v --reset nothing', Rule.OPTION, '', 'no input is called nothing'),
    ('style/addsub.v --top nothing', Rule.SYNTAX, '', 'Yosys: Module `nothing\' not found'),
)
PROPOSED = re.compile(r'(--never \S+) leaves them out')


def words_of(said: str) -> list[str]:
    file, *options = said.split()
    return [str(STYLES.parent / file), *options]


@unittest.skipUnless(HAS_YOSYS, NO_YOSYS)
class Refusals(unittest.TestCase):
    """Processors that can't be said, and the reason as data."""

    def test_each(self):
        for said, rule, place, what in REFUSED:
            with self.subTest(said):
                with self.assertRaises(Refused) as caught:
                    read(parse(words_of(said)))
                refusal = caught.exception.refusal
                self.assertIs(refusal.rule, rule)
                file = words_of(said)[0]
                self.assertEqual(str(refusal.place or ''), f'{file}:{place}' if place else '')
                self.assertIn(what, str(refusal))

    def test_what_is_proposed_is_taken(self):
        for said in ('style/r_div.v', 'style/r_stack.v', 'cases/stackm.v'):
            words, count = words_of(said), 0
            while count < 5:
                try:
                    found = read(parse(words))
                    break
                except Refused as refused:
                    proposed = PROPOSED.search(refused.refusal.advice)
                    self.assertTrue(proposed, str(refused))
                    words, count = [*words, *proposed[1].split()], count + 1
            with self.subTest(said):
                self.assertIn('bus left_out', found.text)

    def test_no_trace(self):
        errors = io.StringIO()
        with contextlib.redirect_stderr(errors):
            status = command.main(words_of('style/r_latch.v'))
        self.assertEqual(status, 1)
        self.assertRegex(errors.getvalue(),
                         r'\A\S+r_latch\.v:9\.3: latch: [^\n]*\n\Z')


@unittest.skipUnless(HAS_YOSYS, NO_YOSYS)
class Texts(unittest.TestCase):
    """Processors that come through."""

    def test_all_are_netlists(self):
        for name in ALL:
            with self.subTest(name):
                found = reading(name)
                self.assertTrue(read_netlist(found.text))
                self.assertEqual(found.map, Map.of_json(found.map.to_json()))
                self.assertEqual(found.map.counter.reset or 0, 0)

    def test_a_first_processor(self):
        lines = [line for line in reading('a16').text.splitlines() if '//' not in line]
        self.assertEqual(lines, '''\
code I : 12 size 256 at pc;
net opcode : 4 = I[11:8];
net operand : 8 = I[7:0];
register pc : 8 in case opcode {
  6: operand;
  7: case eq(acc, 0#16) { 1: operand; 0: add(pc, 1#8); };
  else: add(pc, 1#8);
};
register acc : 16 in case opcode {
  2: add(acc, read(ram, operand));
  3: sub(acc, read(ram, operand));
  5: zext(operand, 16);
  else: read(ram, operand);
}
  when case opcode { 1, 2, 3, 5: 1#1; else: 0#1; };
memory ram : 16 size 256 addr 8 write acc at operand when eq(opcode, 4#4);'''.splitlines())

    def test_storages_have_their_declared_paths(self):
        paths = {storage.name: storage.path for name in ('regs_by_module', 'r16')
                 for storage in (*reading(name).map.registers, *reading(name).map.arrays)}
        self.assertEqual(paths['acc_out'], 'r_acc.q')
        self.assertEqual(paths['mem'], 'dmem.mem')
        self.assertIn('// acc_out = r_acc.q, ', reading('regs_by_module').text)

    def test_counters_are_narrowed(self):
        found = reading('pc_bytes').map.counter
        self.assertEqual((found.low, found.width, found.full, found.aligned), (2, 8, 32, True))
        self.assertEqual(reading('pc_slice').map.counter.width, 8)
        self.assertEqual(reading('code_wire').map.counter.width, 8)

    def test_a_short_memory_is_a_premise(self):
        self.assertEqual(reading('m32_addr').map.premises, ('addresses of ram stay below 64',))

    def test_arrays_that_a_reset_clears_stay_arrays(self):
        for name in ('rf_areset', 'rf_areset2', 'rf_reset'):
            file = reading(name).map.array(Role.FILE)
            self.assertEqual((file.path, file.cells, file.address), ('r', 8, 3))

    def test_the_code_behind_a_wire_is_left_out(self):
        found = reading('code_wire')
        self.assertEqual([array.path for array in found.map.arrays], ['ram'])

    def test_states_are_unrolled(self):
        found = read(parse(words_of('style/four_states.v --phases state=0,1,2,3')))
        self.assertEqual([register.path for register in found.map.registers], ['pc'])
        self.assertIn('case eq(read(regs, I[11:9]), read(regs, I[8:6]))', found.text)

    def test_bytes_are_enabled_in_statements_of_their_own(self):
        found = read(parse(words_of('style/byte_enables.v')))
        self.assertIn('else: cat(slice(read(ram, k), 31, 8), a[7:0]);', found.text)

    def test_contents_need_not_be_there(self):
        found = read(parse(words_of('style/tasks.v')))
        self.assertIn('7: case lts(acc, 0#16) { 1: k; 0: add(pc, 1#8); };', found.text)
        self.assertTrue(str(found.map.counter.place).endswith('style/tasks.v:7.16'))

    def test_a_word_that_is_read_ahead(self):
        found = read(parse(words_of('style/read_ahead.v')))
        self.assertEqual((found.map.code.path, found.map.code.ahead), ('rom', 'ir'))

    def test_a_file_whose_cell_0_is_0_is_told(self):
        found = read(parse(words_of('style/r_x0.v')))
        self.assertTrue(any('cell 0 of the register file x reads as 0' in note.what
                            for note in found.notes))
        self.assertFalse(any('cell 0' in note.what for note in reading('rrf').notes))

    def test_a_machine_whose_words_are_left_out(self):
        found = read(parse(words_of('style/riscv.v --never opcode=111')))
        self.assertIn('file x : 32 size 32 addr 5', found.text)

    def test_files_are_written(self):
        with tempfile.TemporaryDirectory() as folder:
            output = pathlib.Path(folder) / 'cpu.rtn'
            with contextlib.redirect_stderr(io.StringIO()):
                status = command.main([*ALL['a16'].words(), '-o', str(output)])
            self.assertEqual(status, 0)
            self.assertEqual(output.read_text(), reading('a16').text)
            self.assertEqual(Map.of_json(output.with_suffix('.map').read_text()),
                             reading('a16').map)


if __name__ == '__main__':
    unittest.main()
