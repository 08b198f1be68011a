"""The proof: processors are equal to what they are read as, and planted bugs are refused."""
from __future__ import annotations

import concurrent.futures
import dataclasses
import os
import pathlib
import tempfile
import unittest

from tests.processors import ALL, HAS_YOSYS, NO_YOSYS, reading

from from_verilog import proving
from from_verilog.reading import Reading
from from_verilog.refusals import Refused


@dataclasses.dataclass(frozen=True)
class Plant:
    """A bug in a netlist: `new` in place of `old`, by which these storages have to differ."""
    processor: str
    bug: str
    old: str
    new: str
    storages: tuple[str, ...]

    def planted(self, read: Reading) -> Reading:
        assert read.text.count(self.old) == 1, f'{self.processor}: {self.bug} is stale'
        return dataclasses.replace(read, text=read.text.replace(self.old, self.new))


PLANTS = (
    Plant('a16', 'the operands of a difference are exchanged',
          'sub(acc, read(ram, operand))', 'sub(read(ram, operand), acc)', ('acc',)),
    Plant('dsp', 'the operands of a difference are exchanged',
          '3: sub(A, opd);', '3: sub(opd, A);', ('A',)),
    Plant('c10i', 'an extension has no sign',
          '1: sext(bus_, 32);', '1: zext(bus_, 32);', ('acc_q',)),
    Plant('r16', 'a comparison has no sign',
          'else: case lts(a, b) { 1: pc_rel;', 'else: case ltu(a, b) { 1: pc_rel;', ('pc',)),
    Plant('r16', 'a shift has no sign', 'sar(a, operand)', 'shr(a, operand)', ('a',)),
    Plant('twin', 'a shift has no sign', 'sar(a, 1#16)', 'shr(a, 1#16)', ('a',)),
    Plant('rrf', 'the numbers of two rows are exchanged',
          '6: add(A, B);\n  7: sub(A, B);', '7: add(A, B);\n  6: sub(A, B);', ('rf.regs',)),
    Plant('a16', 'a store has no enable',
          'write acc at operand when eq(opcode, 4#4);', 'write acc at operand;', ('ram',)),
    Plant('c10i', 'a slice is one too low', 'net k : 9 = I[8:0];', 'net k : 9 = I[9:1];',
          ('pc_q',)),
    Plant('a16', 'a branch is taken where it should not be',
          'case eq(acc, 0#16) { 1: operand; 0:', 'case eq(acc, 0#16) { 0: operand; 1:', ('pc',)),
    Plant('a16', 'a register takes a value under one word more',
          'when case opcode { 1, 2, 3, 5:', 'when case opcode { 1, 2, 3, 5, 6:', ('acc',)),
    Plant('a16', 'the counter steps by two',
          '  else: add(pc, 1#8);', '  else: add(pc, 2#8);', ('pc',)),
    Plant('m16', 'a store goes to the field, not to the index',
          'write ACC at ea', 'write ACC at f', ('M',)),
    Plant('m16', 'a product is of the wrong factor', 'mul(T, m)', 'mul(T, X)', ('ACC',)),
    Plant('m16', 'the mode is read upside down',
          'case W { 1: mul(T, m); 0: long15[15:0]; }', 'case W { 0: mul(T, m); 1: long15[15:0]; }',
          ('ACC',)),
    Plant('f16z', 'a driver of the bus is the wrong one',
          'by_ar when eq(op, 9#4);', 'by_f when eq(op, 9#4);', ('acc',)),
    Plant('rrf', 'a register file is written at the wrong field', 'write wb at rd',
          'write wb at ra', ('rf.regs',)),
    Plant('twin', 'the wrong memory is read', 'net xd : 16 = read(xmem, xa);',
          'net xd : 16 = read(ymem, xa);', ('a', 'ix', 'iy', 'x', 'y')),
    Plant('r_fsm', 'a word of two clocks steps once too often',
          'else: add(pc, 1#8);', 'else: add(pc, 2#8);', ('pc',)),
    Plant('r_syncrom', 'the word read ahead jumps elsewhere', '6: I[7:0];', '6: I[8:1];', ('pc',)),
    Plant('pc_bytes', 'a counter of bytes steps by two words',
          'else: add(pc, 1#8);', 'else: add(pc, 2#8);', ('pc',)),
    Plant('m32_addr', 'a short memory is read one cell further',
          '2: add(acc, read(ram, a[7:2]));', '2: add(acc, read(ram, add(a[7:2], 1#6)));',
          ('acc',)),
)
SAME = (
    Plant('a16', 'what is kept is a row in place of an enable',
          '  else: read(ram, operand);\n}\n  when case opcode { 1, 2, 3, 5: 1#1; else: 0#1; };',
          '  1: read(ram, operand);\n  else: acc;\n};', ()),
    Plant('m16', 'a shift without a sign, of which the low half is used',
          'sar(long, 15#32)', 'shr(long, 15#32)', ()),
)


def all_differing(readings: list[Reading]) -> list[list[str]]:
    """The storages that the proofs of some readings refuse; Yosys takes all processors at hand."""
    with concurrent.futures.ThreadPoolExecutor(len(os.sched_getaffinity(0))) as pool:
        return list(pool.map(differing, readings))


def differing(read: Reading) -> list[str]:
    """The storages that a proof refuses."""
    with tempfile.TemporaryDirectory() as folder:
        found = proving.proof(read, pathlib.Path(folder)).findings
    return sorted(finding.claim.storage for finding in found
                  if finding.verdict is not proving.Verdict.HOLDS)


@unittest.skipUnless(HAS_YOSYS, NO_YOSYS)
class Proofs(unittest.TestCase):
    def test_processors_are_equal(self):
        for name, found in zip(ALL, all_differing([reading(name) for name in ALL])):
            with self.subTest(name):
                self.assertEqual(found, [])

    def test_planted_bugs_are_refused(self):
        planted = [plant.planted(reading(plant.processor)) for plant in PLANTS]
        for plant, found in zip(PLANTS, all_differing(planted)):
            with self.subTest(plant.bug, processor=plant.processor):
                self.assertEqual(found, sorted(plant.storages))

    def test_other_texts_of_the_same_meaning_are_equal(self):
        for plant in SAME:
            with self.subTest(plant.bug, processor=plant.processor):
                self.assertEqual(differing(plant.planted(reading(plant.processor))), [])

    def test_a_wrong_map_is_refused(self):
        read = reading('m16')
        exchange = {'T': 'X', 'X': 'T'}
        registers = tuple(dataclasses.replace(register, path=exchange.get(register.path,
                                                                          register.path))
                          for register in read.map.registers)
        wrong = dataclasses.replace(read, map=dataclasses.replace(read.map, registers=registers))
        self.assertTrue(differing(wrong))

    def test_a_map_of_what_is_not_there_is_refused(self):
        read = reading('a16')
        registers = tuple(dataclasses.replace(register, path='nowhere')
                          for register in read.map.registers)
        with self.assertRaises(Refused):
            differing(dataclasses.replace(
                read, map=dataclasses.replace(read.map, registers=registers)))


@unittest.skipUnless(HAS_YOSYS, NO_YOSYS)
class Told(unittest.TestCase):
    """What the command says of a proof."""

    def test_premises(self):
        for name, due in (
                ('a16', ['rst_n is 1 once the reset is over']),
                ('r_stack', ['no word of a program has 8, 9 in op']),
                ('r_stall', ['stall is 0']),
                ('m32_addr', ['addresses of ram stay below 64']),
                ('f16z', ['ir_in has the word at pc',
                          'no two drivers of a bus are enabled at once']),
                ('pc_bytes', [])):
            with self.subTest(name):
                found = proving.prove(reading(name)).premises
                self.assertEqual([line for line in found if line in due], due)
                self.assertFalse(any('begins' in line for line in found))

    def test_a_difference_has_a_place_and_a_case(self):
        plant = next(plant for plant in PLANTS if plant.processor == 'a16')
        (told,) = proving.prove(plant.planted(reading('a16'))).differences
        self.assertRegex(str(told), r'a16\.v:12\.\d+: register acc differs: with .*word = 0x3')


@unittest.skipUnless(HAS_YOSYS, NO_YOSYS)
class Changed(unittest.TestCase):
    """The Verilog is changed behind the reading's back."""

    def differing(self, processor: str, old: str, new: str) -> list[str]:
        read = reading(processor)
        text = ALL[processor].file.read_text()
        self.assertEqual(text.count(old), 1)
        with tempfile.TemporaryDirectory() as folder:
            file = pathlib.Path(folder) / ALL[processor].file.name
            file.write_text(text.replace(old, new))
            (file.parent / 'prog.hex').write_text('000\n')
            options = dataclasses.replace(read.options, files=(str(file),))
            return differing(dataclasses.replace(read, options=options))

    def test_a_program_counter_that_begins_elsewhere(self):
        self.assertEqual(self.differing('a16', "pc  <= 8'd0;", "pc  <= 8'd4;"), ['pc'])
        self.assertEqual(self.differing('m16', 'PC <= 0;', 'PC <= 4;'), ['PC'])

    def test_a_mode_that_begins_with_1(self):
        self.assertEqual(self.differing('m16', 'W <= 0; end', 'W <= 1; end'), ['W'])

    def test_a_word_that_is_read_late(self):
        self.assertTrue(self.differing('r_syncrom', 'rom[pc_next]', 'rom[pc]'))

    def test_an_instruction_of_three_clocks(self):
        self.assertTrue(self.differing('r_fsm', '1: begin state <= 0;',
                                       '1: begin state <= acc[0];'))


if __name__ == '__main__':
    unittest.main()
