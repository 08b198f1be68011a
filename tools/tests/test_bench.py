"""The bench: the Verilog and the netlist side by side, and a program in the Verilog's memories."""
from __future__ import annotations

import dataclasses
import pathlib
import tempfile
import unittest

from tests.processors import ALL, HAS_ICARUS, HAS_YOSYS, NO_ICARUS, NO_YOSYS, reading

from from_verilog import bench, way_back
from from_verilog.mapping import Map, Role
from rtn.images import read_image
from rtn.reading import Fault

STATES = 20


def run(read) -> bench.Run:
    few = dataclasses.replace(read, options=dataclasses.replace(read.options, random=STATES))
    with tempfile.TemporaryDirectory() as folder:
        return bench.bench(few, pathlib.Path(folder) / 'bench')


@unittest.skipUnless(HAS_YOSYS, NO_YOSYS)
@unittest.skipUnless(HAS_ICARUS, NO_ICARUS)
class SideBySide(unittest.TestCase):
    def test_processors_are_alike(self):
        for name in ('a16', 'm16', 'f16z', 'rrf', 'r_fsm', 'r_syncrom', 'code_wire', 'ext_ram',
                     'pc_bytes', 'rf_areset', 'attr', 'accfetch2'):
            with self.subTest(name):
                found = run(reading(name))
                self.assertEqual(found.differences, ())
                self.assertEqual(found.compared, STATES * bench.INSTRUCTIONS)

    def test_words_that_are_left_out_end_a_state(self):
        found = run(reading('r_div'))
        self.assertEqual(found.differences, ())
        self.assertLess(0, found.compared)
        self.assertLess(found.compared, STATES * bench.INSTRUCTIONS)

    def test_a_memory_that_addresses_reach_beyond_is_left_out(self):
        self.assertEqual(run(reading('m32_addr')).open_arrays, ('ram',))

    def test_planted_bugs_are_seen(self):
        for name, old, new, storage in (
                ('a16', 'sub(acc, read(ram, operand))', 'sub(read(ram, operand), acc)', 'acc'),
                ('m16', 'write ACC at ea', 'write ACC at f', 'M'),
                ('r_fsm', 'else: add(pc, 1#8)', 'else: add(pc, 2#8)', 'pc')):
            with self.subTest(name):
                read = reading(name)
                self.assertEqual(read.text.count(old), 1)
                wrong = dataclasses.replace(read, text=read.text.replace(old, new))
                self.assertIn(f' {storage} differs', str(run(wrong).differences[0]))


def program(width: int) -> str:
    """Adds cells 0 and 1 into 2, with operation codes in the four high bits: 1 loads, 2 adds,
    4 stores, 6 jumps."""
    digits = -(-width // 8) * 2
    words = [code << width - 4 | cell for code, cell in ((1, 0), (2, 1), (4, 2), (6, 3))]
    listed = [f'word {k} {word:0{digits}x} -' for k, word in enumerate(words)]
    return '\n'.join([f'image {width} 4', 'temps 0', 'place a 0 1', 'place b 1 1', 'place x 2 1',
                      'mark 3 end', *listed, 'done', ''])


@unittest.skipUnless(HAS_YOSYS, NO_YOSYS)
class WayBack(unittest.TestCase):
    def way(self, name: str, memory: str = '') -> way_back.WayBack:
        chart = Map.of_json(reading(name).map.to_json())
        return way_back.WayBack(chart, read_image(program(chart.code.width)), memory)

    @unittest.skipUnless(HAS_ICARUS, NO_ICARUS)
    def test_a_program_runs_in_the_designers_file(self):
        for name in ('a16', 'r_fsm', 'r_syncrom', 'ext_ram', 'accfetch2', 'code_wire', 'rom_case',
                     'init_ram', 'init_rom', 'pc_slice', 'regs_by_module'):
            with self.subTest(name), tempfile.TemporaryDirectory() as folder:
                memory = reading(name).map.array(Role.MEMORY).name
                way = self.way(name, f'{memory} 0 5\n{memory} 1 37\n')
                way_back.written(way, pathlib.Path(folder))
                ran = way_back.run(pathlib.Path(folder), [str(ALL[name].file)])
                self.assertEqual(ran.variables, {'a': 5, 'b': 37, 'x': 42})
                self.assertTrue(ran.is_ended)
                self.assertEqual(ran.instructions, 3)

    def test_files_are_as_long_as_the_arrays(self):
        files = self.way('a16', 'ram 255 65535\n').files()
        self.assertEqual(files['words.hex'].splitlines()[:5], ['@0', '100', '201', '402', '603'])
        self.assertEqual(len(files['words.hex'].splitlines()), 257)
        self.assertEqual(files['ram.hex'].splitlines()[-1], 'ffff')
        self.assertEqual(len(files['ram.hex'].splitlines()), 257)

    def test_what_does_not_fit_is_a_fault(self):
        for memory in ('ram 256 1\n', 'ram 0 65536\n', 'rom 0 1\n', 'acc 65536\n', 'ram x 1\n'):
            with self.subTest(memory), self.assertRaises(Fault):
                self.way('a16', memory)
        chart = reading('a16').map
        with self.assertRaises(Fault):
            way_back.WayBack(chart, read_image(program(16)), '')
        short = dataclasses.replace(chart, code=dataclasses.replace(chart.code, words=3))
        with self.assertRaises(Fault):
            way_back.WayBack(short, read_image(program(12)), '')

    def test_a_map_of_another_netlist_is_a_fault(self):
        for name in ('a16', 'm16', 'rrf', 'twin'):
            read = reading(name)
            way_back.check_net(read.map, read.text)
        for name in ('f16z', 'pc_bytes', 'm16'):
            with self.subTest(name), self.assertRaises(Fault):
                way_back.check_net(reading('a16').map, reading(name).text)

    def test_a_text_that_is_no_map_is_a_fault(self):
        with tempfile.TemporaryDirectory() as folder:
            file = pathlib.Path(folder) / 'x.map'
            for text in ('', '{}', '[]', '{"code": 3}', 'null'):
                file.write_text(text)
                with self.subTest(text), self.assertRaises(Fault):
                    way_back.map_in(str(file))


if __name__ == '__main__':
    unittest.main()
