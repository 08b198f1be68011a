"""The processors in Verilog that the tests read, with the options that each takes."""
from __future__ import annotations

import dataclasses
import functools
import pathlib
import shutil
import sys

TOOLS = pathlib.Path(__file__).resolve().parents[1]
sys.path.insert(0, str(TOOLS))

from from_verilog.options import parse  # noqa: E402
from from_verilog.reading import Reading, read  # noqa: E402

EXAMPLES = TOOLS.parent / 'examples' / 'verilog'
STYLES, CASES = TOOLS / 'tests' / 'data' / 'style', TOOLS / 'tests' / 'data' / 'cases'
HAS_YOSYS = shutil.which('yosys') is not None
HAS_ICARUS = shutil.which('iverilog') is not None
NO_YOSYS, NO_ICARUS = 'Yosys is not installed', 'Icarus Verilog is not installed'


@dataclasses.dataclass(frozen=True)
class Processor:
    """A file with the options of the command that reads it; `hand` is the netlist of examples/
    that says the same."""
    file: pathlib.Path
    options: tuple[str, ...] = ()
    hand: str = ''

    @property
    def name(self) -> str:
        return self.file.stem

    def words(self, *more: str) -> list[str]:
        top = () if '--top' in self.options else ('--top', self.name)
        return [str(self.file), *top, *self.options, *more]


def example(name: str, *options: str, hand: str = '') -> Processor:
    return Processor(EXAMPLES / name, options, hand)


def style(name: str, *options: str) -> Processor:
    return Processor(STYLES / f'{name}.v', options)


def case(name: str, *options: str) -> Processor:
    return Processor(CASES / f'{name}.v', options)


ALL = {processor.name: processor for processor in (
    example('a16.v', hand='a16'), example('r16.v', hand='r16'), example('rrf.v', hand='rrf'),
    example('c10i.sv', hand='c10i'), example('dsp.v', hand='dsp'), example('twin.v', hand='twin'),
    example('m16.v', '--mode', 'W', hand='m16'), example('f16z.v', hand='f16'), example('bram.v'),
    style('addsub'), style('andor'), style('attr'), style('blocking'), style('bytes'),
    style('casezz'), style('cond_store'), style('flags'), style('if_chain'),
    style('generated'), style('narrow_index'), style('regs_by_module'), style('two_process'),
    style('rom_case', '--code', 'ir', '--pc', 'pc'),
    style('ext_ram', '--code', 'ir', '--ports', 'dm:daddr,drdata,daddr,dwdata,dwe'),
    style('r_fsm', '--phases', 'state=0,1'), style('r_syncrom'),
    style('r_stack', '--never', 'op=8,9'), style('r_div', '--never', 'op=2'),
    style('r_stall', '--tie', 'stall=0'),
    case('accfetch2', '--phases', 'phase=0,1'), case('alias_port'),
    case('code_wire', '--code', 'w', '--pc', 'pc'), case('init_ram'), case('init_rom'),
    case('init_rom1'), case('m32_addr'), case('mips16'), case('pc_bytes'), case('pc_slice'),
    case('rf_areset'), case('rf_areset2', '--top', 'rf_areset'), case('rf_reset'),
    case('stackm', '--never', '15:12=8,9'))}


@functools.cache
def reading(name: str) -> Reading:
    """What a processor is read as."""
    return read(parse(ALL[name].words()))
