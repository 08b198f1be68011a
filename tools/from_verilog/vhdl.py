"""VHDL by GHDL's synthesis to Verilog, where the GHDL at hand gets it right.

Three things went wrong in GHDL 2.0: the `others` of a `case` is dropped, an arithmetic shift
becomes a logical one, and a ROM's words stand in its array from the last to the first. So the
GHDL at hand is given a small text of each before it is trusted with a processor, and Yosys says
what the Verilog means.
"""
from __future__ import annotations

import atexit
import dataclasses
import json
import pathlib
import re
import shutil
import tempfile

from .calls import called, said
from .options import Options
from .refusals import Refused, Rule

SUFFIXES = ('.vhd', '.vhdl')
ADVICE = 'write it in Verilog, and compare the two by simulation (docs/VERILOG.md)'
LIBRARIES = 'library ieee; use ieee.std_logic_1164.all; use ieee.numeric_std.all;'
BYTES = tuple(0x10 + 7 * k for k in range(16))


@dataclasses.dataclass(frozen=True)
class Trial:
    """A small text: its entity has an input `a` and an output `y`, which is `values[a]`.

    `words` are what an array of the Verilog has to begin with, from its cell 0 on.
    """
    wrong: str
    text: str
    inputs: int
    values: tuple[int, ...]
    words: tuple[int, ...] = ()


def _entity(inputs: int, outputs: int, declared: str, body: str) -> str:
    return (f'{LIBRARIES}\nentity trial is port (a : in std_logic_vector({inputs - 1} downto 0); '
            f'y : out std_logic_vector({outputs - 1} downto 0)); end;\n'
            f'architecture r of trial is\n{declared}begin\n{body}\nend;\n')


def _hexadecimal(byte: int) -> str:
    return f'x"{byte:02x}"'


OTHERS = _entity(
    2, 2, '',
    '  process (a) begin\n'
    '    case a is when "00" => y <= "10"; when "01" => y <= "00"; when others => y <= "11";\n'
    '    end case;\n  end process;')
SHIFT = _entity(4, 4, '', '  y <= std_logic_vector(shift_right(signed(a), 1));')
ROM = _entity(
    4, 8,
    '  type words is array (0 to 15) of std_logic_vector(7 downto 0);\n'
    f'  signal rom : words := ({", ".join(map(_hexadecimal, BYTES))});\n',
    '  y <= rom(to_integer(unsigned(a)));')

TRIALS = (
    Trial('drops the `others` of a case', OTHERS, 2, (2, 0, 3, 3)),
    Trial('makes a logical shift of an arithmetic one', SHIFT, 4,
          tuple((a - 16 * (a >> 3) >> 1) & 15 for a in range(16))),
    Trial('turns the order of a ROM\'s words', ROM, 4, BYTES, BYTES),
)


def is_vhdl(file: str) -> bool:
    return pathlib.Path(file).suffix.lower() in SUFFIXES


def version() -> str:
    """What GHDL says that it is, as in `GHDL 2.0.0`."""
    found = re.match(r'GHDL \S+', called('ghdl', '--version').stdout)
    return found[0] if found else 'GHDL of no known version'


def _written(files: list[str], top: str) -> str:
    """The Verilog that GHDL makes of an entity; Refused with what it says against it."""
    with tempfile.TemporaryDirectory() as work:
        sources = [str(pathlib.Path(file).resolve()) for file in files]
        answer = called('ghdl', 'synth', '--std=08', f'--workdir={work}', '--out=verilog',
                        *sources, '-e', top, folder=pathlib.Path(work))
    if answer.returncode or 'module' not in answer.stdout:
        raise Refused(Rule.TOOL, f'ghdl: {said(answer)}')
    return answer.stdout


def _values(verilog: pathlib.Path, inputs: int) -> tuple[int | None, ...]:
    """The output of the Verilog for each input, None where it has no value."""
    asked = '; '.join(f'eval -set a {a} -show y' for a in range(1 << inputs))
    said_of = called('yosys', '-p', f'read_verilog {verilog}; proc; memory_map; opt_clean; {asked}')
    found = re.findall(r"^(?:Eval result: \\y = \d+'([01x]+)\.|Failed to evaluate)",
                       said_of.stdout, re.M)
    return tuple(int(bits, 2) if bits and 'x' not in bits else None for bits in found)


def _words(verilog: pathlib.Path) -> tuple[int, ...]:
    """The words of the one array in a Verilog text, from cell 0 on; none where none is there."""
    with tempfile.TemporaryDirectory() as folder:
        out = pathlib.Path(folder) / 'm.json'
        if called('yosys', '-q', '-p', f'read_verilog {verilog}; proc; memory_collect; '
                  f'write_json {out}').returncode:
            return ()
        module = json.loads(out.read_text())['modules']['trial']
    arrays = [cell['parameters'] for cell in module['cells'].values() if cell['type'] == '$mem_v2']
    if len(arrays) != 1 or set(arrays[0]['INIT']) - {'0', '1'}:
        return ()
    bits, width = arrays[0]['INIT'], int(arrays[0]['WIDTH'], 2)
    return tuple(int(bits[max(end - width, 0):end], 2) for end in range(len(bits), 0, -width))


def faults() -> list[str]:
    """What the GHDL at hand does wrong, a clause each."""
    found = []
    with tempfile.TemporaryDirectory() as name:
        text, verilog = pathlib.Path(name) / 'trial.vhdl', pathlib.Path(name) / 'trial.v'
        for trial in TRIALS:
            text.write_text(trial.text)
            verilog.write_text(_written([str(text)], 'trial'))
            if (_values(verilog, trial.inputs) != trial.values
                    or _words(verilog) not in ((), trial.words)):
                found.append(trial.wrong)
    return found


def check_ghdl() -> None:
    """Refused where the GHDL at hand gets one of the trials wrong."""
    if wrong := faults():
        told = ' and '.join([', '.join(wrong[:-1]), wrong[-1]] if wrong[1:] else wrong)
        raise Refused(Rule.TOOL, f'{version()} {told}, so what it makes of a processor is not '
                      'trusted', None, ADVICE)


def as_verilog(options: Options) -> Options:
    """The options with a Verilog file in place of the VHDL files, where there are any.

    The file stands beside the netlist, as NET.ghdl.v, or in a folder that goes with the process.
    """
    sources = [file for file in options.files if is_vhdl(file)]
    if not sources:
        return options
    if not options.top:
        raise Refused(Rule.OPTION, 'which entity is the processor?', None, '--top ENTITY')
    for file in sources:
        if not pathlib.Path(file).is_file():
            raise Refused(Rule.OPTION, f'there is no file {file}')
    check_ghdl()
    if options.output:
        made = pathlib.Path(options.output).with_suffix('.ghdl.v')
    else:
        folder = tempfile.mkdtemp()
        atexit.register(shutil.rmtree, folder, ignore_errors=True)
        made = pathlib.Path(folder) / f'{options.top}.ghdl.v'
    try:
        made.write_text(_written(sources, options.top))
    except OSError as error:
        raise Refused(Rule.OPTION, f'{error.filename}: {error.strerror}') from error
    others = tuple(file for file in options.files if not is_vhdl(file))
    return dataclasses.replace(options, files=(str(made), *others))
