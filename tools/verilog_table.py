#!/usr/bin/env python3
"""Writes the table of docs/VERILOG.md: what from-verilog makes of the processors of examples/.

Usage: verilog_table.py BINARY [--check]

Each processor of examples/verilog is read, proved and run beside its netlist under Icarus, and
`record extract` writes the netlist's patterns. Where examples/ has a netlist by hand of the same
processor, the patterns that both have are counted, with the storages called alike. Lines are those
that aren't empty or a remark alone. With --check the table that stands there is compared but for
the seconds; the exit status is 1 where it differs, or where something isn't equal.

It needs Yosys and Icarus Verilog (on Debian and Ubuntu `apt-get install yosys iverilog`).
"""
import pathlib
import re
import tempfile

import command_line

from from_verilog import bench, proving
from from_verilog.refusals import Refused
from rtn.calls import Program
from rtn.patterns import read_patterns
from rtn.reading import Fault
from tests.processors import ALL, Processor, reading

TOOLS = pathlib.Path(__file__).resolve().parent
EXAMPLES = TOOLS.parent / 'examples'
PAGE = TOOLS.parent / 'docs' / 'VERILOG.md'
BEGIN, END = '<!-- verilog_table.py -->', '<!-- verilog_table.py: end -->'
HEAD = ('| processor | Verilog | netlist | patterns | as by hand | proof | bench |\n'
        '|---|---|---|---|---|---|---|')
CALLED = {      # what the netlist by hand calls the storages
    'a16': 'pc=PC acc=ACC ram=M',
    'r16': 'pc=PC a=A b=B x=X mem=M',
    'rrf': 'pc=PC regs=R dmem=M',
    'c10i': 'pc_q=PC acc_q=ACC t_q=T p_q=P ar0_q=AR0 ar1_q=AR1 ram=M',
    'dsp': 'dm=M',
    'twin': 'pc=PC flag=T a=A x=X y=Y ix=IX iy=IY xmem=M ymem=N',
    'm16': '',
    'f16z': 'pc=PC ar=AR acc=ACC t=T p=P ram=M',
}


def lines_of(text: str) -> int:
    """The lines that aren't empty or a remark alone."""
    return sum(bool(line.strip()) and not line.strip().startswith('//')
               for line in text.splitlines())


def patterns(program: Program, net: pathlib.Path) -> list[str]:
    """The patterns of a netlist with their least words, mode by mode."""
    modes = read_patterns(program.done('extract', net))
    return [f'{mode} {pattern.transfer} ; {pattern.word}'
            for mode, listed in enumerate(modes) for pattern in listed]


def as_by_hand(program: Program, processor: Processor, found: list[str]) -> str:
    """How many patterns are those of the netlist by hand."""
    if not processor.hand:
        return 'none'
    names = dict(word.split('=') for word in CALLED[processor.name].split())
    renamed = {re.sub(r'[A-Za-z_]\w*', lambda name: names.get(name[0], name[0]), line)
               for line in found}
    due = patterns(program, EXAMPLES / f'{processor.hand}.rtn')
    return f'{len(renamed.intersection(due))} of {len(due)}'


def row(program: Program, processor: Processor, folder: pathlib.Path) -> str:
    """A processor's line; a Fault where it isn't equal."""
    read = reading(processor.name)
    net = folder / f'{processor.name}.rtn'
    net.write_text(read.text)
    proof = proving.prove(read)
    run = bench.bench(read, folder / processor.name)
    if proof.differences or run.differences:
        raise Fault(f'{processor.name}: {(*proof.differences, *run.differences)[0]}')
    found = patterns(program, net)
    return (f'| `{processor.file.name}` | {lines_of(processor.file.read_text())} '
            f'| {lines_of(read.text)} | {len(found)} | {as_by_hand(program, processor, found)} '
            f'| {proof.seconds:.1f} s | {run.compared:,} |')


def without_seconds(text: str) -> str:
    return re.sub(r'\d+\.\d s', 's', text)


def main() -> int:
    parser = command_line.Parser(__doc__)
    parser.add_program()
    parser.add_argument('--check', action='store_true')
    asked = parser.parse_args()
    rows = [processor for processor in ALL.values()
            if processor.file.parent == EXAMPLES / 'verilog']
    with tempfile.TemporaryDirectory() as folder:
        try:
            made = [row(asked.binary, processor, pathlib.Path(folder)) for processor in rows]
        except Refused as refused:
            raise Fault(str(refused)) from None
    table = '\n'.join([HEAD, *made, ''])
    before, begin, rest = PAGE.read_text().partition(f'{BEGIN}\n')
    old, end, after = rest.partition(END)
    if not begin or not end:
        raise Fault(f'{PAGE.name} has no place for the table')
    if asked.check:
        print('up to date' if without_seconds(old) == without_seconds(table) else table)
        return int(without_seconds(old) != without_seconds(table))
    PAGE.write_text(f'{before}{begin}{table}{end}{after}')
    return 0


if __name__ == '__main__':
    command_line.run(main)
