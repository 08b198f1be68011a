#!/usr/bin/env python3
"""Draws a netlist for graphviz.

Usage: picture.py NET.rtn [--pattern N --binary BINARY] > out.dot
       dot -Tsvg out.dot > out.svg

NET.rtn is a netlist text (docs/RTN.md). Signals go downwards; what a register gives back goes up
again.

- Boxes are the registers, the memory and a register file or a bank. A memory, a file or a bank has
  a column for its write and one for each address that it is read at.
- The table on top is the instruction word with the slices of it that the netlist names or takes.
- Trapezia are muxes (`case`) with the numbers of their rows at the inputs; thick bars are buses
  with a cell for each driver.
- Ellipses are operators. The first operand comes from the left where the order counts. A constant
  operand stands in the ellipse.
- Frames are parts, named as `part : MODULE`, with the inputs of the module as small names.
- Solid lines are data, dashed thin ones control: selectors and enables. What the word decides alone
  stands as a formula where it is used; such a formula that has a name stands in the table `decode`.
- Slices and extensions with one use stand at the lines, and so do the names of nets. An expression
  written twice is drawn once.
- Where more than ten lines would lead upwards, they begin at small tags with the storage's name
  instead. What no storage uses isn't drawn.

With --pattern, BINARY is run as `extract`, and the path of the pattern with that number is drawn in
colour: the rows and drivers that its least word selects, the operators between them, the storages
at its ends, and the values of the fields that decide.

The exit status is 0, 1 where the text is no netlist or the pattern isn't there (one line says why),
or 2 where the words are others.
"""
import pathlib
import sys

import command_line
from drawing.nets import Graph
from drawing.paths import Path
from drawing.picture import Drawing
from rtn.calls import Program
from rtn.patterns import read_patterns
from rtn.reading import Fault, read_netlist


def pattern_path(record: Program, file: pathlib.Path, number: int,
                 graph: Graph) -> tuple[Path, str]:
    """The path and the title of the pattern with this number."""
    answer = record('extract', file)
    if answer.status:
        raise Fault(f'extract: {answer.fault}')
    listed = (pattern for mode in read_patterns(answer.text) for pattern in mode)
    found = next((pattern for pattern in listed if pattern.number == number), None)
    if not found:
        raise Fault(f'there is no pattern {number}; {answer.line}')
    path = Path(graph.storages[found.storage], int(found.word, 16))
    if path.text != found.transfer:
        raise Fault(f'pattern {number} is {found.transfer}, and the netlist does {path.text} '
                    f'under its word')
    return path, f'pattern {number}: {found.transfer}   word {found.word}'


def drawn(file: pathlib.Path, number: int | None, record: Program | None) -> str:
    """The drawing of a netlist, with the path of a pattern where one is named."""
    graph = Graph(read_netlist(file.read_bytes().decode('latin-1')))
    if len(graph.words) != 1:
        raise Fault(f'{len(graph.words)} items are a code')
    if record is None:
        return Drawing(graph).text()
    path, title = pattern_path(record, file, number, graph)
    return Drawing(graph, path).text(title)


def main():
    words = command_line.Parser(__doc__)
    words.add_argument('netlist', metavar='NET.rtn', type=pathlib.Path)
    words.add_argument('--pattern', metavar='N', type=command_line.number)
    words.add_argument('--binary', type=command_line.program)
    given = words.words()
    if (given.pattern is None) != (given.binary is None):
        words.error('--pattern and --binary go together')
    sys.stdout.reconfigure(encoding='utf-8')
    try:
        sys.stdout.write(drawn(given.netlist, given.pattern, given.binary))
    except (Fault, OSError) as fault:
        raise Fault(f'{given.netlist}: {fault}') from fault


if __name__ == '__main__':
    command_line.run(main, refused=1)
