#!/usr/bin/env python3
"""Writes a netlist as Verilog, and a test bench that runs an image on it.

Usage: verilog.py NET.rtn [IMAGE.img [MEMORY.mem]] > out.v
       iverilog -g2001 -o out out.v && vvp -n out [+cycles=N] [+vcd=out.vcd]

The text is Verilog-2001. Its first module has the file's name and is the processor, for simulation
and synthesis: a register, net and bus has its own name, a memory, register file or bank is an array
of registers, and a bus has the wires BUS_enabled and BUS_clash beside it. A module of the netlist
is a module, and a part an instance of it. A value that a slice, an extension or a case is taken of
gets a wire, called after what it is for. What is no name in Verilog, or is another one's, gets a
number behind it. The ports are

    clk, reset                 at a rising edge with `reset` 1 the program counter becomes 0 and
                               nothing else changes
    the code's name            the instruction word, an input
    each register's name       outputs, the program counter among them
    clash                      a bit for each bus, in the order of the text: two of its drivers are
                               enabled

With an image, the module `bench` follows. It holds the words, sets the registers and cells from the
memory text, and clocks the processor N times, or until the program counter stands at the end mark
and 1,000,000 times at most. An image without an end mark ends at its first word that goes to itself
from every state. It writes the state as `record run` does, or the line of a clash. With
+vcd it writes the waves of all nets under `core`, those of the cells that the image's `place` lines
name under `variables`, and beside them `cycle` and `at_mark`, which is 1 where the program counter
stands at a mark. A cycle is 10 ns; its edge comes at 5 of them.

The netlist is taken to break no rule (docs/RTN.md), and the texts to fit it: `record run NET IMAGE
MEMORY 0` says so. The exit status is 0, 1 where a text is none (one line says why), or 2 where the
words are others.
"""
import pathlib
import sys

import command_line
from rtn.bench import verilog_text


def main():
    words = command_line.Parser(__doc__)
    words.add_argument('netlist', metavar='NET.rtn', type=pathlib.Path)
    words.add_argument('image', metavar='IMAGE.img', type=pathlib.Path, nargs='?')
    words.add_argument('memory', metavar='MEMORY.mem', type=pathlib.Path, nargs='?')
    given = words.words()
    paths = [path for path in (given.netlist, given.image, given.memory) if path]
    netlist, *texts = [path.read_bytes().decode('latin-1') for path in paths]
    sys.stdout.write(verilog_text(netlist, given.netlist.stem, *texts))


if __name__ == '__main__':
    command_line.run(main, refused=1)
