#!/usr/bin/env python3
"""Writes the memory text in which the variables of an image have these values, or reads a state
back by their names.

Usage: memory.py IMAGE.img [--net NET.rtn] NAME=VALUE,.. NAME[INDEX]=VALUE,.. ..
       memory.py IMAGE.img [--net NET.rtn] --state STATE [--signed]

The places of the image say which cells a variable has. `x=1,2,3` sets the first three of x, and
`y[4]=7` the one with index 4; those that aren't named are left out, and begin with 0. What is
written is for `record run` and `record go`:

    memory.py dot.img x=1,2,3 y[4]=7 > dot.mem
    record run NET.rtn dot.img dot.mem 177 > dot.state
    memory.py dot.img --state dot.state

With --state the file is what `run` wrote, and each variable is printed as such a setting, all of
its cells, in the order of the image.

The memory is called M unless NET.rtn says its name. With a netlist a value may have a sign, it has
to fit in a cell, and the variables in a bank stand there, as an image of `record dual` wants it;
--signed prints values in two's complement.

The exit status is 0, 1 where a text is none or a name or an index isn't there (one line says why),
or 2 where the words are others.
"""
import pathlib
import sys

import command_line
from rtn.images import read_image
from rtn.names import Store, read_setting
from rtn.reading import read_netlist


def main():
    words = command_line.Parser(__doc__)
    words.add_argument('image', metavar='IMAGE.img', type=pathlib.Path)
    words.add_argument('settings', metavar='NAME=VALUE,..', nargs='*')
    words.add_argument('--net', metavar='NET.rtn', type=pathlib.Path)
    words.add_argument('--state', metavar='STATE', type=pathlib.Path)
    words.add_argument('--signed', action='store_true')
    given = words.words()
    if given.state and given.settings:
        words.error('a state is read, or settings are written')
    if given.signed and not (given.state and given.net):
        words.error('--signed goes with --state and --net')
    image = read_image(given.image.read_text(errors='replace'))
    items = read_netlist(given.net.read_text(errors='replace')) if given.net else None
    store = Store() if items is None else Store.of(items)
    if given.state:
        lines = store.named_lines(image, given.state.read_text(errors='replace'), given.signed)
    else:
        lines = store.memory_lines(image, list(map(read_setting, given.settings)))
    sys.stdout.writelines(f'{line}\n' for line in list(lines))


if __name__ == '__main__':
    command_line.run(main, refused=1)
