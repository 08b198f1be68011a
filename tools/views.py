#!/usr/bin/env python3
"""Guesses the marks and the views of hand code, and asks `record check` whether they are right.

Usage: views.py BINARY NET.rtn PROGRAM.src KERNEL [-o FILE] [--runs COUNT] [--seed SEED]
       [--ask COUNT] [--hide NAME] ..

KERNEL is a text for `record asm`, or a kernel as `kernel.py` reads it; its marks, views and hints
are left aside. The variables stand where its lines .place say, or without such a line where
`compile` puts them.

The program is run by its text and the words are clocked, COUNT times, 4 unless it is told, from
random registers and cells, 20,000 clocks each time. A word may have the mark of a test where
it runs as often as the program comes to the test, and all arrays then stand in their places; a test
has up to four words that together do so. A plain variable that isn't in its place there is looked
for in the registers, the cells of the register file and what transfers compute of these, as it is,
cut or widened, added to a number, or subtracted from one. With `--hide i` the variable i may be
hidden where it isn't found, at tests and at the end, as fast code wants it of a counter that nobody
reads any more; no other is. What registers and temporary cells hold is guessed as well, from the
variables and from what the statements of the program compute, in this turn of a loop, in the last
one or in the next; but not that of registers that a view has several of.

`check` is asked at most COUNT times, 60 unless it is told; a view or a hint that it refuses gets
another term, or is left out, and guesses with a mark from which words weren't followed come last.
What it accepts is printed as a kernel, without the hints that it doesn't need, to look at: the
views and what is hidden are part of what is promised. If nothing is accepted, the first segment
that isn't is told, of the guess that hides least, and with -o that guess is written to FILE.

This tool proves nothing and owes nothing: `check` does. The exit status is 0 where it accepted a
guess, 1 where it didn't or a text is refused, or 2 where the words are none of these.
"""
import dataclasses
import functools
import pathlib
import sys

import command_line
from rtn.calls import Program
from rtn.checks import check
from rtn.images import Image, read_image
from rtn.kernel_texts import kernel_of
from rtn.kernels import Kernel, Processor
from rtn.reading import Fault
from rtn.remarks import Order, remarked
from rtn.sources import read_source
from viewing.marks import Marks
from viewing.relations import Registers
from viewing.runs import Runs
from viewing.search import Search
from viewing.trees import Trees

MARK_MISSES = 'error mark '


def bare_image(record: Program, netlist: pathlib.Path, source: pathlib.Path, path: pathlib.Path,
               processor: Processor) -> Image:
    """The words of a kernel with the places of its variables; a Fault where there is more to say
    against them than that they have no marks."""
    kernel = Kernel(path, path.read_text(), processor)
    image = kernel.assembled(record, netlist)
    if kernel.places:
        temporaries, places = kernel.temporaries, tuple(place for _, place in kernel.places)
    else:
        own = read_image(record.done('compile', netlist, source))
        temporaries, places = own.temporaries, own.places
    image = dataclasses.replace(image, temporaries=temporaries, places=places)
    answer = check(record, netlist, source, image.text)
    if not answer.line.startswith(MARK_MISSES):
        raise Fault(answer.fault)
    return image


def main():
    words = command_line.Parser(__doc__)
    words.add_program()
    words.add_argument('netlist', metavar='NET.rtn', type=pathlib.Path)
    words.add_argument('source', metavar='PROGRAM.src', type=pathlib.Path)
    words.add_argument('kernel', metavar='KERNEL', type=pathlib.Path)
    words.add_argument('-o', dest='output', metavar='FILE', type=pathlib.Path)
    for option, number in (('--runs', 4), ('--seed', 0), ('--ask', 60)):
        words.add_argument(option, type=command_line.number, default=number)
    words.add_argument('--hide', metavar='NAME', action='append', default=[])
    given = words.words()
    if not given.runs or not given.ask:
        words.error('there is at least one run, and one question')
    record, netlist, source = given.binary, given.netlist, given.source
    processor = Processor.at(record, netlist)
    image = bare_image(record, netlist, source, given.kernel, processor)
    unknown = sorted(set(given.hide) - {place.name for place in image.places})
    if unknown:
        raise Fault(f'no variable is called {unknown[0]}')
    program = read_source(source.read_text())
    runs = Runs(processor.netlist, program, image, given.seed)
    registers = Registers(processor.items, processor.counter, processor.patterns)
    marks = Marks([runs.run(number) for number in range(given.runs)], image.places,
                  processor.memory, runs.width, registers, frozenset(given.hide))
    for name in sorted(marks.hidden_at_end() - marks.hideable):
        raise Fault(f"{name} isn't in its place at the end, and may not be hidden")
    order = Order(processor.items, [place.name for place in image.places])
    ask = functools.partial(check, record, netlist, source)
    search = Search(ask, image, marks, Trees(program, runs.width), order)
    found = search.found(given.ask)
    if found is None:
        raise Fault('no words can have the marks of the tests')
    text = kernel_of(record, netlist, remarked(found.image, found.remarks))
    if given.output:
        given.output.write_text(text)
    if not found.is_accepted:
        raise Fault(found.answer.fault)
    if not given.output:
        sys.stdout.write(text)


if __name__ == '__main__':
    command_line.run(main, refused=1)
