#!/usr/bin/env python3
"""Makes an image of a kernel: of code that people write, with the places of its variables, its
marks and its remarks in one text.

Usage: kernel.py BINARY NET.rtn KERNEL [-o IMAGE]
       kernel.py BINARY NET.rtn KERNEL --check PROGRAM.src [-o IMAGE]

The image is written to IMAGE, or without a name to the standard output. With --check BINARY is run
as `check` on it, and the standard output has what that answers; the image goes to IMAGE alone.

A line of a kernel is a word as `record asm` reads it: `TRANSFER & TRANSFER with HI:LO=VALUE`. One
that doesn't name the program counter PC goes on to the next word; where that is to keep its
address, the line says `PC := PC`. A VALUE is a number, a label, a variable `s` or `x[3]` for the
address of its cell, or `here` for the word's own address; and sums and differences of these, where
numbers below 0 are in two's complement. Behind the fields `wants 2,5` may name patterns of the
image's list. What stands behind // isn't looked at, and needless spaces do no harm. These lines,
each but the first five before the word that it is about, become lines of the image:

    .temps COUNT                     how many temporary cells there are
    .place NAME ADDRESS LENGTH       a variable, in order of declaration
    .hide LABEL NAME                 it isn't shown at the mark LABEL, a test's number or `end`
    .tree NUMBER COST                what a tree costs
    .remarks                         a second `done` stands there, even if nothing is remarked
    LABEL:                           a name for the word's address
    .mark NUMBER                     the mark of this test, or `.mark end`
    .view NAME TERM                  at this word the variable is what TERM says of the registers
    .hold HOLDER TERM                a register, or a cell as M[0], holds TERM of the variables
    .know NAME NUMBER                the variable is this number

`listing.py BINARY NET.rtn --kernel IMAGE` writes such a text of an image.

The exit status is 0, 1 where a text or the image is refused (one line says which line of the kernel
is at fault), or 2 where the words are none of these.
"""
import pathlib
import sys

import command_line
from rtn.calls import Program
from rtn.checks import check
from rtn.kernels import Kernel, Processor, Told
from rtn.reading import Fault


def kernel_at(record: Program, netlist: pathlib.Path, path: pathlib.Path) -> Kernel:
    """The kernel in a file; a Fault where it is none."""
    return Kernel(path, path.read_text(), Processor.at(record, netlist))


def text_of(image: list[Told]) -> str:
    return ''.join(f'{told.text}\n' for told in image)


def main():
    words = command_line.Parser(__doc__)
    words.add_program()
    words.add_argument('netlist', metavar='NET.rtn', type=pathlib.Path)
    words.add_argument('kernel', metavar='KERNEL', type=pathlib.Path)
    words.add_argument('--check', metavar='PROGRAM.src', type=pathlib.Path)
    words.add_argument('-o', dest='output', metavar='IMAGE', type=pathlib.Path)
    given = words.words()
    kernel = kernel_at(given.binary, given.netlist, given.kernel)
    image = kernel.image(given.binary, given.netlist)
    if given.output:
        given.output.write_text(text_of(image))
    elif not given.check:
        sys.stdout.write(text_of(image))
    if given.check:
        answer = check(given.binary, given.netlist, given.check, text_of(image))
        if answer.status:
            raise Fault(kernel.placed(answer.fault, image))
        sys.stdout.write(answer.text)


if __name__ == '__main__':
    command_line.run(main, refused=1)
