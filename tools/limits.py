#!/usr/bin/env python3
"""Gives `record` the longest texts that it takes, and prints how long it was at them and how much
memory it had.

Usage: limits.py BINARY

Each case is made as a file of at most 1,048,576 bytes, most of them of exactly so many. For each it
prints the status, the first line of the answer, the time of one processor and the most memory, of
which this tool's own start is some 40 MB. The last line counts the cases that took more than ten
seconds or a gigabyte, and the exit status is 1 where there is one.
"""
from __future__ import annotations

import dataclasses
import os
import pathlib
import random
import string
import subprocess
import tempfile
from collections.abc import Callable, Iterator

import command_line
from rtn.calls import Program
from rtn.runs import EXAMPLES

FULL = 1_048_576
SECONDS, KILOBYTES = 10, 1_000_000

IMMEDIATE = '''code I : 34 size 65536 at PC;
register PC : 16 in case I[33] { 1: I[15:0]; 0: add(PC, 1#16); };
memory M : 16 size 65536 addr 16 write I[15:0] at I[31:16] when I[32];
'''
BYTES = '''code I : 8 size 65536 at PC;
register PC : 16 in add(PC, 1#16);
register A : 8 in I when I[1];
memory M : 8 size 256 addr 8 write A at I when I[0];
'''
WIDE = '''code I : 24 size 65536 at PC;
net f : 16 = I[15:0];
net op : 8 = I[23:16];
net next : 16 = add(PC, 1#16);
register PC : 16 in case op { 6: f; 7: case eq(ACC, 0#16) { 1: f; 0: next; }; else: next; };
register ACC : 16 in case op {
    1: read(M, f); 2: add(ACC, read(M, f)); 3: sub(ACC, read(M, f)); else: f;
  } when case op { 1, 2, 3, 5: 1#1; else: 0#1; };
memory M : 16 size 65536 addr 16 write ACC at f when eq(op, 4#8);
'''
ACCUMULATOR = 'register A : 16 in {}when I[33];\n'
COUNT_DOWN = 'var a, b; while 1 != 0 { while a != 0 { a = a - 1; } b = b + 1; }'
LETTERS = [letter for letter in string.ascii_letters if letter != 'x']


@dataclasses.dataclass(frozen=True)
class Case:
    """What a case is called, its words, and the files that it makes."""

    name: str
    words: str
    files: dict[str, str]


def padded(text: str) -> str:
    """The text with blanks behind it, as long as a file may be."""
    return text + ' ' * (FULL - len(text))


def repeated(head: str, piece: Callable[[int], str], behind: str = '') -> str:
    """As many pieces as fit, counted from 0."""
    parts, left, number = [head], FULL - len(head) - len(behind), 0
    while len(part := piece(number)) <= left:
        parts.append(part)
        left -= len(part)
        number += 1
    return ''.join(parts) + behind


def full_tree(depth: int) -> str:
    return 'a' if depth == 0 else f'({full_tree(depth - 1)}+{full_tree(depth - 1)})'


def mixed_tree(depth: int, pick: random.Random) -> str:
    """A full binary tree of sums and differences of variables, few of whose subtrees are equal."""
    if depth == 0:
        return pick.choice(LETTERS)
    return f'({mixed_tree(depth - 1, pick)}{pick.choice("+-")}{mixed_tree(depth - 1, pick)})'


def long_name(number: int) -> str:
    return f'n{number:031d}'


def nested(depth: int) -> str:
    return 'A' if depth == 0 else f'not({nested(depth - 1)})'


def image_of_bytes(count: int) -> str:
    words = ''.join(f'word {k} {k % 256:02x} -\n' for k in range(count))
    return f'image 8 {count}\ntemps 0\n{words}done\n'


def image_of_marks(count: int) -> str:
    """Words on `WIDE` that are all marks of one test, with a view each, but for the first and the
    last."""
    words = ''.join(f'word {k} 010003 -\n' for k in range(count - 1))
    marks = ''.join(f'mark {k} 0\n' for k in range(1, count - 1))
    views = ''.join(f'view {k} a ACC\n' for k in range(1, count - 1))
    return (f'image 24 {count}\ntemps 3\nplace a 3 1\n{marks}mark {count - 1} end\n{words}'
            f'word {count - 1} 06{count - 1:04x} -\ndone\n{views}done\n')


def example(name: str) -> str:
    return (EXAMPLES / f'{name}.rtn').read_text()


TREE = f'x={full_tree(7)[1:-1]};'


def netlists() -> Iterator[Case]:
    deep = IMMEDIATE + ACCUMULATOR.format(nested(64) + ' ')
    yield Case('a netlist with an expression of 64 levels', 'extract n', {'n': padded(deep)})
    nets = ''.join(f'net {long_name(k)} : 16 = not(A);\n' for k in range(2041))
    text = IMMEDIATE + ACCUMULATOR.format('I[15:0] ') + nets + 'net w : 16 = A;\n'
    yield Case('a netlist of 4,096 nets with names of 32 bytes', 'extract n', {'n': padded(text)})
    remark = IMMEDIATE + '//' + 'x' * (FULL - len(IMMEDIATE) - 2)
    yield Case('a netlist that is a comment to its end', 'extract n', {'n': remark})
    opened = IMMEDIATE + 'net x : 1 = ' + '(' * (FULL - len(IMMEDIATE) - 12)
    yield Case('a netlist of opening parentheses', 'extract n', {'n': opened})


def programs() -> Iterator[Case]:
    def compiled(name: str, text: str, source: str) -> Case:
        return Case(name, 'compile n s', {'n': text, 's': source})

    for count in (65535, 65536, 65537):
        source = padded('var a;' + 'a=1;' * count)
        yield compiled(f'{count:,} assignments', IMMEDIATE, source)
    yield compiled('an array of 65,536', IMMEDIATE, padded('var x[65536]; x[65535] = 1;'))
    names = repeated('var a', lambda k: ',' + long_name(k), ';a=1;')
    yield compiled('variables with names of 32 bytes', IMMEDIATE, names)
    yield compiled('sums of 128 reads as full binary trees, on A16', example('a16'),
                   repeated('var a,x;', lambda k: TREE))
    yield compiled('eight such sums, on dsp.rtn', example('dsp'), padded('var a,x;' + TREE * 8))
    yield compiled('5,000 loops, one behind the other', WIDE,
                   padded('var i;' + 'for i=0 to 1{}' * 5000))
    yield compiled('6,000 tests with a block each', WIDE,
                   padded('var a;' + 'if a==0{a=1;}' * 6000))


def more_programs() -> Iterator[Case]:
    """Those of `tune` and `dual`."""
    tuned, dual = 'tune n s', 'dual n s p'
    yield Case('65,535 assignments, by equal trees', tuned,
               {'n': IMMEDIATE, 's': padded('var a;' + 'a=1;' * 65535)})
    yield Case('a sum of 128 reads by equal trees, on dsp.rtn', tuned,
               {'n': example('dsp'), 's': padded('var a,x;' + TREE)})
    yield Case('5,000 loops over two memories', dual,
               {'n': example('twin'), 's': padded('var i;' + 'for i=0 to 1{}' * 5000), 'p': 'i\n'})
    yield Case('a part of a megabyte', dual,
               {'n': example('twin'), 's': 'var i; i = 0;',
                'p': repeated('', lambda k: f'{long_name(k)}\n')})


def runs() -> Iterator[Case]:
    yield Case('an image of 65,536 words', 'run n i m 65536',
               {'n': BYTES, 'i': image_of_bytes(65536), 'm': ''})
    yield Case('a memory text of each cell, over and over', 'run n i m 0',
               {'n': BYTES, 'i': image_of_bytes(1),
                'm': repeated('', lambda k: f'M {k % 256} {k % 256}\n')})
    yield Case('a million clocks', 'go n s m 1000000',
               {'n': example('a16'), 's': COUNT_DOWN, 'm': 'M 1 65535\n'})
    yield Case('the greatest made-up program', 'make 1000', {})


def checks() -> Iterator[Case]:
    """Images that are refused when all of their lines were read and held against the rules."""
    down = (EXAMPLES / 'checked' / 'down.src').read_text()
    yield Case('21,600 marks with a view each', 'check n s i',
               {'n': WIDE, 's': down, 'i': image_of_marks(21_600)})
    image, views, hints = (EXAMPLES / 'checked' / 'down.a16.img').read_text().partition('view ')
    yield Case('a megabyte of views of one variable', 'check n s i',
               {'n': example('a16'), 's': down,
                'i': repeated(image, lambda k: 'view 3 a ACC\n', views + hints)})


def megabytes() -> Iterator[Case]:
    yield Case('a megabyte of such sums, on dsp.rtn', 'compile n s',
               {'n': example('dsp'), 's': repeated('var a,x;', lambda k: TREE)})
    pick = random.Random(1)
    mixed = repeated(f'var x,{",".join(LETTERS)};', lambda k: f'x={mixed_tree(7, pick)[1:-1]};')
    yield Case('a megabyte of mixed sums and differences, on dsp.rtn', 'compile n s',
               {'n': example('dsp'), 's': mixed})


def cases() -> Iterator[Case]:
    for some in (netlists, programs, more_programs, runs, checks, megabytes):
        yield from some()


@dataclasses.dataclass(frozen=True)
class Measure:
    """How a run ended: status, first line, seconds of one processor, and kilobytes."""

    status: int
    first: str
    seconds: float
    kilobytes: int

    @property
    def is_over(self) -> bool:
        return self.seconds > SECONDS or self.kilobytes > KILOBYTES

    def __str__(self) -> str:
        return (f'status {self.status}, {self.first[:60]}, {self.seconds:.2f} s, '
                f'{self.kilobytes // 1000} MB')


def measured(record: Program, words: str, folder: pathlib.Path) -> Measure:
    """Measures a run; it's cut off where it takes ten times as long as it may."""
    out = folder / 'out'
    bounded = ['timeout', str(10 * SECONDS), record.path, *words.split()]
    with out.open('wb') as output:
        run = subprocess.Popen(bounded, cwd=folder, stdout=output, stderr=subprocess.DEVNULL)
        _, status, used = os.wait4(run.pid, 0)
    with out.open('rb') as output:
        first = output.readline().decode(errors='replace').rstrip('\n')
    return Measure(os.waitstatus_to_exitcode(status), first, used.ru_utime + used.ru_stime,
                   used.ru_maxrss)


def main():
    words = command_line.Parser(__doc__)
    words.add_program()
    record, over = words.words().binary, 0
    for case in cases():
        with tempfile.TemporaryDirectory() as name:
            folder = pathlib.Path(name)
            for file, text in case.files.items():
                (folder / file).write_text(text)
            measure = measured(record, case.words, folder)
        over += measure.is_over
        print(f'{case.name}: {measure}', flush=True)
    print(f'{over} over ten seconds or a gigabyte')
    return 1 if over else 0


if __name__ == '__main__':
    command_line.run(main)
