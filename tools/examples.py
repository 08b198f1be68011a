#!/usr/bin/env python3
"""Runs the programs of examples/ on its processors, and holds what they leave against results that
are computed here.

Usage: examples.py BINARY [--table]
       examples.py BINARY --reports DIR

Each program is compiled for each processor and run by `record go` from its memory text. What the
variables hold at the end has to be what the algorithm gives, as it is written below in Python;
where the processor lacks something that the program needs, the answer has to be the expected `error
no cover`. The images examples/hand/PROGRAM.PROCESSOR.img are code for the same cells that was
written by hand; they are run by `record run` and held against the same results. Each is what
tools/kernel.py makes of the kernel beside it, and is accepted by `record check`. A line is printed
for each:

    dot xy: 18 words, 23 unpacked, 104 cycles
    dot xy by hand: 6 words, 19 cycles
    dot a16: error no cover 3
    dot twin: 17 words, 22 unpacked, 96 cycles
    dot twin with one memory: 21 words, 22 unpacked, 128 cycles
    dot c10i tuned: 32 words, 162 cycles
    dot xy: dot.xy.lst

`twin` has two memories. The programs with a text examples/PROGRAM.part are compiled for it by
`record dual` with this part, and clocked here, by tools/rtn/clock.py; and by `record compile` and
`record go` for the same processor with one memory, which is read or written at one place in a word.

Each pair is compiled by `record tune`, too, and run by `record run`; a pair that `compile` has an
image for may not be refused.

The last are the listings examples/PROGRAM.PROCESSOR.lst, which have to be what tools/listing.py
writes.

With --reports nothing is held against anything: the pages DIR/a16.html, DIR/dsp.html and
DIR/xy.html are written, as tools/report.py makes them of these processors with all programs that
they run.

`words` is the length of the image, `cycles` the clocks until the program counter stands at the end
mark. `unpacked` is how many words it were with one step in each: the costs of the image's lines
`tree`, and its jump and branch words, which are those whose list has a pattern of the program
counter. What is wrong is told behind the line. The last line counts it, and the exit status is 1
where there is any. With --table the words and cycles are printed as the tables of
examples/README.md, and no other lines but wrong ones.
"""
from __future__ import annotations

import binascii
import dataclasses
import pathlib
import tempfile
from collections.abc import Callable, Iterator, Sequence

import command_line
from kernel import kernel_at, text_of
from listing import listed
from report import write_report
from reporting.tasks import Task
from rtn.calls import Program
from rtn.checks import check
from rtn.images import read_image
from rtn.operators import mask, signed
from rtn.runs import (EXAMPLES, TWIN, End, Variables, on_two, one_memory, ran, start_of, texts_of,
                      unpacked, went)

PROCESSORS = ('a16', 'f16', 'xy', 'dsp', 'r16', 'c10w', 'c10i', 'adsp', 'rr4', 'rrf', 'm16')
REPORTED = ('a16', 'dsp', 'xy')
WIDTH = 16

# ---- What the programs have to leave


def whole(word: int) -> int:
    """What a word is in two's complement."""
    return signed(word, WIDTH)


def product(a: int, b: int) -> int:
    """That of two fractions with 15 bits behind the point."""
    return whole(a) * whole(b) >> WIDTH - 1


def dot(v: Variables) -> Variables:
    return {'s': [sum(a * b for a, b in zip(v['x'], v['y']))]}


def fir(v: Variables) -> Variables:
    return {'y': [sum(product(v['h'][k], v['x'][n + 7 - k]) for k in range(8)) for n in range(8)]}


def crc(v: Variables) -> Variables:
    """Python's own CRC-16/CCITT, which takes the message as bytes."""
    message = b''.join(word.to_bytes(2, 'big') for word in v['m'])
    return {'crc': [binascii.crc_hqx(message, v['crc'][0])]}


def sort(v: Variables) -> Variables:
    return {'x': sorted(v['x'], key=whole)}


def fly(v: Variables) -> Variables:
    names = ('ar', 'ai', 'br', 'bi', 'wr', 'wi')
    result = {name: [] for name in ('cr', 'ci', 'dr', 'di')}
    for ar, ai, br, bi, wr, wi in zip(*(v[name] for name in names)):
        real = product(wr, br) - product(wi, bi)
        imaginary = product(wr, bi) + product(wi, br)
        for name, value in (('cr', ar + real), ('ci', ai + imaginary), ('dr', ar - real),
                            ('di', ai - imaginary)):
            result[name].append(value)
    return result


def crc8(v: Variables) -> Variables:
    """By polynomials over bits: the rest of the message times x^8 by x^8 + x^2 + x + 1."""
    rest = int.from_bytes(bytes(v['m']), 'big') << 8
    while rest.bit_length() > 8:
        rest ^= 0x107 << rest.bit_length() - 9
    return {'crc': [rest]}


def fir16(v: Variables) -> Variables:
    return {'y': [sum(product(v['h'][k], v['x'][n + 3 - k]) for k in range(4)) for n in range(8)]}


def biquad(v: Variables) -> Variables:
    b0, b1, b2, a1, a2 = (v[name][0] for name in ('b0', 'b1', 'b2', 'a1', 'a2'))
    result, w1, w2 = [], 0, 0
    for x in v['x']:
        w = x - product(a1, w1) - product(a2, w2) & mask(WIDTH)
        result.append(product(b0, w) + product(b1, w1) + product(b2, w2))
        w1, w2 = w, w1
    return {'y': result}


def matvec(v: Variables) -> Variables:
    return {'y': [sum(a * b for a, b in zip(v['a'][4 * i:], v['v'])) for i in range(4)]}


def gain(v: Variables) -> Variables:
    return {'y': [product(v['g'][n // 4], x) for n, x in enumerate(v['x'])]}


def wht(v: Variables) -> Variables:
    a, b, c, d = v['x']
    return {'x': [a + b + c + d, a - b + c - d, a + b - c - d, a - b - c + d]}


@dataclasses.dataclass(frozen=True)
class Example:
    """What a program has to leave, and the first tree that the forms of a processor don't cover,
    for the processors that can't run it."""

    result: Callable[[Variables], Variables]
    refused: dict[str, int]


PROGRAMS = {
    'dot': Example(dot, {'a16': 3, 'f16': 3, 'r16': 3, 'adsp': 3, 'c10i': 2}),
    'dotl': Example(dot, {'a16': 3, 'f16': 3, 'xy': 3, 'dsp': 3, 'r16': 3, 'rr4': 3, 'rrf': 3,
                          'm16': 3, 'c10i': 2}),
    'fir': Example(fir, {'a16': 5, 'dsp': 5, 'r16': 5, 'c10i': 1}),
    'fir16': Example(fir16, {'a16': 5, 'dsp': 5, 'r16': 5, 'c10i': 1}),
    'biquad': Example(biquad, {'a16': 4, 'f16': 4, 'dsp': 4, 'r16': 4, 'c10i': 3}),
    'matvec': Example(matvec, {'a16': 5, 'f16': 5, 'r16': 5, 'adsp': 5, 'c10i': 1}),
    'crc': Example(crc, {'a16': 2, 'f16': 2, 'm16': 2, 'c10i': 1}),
    'crc8': Example(crc8, {'a16': 3, 'f16': 3, 'm16': 3, 'c10i': 2}),
    'sort': Example(sort, {'a16': 5, 'f16': 5, 'dsp': 5, 'c10w': 5, 'm16': 5, 'c10i': 4}),
    'fly': Example(fly, {'a16': 2, 'dsp': 2, 'r16': 2, 'c10i': 1}),
    'gain': Example(gain, {'a16': 4, 'f16': 4, 'dsp': 5, 'r16': 4, 'adsp': 4, 'c10i': 1}),
    'wht': Example(wht, {'c10i': 0}),
}


# ---- The runs


@dataclasses.dataclass(frozen=True)
class Files:
    """The files of a program on a processor."""

    program: str
    processor: str

    @property
    def netlist(self) -> pathlib.Path:
        return EXAMPLES / f'{self.processor}.rtn'

    @property
    def source(self) -> pathlib.Path:
        return EXAMPLES / f'{self.program}.src'

    @property
    def memory(self) -> pathlib.Path:
        return EXAMPLES / f'{self.program}.mem'

    @property
    def hand(self) -> pathlib.Path:
        return EXAMPLES / 'hand' / f'{self.program}.{self.processor}.img'

    def due(self, start: Variables) -> Variables:
        """What the program has to leave of this start."""
        result = PROGRAMS[self.program].result(start)
        return {name: [value & mask(WIDTH) for value in values] for name, values in result.items()}

    def __str__(self) -> str:
        return f'{self.program} {self.processor}'


@dataclasses.dataclass(frozen=True)
class Told:
    """A run's line, what is wrong with it, and its row of the table, if it has one."""

    line: str
    wrong: str = ''
    row: Sequence | None = None


def wrong(due: Variables, end: End) -> str:
    """What differs, as a text; the empty one where nothing does."""
    if end.cycles is None:
        return ', but the end mark never comes'
    return ''.join(f', but {name} is {end.variables.get(name)} in place of {values}'
                   for name, values in due.items() if end.variables.get(name) != values)


def pairs() -> Iterator[Files]:
    return (Files(program, processor) for program in PROGRAMS for processor in PROCESSORS)


def compiled_examples(record: Program) -> Iterator[Told]:
    """Of each pair what `compile` makes of it, and its image that was written by hand."""
    for files in pairs():
        refused = PROGRAMS[files.program].refused.get(files.processor)
        text = record.text('compile', files.netlist, files.source)
        first = text.split('\n')[0]
        if refused is not None or not first.startswith('image '):
            due = 'an image' if refused is None else f'error no cover {refused}'
            yield Told(f'{files}: {first}', '' if first == due else f', but {due} is due')
            continue
        image = read_image(text)
        due = files.due(start_of(image, files.memory))
        end = went(record, files.netlist, files.source, files.memory, image)
        words, steps = len(image.words), unpacked(record, files.netlist, image)
        row = [files.program, files.processor, words, steps, end.cycles]
        by_hand = None
        if files.hand.exists():
            by_hand, more = hand_example(record, files, image.places, due)
            row += more
        yield Told(f'{files}: {words} words, {steps} unpacked, {end.cycles} cycles',
                   wrong(due, end), row)
        if by_hand:
            yield by_hand


def hand_example(record: Program, files: Files, places: Sequence,
                 due: Variables) -> tuple[Told, list]:
    """The image of a pair that was written by hand, and its words and cycles."""
    text = files.hand.read_text()
    image, end = read_image(text), ran(record, files.netlist, files.hand, files.memory)
    fault = wrong(due, end) if image.places == places else ', but its variables have other places'
    kernel = kernel_at(record, files.netlist, files.hand.with_suffix('.kernel'))
    if text_of(kernel.image(record, files.netlist)) != text:
        fault += ', but its kernel has another image'
    answer = check(record, files.netlist, texts_of(files.hand).source, text)
    if answer.status:
        fault += f', but {answer.line}'
    words = len(image.words)
    told = Told(f'{files} by hand: {words} words, {end.cycles} cycles', fault)
    return told, [words, end.cycles]


def tuned_examples(record: Program) -> Iterator[Told]:
    """Of each pair what `tune` makes of it; it has a row where `compile` makes none or another
    image."""
    with tempfile.TemporaryDirectory() as folder:
        held = pathlib.Path(folder) / 'tuned.img'
        for files in pairs():
            text = record.text('tune', files.netlist, files.source)
            own = record.text('compile', files.netlist, files.source)
            if not text.startswith('image '):
                fault = ', but `compile` has an image' if own.startswith('image ') else ''
                yield Told(f'{files} tuned: {text.rstrip()}', fault)
                continue
            held.write_text(text)
            yield tuned_example(record, files, held, own)


def tuned_example(record: Program, files: Files, held: pathlib.Path, own: str) -> Told:
    """A tuned image beside what `compile` writes."""
    text = held.read_text()
    image, end = read_image(text), ran(record, files.netlist, held, files.memory)
    due, words = files.due(start_of(image, files.memory)), len(image.words)
    row = [files.program, files.processor, words, end.cycles]
    if own.startswith('image '):
        other = read_image(own)
        cycles = went(record, files.netlist, files.source, files.memory, other).cycles
        row += [len(other.words), cycles]
    line = f'{files} tuned: {words} words, {end.cycles} cycles'
    return Told(line, wrong(due, end), None if own == text else row)


def banked_examples(record: Program) -> Iterator[Told]:
    """Of each program with a part its code on two memories and on one."""
    with tempfile.TemporaryDirectory() as folder:
        alone = pathlib.Path(folder) / 'one.rtn'
        alone.write_text(one_memory(TWIN))
        for part in sorted(path for path in EXAMPLES.glob('*.part') if path.stem in PROGRAMS):
            yield from banked_example(record, Files(part.stem, 'twin'), part, alone)


def banked_example(record: Program, files: Files, part: pathlib.Path,
                   alone: pathlib.Path) -> Iterator[Told]:
    """A program on two memories and on one, with the row of both."""
    single = read_image(record.done('compile', alone, files.source))
    start = start_of(single, files.memory)
    due = files.due(start)
    image, end = on_two(record, files.source, part, start)
    steps = unpacked(record, TWIN, image)
    yield Told(f'{files}: {len(image.words)} words, {steps} unpacked, {end.cycles} cycles',
               wrong(due, end))
    other = went(record, alone, files.source, files.memory, single)
    names = ', '.join(f'`{name}`' for name in part.read_text().split())
    row = [files.program, names, len(image.words), end.cycles, len(single.words), other.cycles]
    yield Told(f'{files} with one memory: {len(single.words)} words, '
               f'{unpacked(record, alone, single)} unpacked, {other.cycles} cycles',
               wrong(due, other), row)


def listings(record: Program) -> Iterator[Told]:
    """Whether the listings are what tools/listing.py writes."""
    for path in sorted(EXAMPLES.glob('*.lst')):
        program, processor, _ = path.name.split('.')
        files = Files(program, processor)
        is_same = listed(record, files.netlist, Task(files.source)) == path.read_text()
        yield Told(f'{files}: {path.name}', '' if is_same else ', but the listing is another one')


def reports(record: Program, folder: pathlib.Path) -> Iterator[pathlib.Path]:
    """Writes the pages of some processors, each with the programs that it runs."""
    for processor in REPORTED:
        pairs_of_it = [files for files in pairs() if files.processor == processor]
        tasks = [Task(files.source, memory=files.memory) for files in pairs_of_it
                 if not record('tune', files.netlist, files.source).status]
        yield write_report(record, [EXAMPLES / f'{processor}.rtn'], tasks, folder)


# ---- The tables

TABLES = (
    ('program', 'processor', 'words', 'unpacked', 'cycles', 'by hand: words', 'cycles'),
    ('program', 'in the bank', 'two memories: words', 'cycles', 'one memory: words', 'cycles'),
    ('program', 'processor', '`tune`: words', 'cycles', '`compile`: words', 'cycles'),
)


def table(heads: Sequence[str], rows: Sequence[Sequence]) -> Iterator[str]:
    """The lines of a table."""
    yield f'| {" | ".join(heads)} |'
    yield '|' + '---|' * len(heads)
    for row in rows:
        cells = [*map(str, row), *[''] * (len(heads) - len(row))]
        yield f'| {" | ".join(cells)} |'


def main():
    words = command_line.Parser(__doc__)
    words.add_program()
    words.add_argument('--table', action='store_true')
    words.add_argument('--reports', metavar='DIR', type=pathlib.Path)
    given = words.words()
    if given.reports:
        for path in reports(given.binary, given.reports):
            print(path)
        return 0
    faults, tables = 0, []
    for runs in (compiled_examples, banked_examples, tuned_examples, listings):
        rows = []
        for told in runs(given.binary):
            faults += told.wrong != ''
            if told.wrong or not given.table:
                print(told.line + told.wrong, flush=True)
            rows += [told.row] if told.row else []
        tables.append(rows)
    if given.table:
        made = ['\n'.join(table(heads, rows)) for heads, rows in zip(TABLES, tables)]
        print('\n\n'.join(made))
    else:
        print(f'{faults} wrong')
    return 1 if faults else 0


if __name__ == '__main__':
    command_line.run(main)
