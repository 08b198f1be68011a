#!/usr/bin/env python3
"""Holds the answers of docs/DESIGNING.md against the program.

Usage: designing.py BINARY

Each netlist of the page is put together as it is told there, and each program compiled on it. What
differs is printed; the last line counts it, and the exit status is 1 where there is any. The
numbers are words, or words and cycles where a memory text is run.
"""
from __future__ import annotations

import dataclasses
import pathlib
import tempfile
from collections.abc import Iterator

import command_line
from rtn.calls import Program
from rtn.images import read_image
from rtn.reading import Fault
from rtn.runs import EXAMPLES, TWIN, on_two, one_memory, start_of, went

# A line of a fault, words, or words and cycles.
Due = str | int | tuple[int, int]

HEAD = ('code I : {bits} size 256 at PC; net op : 4 = I[11:8]; net f : 8 = I[7:0]; '
        'net next : 8 = add(PC, 1#8); ')


def netlist(turns: str = '', rows: str = '', more: str = '', at: str = 'f', stores: str = '2',
            bits: int = 12) -> str:
    """The page's processor with these rows of PC and of A beside the immediate, these other items,
    and this address and these codes of a store."""
    numbers = (row.split(':')[0].strip() for row in rows.split(';') if row.strip())
    codes = ', '.join(['1', *numbers])
    return (HEAD.format(bits=bits)
            + f'register PC : 8 in case op {{ {turns} else: next; }}; '
            f'register A : 16 in case op {{ {rows} else: zext(f, 16); }} '
            f'when case op {{ {codes}: 1#1; else: 0#1; }}; '
            f'memory M : 16 size 256 addr 8 write A at {at} '
            f'when case op {{ {stores}: 1#1; else: 0#1; }}; {more}')


JUMP, ZERO = '3: f;', '7: case eq(A, 0#16) { 1: f; 0: next; };'
SIGN = '8: case lts(A, 0#16) { 1: f; 0: next; };'
LOAD, SUMS = '4: read(M, f);', '5: add(A, read(M, f)); 6: sub(A, read(M, f));'
ALL, TURNS, ROWS = JUMP + ZERO + SIGN, JUMP + ZERO, LOAD + SUMS
INDEX, BEHIND = 'register X : 8 in A[7:0] when eq(op, 9#4);', '10: read(M, X);'
AT_X, BOTH = 'case op { 2: f; else: X; }', '2, 11'
FACTOR = 'register T : 16 in read(M, f) when eq(op, 12#4);'
PRODUCT = '14: add(A, mul(T, read(M, f)));'
FRACTION = (FACTOR + 'register P : 32 in mul(sext(T, 32), sext(read(M, f), 32)) '
            'when eq(op, 13#4);')
INDEXED = {'rows': ROWS + BEHIND, 'more': INDEX, 'at': AT_X, 'stores': BOTH}
WIDE = HEAD.format(bits=12) + '''
    register PC : 8 in case op { 3: f; 7: case eq(A, 0#32) { 1: f; 0: next; }; else: next; };
    register A : 32 in case op { 4: sext(read(M, f), 32); 6: sub(A, sext(read(M, f), 32));
      else: add(A, sext(read(M, f), 32)); } when case op { 4, 5, 6: 1#1; else: 0#1; };
    memory M : 16 size 256 addr 8 write A[15:0] at f when eq(op, 2#4);'''
NARROW = HEAD.format(bits=12) + '''
    register PC : 8 in case op { 3: f; else: next; };
    register A : 16 in case op { 4: read(M, f); else: add(A, read(M, f)); }
      when case op { 4, 5: 1#1; else: 0#1; };
    memory M : 16 size 256 addr 8 write A at f when eq(op, 2#4);'''
UNDRIVEN = '''code I : 12 size 256 at PC; net op : 4 = I[11:8]; net f : 8 = I[7:0];
    bus D : 16 { A when eq(op, 2#4); zext(X, 16) when eq(op, 3#4); }
    register PC : 8 in case op { 1: f; else: add(PC, 1#8); };
    register A : 16 in zext(f, 16) when eq(op, 4#4);
    register X : 8 in A[7:0] when eq(op, 5#4);
    memory M : 16 size 256 addr 8 write D at f when case op { 2, 3, 6: 1#1; else: 0#1; };'''

SET, COPY, SUM = 'var a; a = 5;', 'var a, b; a = 5; b = a;', 'var a, b, s; s = a + b;'
WHILE = 'var s, a; while s != 0 { s = s - a; }'
BELOW, LESS = 'var s, a; if s - a slt 0 { s = a; }', 'var s, a; if s slt a { s = a; }'
TOTAL = 'var s, i, x[8]; for i = 0 to 7 { s = s + x[i]; }'
FILL = 'var s, i, x[8]; for i = 0 to 7 { x[i] = s; }'
MAC, MOVE = 'var s, a, b; s = s + a * b;', 'var a, b; b = a;'
FRACTIONS = 'var s, a, b; s = s + low(sext(a, 32) * sext(b, 32) >>> 15, 16);'
LOW_SUM = 'var a, b; b = low(sext(a, 32), 16);'
WIDE_SUM = 'var s, a; s = low(sext(s, 32) + sext(a, 32), 16);'
WIDE_WHILE = 'var s; while sext(s, 32) != 0 { s = low(sext(s, 32) - sext(s, 32), 16); }'
ROW = ('var s, i, j, m[16]; s = 0; '
       'for i = 0 to 3 { for j = 0 to 3 { s = s + m[INDEX]; } }')


@dataclasses.dataclass(frozen=True)
class Case:
    """What a program comes to on a netlist, by a command."""

    netlist: str
    program: str
    due: Due
    word: str = 'compile'


def row_of(index: str) -> str:
    return ROW.replace('INDEX', index)


def source(name: str) -> str:
    return (EXAMPLES / f'{name}.src').read_text()


def two_registers(choice: str) -> str:
    """Two address registers, and what chooses between them."""
    more = f'''net x : 8 = case {choice} {{ 0: X0; 1: X1; }};
        register S : 1 in f[0] when eq(op, 15#4);
        register X0 : 8 in A[7:0] when and(eq(op, 9#4), not(I[12]));
        register X1 : 8 in A[7:0] when and(eq(op, 9#4), I[12]);'''
    return netlist(ALL, ROWS + '10: read(M, x);', more, 'case op { 2: f; else: x; }', BOTH, 13)


def less_than(width: int, target: str) -> str:
    """A branch by `lts` of two values to a field."""
    turn = f'8: case lts(A, read(M, f)) {{ 1: {target}; 0: next; }};'
    return netlist(f'{JUMP} {ZERO} {turn}', **INDEXED, bits=width)


def example(name: str, *changes: tuple[str, str]) -> str:
    """A processor of examples/ with changes of its text."""
    text = (EXAMPLES / f'{name}.rtn').read_text()
    for old, new in changes:
        if old not in text:
            raise Fault(f'{name}.rtn has no {old}')
        text = text.replace(old, new)
    return text


def cells(size: int) -> str:
    """The register file with fewer cells."""
    return example('rrf', ('size 4 addr 2', f'size {size} addr 2'))


def immediate(value: str) -> str:
    return example('adsp', ('net imm : 16 = I[15:0];', f'net imm : 16 = {value};'))


def grown() -> Iterator[Case]:
    """The page's processor, one thing at a time."""
    yield from [Case(netlist(), SET, 'error no jump'), Case(netlist(JUMP), SET, 3)]
    yield from [Case(netlist(JUMP), COPY, 'error no cover 1'), Case(netlist(JUMP, LOAD), COPY, 5)]
    yield from [Case(netlist(JUMP, LOAD), SUM, 'error no cover 0'),
                Case(netlist(JUMP, ROWS), SUM, 4)]
    yield from [Case(netlist(JUMP, ROWS), WHILE, 'error no cover 0'),
                Case(netlist(TURNS, ROWS), WHILE, 7)]
    yield from [Case(netlist(TURNS, ROWS), BELOW, 'error no cover 0'),
                Case(netlist(ALL, ROWS), BELOW, 7)]
    yield from [Case(netlist(ALL, ROWS), TOTAL, 'error no cover 2'),
                Case(netlist(ALL, ROWS + BEHIND, INDEX), TOTAL, 18)]
    yield from [Case(netlist(ALL, ROWS + BEHIND, INDEX), FILL, 'error no cover 2'),
                Case(netlist(ALL, **INDEXED), FILL, 17)]
    with_product = netlist(ALL, ROWS + BEHIND + PRODUCT, INDEX + FACTOR, AT_X, BOTH)
    yield from [Case(netlist(ALL, **INDEXED), MAC, 'error no cover 0'), Case(with_product, MAC, 5)]


def packed() -> Iterator[Case]:
    """Two transfers in a word, and places behind an address register."""
    dot = source('dot')
    yield Case(example('grow'), dot, (26, 177))
    rows = '1: zext(f, 16); 4, 10: cell;'
    subtract = ((rows, '1: zext(f, 16); 15: sub(A, zext(f, 16)); 4, 10: cell;'),
                ('10, 14: 1#1', '10, 14, 15: 1#1'))
    yield Case(example('grow', *subtract), dot, (24, 159))
    yield Case(example('pack'), dot, (23, 151))
    yield Case(example('pack', ('I[15:8]', 'I[7:0]')), dot, (25, 167))
    behind = (('else: read(M, X);', 'else: read(M, slice(add(X, zext(g, 16)), 7, 0));'),
              ('X : 8 in A[7:0]', 'X : 16 in A'), ('else: X; }', 'else: X[7:0]; }'))
    yield Case(example('pack', *behind), dot, (20, 127))
    narrow = 'else: read(M, X);', 'else: read(M, add(X, g));'
    yield Case(example('pack', narrow), dot, 'error no cover 3')


def widths() -> Iterator[Case]:
    """Accumulators that are wider than the memory, and what a shift needs."""
    yield from [Case(WIDE, MOVE, 'error no cover 0'), Case(WIDE, SUM, 'error no cover 0'),
                Case(WIDE, LOW_SUM, 3), Case(WIDE, WIDE_SUM, 4), Case(WIDE, WIDE_WHILE, 7)]
    yield from [Case(WIDE, WHILE, 'error no cover 0'), Case(NARROW, MOVE, 3), Case(NARROW, SUM, 4)]
    shifted = '14: add(A, slice(sar(P, 15#32), 15, 0));'
    yield Case(netlist(JUMP, ROWS + shifted, FRACTION), FRACTIONS, 6)
    yield Case(sliced(), FRACTIONS, 'error no cover 0')
    yield Case(by_sign_bit(), BELOW, 'error no cover 0')


def sliced() -> str:
    """The product of fractions as a slice, in place of a shift."""
    return netlist(JUMP, ROWS + '14: add(A, P[30:15]);', FRACTION)


def by_sign_bit() -> str:
    """The branch below 0 by the top bit."""
    return netlist(ALL.replace('lts(A, 0#16)', 'A[15]'), ROWS)


def met() -> Iterator[Case]:
    """What designers meet."""
    yield from [Case(netlist(ALL, ROWS), LESS, 'error no cover 0'),
                Case(less_than(12, 'f'), LESS, 'error no cover 0'),
                Case(less_than(20, 'I[19:12]'), LESS, 6)]
    yield Case(example('grow'), row_of('i * 4 + j'), 37)
    yield Case(netlist(ALL, **INDEXED), row_of('i * 4 + j'), 'error no cover 5')
    yield Case(example('grow'), row_of('i + i + i + i + j'), 37)
    yield Case(example('grow'), row_of('(i << 2) + j'), 'error source S4 Index 71')
    yield from [Case(two_registers('S'), TOTAL, 'error no cover 2'),
                Case(two_registers('I[12]'), TOTAL, 18)]
    dot, biquad = source('dot'), source('biquad')
    yield from [Case(example('rrf'), dot, (21, 128)), Case(example('rrf'), biquad, (43, 290)),
                Case(cells(2), dot, (21, 128)), Case(cells(2), biquad, (49, 338)),
                Case(cells(1), dot, 'error no cover 2'), Case(cells(1), biquad, 'error no cover 3')]
    yield Case(one_memory(TWIN), dot, (21, 128))
    yield Case(UNDRIVEN, 'var a; a = 0;', 2)


def immediates() -> Iterator[Case]:
    """Programs by how an immediate is widened."""
    names = ('dotl', 'fir16', 'sort', 'crc8')
    signed = 'case mod { 1: sext(I[7:0], 16); else: I[15:0]; }'
    unsigned = 'case mod { 1: zext(I[7:0], 16); else: I[15:0]; }'
    for value, *words in (('zext(I[7:0], 16)', 25, 45, 59, 47), ('I[15:0]', 27, 49, 62, 51),
                          (unsigned, 27, 49, 62, 51), (signed, 25)):
        for name, count in zip(names, words):
            yield Case(immediate(value), source(name), count)


def tuned() -> Iterator[Case]:
    """What a program takes by equal trees."""
    yield Case(example('c10i'), source('fir16'), 'error no cover 1')
    for text, program, words in (
            (WIDE, MOVE, 3), (WIDE, SUM, 4), (WIDE, WHILE, 7),
            (example('c10i'), source('fir16'), 61), (sliced(), FRACTIONS, 6),
            (by_sign_bit(), BELOW, 7)):
        yield Case(text, program, words, 'tune')


def cases() -> Iterator[Case]:
    for some in (grown, packed, widths, met, immediates, tuned):
        yield from some()


# The words and cycles of `dot.src` on two memories, by what stands in the bank.
PARTS = {'': (22, 137), 'y': (22, 137), 's': (19, 120), 'i': (18, 104), 'i y': (17, 96),
         'i x': (19, 112), 's i x y': (19, 119)}


def banked(record: Program, folder: pathlib.Path, names: str) -> tuple[int, int | None]:
    """The words and cycles of `dot.src` on two memories, with these variables in the bank."""
    program, part, single = EXAMPLES / 'dot.src', folder / 'p.part', folder / 'n.rtn'
    part.write_text(''.join(f'{name}\n' for name in names.split()))
    single.write_text(one_memory(TWIN))
    start = start_of(read_image(record.done('compile', single, program)), EXAMPLES / 'dot.mem')
    image, end = on_two(record, program, part, start)
    return len(image.words), end.cycles


def answer(record: Program, folder: pathlib.Path, case: Case) -> Due:
    """What the program says of a case, in the form of what is due."""
    files = [folder / name for name in ('n.rtn', 'p.src')]
    for file, text in zip(files, (case.netlist, case.program)):
        file.write_text(text)
    said = record(case.word, *files)
    if not said.line.startswith('image '):
        return said.line
    image = read_image(said.text)
    if not isinstance(case.due, tuple):
        return len(image.words)
    return len(image.words), went(record, *files, EXAMPLES / 'dot.mem', image).cycles


def main():
    words = command_line.Parser(__doc__)
    words.add_program()
    record = words.words().binary
    wrong = count = 0
    with tempfile.TemporaryDirectory() as name:
        folder = pathlib.Path(name)
        for case in cases():
            found = answer(record, folder, case)
            count += 1
            if found != case.due:
                wrong += 1
                print(f'{found} in place of {case.due}, for\n{case.program}\non\n{case.netlist}\n')
        for names, due in PARTS.items():
            found = banked(record, folder, names)
            count += 1
            if found != due:
                wrong += 1
                print(f'{found} in place of {due}, with {names or "nothing"} in the bank')
    print(f'{count} answers, {wrong} wrong')
    return 1 if wrong else 0


if __name__ == '__main__':
    command_line.run(main)
