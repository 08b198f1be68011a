#!/usr/bin/env python3
"""Writes the files `stdin` and `stdout` of crates/record_rows, which the gate reads, from rows/.

Usage: rows.py
       rows.py --check
       rows.py --fill BINARY

With --check nothing is written: the first line in which the files are stale is named, and the exit
status is 1. With --fill BINARY, the program of record_rows, is run on each row that has no answer,
and what it prints is put below the row; look at it.

The files rows/NN_TOPIC.rows go into the two in the order of their names. A row with its answer is a
paragraph: empty lines part them, and a line that begins with `#` is a remark.

    row a counter that is a memory
    call compile n s
    file n = examples/s8.rtn
    line 1 code I : 8 size 16 at M;
    file s + var a, b; a = 3; b = 31;
        error net N2 Unknown M
        status 6

The lines of a row are those that crates/record_rows/src/main.rt tells, but for the last, `run`,
which is left out, and but for these, each of which stands for several:

    call WORD ..        a `word` for each of these, none of which is empty or has a space
    = PATH              a `|` for each line of a file of the repository, and a `+` for what stands
                        behind the last of them
    = PATH first N      the same for no more than the first N bytes of the file
    = PATH behind N     the same for what stands behind its first N lines
    line N TEXT         TEXT in place of the Nth line of what was cited last
    each A B LINE       LINE for each number from A to B, which stands in place of `@`, and the
                        number before it in place of `@-`
    file NAME = PATH    a `file` and the line behind it; so too with `|` and `+`

A line that is one word has an empty text behind it. What several rows have and no file of examples/
is, stands in rows/texts/.

The lines of the answer stand behind those of the row, each behind four spaces. What a `row` or a
`program` answers begins with the row's first line and ends with an empty one: these are left out.
"""
import itertools
import pathlib

import command_line
from rtn.reading import Fault

TOP = pathlib.Path(__file__).resolve().parent.parent
CRATE = TOP / 'crates' / 'record_rows'
INDENT = '    '

# The kinds of rows whose answers begin with the row's first line and end with an empty one.
HEADED = ('row', 'program')


def cited(words):
    """The lines for a file of the repository, or for a part of it."""
    path, *cut = words.split(' ')
    text = (TOP / path).read_bytes()
    match cut:
        case []:
            pass
        case ['first', count] if int(count) <= len(text):
            text = text[:int(count)]
        case ['behind', count] if int(count) <= text.count(b'\n'):
            text = text.split(b'\n', int(count))[-1]
        case _:
            raise Fault(f'{path} has no `{" ".join(cut)}`')
    *lines, rest = text.decode().split('\n')
    return [f'| {line}' for line in lines] + ([f'+ {rest}'] if rest else [])


def parted(line):
    """A line, or the two that it stands for: a file's name, and what stands behind it."""
    key, _, rest = line.partition(' ')
    name, _, behind = rest.partition(' ')
    is_both = key == 'file' and behind.split(' ')[0] in ('=', '|', '+')
    return [f'file {name}', behind] if is_both else [line]


class Row:
    """A row as it is written: its place, its own lines, and those of its answer."""

    def __init__(self, path, numbers, lines):
        self.path, self.last = path, numbers[-1]
        self.place = f'{path.relative_to(TOP)}:{numbers[0]}'
        self.lines = [*itertools.takewhile(lambda line: not line.startswith(INDENT), lines)]
        self.answer = [line.removeprefix(INDENT) for line in lines[len(self.lines):]]
        self.is_headed = self.lines[:1] and self.lines[0].split(' ')[0] in HEADED
        if not self.lines or not all(line.startswith(INDENT) for line in lines[len(self.lines):]):
            raise Fault(f"{self.place}: a row's own lines stand before those of its answer")

    def asked(self):
        """Its lines in `stdin`."""
        lines, base = [], range(0)
        for line in itertools.chain.from_iterable(map(parted, self.lines)):
            key, _, rest = line.partition(' ')
            if key == 'call':
                lines += [f'word {word}' for word in rest.split(' ')]
            elif key == '=':
                found = cited(rest)
                base = range(len(lines), len(lines) + len(found))
                lines += found
            elif key == 'line':
                at, _, text = rest.partition(' ')
                if not 1 <= int(at) <= len(base):
                    raise Fault(f'no line {at} is cited')
                lines[base[int(at) - 1]] = f'{lines[base[int(at) - 1]][0]} {text}'
            elif key == 'each':
                first, last, text = rest.split(' ', 2)
                lines += [text.replace('@-', str(k - 1)).replace('@', str(k))
                          for k in range(int(first), int(last) + 1)]
            else:
                lines.append(f'{key} {rest}')
        return [*lines, 'run']

    def answered(self):
        """Its lines in `stdout`."""
        return [self.lines[0], *self.answer, ''] if self.is_headed else self.answer

    def fill(self, binary):
        """Takes for its answer what the program prints of it."""
        answer = binary(given=''.join(f'{line}\n' for line in asked_of(self)))
        if answer.status:
            raise Fault(f'{self.place}: {answer.errors.strip()}')
        lines = answer.text.split('\n')[:-1]
        self.answer = lines[1:-1] if self.is_headed else lines


def asked_of(row):
    """The lines of a row in `stdin`, or why there are none, with the row's place."""
    try:
        return row.asked()
    except (Fault, OSError, ValueError) as fault:
        raise Fault(f'{row.place}: {fault}') from fault


def lines_of(path):
    """The lines of a file, and an empty one where it ends with a line's end."""
    return path.read_bytes().decode().split('\n')


def rows_of(path):
    """The rows of a file."""
    lines = [(number, line) for number, line in enumerate(lines_of(path), 1)
             if not line.startswith('#')]
    for is_row, found in itertools.groupby(lines, lambda pair: pair[1] != ''):
        if is_row:
            yield Row(path, *zip(*found))


def stale(file, rows, texts):
    """The first line of a file that isn't what the rows say, with the row's place."""
    wanted = [(row.place, line) for row, lines in zip(rows, texts) for line in lines]
    wanted.append(('the end of rows/', ''))
    for number, (there, want) in enumerate(itertools.zip_longest(lines_of(file), wanted), 1):
        place, line = want or wanted[-1]
        if not want or there != line:
            seen = 'nothing' if there is None else repr(there)
            return (f'{file.relative_to(TOP)}:{number} is stale: there stands {seen}, '
                    f'but by {place} {line!r}')
    return None


def fill(rows, binary):
    """Puts answers below the rows that have none."""
    for row in reversed([row for row in rows if not row.answer]):
        row.fill(binary)
        lines = lines_of(row.path)
        lines[row.last:row.last] = [INDENT + line for line in row.answer]
        row.path.write_bytes('\n'.join(lines).encode())


def texts_of(rows):
    """Both files, each with the lines of each row."""
    return {CRATE / 'stdin': [asked_of(row) for row in rows],
            CRATE / 'stdout': [row.answered() for row in rows]}


def write(texts):
    """Writes both files."""
    for file, lines in texts.items():
        text = ''.join(f'{line}\n' for line in itertools.chain.from_iterable(lines))
        file.write_bytes(text.encode())


def check(rows, texts):
    """Names the first stale line; the exit status."""
    found = next(filter(None, (stale(file, rows, lines) for file, lines in texts.items())), None)
    if found:
        print(found)
    return 1 if found else 0


def main():
    words = command_line.Parser(__doc__)
    ways = words.add_mutually_exclusive_group()
    ways.add_argument('--check', action='store_true')
    ways.add_argument('--fill', metavar='BINARY', type=command_line.program)
    given = words.words()
    rows = [row for path in sorted((TOP / 'rows').glob('*.rows')) for row in rows_of(path)]
    if given.fill:
        return fill(rows, given.fill)
    texts = texts_of(rows)
    return check(rows, texts) if given.check else write(texts)


if __name__ == '__main__':
    command_line.run(main)
