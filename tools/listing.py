#!/usr/bin/env python3
"""Lists the code of a program on a netlist: its words with what they do, below the statements that
they are of.

Usage: listing.py BINARY [--tune] NET.rtn PROGRAM.src [PROGRAM.part] [--check LISTING]
       listing.py BINARY NET.rtn --kernel IMAGE

BINARY is run as `extract` and `compile`, with --tune as `tune`, and for a netlist with a bank as
`dual` with the part. Above stand the cells of the variables. Each statement has its line in the
program, its tree's number and cost, and its words: their address, with a * where the image has a
mark, the word in hexadecimal, and the wanted transfers, each in a line, with the numbers in the
word's fields in place of the slices, and behind them the variable of a cell that is read or written
at a number. A `for` stands three times: where its counter is set, at its test, and where it is
stepped. A jump stands at the end of the statement before it.

An assignment ends with the word that writes its variable, or behind that with the one that puts
mode 0 back, a test with its branches. Where a step was packed ahead into a word of the statement
before, it stands there. The last line has the sums.

With --check nothing is written where LISTING is this listing; else what differs is, and the exit
status is 1.

With --kernel an image, with the remarks on it where it has some, is written as a text that can be
changed by hand: `kernel.py` makes the same image of it.

The exit status is also 1 where the program, the image or the netlist is refused, and 2 where the
words are none of these.
"""
from __future__ import annotations

import dataclasses
import difflib
import pathlib
import re
import sys
from collections.abc import Iterator

import command_line
from reporting.tasks import Task
from rtn.calls import Program
from rtn.images import Image, read_image
from rtn.kernel_texts import kernel_of
from rtn.operators import bits, mask
from rtn.patterns import read_patterns
from rtn.reading import read_netlist
from rtn.syntax import Array, Code, Memory, Register

TOKEN = re.compile(r'(?:\s|//[^\n]*)*(?:(?P<word>\w+|[=!<>]=|>>>|<<|>>|.)|$)', re.S)


@dataclasses.dataclass
class Row:
    """A word of the code: its address, its digits, its wanted transfers as `extract` writes them,
    and their texts with the numbers that the word's fields have."""

    address: int
    digits: str
    transfers: list[str]
    texts: list[str]


@dataclasses.dataclass
class Statement:
    """The part of a program that is one tree: its line, its text, and its words."""

    line: int
    text: str
    rows: list[Row] = dataclasses.field(default_factory=list)


class Source:
    """The statements of a program text in the order of their trees. The text is one that `compile`
    took."""

    def __init__(self, text: str):
        self.text = text
        self.statements: list[Statement] = []
        self.words = [(found['word'], found.start('word'))
                      for found in TOKEN.finditer(text) if found['word']]
        self.place = 0
        while not self.is_at_end() and self.word == 'var':
            self.until(';')
        while not self.is_at_end():
            self.statement()

    def is_at_end(self) -> bool:
        return self.place == len(self.words)

    @property
    def word(self) -> str:
        return self.words[self.place][0]

    def until(self, end: str) -> str:
        """Passes a word, and gives the text before it."""
        first = self.words[self.place][1]
        while self.word != end:
            self.place += 1
        self.place += 1
        return ' '.join(self.text[first:self.words[self.place - 1][1]].split())

    def put(self, first: int, text: str) -> None:
        self.statements.append(Statement(self.text.count('\n', 0, first) + 1, text))

    def statement(self) -> None:
        word, first = self.words[self.place]
        if word not in ('if', 'while', 'for'):
            return self.put(first, self.until(';') + ';')
        head = self.until('{')
        if word == 'for':
            self.put(first, f'{head}: start')
        self.put(first, f'{head}: test' if word == 'for' else head)
        self.block()
        if word == 'for':
            self.put(first, f'{head}: step')
        if word == 'if' and not self.is_at_end() and self.word == 'else':
            self.until('{')
            self.block()
        return None

    def block(self) -> None:
        while self.word != '}':
            self.statement()
        self.place += 1


class Netlist:
    """What `extract` says of a netlist: its transfers in each mode, and the names of its word,
    counter, memory and mode."""

    def __init__(self, text: str, patterns: str):
        self.transfers = [[pattern.transfer for pattern in mode]
                          for mode in read_patterns(patterns)]
        items = read_netlist(text)
        code = next(item for item in items if isinstance(item, Code))
        self.code, self.counter = code.name, code.counter
        self.memory = next(item.name for item in items
                           if isinstance(item, Memory) and item.array == Array.MEMORY)
        self.mode = next((item.name for item in items
                          if isinstance(item, Register) and item.is_mode), None)

    def shown(self, transfer: str, word: int) -> str:
        """A transfer with the numbers that the word's fields have."""
        def field(found: re.Match) -> str:
            return str(bits(word, *map(int, found.groups())))

        def total(found: re.Match) -> str:
            first, second, width = map(int, found.groups())
            return str(first + second & mask(width))

        text = re.sub(rf'slice\({self.code},(\d+),(\d+)\)', field, transfer)
        text = re.sub(r'zext\((\d+),\d+\)', r'\1', text)
        text = re.sub(r'add\((\d+),(\d+)#(\d+)\)', total, text)
        return re.sub(rf'\b{self.code}\b', str(word), text)

    def is_turn(self, transfer: str) -> bool:
        """Whether a transfer sets the program counter."""
        return transfer.startswith(f'{self.counter} := ')

    def put_mode(self, text: str) -> int | None:
        """The mode that a transfer puts, or None."""
        found = re.fullmatch(rf'{self.mode} := (\d+)(#\d+)?', text)
        return int(found[1]) if self.mode and found else None

    def writes(self, text: str, least: int) -> bool:
        """Whether a transfer writes a cell from the least on, or one that is computed."""
        found = re.match(rf'{self.memory}\[(.*)\] := ', text)
        if not found:
            return False
        is_number = re.fullmatch(r'\d+(#\d+)?', found[1])
        return not is_number or int(found[1].split('#')[0]) >= least


@dataclasses.dataclass
class Spread:
    """Where the words of an image are given to statements: the statement that is due, whether its
    test has begun, whether that has turned, and the mode."""

    now: int = 0
    in_test: bool = False
    has_turned: bool = False
    mode: int = 0

    def begin(self, mark: str | None, is_turn: bool) -> None:
        """Goes on to a test at its mark, and to the statement behind a test's branches."""
        if mark is not None and mark != 'end':
            self.now, self.in_test, self.has_turned = int(mark), True, False
        elif self.has_turned and not is_turn:
            self.now, self.in_test, self.has_turned = self.now + 1, False, False
        self.has_turned = self.in_test and is_turn


class Listing:
    """The lines of an image below the statements of its program."""

    def __init__(self, image: Image, netlist: Netlist, source: Source):
        self.image, self.netlist, self.statements = image, netlist, source.statements
        self.names, self.end, self.turns = image.cells(), [], 0
        self.spread()

    def spread(self) -> None:
        """Gives each word to its statement.

        A test goes from its mark to its branches, an assignment to the word that writes its
        variable.
        """
        state = Spread()
        for at, word in enumerate(self.image.words):
            transfers = [self.netlist.transfers[state.mode][number] for number in word.patterns]
            texts = [self.netlist.shown(transfer, word.number) for transfer in transfers]
            is_turn = any(map(self.netlist.is_turn, transfers))
            self.turns += is_turn
            mode = self.mode_after(state.mode, texts)
            is_last = is_turn or mode < state.mode
            state.mode = mode
            mark = self.image.marks.get(at)
            state.begin(mark, is_turn)
            rows = self.end if mark == 'end' else self.rows_of(state, is_last)
            rows.append(Row(at, word.digits, transfers, texts))
            least = self.image.temporaries
            if not state.in_test and any(self.netlist.writes(text, least) for text in texts):
                state.now += 1

    def mode_after(self, mode: int, texts: list[str]) -> int:
        put = map(self.netlist.put_mode, texts)
        return next((value for value in put if value is not None), mode)

    def rows_of(self, state: Spread, is_last: bool) -> list[Row]:
        """The words of the statement that a word is of; one that ends an assignment is of the one
        before."""
        is_behind = is_last and not state.in_test
        return self.statements[max(state.now - 1, 0) if is_behind else state.now].rows

    def words_of(self, rows: list[Row]) -> Iterator[str]:
        for row in rows:
            mark = '*' if row.address in self.image.marks else ' '
            head = f'{mark}{row.address:5}  {row.digits}'
            for text in row.texts or ['']:
                cells = re.findall(rf'\b{self.netlist.memory}(?:\[|,)(\d+)[\])]', text)
                names = ', '.join(self.names.get(int(cell), f'temporary {cell}') for cell in cells)
                yield f'{head}  {text:44}  {names}'.rstrip()
                head = ' ' * len(head)

    def lines(self, title: str) -> Iterator[str]:
        image, count = self.image, len(self.image.words)
        yield from [f'{title}: {count} words of {image.width} bits', '', *self.cells()]
        for number, statement in enumerate(self.statements):
            words = len(statement.rows)
            yield from ['', f'line {statement.line}: {statement.text}']
            told = f'{words} word{"s" * (words != 1)}'
            yield f'tree {number}, cost {image.costs[number]}, {told}'
            yield from self.words_of(statement.rows)
        yield from ['', 'end', *self.words_of(self.end), '']
        yield (f'{count - self.turns} words for {sum(image.costs)} steps, '
               f"{self.turns} for jumps and branches, the end's among them")

    def cells(self) -> Iterator[str]:
        """What stands in which cells."""
        last = self.image.temporaries - 1
        if last >= 0:
            yield f'cells {"0" if last == 0 else f"0 to {last}"}: temporary'
        for place in self.image.places:
            if place.length > 1:
                yield f'cells {place.address} to {place.address + place.length - 1}: {place.name}'
            else:
                yield f'cell {place.address}: {place.name}'


def listed(record: Program, netlist: pathlib.Path, task: Task, is_tuned: bool = False) -> str:
    """The listing of a program on a netlist as a text; a Fault where one is refused."""
    listing = listing_of(record, netlist, task, is_tuned)
    return '\n'.join(listing.lines(f'{task.source.name} on {netlist.name}')) + '\n'


def listing_of(record: Program, netlist: pathlib.Path, task: Task, is_tuned: bool) -> Listing:
    """The listing of a program on a netlist; a Fault where one is refused."""
    patterns = record.done('extract', netlist)
    image = read_image(task.code(record, netlist, is_tuned))
    return Listing(image, Netlist(netlist.read_text(errors='replace'), patterns),
                   Source(task.source.read_text(errors='replace')))


def main():
    words = command_line.Parser(__doc__)
    words.add_program()
    words.add_argument('--tune', action='store_true')
    words.add_argument('--check', metavar='LISTING')
    words.add_argument('netlist', metavar='NET.rtn', type=pathlib.Path)
    words.add_argument('source', metavar='PROGRAM.src', type=pathlib.Path, nargs='?')
    words.add_argument('part', metavar='PROGRAM.part', type=pathlib.Path, nargs='?')
    words.add_argument('--kernel', metavar='IMAGE', type=pathlib.Path)
    given = words.words()
    if (given.source is None) == (given.kernel is None):
        words.error('a program is listed, or an image is written as a kernel')
    if given.kernel and (given.tune or given.check):
        words.error('--kernel goes without --tune and --check')
    if given.kernel:
        image = given.kernel.read_text()
        sys.stdout.write(kernel_of(given.binary, given.netlist, image))
        return 0
    task = Task(given.source, given.part)
    text = listed(given.binary, given.netlist, task, given.tune)
    if given.check is None:
        sys.stdout.write(text)
        return 0
    kept = pathlib.Path(given.check).read_text().splitlines(True)
    lines = text.splitlines(True)
    sys.stdout.writelines(difflib.unified_diff(kept, lines, given.check, 'as it is now'))
    return int(kept != lines)


if __name__ == '__main__':
    command_line.run(main, refused=1)
