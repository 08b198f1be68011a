"""Kernels: code that people write, with the places of its variables, its marks and its remarks in
one text (docs/DESIGNING.md, "A kernel by hand"). The words are made by `record asm`.
"""
from __future__ import annotations

import dataclasses
import difflib
import itertools
import pathlib
import re
from collections.abc import Iterable
from typing import NoReturn

from rtn.calls import Answer, Program
from rtn.checks import Unfollowed, read_unfollowed
from rtn.clock import Netlist
from rtn.images import END, Image, Place, mark_line, read_image
from rtn.operators import mask
from rtn.patterns import read_patterns
from rtn.reading import Fault
from rtn.remarks import Kind, Order, Remark

LABEL = re.compile(r'([A-Za-z_]\w*) ?:(?!=) ?', re.A)
WORD = re.compile(r'(?P<transfers>.*?)(?:(?:^| )with (?P<items>.+?))?(?: wants (?P<wants>\S+))?')
ITEM = re.compile(r'(\d+):(\d+)=(\S+)', re.A)
TERM = re.compile(r'([+-]?)(\w+)(?:\[(\d+)\])?', re.A)
HERE = 'here'   # the address of the word itself, in the value of a field


@dataclasses.dataclass(frozen=True)
class Told:
    """A line that is written, and the line of the kernel that says it; 0 where none does."""

    text: str
    line: int = 0


class KernelFault(Fault):
    """What is wrong with a kernel, at one of its lines."""

    def __init__(self, path: pathlib.Path, line: int, message: str):
        super().__init__(f'{path}:{line}: {message}' if line else f'{path}: {message}')


class Processor:
    """What a kernel's text asks of a netlist: its storages, its transfers, and how its program
    counter goes on to the next word."""

    def __init__(self, text: str, patterns: str):
        self.netlist = Netlist(text)
        self.items, self.code = self.netlist.items, self.netlist.code
        self.counter, self.memory = self.code.counter, self.netlist.memory.name
        self.patterns = [pattern for mode in read_patterns(patterns) for pattern in mode]
        self.transfers = [pattern.transfer for pattern in self.patterns]
        step = re.compile(rf'{self.counter} := add\(({self.counter},1#\d+|1#\d+,{self.counter})\)')
        self.step = next(filter(step.fullmatch, self.transfers), None)

    @staticmethod
    def at(record: Program, path: pathlib.Path) -> Processor:
        """That of the netlist in a file."""
        return Processor(path.read_text(errors='replace'), record.done('extract', path))

    @property
    def stay(self) -> str:
        """How a line says that the program counter keeps its address."""
        return f'{self.counter} := {self.counter}'

    def unknown(self, transfers: Iterable[str]) -> str | None:
        """The first of these transfers that no word does, with those that come nearest."""
        missing = next((text for text in transfers if text not in self.transfers), None)
        if missing is None:
            return None
        storage = re.match(r'\w*', missing)[0]
        own = [text for text in self.transfers if re.match(rf'{storage}\b', text)]
        near = difflib.get_close_matches(missing, own or self.transfers, n=1, cutoff=0)
        return f'no transfer {missing}' + ''.join(f'; the nearest is {text}' for text in near)


@dataclasses.dataclass(frozen=True)
class Instruction:
    """What a kernel says of a word: its line, its transfers as they are written, the fields'
    values, and the numbers of the patterns that are wanted of it."""

    line: int
    transfers: str
    items: tuple[str, ...] = ()
    patterns: tuple[int, ...] = ()


class Kernel:
    """A kernel's text, read for a processor; a KernelFault where it is none."""

    def __init__(self, path: pathlib.Path, text: str, processor: Processor):
        self.path, self.processor = path, processor
        self.temporaries = 0
        self.places: list[tuple[int, Place]] = []
        self.trees: list[Told] = []
        self.marks: dict[int, tuple[int, str]] = {}
        self.labels: dict[str, int] = {}
        self.remarks: list[tuple[int, Remark]] = []
        self.is_remarked = False
        self.words: list[Instruction] = []
        self.waiting = 0   # the line of something that stands before a word
        for self.line, line in enumerate(text.split('\n'), 1):
            self.read(plain(line))
        self.line = self.waiting
        if self.waiting:
            self.fail('no word stands behind this line')
        self.hold_names()

    def fail(self, message: str) -> NoReturn:
        raise KernelFault(self.path, self.line, message)

    # lines

    def read(self, line: str) -> None:
        """A line, of which the remark and needless space are gone."""
        while found := LABEL.match(line):
            self.label(found[1])
            line = line[found.end():]
        if line.startswith('.'):
            self.directive(*line[1:].split(' '))
        elif line:
            self.word(line)

    def label(self, name: str) -> None:
        if name in self.labels or name == HERE:
            self.fail(f'a second label {name}' if name != HERE else f'no label can be {HERE}')
        self.labels[name] = len(self.words)
        self.waiting = self.line

    def directive(self, word: str, *parts: str) -> None:
        forms = {'temps': (1, self.temps), 'place': (3, self.place), 'tree': (2, self.tree),
                 'remarks': (0, self.remarked), 'hide': (2, self.hide), 'mark': (1, self.mark),
                 'view': (2, self.remark), 'hold': (2, self.remark), 'know': (2, self.remark)}
        if word not in forms:
            self.fail(f'no line begins with .{word}')
        count, take = forms[word]
        if len(parts) != count:
            self.fail(f'.{word} has {count} word{"s" * (count != 1)} behind it')
        if take == self.remark:
            self.remark(Kind(word), *parts)
        else:
            take(*parts)

    def number(self, text: str) -> int:
        if not re.fullmatch(r'0|[1-9]\d{0,19}', text, re.A):
            self.fail(f'no number: {text}')
        return int(text)

    def temps(self, count: str) -> None:
        self.temporaries = self.number(count)

    def place(self, name: str, address: str, length: str) -> None:
        if name in (place.name for _, place in self.places):
            self.fail(f'a second place {name}')
        self.places.append((self.line, Place(name, self.number(address), self.number(length))))

    def tree(self, number: str, cost: str) -> None:
        self.trees.append(Told(f'tree {self.number(number)} {self.number(cost)}', self.line))

    def mark(self, label: str) -> None:
        if len(self.words) in self.marks:
            self.fail('a second mark of this word')
        self.marks[len(self.words)] = self.line, self.labelled(label)
        self.waiting = self.line

    def labelled(self, label: str) -> str:
        """What a mark says: the number of a test, or the end."""
        return label if label == END else str(self.number(label))

    def remarked(self) -> None:
        self.is_remarked = True

    def hide(self, label: str, name: str) -> None:
        self.remarks.append((self.line, Remark(Kind.HIDE, self.labelled(label), name)))

    def remark(self, kind: Kind, subject: str, value: str) -> None:
        value = str(self.number(value)) if kind == Kind.KNOW else value
        self.remarks.append((self.line, Remark(kind, str(len(self.words)), subject, value)))
        self.waiting = self.line

    def word(self, line: str) -> None:
        found = WORD.fullmatch(line)
        wants = found['wants']
        if wants and not re.fullmatch(r'\d+(,\d+)*', wants, re.A):
            self.fail(f'no numbers of patterns: {wants}')
        items = re.sub(r' ?([:=+-]) ?', r'\1', found['items'] or '').split(' ')
        patterns = tuple(map(self.number, wants.split(','))) if wants else ()
        self.words.append(Instruction(self.line, found['transfers'], tuple(filter(None, items)),
                                      patterns))
        self.waiting = 0

    def hold_names(self) -> None:
        """Holds the names of remarks against places, marks and storages."""
        names = [place.name for _, place in self.places]
        marked = [label for _, label in self.marks.values()]
        order = Order(self.processor.items, names)
        for self.line, remark in self.remarks:
            if remark.kind != Kind.HOLD and remark.subject not in names:
                self.fail(f'no .place is called {remark.subject}')
            if remark.kind == Kind.HOLD and not order.has_holder(remark.subject):
                self.fail(f'no register and no cell is called {remark.subject}')
            if remark.kind == Kind.HIDE and remark.at not in marked:
                self.fail(f'no .mark {remark.at}')
        self.remarks.sort(key=lambda remark: order.key(remark[1]))

    # the words' texts

    def asm_lines(self) -> list[str]:
        """The lines for `record asm`, one for each word."""
        return [self.asm_line(at, word) for at, word in enumerate(self.words)]

    def asm_line(self, at: int, word: Instruction) -> str:
        self.line = word.line
        items = ' '.join(self.item(at, item) for item in word.items)
        return ' with '.join(filter(None, (self.stepped(word.transfers), items)))

    def stepped(self, text: str) -> str:
        """The transfers of a word, with the step to the next one where they don't say what the
        program counter does."""
        if text == 'keep' or text.startswith('raw '):
            return text
        transfers = [part for part in text.split(' & ') if part]
        if self.processor.stay in transfers:
            transfers.remove(self.processor.stay)
        elif self.processor.step and not any(map(self.is_turn, transfers)):
            transfers.insert(0, self.processor.step)
        return ' & '.join(transfers) or 'keep'

    def is_turn(self, transfer: str) -> bool:
        return transfer.startswith(f'{self.processor.counter} := ')

    def item(self, at: int, text: str) -> str:
        """A field's value as a number; one below 0 is in two's complement."""
        found = ITEM.fullmatch(text)
        if not found:
            self.fail(f'no field HI:LO=VALUE: {text}')
        high, low = self.number(found[1]), self.number(found[2])
        if not low <= high < self.processor.code.width:
            self.fail(f'a word has no bits {high}:{low}')
        width, value = high - low + 1, self.value(at, found[3])
        if not -(1 << width - 1) <= value <= mask(width):
            self.fail(f'{value} has no room in {high}:{low}')
        return f'{high}:{low}={value & mask(width)}'

    def value(self, at: int, text: str) -> int:
        """Numbers, labels, cells and `here`, added and subtracted."""
        terms = list(TERM.finditer(text))
        if ''.join(term[0] for term in terms) != text or not all(term[1] for term in terms[1:]):
            self.fail(f'no value: {text}')
        return sum((-1 if term[1] == '-' else 1) * self.term(at, term[2], term[3])
                   for term in terms)

    def term(self, at: int, name: str, index: str | None) -> int:
        place = next((place for _, place in self.places if place.name == name), None)
        if place is not None and name in self.labels:
            self.fail(f'{name} is a label and a variable')
        if place is not None:
            number = self.number(index or '0')
            if number >= place.length:
                self.fail(f'{name} has {place.length} cell{"s" * (place.length != 1)}')
            return place.address + number
        if index is None and name in self.labels:
            return self.labels[name]
        if index is None and name == HERE:
            return at
        if index is None and name.isdecimal():
            return self.number(name)
        self.fail(f'no label and no variable is called {name}')

    # the image

    def image(self, record: Program, netlist: pathlib.Path) -> list[Told]:
        """The lines of the image with its remarks."""
        made = self.assembled(record, netlist)
        lines = [Told(made.head), Told(f'temps {self.temporaries}')]
        lines += [Told(place.line, line) for line, place in self.places]
        lines += self.trees
        lines += [Told(mark_line(at, label), line) for at, (line, label) in self.marks.items()]
        lines += [Told(dataclasses.replace(word, patterns=said.patterns).line(at), said.line)
                  for at, (said, word) in enumerate(zip(self.words, made.words, strict=True))]
        lines.append(Told('done'))
        if self.remarks or self.is_remarked:
            lines += [Told(remark.line, line) for line, remark in self.remarks]
            lines.append(Told('done'))
        return lines

    def assembled(self, record: Program, netlist: pathlib.Path) -> Image:
        """The words, as an image with nothing else."""
        lines = self.asm_lines()
        answer = assemble(record, netlist, lines)
        if not answer.status:
            return read_image(answer.text)
        if found := re.fullmatch(r'error asm word (\d+)', answer.line):
            self.refuse(lines, int(found[1]), 'no word does this')
        if found := re.fullmatch(r'error asm text (\d+)', answer.line):
            self.refuse(lines, line_at(lines, int(found[1])), 'no word of this netlist')
        raise Fault(answer.fault)

    def refuse(self, lines: list[str], at: int, why: str) -> NoReturn:
        """Tells the word that `asm` refused."""
        self.line = self.words[at].line if at < len(self.words) else 0
        transfers = lines[at].split(' with ')[0] if at < len(lines) else 'keep'
        is_transfers = transfers != 'keep' and not transfers.startswith('raw ')
        unknown = self.processor.unknown(transfers.split(' & ')) if is_transfers else None
        self.fail(unknown or f'{why}: {lines[at] if at < len(lines) else ""}')

    # refusals

    def placed(self, refusal: str, image: list[Told]) -> str:
        """A refusal of `record check` with the line of the kernel that it is about."""
        line = self.line_of(refusal, image)
        match refusal.split(' '):
            case ['error', 'image', 'text', offset]:
                at = line_at([told.text for told in image], int(offset))
                refusal += ''.join(f': {told.text}' for told in image[at:at + 1])
        found = read_unfollowed(refusal)
        if found and found.word is not None and found.mark is not None:
            refusal += f', from the mark in line {self.mark_line(found.mark)}'
        return str(KernelFault(self.path, line, refusal))

    def line_of(self, refusal: str, image: list[Told]) -> int:
        """The line that a refusal is about; 0 where there is none."""
        if found := read_unfollowed(refusal):
            return self.unfollowed_line(found)
        match refusal.split(' ')[1:]:
            case ['image', 'text', offset]:
                at = line_at([told.text for told in image], int(offset))
                return image[at].line if at < len(image) else 0
            case ['place', name]:
                return next((line for line, place in self.places if place.name == name), 0)
            case ['mark', address, _]:
                return self.mark_line(int(address))
            case ['view', address, name]:
                return next((line for line, remark in self.remarks
                             if (remark.kind, remark.at, remark.subject)
                             == (Kind.VIEW, address, name)), 0)
            case ['end', 'word']:
                return self.word_line(len(self.words) - 1)
        return 0

    def unfollowed_line(self, found: Unfollowed) -> int:
        """That of the word at fault, or else that where the words begin."""
        if found.word is not None:
            return self.word_line(found.word)
        return self.word_line(0) if found.mark is None else self.mark_line(found.mark)

    def mark_line(self, address: int) -> int:
        return self.marks.get(address, (0, ''))[0]

    def word_line(self, address: int) -> int:
        return self.words[address].line if address < len(self.words) else 0


def plain(line: str) -> str:
    """A line without its remark and without needless space."""
    line = ' '.join(line.partition('//')[0].split())
    line = re.sub(r' ?([(),#]) ?', r'\1', line)
    line = re.sub(r'\)(?=\w)', ') ', line)
    return re.sub(r' ?(:=|&) ?', r' \1 ', line)


def line_at(lines: Iterable[str], offset: int) -> int:
    """The number of the line that has the byte at an offset, from 0."""
    ends = itertools.accumulate(len(line.encode()) + 1 for line in lines)
    return sum(1 for end in ends if end <= offset)


def assemble(record: Program, netlist: pathlib.Path, lines: Iterable[str]) -> Answer:
    """What `record asm` answers to these lines."""
    return record.on_text(''.join(f'{line}\n' for line in lines), 'asm', netlist)
