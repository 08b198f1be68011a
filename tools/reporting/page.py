"""The page of a netlist and its programs, as one HTML file that needs no other."""
from __future__ import annotations

import collections
import dataclasses
import json
import math
import pathlib
from collections.abc import Iterator, Sequence

from listing import Row, Statement
from reporting.html import Markup, element, joined
from reporting.instruction_set import InstructionSet
from reporting.profiles import Machine, Profile, Usage
from reporting.tasks import Task

HERE = pathlib.Path(__file__).parent
HOTTEST = 0.55   # how much of the colour of heat the word has that ran most


@dataclasses.dataclass(frozen=True)
class Compared:
    """A program by `compile` and by `tune`, or with a part by `dual` in place of both: the profile
    of its code, or a fault."""

    task: Task
    by_compile: Profile | str
    by_tune: Profile | str

    @staticmethod
    def of(machine: Machine, task: Task) -> Compared:
        def profile(is_tuned: bool) -> Profile | str:
            listing = machine.listing(task, is_tuned)
            return listing if isinstance(listing, str) else machine.profile(task, listing)

        by_compile = profile(False)
        return Compared(task, by_compile, by_compile if task.part else profile(True))

    @property
    def profile(self) -> Profile | None:
        """The profile by `compile`, or that by `tune` where there is none."""
        found = (one for one in (self.by_compile, self.by_tune) if isinstance(one, Profile))
        return next(found, None)

    def columns(self) -> dict[str, Profile | str]:
        """What there is to show by the names of the commands, once where both have the same
        words."""
        if self.task.part:
            return {'by dual': self.by_compile}
        both = [self.by_compile, self.by_tune]
        images = [one.listing.image.words for one in both if isinstance(one, Profile)]
        if len(images) == 2 and images[0] == images[1]:
            return {'by compile and by tune': self.by_compile}
        return dict(zip(('by compile', 'by tune'), both))


class Page:
    """The sections of a page, about a machine, programs on it, and what changed from another."""

    def __init__(self, machine: Machine, tasks: Sequence[Task], changes: str = ''):
        self.machine, self.changes = machine, changes
        self.compared = [Compared.of(machine, task) for task in tasks]
        self.usage = Usage(machine, [pair.profile for pair in self.compared if pair.profile])
        wanted = collections.Counter(
            transfer for row in self.usage.rows for transfer in self.usage.wanted(row))
        self.instruction_set = InstructionSet(machine, self.usage.storages,
                                              wanted if self.usage.rows else None)

    def text(self) -> str:
        """The page."""
        title = self.machine.path.name
        sections = [(name, made) for name, made in self.sections() if made]
        links = [element('a', name, href=f'#{anchor(name)}') for name, _ in sections]
        body = [element('section', element('h2', name, id=anchor(name)), made)
                for name, made in sections]
        head = element('head', element('meta', charset='utf-8'), element('title', title),
                       element('style', Markup((HERE / 'page.css').read_text())))
        whole = element('html', head, element('body', element('h1', title), element('nav', *links),
                                              *body, self.script()), lang='en')
        return f'<!DOCTYPE html>\n{whole}\n'

    def script(self) -> Markup:
        """The script, in which no text ends it."""
        ways = json.dumps(self.instruction_set.lit()).replace('</', '<\\/')
        code = (HERE / 'page.js').read_text()
        return element('script', Markup(f'const ways = {ways};\n{code}'))

    def sections(self) -> Iterator[tuple[str, Markup]]:
        """The sections with their heads, in the order of the page; those with nothing in them are
        left out."""
        yield 'Programs', self.programs()
        yield 'What changed', element('pre', self.changes) if self.changes else Markup()
        yield 'Instruction set', self.instruction_set.section()
        yield 'Code', self.code()
        yield 'What the programs use', self.hardware()
        text = self.machine.path.read_text(errors='replace')
        yield 'Netlist', element('pre', text)

    # programs

    def programs(self) -> Markup:
        """The words and cycles of each program."""
        if not self.compared:
            return Markup()
        heads = ('program', 'by compile: words', 'cycles', 'by tune: words', 'cycles')
        rows = [element('tr', *(element('th', head) for head in heads))]
        for number, pair in enumerate(self.compared):
            link = element('a', pair.task.source.name, href=f'#code-{number}')
            rows.append(element('tr', element('td', link), *taken(pair.by_compile),
                                *taken(pair.by_tune)))
        return element('table', *rows, klass='plain')

    # code

    def code(self) -> Markup:
        """Each program beside its code."""
        if not self.compared:
            return Markup()
        told = ('Before each word stands how often it ran from the memory text; the darker, the '
                'more often. Yellow statements have other numbers of words by tune.')
        programs = (joined(element('h3', pair.task.source.name, id=f'code-{number}'),
                           self.program(pair)) for number, pair in enumerate(self.compared))
        return joined(element('p', told, klass='told'), *programs)

    def program(self, pair: Compared) -> Markup:
        """A program beside its code, or why there is none."""
        if not pair.profile:
            return element('p', str(pair.by_compile), klass='fault')
        columns, statements = pair.columns(), pair.profile.listing.statements
        heads = (element('th', f'{told}: {summary(one)}') for told, one in columns.items())
        rows = [element('tr', element('th', 'statement', klass='statement'), *heads)]
        rows += [self.statement(statement, number, list(columns.values()))
                 for number, statement in enumerate(statements)]
        ends = (self.words(one, None) for one in columns.values())
        rows.append(element('tr', element('td', 'end', klass='told'), *ends))
        return element('table', *rows, klass='code')

    def statement(self, statement: Statement, number: int,
                  columns: Sequence[Profile | str]) -> Markup:
        """A statement beside its words by each command."""
        counts = {len(one.listing.statements[number].rows)
                  for one in columns if isinstance(one, Profile)}
        text = joined(element('span', f'{statement.line} ', klass='told'),
                      element('code', statement.text))
        return element('tr', element('td', text), *(self.words(one, number) for one in columns),
                       klass='changed' if len(counts) > 1 else None)

    def words(self, profile: Profile | str, number: int | None) -> Markup:
        """The words of a statement, or with no number of the end."""
        if isinstance(profile, str):
            return element('td')
        rows = profile.listing.end if number is None else profile.listing.statements[number].rows
        return element('td', *(self.word(profile, row) for row in rows))

    def word(self, profile: Profile, row: Row) -> Markup:
        """A word: how often it ran, its address, and its transfers as links to the chart."""
        count, most = profile.count(row), max(profile.run.counts)
        heat = HOTTEST * math.log1p(count) / math.log1p(most) if count else 0
        links = []
        for transfer, text in zip(row.transfers, row.texts):
            links += [' & '] * bool(links)
            links.append(element('a', text, href=f'#{self.instruction_set.place(transfer)}'))
        return element(
            'div', element('span', f'{count} ×', klass='count'),
            element('span', str(row.address), klass='place'), element('span', row.digits),
            element('span', *links), klass='word',
            style=f'background: rgba(255, 146, 43, {heat:.2f})')

    # use

    def hardware(self) -> Markup:
        """What all programs use of the storages and of the word."""
        if not self.usage.rows:
            return Markup()
        heads = ('storage', 'transfers that are used', 'of')
        rows = [element('tr', *(element('th', head) for head in heads))]
        rows += [element('tr', element('td', storage.name),
                         element('td', str(len(storage.used)), klass='number'),
                         element('td', str(len(storage.transfers)), klass='number'))
                 for storage in self.usage.storages]
        fields = [element('li', str(field)) for field in self.usage.fields]
        code = self.machine.netlist.code.name
        alike = ', '.join(f'{code}[{bit}] = {value}' for bit, value in self.usage.constant_bits())
        told = 'This is the code by compile, or by tune where there is none.'
        return joined(element('p', told, klass='told'), element('table', *rows, klass='plain'),
                      element('h3', 'Fields of the instruction word'), element('ul', *fields),
                      element('p', f'Bits that are always alike: {alike or "none"}.'))


def anchor(name: str) -> str:
    """The place of a section."""
    return name.lower().replace(' ', '-')


def summary(profile: Profile | str) -> str:
    """The words and cycles of a program, or its fault, in words."""
    if isinstance(profile, str):
        return profile
    return f'{profile.words} words, {profile.cycles} cycles'


def taken(profile: Profile | str) -> list[Markup]:
    """The cells of a program's words and cycles, or of its fault."""
    if isinstance(profile, str):
        return [element('td', profile, colspan=2, klass='fault')]
    return [element('td', text, klass='number') for text in (str(profile.words), profile.cycles)]
