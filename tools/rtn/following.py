"""Follows a netlist that is clocked on an image's words beside a program, by the marks and the
views of the image (docs/CHECKING.md).
"""
from __future__ import annotations

import dataclasses
from collections.abc import Iterator, Mapping

from rtn.checks import Way, Ways
from rtn.clock import Clash, Netlist, State, copied
from rtn.images import END, Image, read_image
from rtn.names import Store
from rtn.patterns import Meaning, read_expression
from rtn.remarks import Kind, parted
from rtn.settling import WordClock
from rtn.sources import Run, Source, Test
from rtn.syntax import Expression


@dataclasses.dataclass(frozen=True)
class Viewed:
    """An image with its views, by the address of the mark and the name of the variable, and with
    what is hidden, by the label and the name."""

    image: Image
    views: Mapping[tuple[int, str], Expression] = dataclasses.field(default_factory=dict)
    hidden: frozenset[tuple[str, str]] = frozenset()


def read_viewed(text: str) -> Viewed:
    """An image text, behind which remarks may stand."""
    image, remarks = parted(text)
    views = {(int(remark.at), remark.subject): read_expression(remark.value)
             for remark in remarks or () if remark.kind == Kind.VIEW}
    hidden = frozenset((remark.at, remark.subject)
                       for remark in remarks or () if remark.kind == Kind.HIDE)
    return Viewed(read_image(image), views, hidden)


class Stray(Exception):
    """What isn't as the program has it, and where."""


class Follower:
    """Clocks a netlist on an image's words beside a program.

    At each mark the program has to be at the test of the mark's number, and each variable that
    isn't hidden there has to have the program's cells: by its view, or in its place. With `ways`
    the clocks from mark to mark are held against these, too.
    """

    BEHIND_END = 3

    def __init__(self, netlist: Netlist, viewed: Viewed, source: Source, ways: Ways | None = None):
        self.netlist, self.viewed, self.source, self.ways = netlist, viewed, source, ways
        self.clock, self.meaning = WordClock(netlist), Meaning(netlist.items)
        self.image, self.counter = viewed.image, netlist.code.counter
        store = Store.of(netlist.items)
        self.places = {cell: store.cell(address) for address, cell in self.image.cells().items()}

    def differs(self, start: State, cycles: int) -> str | None:
        """What differs within so many clocks from a state on, or None."""
        try:
            self.length(start, cycles)
        except Stray as stray:
            return str(stray)
        return None

    def length(self, start: State, cycles: int) -> int | None:
        """The clocks to the end mark, or None where it doesn't come within so many; a Stray where
        something differs on the way."""
        program = Run(self.source, self.netlist.memory.width, self.stored(start))
        tests, way, last = program.tests(), self.ways and self.ways.start, 0
        for cycle, state in self.at_marks(start, cycles):
            test, address = next(tests, None), state[self.counter]
            found = (self.off_way(way, Way(cycle - last, address)) or self.off_label(address, test)
                     or self.off_store(state, program.cells))
            if found:
                raise Stray(f'clock {cycle}, mark {address}: {found}')
            if test is None:
                self.stay(state)
                return cycle
            way, last = self.ways and self.ways.turns.get((address, answer_of(*test))), cycle
        return None

    def at_marks(self, start: State, cycles: int) -> Iterator[tuple[int, State]]:
        """The states at marks within so many clocks, each with its clock; a Stray where none comes
        within one image length of the last."""
        state, last = copied(start), 0
        for cycle in range(cycles + 1):
            label = self.image.marks.get(state[self.counter])
            if label is not None:
                yield cycle, state
                last = cycle
            if cycle - last > len(self.image.words):
                raise Stray(f'clock {cycle}: the last mark was at {last}')
            state = self.clocked(state)

    def clocked(self, state: State) -> State:
        """The state after a clock."""
        try:
            return self.clock.after(state, self.image)
        except Clash as clash:
            raise Stray(f'{clash} clashes at {state[self.counter]}') from None

    def stay(self, state: State) -> None:
        """Clocks behind the end."""
        end, cells = state[self.counter], self.stored(state)
        for _ in range(self.BEHIND_END):
            state = self.clocked(state)
            if state[self.counter] != end or self.stored(state) != cells:
                raise Stray('the end does not stay')

    def stored(self, state: State) -> dict[str, int]:
        """What stands in the places of all variables."""
        return {cell: state[memory][at] if at < len(state[memory]) else 0
                for cell, (memory, at) in self.places.items()}

    def seen(self, view: Expression, state: State) -> int:
        """The value of a view in a state."""
        held = {name: dict(enumerate(cells)) if isinstance(cells, list) else cells
                for name, cells in state.items()}
        return self.meaning.value(view, held, 0)

    # what is wrong at a mark, or None

    def off_way(self, told: Way | None, gone: Way) -> str | None:
        if self.ways is None or told == gone:
            return None
        return f'{gone.clocks} clocks, where {told} is told'

    def off_label(self, address: int, test: tuple[Test, bool] | None) -> str | None:
        due, label = END if test is None else str(test[0].tree), self.image.marks[address]
        return None if label == due else f'the program is at {due}, not {label}'

    def off_store(self, state: State, cells: Mapping[str, int]) -> str | None:
        address, stored = state[self.counter], self.stored(state)
        for place in self.image.places:
            if (self.image.marks[address], place.name) in self.viewed.hidden:
                continue
            view = self.viewed.views.get((address, place.name))
            for cell in place.cells().values():
                shown = stored[cell] if view is None else self.seen(view, state)
                if shown != cells[cell]:
                    return f'{cell} is {shown}, not {cells[cell]}'
        return None


def answer_of(test: Test, holds: bool) -> int:
    """The value of a test's tree where the test holds, or doesn't."""
    return int(holds != test.is_opposite)
