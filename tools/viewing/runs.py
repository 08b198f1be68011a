"""A program and code for it side by side, from random starts."""
from __future__ import annotations

import dataclasses
import itertools
import random

from rtn import sources
from rtn.clock import Clash, Netlist, State, copied
from rtn.images import END, Image, Place
from rtn.random_states import random_state
from rtn.reading import Fault
from rtn.settling import WordClock

LONGEST = 20_000   # clocks of a run
TESTS = 5_000      # of a run
SMALL = 10         # values of every second start are below this


@dataclasses.dataclass(frozen=True)
class Test:
    """What the program has at one of its tests, or at the end: the label, and its cells."""

    label: str
    store: dict[str, int]


@dataclasses.dataclass(frozen=True)
class Run:
    """A run of the program, test by test, and one of the code, clock by clock, from the same
    values of the variables. Either may have been cut off."""

    tests: list[Test]
    states: list[State]
    is_whole: bool


class Runs:
    """Runs of a program beside those of a netlist on an image's words. The image has the places of
    the program's variables."""

    def __init__(self, netlist: Netlist, source: sources.Source, image: Image, seed: int):
        self.source, self.image, self.random = source, image, random.Random(seed)
        self.netlist, self.clock = netlist, WordClock(netlist)
        self.counter, self.width = netlist.code.counter, netlist.memory.width

    def run(self, number: int) -> Run:
        """A run from random values, small ones in every second."""
        bound = SMALL if number % 2 else 1 << self.width
        values = {address: self.random.randrange(bound) for address in self.image.cells()}
        tests, is_ended = self.program({self.image.cells()[address]: value
                                        for address, value in values.items()})
        states = self.code(values)
        return Run(tests, states, is_ended and self.is_last(states[-1]))

    def is_last(self, state: State) -> bool:
        """Whether the last word runs."""
        return state[self.counter] == len(self.image.words) - 1

    def program(self, cells: dict[str, int]) -> tuple[list[Test], bool]:
        """The tests of the program, and whether it came to its end."""
        run = sources.Run(self.source, self.width, cells)
        tests = [Test(str(test.tree), dict(cells))
                 for test, _ in itertools.islice(run.tests(), TESTS)]
        if len(tests) == TESTS:
            return tests, False
        return [*tests, Test(END, cells)], True

    def code(self, values: dict[int, int]) -> list[State]:
        """The states of the code, from random registers and cells, up to its end."""
        state = random_state(self.random, self.netlist)
        for address, value in values.items():
            state[self.netlist.memory.name][address] = value
        states = [self.kept(state)]
        try:
            while len(states) < LONGEST and not self.is_last(state):
                state = self.clock.after(state, self.image)
                states.append(self.kept(state))
        except Clash as clash:
            raise Fault(f'{clash} clashes in the word at {state[self.counter]}') from clash
        return states

    def kept(self, state: State) -> State:
        """A state by itself, which the clock goes on to change, of the memory no more than what
        places and temporary cells take."""
        memory = self.netlist.memory.name
        top = max([self.image.temporaries, *(at + 1 for at in self.image.cells())])
        return copied({**state, memory: state[memory][:top]})


def held(place: Place, state: State, memory: str) -> list[int]:
    """What a place holds."""
    return state[memory][place.address:place.address + place.length]
