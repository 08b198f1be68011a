"""Guesses which words have the marks of a program's tests, and the views there."""
from __future__ import annotations

import collections
import dataclasses
import itertools
from collections.abc import Iterator, Sequence
from typing import NamedTuple

from rtn.clock import State
from rtn.images import END, Place
from viewing.relations import Registers, names_in, terms_for
from viewing.runs import Run, Test, held

Sample = tuple[State, Test]
WORDS = 4         # that a test may have
SAMPLES = 40      # of a run, for each test
KEPT = 24         # guesses for each test
COUNTED = 200_000  # sets of words whose runs are counted, for each test
TRIED = 5_000     # of these, sets that are looked at
JOINED = 2_000    # how many guesses for all tests are looked at
PRODUCTS = 50_000  # of which these are


class Meeting(NamedTuple):
    """A clock of a run at which the program is taken to be at its test for that turn."""

    run: int
    clock: int
    turn: int


@dataclasses.dataclass(frozen=True)
class Guess:
    """The words that have the marks of a test, with the terms that each variable may have at each
    of them, none for one that stands in its place, and the variables that aren't to be shown."""

    label: str
    views: dict[int, dict[str, list[str]]]
    hidden: frozenset[str]
    samples: dict[int, list[Sample]]

    def cost(self, branches: frozenset[int]) -> tuple[int, ...]:
        """What is worse: hidden variables, then more marks, marks off a branch, a word that runs
        once behind the other one in place of before it, and views."""
        rarest = min(self.samples, key=lambda at: len(self.samples[at]))
        return (len(self.hidden), len(self.views), len(set(self.views) - branches),
                int(rarest != min(self.samples)), sum(map(len, self.views.values())))


class Marks:
    """Guesses for the marks of code, by runs."""

    def __init__(self, runs: list[Run], places: Sequence[Place], memory: str, width: int,
                 registers: Registers, hideable: frozenset[str]):
        self.runs, self.places, self.memory, self.width = runs, places, memory, width
        self.counter, self.registers, self.hideable = registers.counter, registers, hideable
        self.visits = [self.visited(run) for run in runs]
        self.branches = self.branching()
        self.counts = [(collections.Counter(state[self.counter] for state in run.states),
                        collections.Counter(test.label for test in run.tests))
                       for run in runs if run.is_whole]
        self.labels = sorted({test.label for run in runs for test in run.tests} - {END}, key=int)
        self.tests = {(number, label): [test for test in run.tests if test.label == label]
                      for number, run in enumerate(runs) for label in self.labels}
        self.turns = {key: len(tests) for key, tests in self.tests.items()}
        self.known: dict[tuple[str, tuple[Meeting, ...]], dict[str, list[str]] | None] = {}
        self.last = max(at for visits in self.visits for at in visits)

    def visited(self, run: Run) -> dict[int, list[int]]:
        """The clocks at which each word runs."""
        visits = collections.defaultdict(list)
        for clock, state in enumerate(run.states):
            visits[state[self.counter]].append(clock)
        return dict(visits)

    def branching(self) -> frozenset[int]:
        """The words behind which different words run."""
        behind = collections.defaultdict(set)
        for run in self.runs:
            for state, after in itertools.pairwise(run.states):
                behind[state[self.counter]].add(after[self.counter])
        return frozenset(at for at, several in behind.items() if len(several) > 1)

    # one test

    def meetings(self, addresses: Sequence[int], label: str) -> dict[int, tuple[Meeting, ...]]:
        """The clocks of these words, each with the program's turn at its test."""
        found: dict[int, list[Meeting]] = {at: [] for at in addresses}
        for number, (run, visits) in enumerate(zip(self.runs, self.visits)):
            clocks = sorted(itertools.chain(*(visits.get(at, ()) for at in addresses)))
            for turn, clock in enumerate(clocks[:min(SAMPLES, self.turns[number, label])]):
                found[run.states[clock][self.counter]].append(Meeting(number, clock, turn))
        return {at: tuple(several) for at, several in found.items()}

    def samples(self, label: str, meetings: Sequence[Meeting]) -> list[Sample]:
        """The states of meetings, each with what the program has there."""
        return [(self.runs[meeting.run].states[meeting.clock],
                 self.tests[meeting.run, label][meeting.turn]) for meeting in meetings]

    def guess(self, label: str, addresses: Sequence[int]) -> Guess | None:
        """The guess with these words; None where they can't be those of the test."""
        views = {}
        meetings = self.meetings(addresses, label)
        for at, several in meetings.items():
            found = self.views(label, several)
            if found is None or at == 0 and found:
                return None
            views[at] = found
        hidden = frozenset(name for several in views.values() for name, terms in several.items()
                           if not terms)
        if not hidden <= self.hideable or hidden and 0 in addresses:
            return None
        samples = {at: self.samples(label, several) for at, several in meetings.items()}
        return Guess(label, views, hidden, samples)

    def has_arrays(self, state: State, test: Test) -> bool:
        """Whether all arrays stand in their places."""
        return all(held(place, state, self.memory)
                   == [test.store[name] for name in place.cells().values()]
                   for place in self.places if place.length > 1)

    def views(self, label: str, meetings: tuple[Meeting, ...]) -> dict[str, list[str]] | None:
        """The variables that aren't in their places, with the terms that they may have; None where
        nothing is met, or an array isn't in its place. What was asked once is kept."""
        if (label, meetings) not in self.known:
            samples = self.samples(label, meetings)
            is_right = bool(samples) and all(itertools.starmap(self.has_arrays, samples))
            self.known[label, meetings] = self.found(samples) if is_right else None
        return self.known[label, meetings]

    def found(self, samples: Sequence[Sample]) -> dict[str, list[str]]:
        """The variables that aren't in their places, with the terms that they may have."""
        found, terms = {}, None
        for place in self.places:
            values = [test.store.get(place.name) for _, test in samples]
            if place.length == 1 and values != [state[self.memory][place.address]
                                                for state, _ in samples]:
                terms = terms or list(self.registers.terms([state for state, _ in samples]))
                found[place.name] = sorted(terms_for(values, self.width, terms),
                                           key=lambda term: len(names_in(term)) > 1)
        return found

    def guesses(self, label: str) -> list[Guess]:
        """The guesses for a test, the best ones first: one word, or more where some of a loop's
        turns have words of their own."""
        addresses = sorted({at for visits in self.visits for at in visits} - {self.last},
                           key=lambda at: (at not in self.branches, at))
        sets = itertools.chain.from_iterable(
            itertools.combinations(addresses, count) for count in range(1, WORDS + 1))
        counted = filter(lambda several: self.runs_as_often(label, several),
                         itertools.islice(sets, COUNTED))
        found = (self.guess(label, several) for several in itertools.islice(counted, TRIED))
        return sorted(filter(None, found), key=lambda guess: guess.cost(self.branches))[:KEPT]

    def runs_as_often(self, label: str, addresses: Sequence[int]) -> bool:
        """Whether these words run as often as the program comes to a test, in the whole runs."""
        return all(sum(counts[at] for at in addresses) == due[label]
                   for counts, due in self.counts)

    # all tests

    def joined(self) -> Iterator[list[Guess]]:
        """Guesses for all tests that go together, the best ones first."""
        several = [[(guess.cost(self.branches), guess) for guess in self.guesses(label)]
                   for label in self.labels]
        products = itertools.islice(itertools.product(*several), PRODUCTS)
        joined = sorted(products, key=lambda pairs: [
            sum(parts) for parts in zip(*(cost for cost, _ in pairs))])
        for pairs in joined[:JOINED]:
            guesses = [guess for _, guess in pairs]
            if self.go_together(guesses):
                yield guesses

    def go_together(self, guesses: Sequence[Guess]) -> bool:
        """Whether the words of each run come to the tests in the program's turns."""
        labels = {at: guess.label for guess in guesses for at in guess.views}
        if len(labels) != sum(len(guess.views) for guess in guesses):
            return False
        for run in self.runs:
            came = [labels[state[self.counter]] for state in run.states
                    if state[self.counter] in labels]
            due = [test.label for test in run.tests if test.label != END]
            length = min(len(came), len(due))
            if came[:length] != due[:length] or run.is_whole and len(came) != len(due):
                return False
        return True

    def hidden_at_end(self) -> frozenset[str]:
        """The plain variables that aren't in their places at the end."""
        return frozenset(
            place.name for run in self.runs if run.is_whole for place in self.places
            if place.length == 1
            and run.states[-1][self.memory][place.address] != run.tests[-1].store[place.name])

    def followers(self, marks: frozenset[int]) -> dict[int | None, set[int]]:
        """The marks to which the words come from each mark, and from the start, which is None."""
        found: dict[int | None, set[int]] = collections.defaultdict(set)
        for run in self.runs:
            last = None
            for clock, state in enumerate(run.states):
                if state[self.counter] in marks:
                    found[last].add(state[self.counter])
                    last = state[self.counter]
        return found
