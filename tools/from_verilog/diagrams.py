"""Sets as reduced ordered binary decision diagrams.

A diagram is a number: NEVER (0), ALWAYS (1), or that of a node. A variable is a number, too: -1 - k
for bit k of the instruction word, so that these are on top, and any other for an opaque bit.
"""
from __future__ import annotations

from collections.abc import Callable, Iterable, Mapping

NEVER, ALWAYS = 0, 1


def of_word(k: int) -> int:
    """The variable of bit k of the instruction word."""
    return -1 - k


def is_of_word(variable: int) -> bool:
    return variable < 0


class Diagrams:
    """Diagrams that share their nodes; equal sets have equal numbers."""

    def __init__(self):
        self.nodes: list[tuple[int, int, int] | None] = [None, None]
        self.numbers: dict[tuple[int, int, int], int] = {}
        self.chosen: dict[tuple, int] = {}

    def node(self, variable: int, low: int, high: int) -> int:
        if low == high:
            return low
        key = (variable, low, high)
        if key not in self.numbers:
            self.numbers[key] = len(self.nodes)
            self.nodes.append(key)
        return self.numbers[key]

    def variable(self, variable: int) -> int:
        return self.node(variable, NEVER, ALWAYS)

    def halves(self, diagram: int, variable: int) -> tuple[int, int]:
        """A diagram where a variable, no lower than its top, is 0 and where it is 1."""
        node = self.nodes[diagram]
        return node[1:] if node and node[0] == variable else (diagram, diagram)

    def choice(self, which: int, yes: int, no: int) -> int:
        """`yes` where `which` holds, else `no`."""
        if which == ALWAYS or yes == no:
            return yes
        if which == NEVER:
            return no
        if (yes, no) == (ALWAYS, NEVER):
            return which
        key = (which, yes, no)
        if key not in self.chosen:
            top = min(self.nodes[part][0] for part in key if part > ALWAYS)
            low, high = zip(*(self.halves(part, top) for part in key))
            self.chosen[key] = self.node(top, self.choice(*low), self.choice(*high))
        return self.chosen[key]

    def neither(self, diagram: int) -> int:
        """The complement."""
        return self.choice(diagram, NEVER, ALWAYS)

    def both(self, one: int, other: int) -> int:
        return self.choice(one, other, NEVER)

    def either(self, one: int, other: int) -> int:
        return self.choice(one, ALWAYS, other)

    def differ(self, one: int, other: int) -> int:
        return self.choice(one, self.neither(other), other)

    def but(self, one: int, other: int) -> int:
        """`one` without `other`."""
        return self.choice(other, NEVER, one)

    def any(self, diagrams: Iterable[int]) -> int:
        found = NEVER
        for diagram in diagrams:
            found = self.either(found, diagram)
        return found

    def alike(self, ones: Iterable[int], others: Iterable[int]) -> int:
        """Where two rows of bits are equal."""
        return self.neither(self.any(map(self.differ, ones, others)))

    def support(self, diagram: int) -> frozenset[int]:
        """The variables that a set depends on."""
        found, seen, waiting = set(), set(), [diagram]
        while waiting:
            number = waiting.pop()
            if number > ALWAYS and number not in seen:
                seen.add(number)
                variable, low, high = self.nodes[number]
                found.add(variable)
                waiting += [low, high]
        return frozenset(found)

    def given(self, diagram: int, values: Mapping[int, int]) -> int:
        """What is left of a set where some variables have a value."""
        known: dict[int, int] = {}

        def left(number: int) -> int:
            if number <= ALWAYS:
                return number
            if number not in known:
                variable, low, high = self.nodes[number]
                known[number] = (left(high if values[variable] else low) if variable in values
                                 else self.node(variable, left(low), left(high)))
            return known[number]
        return left(diagram)

    def simplified(self, diagram: int, care: int) -> int:
        """A set that is the same wherever `care` holds, and often smaller (`care` holds once)."""
        if care == ALWAYS or diagram <= ALWAYS:
            return diagram
        key = ('simplified', diagram, care)
        if key not in self.chosen:
            top = min(self.nodes[diagram][0], self.nodes[care][0])
            (low, high), (no, yes) = self.halves(diagram, top), self.halves(care, top)
            if no == NEVER:
                self.chosen[key] = self.simplified(high, yes)
            elif yes == NEVER:
                self.chosen[key] = self.simplified(low, no)
            elif low == high:
                self.chosen[key] = self.simplified(low, self.either(no, yes))
            else:
                self.chosen[key] = self.node(top, self.simplified(low, no),
                                             self.simplified(high, yes))
        return self.chosen[key]

    def for_all(self, diagram: int, which: Callable[[int], bool]) -> int:
        """Where a set holds whatever the variables of a kind are."""
        known: dict[int, int] = {}

        def left(number: int) -> int:
            if number <= ALWAYS:
                return number
            if number not in known:
                variable, low, high = self.nodes[number]
                low, high = left(low), left(high)
                known[number] = (self.both(low, high) if which(variable)
                                 else self.choice(self.variable(variable), high, low))
            return known[number]
        return left(diagram)

    def settled(self, diagram: int) -> int:
        """The words under which a set holds whatever all else is."""
        return self.for_all(diagram, lambda variable: not is_of_word(variable))

    def possible(self, diagram: int) -> int:
        """The words under which a set may hold."""
        return self.neither(self.settled(self.neither(diagram)))
