"""Asks `record check` of guesses, and drops what is refused."""
from __future__ import annotations

import dataclasses
import itertools
import re
from collections.abc import Callable, Iterator, Sequence

from rtn.calls import Answer
from rtn.checks import read_unfollowed
from rtn.images import END, Image
from rtn.remarks import Kind, Order, Remark, remarked
from viewing.marks import Guess, Marks
from viewing.relations import Term, names_in, terms_for, variables
from viewing.trees import Trees

ALTERNATIVES = 4   # terms that are tried for one hint
KINDS = {'hold': Kind.HOLD, 'know': Kind.KNOW, 'var': Kind.VIEW}   # what `check` refused, by why


@dataclasses.dataclass(frozen=True)
class Found:
    """An image with guessed marks and remarks, and what `check` says of it."""

    image: str
    remarks: tuple[Remark, ...]
    answer: Answer

    @property
    def is_accepted(self) -> bool:
        return not self.answer.status

    @property
    def reached(self) -> tuple[int, int]:
        """How far `check` came: the segment that it refused, in the order of its table."""
        found = read_unfollowed(self.answer.line)
        if found is None:
            return -2, 0
        return (-1, 0) if found.mark is None else (found.mark, -found.answer)


class Choices:
    """Remarks that may have several terms, of which one is the turn's."""

    def __init__(self):
        self.terms: dict[tuple[Kind, int, str], list[str]] = {}

    def add(self, kind: Kind, at: int, subject: str, terms: Sequence[str]) -> None:
        if terms:
            self.terms[kind, at, subject] = list(terms[:ALTERNATIVES])

    def remarks(self) -> Iterator[Remark]:
        for (kind, at, subject), terms in self.terms.items():
            yield Remark(kind, str(at), subject, terms[0])

    def drop(self, kind: Kind, at: int, subject: str) -> bool:
        """Goes on to the next term of a remark; a hint without any is left out. Whether there was
        such a remark."""
        terms = self.terms.get((kind, at, subject), [])
        if not terms or kind == Kind.VIEW and len(terms) == 1:
            return False
        del terms[0]
        if not terms:
            del self.terms[kind, at, subject]
        return True

    def free(self, at: int) -> bool:
        """Leaves out what those registers hold from which a view computes that has several: `check`
        learns of them from the view, if no hint tells of any. Whether there was such a hint."""
        views = [names_in(terms[0]) for (kind, mark, _), terms in self.terms.items()
                 if (kind, mark) == (Kind.VIEW, at)]
        names = set().union(*(names for names in views if len(names) > 1))
        held = [key for key in self.terms if key[:2] == (Kind.HOLD, at) and key[2] in names]
        for key in held:
            del self.terms[key]
        return bool(held)


class Search:
    """Guesses for the marks of an image that has none. `ask` has what `check` says of a text."""

    def __init__(self, ask: Callable[[str], Answer], image: Image, marks: Marks, trees: Trees,
                 order: Order):
        self.ask, self.image, self.marks = ask, image, marks
        self.trees, self.order = trees, order

    def found(self, asked: int) -> Found | None:
        """What is accepted, or else the best of the first guess, of which most is followed; None
        without a guess. At most so many texts are asked, and then one for each hint of what is
        accepted."""
        first, blamed = None, set()
        for guesses in self.guesses(blamed):
            tried = list(itertools.islice(self.refined(guesses), asked))
            if not tried:
                break
            if tried[-1].is_accepted:
                return self.spared(tried[-1])
            asked -= len(tried)
            first = first or max(tried, key=lambda found: found.reached)
            blamed.add(tried[-1].reached[0])
        return first

    def guesses(self, blamed: set[int]) -> Iterator[list[Guess]]:
        """Guesses for the marks, the best ones first; but those with a mark from which the words of
        another guess aren't followed stand behind all others."""
        later = []
        for guesses in self.marks.joined():
            if blamed.isdisjoint(at for guess in guesses for at in guess.views):
                yield guesses
            else:
                later.append(guesses)
        yield from later

    def spared(self, found: Found) -> Found:
        """An accepted guess without the hints that `check` doesn't need."""
        for hint in found.remarks:
            if hint.kind in (Kind.HOLD, Kind.KNOW):
                rest = tuple(remark for remark in found.remarks if remark != hint)
                answer = self.ask(remarked(found.image, rest))
                if not answer.status:
                    found = Found(found.image, rest, answer)
        return found

    def refined(self, guesses: Sequence[Guess]) -> Iterator[Found]:
        """What `check` says of guesses, as long as what it refuses can be dropped."""
        labels = {at: guess.label for guess in guesses for at in guess.views}
        followers = self.marks.followers(frozenset(labels))
        hidden = [Remark(Kind.HIDE, guess.label, name)
                  for guess in guesses for name in guess.hidden]
        hidden += [Remark(Kind.HIDE, END, name) for name in self.marks.hidden_at_end()]
        choices = self.choices(guesses)
        image = self.text(labels)
        while True:
            remarks = tuple(sorted([*hidden, *choices.remarks()], key=self.order.key))
            answer = self.ask(remarked(image, remarks))
            yield Found(image, remarks, answer)
            if not answer.status or not self.dropped(answer.line, choices, followers, labels):
                return

    def choices(self, guesses: Sequence[Guess]) -> Choices:
        """The views and the hints of guesses."""
        choices = Choices()
        for guess in guesses:
            for at, views in guess.views.items():
                for name, terms in views.items():
                    if name not in guess.hidden:
                        choices.add(Kind.VIEW, at, name, terms)
                self.add_hints(choices, guess, at)
        return choices

    def add_hints(self, choices: Choices, guess: Guess, at: int) -> None:
        """What registers and temporary cells hold at a mark, and which variables are numbers."""
        states = [state for state, _ in guess.samples[at]]
        stores = [test.store for _, test in guess.samples[at]]
        shown = [place for place in self.image.places if place.name not in guess.hidden]
        terms = [*variables(shown, self.marks.width, stores), *self.trees.terms(stores)]
        memory = self.marks.memory
        cells = [Term(f'{memory}[{cell}]', self.marks.width,
                      tuple(state[memory][cell] for state in states))
                 for cell in range(self.image.temporaries)]
        for holder in [*self.marks.registers.holders(states), *cells]:
            found = terms_for(holder.values, holder.width, terms)
            choices.add(Kind.HOLD, at, holder.text, found)
        for place in shown:
            values = {store.get(place.name) for store in stores}
            if place.length == 1 and len(values) == 1:
                choices.add(Kind.KNOW, at, place.name, list(map(str, values)))

    def text(self, labels: dict[int, str]) -> str:
        """The image with these marks."""
        marks = {**labels, len(self.image.words) - 1: END}
        return dataclasses.replace(self.image, marks=marks).text

    def dropped(self, refusal: str, choices: Choices, followers: dict[int | None, set[int]],
                labels: dict[int, str]) -> bool:
        """Whether there is something else to ask for what was refused."""
        if found := re.fullmatch(r'error view (\d+) (\S+)', refusal):
            return choices.drop(Kind.VIEW, int(found[1]), found[2])
        found = read_unfollowed(refusal)
        if found and found.mark is not None and choices.free(found.mark):
            return True
        if not found or found.why not in KINDS:
            return False
        behind = followers.get(found.mark, set())
        # runs may not have come to every mark from there
        return any(choices.drop(KINDS[found.why], at, found.subject)
                   for at in [*sorted(behind), *sorted(set(labels) - behind)])
