"""By which field of the word a term is decided, and what is left of it under each number.

The choices at the top of a term are those that its value is one row of, not those that it computes
with. A field is a run of the word's bits; the source's own fields and selectors go first.
"""
from __future__ import annotations

import dataclasses
from collections.abc import Iterator, Mapping

from . import terms
from .conditions import Conditions
from .diagrams import NEVER, is_of_word, of_word
from .netlist import Bits, Netlist
from .terms import Cat, Choice, Extended, Op, Slice, Term

MOST_BITS = 8           # a case has 256 rows at most
MOST_SPARSE = 6         # a field of so many bits is taken also where not all of it decides
FEWEST_USES = 3         # a run that so many comparisons take is a selector of the source


@dataclasses.dataclass(frozen=True, order=True)
class Field:
    """Bits `high` to `low` of the instruction word."""
    high: int
    low: int

    @property
    def width(self) -> int:
        return self.high - self.low + 1

    @property
    def places(self) -> range:
        return range(self.low, self.high + 1)

    def values(self, number: int) -> dict[int, int]:
        """The variables of the field's bits, with their digits in a number."""
        return {of_word(place): number >> k & 1 for k, place in enumerate(self.places)}


def run_of(bits: Bits, conditions: Conditions) -> Field | None:
    """The field that some bits are, or nothing."""
    places = [conditions.word.get(conditions.resolved(bit)) for bit in bits]
    if not places or None in places or places != list(range(places[0], places[0] + len(places))):
        return None
    return Field(places[-1], places[0])


class Choices:
    """The fields of a netlist's word, and terms under their numbers."""

    def __init__(self, netlist: Netlist, conditions: Conditions, width: int):
        self.conditions, self.diagrams, self.width = conditions, conditions.diagrams, width
        self.names = self.named_fields(netlist)
        self.selectors = self.compared_fields(netlist)
        often = [field for field, uses in self.selectors.items() if uses >= FEWEST_USES]
        self.fields = sorted({*self.names, *often}, key=lambda field: (field.width, field))
        self.chosen: dict[Term, bool] = {}

    def named_fields(self, netlist: Netlist) -> dict[Field, str]:
        """The source's fields: wires that are a part of the word."""
        found: dict[Field, tuple] = {}
        for name, entry in netlist.names.items():
            field = run_of(entry.bits, self.conditions)
            if field and field.width < self.width:
                rank = name.count('.'), len(name), name
                if field not in found or rank < found[field]:
                    found[field] = rank
        return {field: rank[-1] for field, rank in found.items()}

    def compared_fields(self, netlist: Netlist) -> dict[Field, int]:
        """The fields that the source compares with constants, and how often."""
        found: dict[Field, int] = {}
        for gate in netlist.gates:
            bits = gate.pins['A'] if gate.kind == '$eq' else ()
            while bits and bits[-1] == '0':
                bits = bits[:-1]
            field = run_of(bits, self.conditions)
            if field:
                found[field] = found.get(field, 0) + 1
        return found

    # terms and their choices

    def masked(self, term: Term) -> bool:
        """Whether a term is an or of terms of which each is 0 or something."""
        if isinstance(term, Choice):
            return terms.is_zero(term.no) or terms.is_zero(term.yes)
        return isinstance(term, Op) and term.operator == 'or' and any(map(self.masked,
                                                                         term.operands))

    def within(self, term: Term) -> tuple[Term, ...]:
        """The parts in which more choices of a term stand, beside its own."""
        match term:
            case Choice(no=no, yes=yes):
                return no, yes
            case Cat(parts=parts):
                return parts
            case Slice(of=Choice() | Cat() as of) | Extended(of=Choice() | Cat() as of):
                return (of,)
            case Op(operator='or', operands=operands) if self.masked(term):
                return operands
        return ()

    def is_chosen(self, term: Term) -> bool:
        """Whether the word decides some choice at the top of a term."""
        if term not in self.chosen:
            self.chosen[term] = isinstance(term, Choice) and bool(self.places(term.condition)) or \
                any(map(self.is_chosen, self.within(term)))
        return self.chosen[term]

    def deciding(self, term: Term) -> Iterator[int]:
        """The conditions of the choices at the top of a term, each once."""
        seen, waiting = set(), [term]
        while waiting:
            part = waiting.pop()
            if part in seen:
                continue
            seen.add(part)
            if isinstance(part, Choice) and part.condition not in seen:
                seen.add(part.condition)
                yield part.condition
            waiting += reversed(self.within(part))

    def places(self, condition: int) -> frozenset[int]:
        """The bits of the word that a condition depends on."""
        return frozenset(-1 - variable for variable in self.diagrams.support(condition)
                         if is_of_word(variable))

    def given(self, term: Term, values: Mapping[int, int]) -> Term:
        """What is left of a term where some bits of the word are known."""
        known: dict[Term, Term] = {}

        def left(part: Term) -> Term:
            if part not in known:
                known[part] = self.rebuilt(part, left, values)
            return known[part]
        return left(term)

    def rebuilt(self, term: Term, left, values: Mapping[int, int]) -> Term:
        match term:
            case Choice():
                condition = self.diagrams.given(term.condition, values)
                if condition == 1:
                    return left(term.yes)
                return left(term.no) if condition == NEVER else \
                    terms.choice(condition, left(term.no), left(term.yes))
            case Cat():
                return terms.cat(map(left, term.parts))
            case Slice(of=Choice() | Cat()):
                return terms.cut(left(term.of), term.high, term.low)
            case Extended(of=Choice() | Cat()):
                return terms.extended(left(term.of), term.width, term.by_sign)
            case Op(operator='or') if self.masked(term):
                a, b = map(left, term.operands)
                return b if terms.is_zero(a) else a if terms.is_zero(b) else Op('or', (a, b))
        return term

    def restricted(self, term: Term, care: int) -> Term:
        """A term that is the same wherever `care` holds."""
        match term:
            case Choice():
                yes = self.diagrams.both(care, term.condition)
                no = self.diagrams.but(care, term.condition)
                if yes == NEVER:
                    return self.restricted(term.no, care)
                if no == NEVER:
                    return self.restricted(term.yes, care)
                return terms.choice(term.condition, self.restricted(term.no, no),
                                    self.restricted(term.yes, yes))
            case Cat():
                return terms.cat(self.restricted(part, care) for part in term.parts)
            case Slice():
                return terms.cut(self.restricted(term.of, care), term.high, term.low)
            case Extended():
                return terms.extended(self.restricted(term.of, care), term.width, term.by_sign)
        return term

    # which field

    def field(self, supports: list[frozenset[int]]) -> Field:
        """The field to decide by, where conditions depend on these bits of the word."""
        widest = max(supports, key=len)
        whole = Field(max(widest), min(widest))
        if whole.width == len(widest) <= MOST_BITS and all(s <= widest for s in supports) and \
                self.selectors.get(whole, 0) >= FEWEST_USES:
            return whole
        scores: dict[Field, int] = {}
        for support in supports:
            rest = set(support)
            for field in self.fields:
                decided = support & set(field.places)
                if decided and field.width <= MOST_BITS and (
                        len(decided) == field.width or field.width <= MOST_SPARSE):
                    scores[field] = scores.get(field, 0) + len(decided)
                    rest -= decided
            for field in runs(rest):
                scores[field] = scores.get(field, 0) + field.width
        return max(scores, key=lambda field: (scores[field], self.selectors.get(field, 0),
                                              -field.width))


def runs(places: set[int]) -> Iterator[Field]:
    """Some bits of the word as runs of neighbours, of 8 bits at most."""
    rest = sorted(places)
    while rest:
        low = high = rest.pop(0)
        while rest and rest[0] == high + 1 and high - low + 1 < MOST_BITS:
            high = rest.pop(0)
        yield Field(high, low)
