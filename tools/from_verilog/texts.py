"""Terms as text of the netlist language.

A term whose choices depend on the word becomes a `case` of one of its fields, with the same for
what is left under each number; choices by opaque bits become `case bit { 1: ..; 0: ..; }`.
"""
from __future__ import annotations

import dataclasses
import re

from rtn.operators import OPERATORS

from . import terms
from .choices import Choices, Field
from .conditions import Conditions
from .diagrams import ALWAYS, NEVER, is_of_word
from .names import Names
from .netlist import Bits, FlipFlop, Memory
from .refusals import Refused
from .terms import Bad, Bus, Cat, Choice, Const, Extended, Held, Named, Op, Read, Slice, Term, Word
from .values import Values

MOST_SAID = 32          # a refusal proposes to leave out so many numbers of a field at most
DEEPEST = 40            # text of more levels stands in a net of its own; the language takes 64
COMMON = frozenset('q d o out dout data data_out q_o q_out reg_q value'.split())  # of any register
LONG_OPERAND = 60       # a longer choice within an operation stands in a net
LONG = 200              # shorter text isn't so deep that its levels need counting


@dataclasses.dataclass(frozen=True)
class Under:
    """The numbers of a field under which something is written."""
    field: Field
    numbers: tuple[int, ...]


Path = tuple[Under, ...]


@dataclasses.dataclass(frozen=True)
class Wanted:
    """A net that a text names: its term, and the words under which it was first named."""
    name: str
    term: Term
    bits: Bits | None
    path: Path


def balanced(text: str) -> bool:
    depth = 0
    for sign in text:
        depth += (sign in '({') - (sign in ')}')
        if depth < 0:
            return False
    return depth == 0


def levels(text: str) -> int:
    """How deep brackets nest."""
    depth = most = 0
    for sign in text:
        depth += (sign in '({') - (sign in ')}')
        most = max(most, depth)
    return most


def negated(text: str) -> str:
    """The opposite of a text of one bit."""
    inner = text[4:-1]
    return inner if text.startswith('not(') and balanced(inner) else f'not({text})'


class Texts:
    """Writes terms, and collects the nets, registers and buses that the texts name."""

    def __init__(self, values: Values, choices: Choices, names: Names, word: str):
        self.values, self.choices, self.names, self.word = values, choices, names, word
        self.conditions: Conditions = values.conditions
        self.diagrams = self.conditions.diagrams
        self.allowed = ALWAYS       # the words that are not left out
        self.path: Path = ()
        self.nets: list[Wanted] = []
        self.registers: list[FlipFlop] = []
        self.buses: list[Bits] = []
        self.fields: dict[Field, str] = {}

    # what a text names

    def register(self, register: FlipFlop) -> str:
        if register not in self.registers:
            self.registers.append(register)
        return self.names.of(register, self.called(register))

    def called(self, register: FlipFlop) -> str:
        """The designer's name: the declared one, or where many registers have that a wire's."""
        wire = self.values.names.get(register.output, register.path)
        tails = [other.path.rsplit('.', 1)[-1] for other in self.values.netlist.flip_flops]
        tail = register.path.rsplit('.', 1)[-1]
        is_common = tails.count(tail) > 1 or tail.lower() in COMMON
        near = is_common and wire.count('.') < register.path.count('.')
        return (wire if near else register.path) or wire or 'r'

    def memory(self, memory: Memory) -> str:
        return self.names.of(memory, memory.path)

    def named(self, term: Named) -> str:
        name = self.names.of(term.bits, self.values.names[term.bits])
        if all(net.bits != term.bits for net in self.nets):
            self.nets.append(Wanted(name, term.of, term.bits, self.path))
        return name

    def bus(self, bits: Bits) -> str:
        if bits not in self.buses:
            self.buses.append(bits)
        return self.names.of(('bus', bits), self.values.names.get(bits, 'bus_1'))

    def field(self, field: Field) -> str:
        """A field of the word by the source's name, or as bits of the word."""
        name = self.choices.names.get(field)
        if name:
            self.fields[field] = self.names.of(field, name)
            return self.fields[field]
        if field.width == self.choices.width:
            return self.word
        return f'{self.word}[{field.high}]' if field.width == 1 else \
            f'{self.word}[{field.high}:{field.low}]'

    # choices by the word

    def text(self, term: Term, care: int = ALWAYS) -> str:
        """A term where `care` holds, and anything elsewhere."""
        said = self.chosen(term, self.diagrams.both(care, self.allowed))
        return self.shallow(said, term.width) if len(said) > LONG else said

    def of_net(self, term: Term) -> str:
        """The text of a net's term."""
        return term.said if isinstance(term, _Said) else self.text(term)

    def shallow(self, said: str, width: int) -> str:
        """A text, or the name of a net with it where it is deep."""
        if levels(said) <= DEEPEST:
            return said
        name = self.names.of(('deep', said), 'deep')
        self.nets.append(Wanted(name, _Said(said, width), None, self.path))
        return name

    def chosen(self, term: Term, care: int) -> str:
        if not self.choices.is_chosen(term):
            return self.plain(term)
        supports = [places for condition in self.choices.deciding(term)
                    if (places := self.choices.places(condition))]
        field = self.choices.field(supports)
        rows, spare, cares = self.rows(term, field, care)
        if not rows:
            return self.plain(terms.const(0, term.width))
        if len(rows) == 1:
            (leaf, _), = rows.items()
            return self.text(leaf, cares[leaf])
        said = {}
        for leaf, numbers in list(rows.items()):
            outer = self.path
            self.path = (*outer, Under(field, tuple(numbers)))
            text = self.text(leaf, cares[leaf])
            self.path = outer
            said.setdefault(text, []).extend(numbers)
        if len(said) == 1:
            return next(iter(said))
        return self.case(field, {text: sorted(numbers) for text, numbers in said.items()},
                         spare, term.width)

    def rows(self, term: Term, field: Field,
             care: int) -> tuple[dict[Term, list[int]], bool, dict[Term, int]]:
        """What is left of a term under each number of a field that occurs.

        It tells also whether numbers are spare, and where each term is cared for.
        """
        rows: dict[Term, list[int]] = {}
        cares: dict[Term, int] = {}
        spare = False
        for number in range(1 << field.width):
            values = field.values(number)
            caring = self.diagrams.given(care, values)
            if caring == NEVER:
                spare = True
                continue
            leaf = self.choices.given(term, values)
            rows.setdefault(leaf, []).append(number)
            cares[leaf] = self.diagrams.either(cares.get(leaf, NEVER), caring)
        return rows, spare, cares

    def case(self, field: Field, rows: dict[str, list[int]], spare: bool, width: int) -> str:
        """A `case` of texts by their numbers; the one with most of them, and the spare, is else."""
        selector = self.field(field)
        if width == 1 and set(rows) == {'0#1', '1#1'}:
            test = self.test(selector, field, rows, spare)
            if test:
                return test
        rest = max(rows, key=lambda text: len(rows[text]))
        has_else = field.width > 1 and (len(rows[rest]) > 1 or spare)
        out = [f'{", ".join(map(str, numbers))}: {text};'
               for text, numbers in sorted(rows.items(), key=lambda row: row[1][0])
               if not has_else or text != rest]
        if has_else:
            out.append(f'else: {rest};')
        elif spare:
            out[-1] = re.sub(r'^[^:]*', 'else', out[-1])
        return f'case {selector} {{ {" ".join(out)} }}'

    @staticmethod
    def test(selector: str, field: Field, rows: dict[str, list[int]], spare: bool) -> str:
        """A test of one number as `eq`, or a bit itself; '' where it is no such."""
        ones, zeros = rows['1#1'], rows['0#1']
        if field.width == 1:
            return '' if spare else selector if ones == [1] else f'not({selector})'
        if len(ones) == 1:
            return f'eq({selector}, {ones[0]}#{field.width})'
        if len(zeros) == 1 and not spare:
            return f'not(eq({selector}, {zeros[0]}#{field.width}))'
        return ''

    # choices by opaque bits

    def test_of(self, condition: int) -> str:
        """A condition over opaque bits as a text of one bit."""
        variable, low, high = self.diagrams.nodes[condition]
        bit = self.text(self.values.of((variable,)))
        match low, high:
            case 0, 1:
                return bit
            case 1, 0:
                return negated(bit)
            case _, 1:
                return f'or({bit}, {self.test_of(low)})'
            case 0, _:
                return f'and({bit}, {self.test_of(high)})'
            case _, 0:
                return f'and({negated(bit)}, {self.test_of(low)})'
            case 1, _:
                return f'or({negated(bit)}, {self.test_of(high)})'
        if self.diagrams.neither(low) == high:
            return f'xor({bit}, {self.test_of(low)})'
        return f'case {bit} {{ 1: {self.test_of(high)}; 0: {self.test_of(low)}; }}'

    def choice(self, term: Choice) -> str:
        """A choice that the word has no part in."""
        no, yes = term.no, term.yes
        test = self.test_of(term.condition)
        if test.startswith('not(') and balanced(test[4:-1]):
            test, no, yes = test[4:-1], yes, no
        if term.width == 1 and (no, yes) == (terms.const(0, 1), terms.const(1, 1)):
            return test
        if term.width == 1 and (no, yes) == (terms.const(1, 1), terms.const(0, 1)):
            return negated(test)
        return f'case {test} {{ 1: {self.text(yes)}; 0: {self.text(no)}; }}'

    # the rest

    def plain(self, term: Term) -> str:
        """A term at whose top the word chooses nothing."""
        match term:
            case Const():
                return f'{term.value}#{term.width}'
            case Bad():
                raise Refused(term.why.rule, term.why.what + self.under(), term.why.place,
                              self.advice(term))
            case Word():
                return self.field(Field(term.high, term.low))
            case Held():
                return self.register(term.register)
            case Named():
                return self.named(term)
            case Bus():
                return self.bus(term.bits)
            case Read():
                return f'read({self.memory(term.memory)}, {self.text(term.address)})'
            case Choice():
                if any(map(is_of_word, self.diagrams.support(term.condition))):
                    return self.text(term)
                return self.choice(term)
            case Slice():
                return self.slice(term)
            case Extended():
                return f'{"sext" if term.by_sign else "zext"}({self.text(term.of)}, {term.width})'
            case Cat():
                return self.cat(list(map(self.text, term.parts)))
            case Op() if term.operator in OPERATORS:
                return f'{term.operator}({", ".join(map(self.operand, term.operands))})'
            case _Said():
                return term.said
        raise AssertionError(term)

    def operand(self, term: Term) -> str:
        """An operand; a long choice stands in a net, as others may compute with it, too."""
        said = self.text(term)
        if not isinstance(term, Choice) or len(said) <= LONG_OPERAND:
            return said
        key = 'operand', term
        name = self.names.of(key, 'chosen')
        if all(net.term is not term for net in self.nets):
            self.nets.append(Wanted(name, term, None, self.path))
        return name

    def slice(self, term: Slice) -> str:
        inner = self.text(term.of)
        if re.fullmatch(r'\w+', inner):
            return f'{inner}[{term.high}]' if term.width == 1 else \
                f'{inner}[{term.high}:{term.low}]'
        return f'slice({inner}, {term.high}, {term.low})'

    def cat(self, parts: list[str]) -> str:
        """Parts side by side; many of them by halves, so that they don't nest deep."""
        if len(parts) == 1:
            return parts[0]
        first = 1 if len(parts) <= 8 else len(parts) // 2
        return f'cat({self.cat(parts[:first])}, {self.cat(parts[first:])})'

    def bit(self, condition: int, care: int = ALWAYS) -> str:
        """A condition as a text of one bit."""
        return self.text(terms.choice(condition, terms.const(0, 1), terms.const(1, 1)), care)

    # what a refusal says of the words

    def said(self, under: Under) -> tuple[str, str]:
        """A field and its numbers, as --never takes them."""
        name = self.choices.names.get(under.field) or f'{under.field.high}:{under.field.low}'
        return name, ','.join(map(str, under.numbers))

    def known_path(self) -> Path:
        return tuple(under for under in self.path if len(under.numbers) <= MOST_SAID
                     and 2 * len(under.numbers) <= 1 << under.field.width)

    def under(self) -> str:
        """By which words something is used, where few numbers tell it."""
        path = self.known_path()
        words = ' and '.join(' '.join(self.said(under)) for under in path)
        return f' (it is used by words with {words})' if words else ''

    def advice(self, term: Bad) -> str:
        path = self.known_path()
        if not path:
            return term.why.advice
        field, numbers = self.said(path[0])
        left = f'--never {field}={numbers} leaves them out'
        return f'{term.why.advice}; {left}' if term.why.advice else left


@dataclasses.dataclass(eq=False)
class _Said(Term):
    """A text that is written already."""
    said: str
    width: int
