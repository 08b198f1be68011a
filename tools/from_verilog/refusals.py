"""Why a processor isn't read: a rule, a place in the source, and what to do, as data.

`Refused` carries one `Refusal` from where it is seen to the command, which prints it as
`cpu.v:41.9: what: advice`. A `Note` is printed as `cpu.v:41.9: note: what`, and the text is written
all the same.
"""
from __future__ import annotations

import dataclasses
import enum
import re


class Rule(enum.Enum):
    """The rule that a refusal stands on."""
    OPTION = 'an option of the command'
    TOOL = 'Yosys, Icarus or GHDL'
    SYNTAX = 'the Verilog text'
    LATCH = 'no latches'
    CLOCK = 'one clock and one edge'
    RESET = 'the reset'
    CODE = 'one code, read at the program counter'
    COUNTER = 'one program counter'
    PIPELINE = 'each word is executed in the clock in which it stands at the counter'
    PHASES = 'a fixed number of clocks for each instruction'
    MEMORY = 'the data memory, the bank and the register file'
    INPUT = 'no inputs beside the word'
    OPERATOR = 'the operators of the netlist language'
    LOOP = 'no value depends on itself'
    DRIVER = 'each value has one driver'
    LIMIT = 'the limits of the netlist language'
    EQUAL = 'the text and the Verilog are equal'


@dataclasses.dataclass(frozen=True, order=True)
class Place:
    """A place in a source file: the line and the column from 1, or no column (0)."""
    file: str
    line: int
    column: int = 0

    def __str__(self):
        column = f'.{self.column}' if self.column else ''
        return f'{self.file}:{self.line}{column}'

    @classmethod
    def of_source(cls, source: str) -> Place | None:
        """The last place of an attribute `src` of Yosys, as in `a.v:3.1-9.4|b.v:7.2-7.9`."""
        found = re.findall(r'([^|]+?):(\d+)(?:\.(\d+))?(?:-\d+(?:\.\d+)?)?(?=\||$)', source)
        places = [cls(file, int(line), int(column or 0)) for file, line, column in found]
        return next((place for place in reversed(places) if place.line), None)


@dataclasses.dataclass(frozen=True)
class Refusal:
    """What is wrong (`what`), where, and what to do about it (`advice`, or nothing)."""
    rule: Rule
    what: str
    place: Place | None = None
    advice: str = ''

    def __str__(self):
        place = f'{self.place}: ' if self.place else ''
        sign = ' ' if self.what.endswith('?') else ': '
        advice = f'{sign}{self.advice}' if self.advice else ''
        return f'{place}{self.what}{advice}'


class Refused(Exception):
    """There is no text, for the reason in `refusal`."""

    def __init__(self, rule: Rule, what: str, place: Place | None = None, advice: str = ''):
        super().__init__(what)
        self.refusal = Refusal(rule, what, place, advice)

    def __str__(self):
        return str(self.refusal)


@dataclasses.dataclass(frozen=True)
class Note:
    """What the designer should know of a text that is written."""
    what: str
    place: Place | None = None

    def __str__(self):
        return f'{self.place}: note: {self.what}' if self.place else f'note: {self.what}'
