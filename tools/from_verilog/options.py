"""The words of the command `from-verilog` as `Options`, or what is wrong with them.

`parse` refuses by `Refused` with `Rule.OPTION`; it reads no file. HELP is the page for `--help`.
"""
from __future__ import annotations

import dataclasses
import re

from .mapping import Ports
from .refusals import Refused, Rule

HELP = """\
Reads a processor in Verilog and writes it as a netlist (docs/RTN.md); docs/VERILOG.md tells more.

usage: from-verilog FILE.v .. [--top MODULE] [-o NET.rtn] [--prove] [--bench DIR] [options]

  --top MODULE       the processor's module (where several are instantiated by none)
  -o NET.rtn         where the netlist goes, with NET.map beside it (else standard output)
  --prove            prove the netlist equal to the Verilog
  --bench DIR        run both side by side under Icarus on random words; files go to DIR
  --random N         so many random states for --bench (300)

What is what, where the defaults are wrong:
  --code NAME        the instruction memory, or the input or wire with the instruction word
  --words N          how many words, where the code is no memory
  --pc NAME          the program counter
  --memory NAME      the data memory
  --bank NAME        the second data memory
  --file NAME        the register file
  --mode NAME        the mode register
  --reset NAME[=L]   the reset, active at level L (0 or 1)
  --word NAME        what the netlist calls the instruction word (I)

What is different while a program runs:
  --tie NAME=N       an input's value
  --drop NAME        a register that is left out
  --keep NAME        a register that is written though no program can see it
  --never FIELD=N,.. instruction words that are left out: FIELD is a wire or HIGH:LOW of the word
  --phases NAME=N,.. the numbers that a state register goes through for each instruction
  --ports NAME:READ_ADDRESS,READ_DATA,WRITE_ADDRESS,WRITE_DATA,WRITE_ENABLE
                     a data memory outside, by the ports that lead to it
  -I DIR  -D NAME[=TEXT]   as for Yosys: where to look for includes, and macros

The status is 0; 1 where the processor is refused; 2 where the words of the command are no such;
3 where the proof or the bench finds a difference.
"""

NAME = re.compile(r'[A-Za-z_$][\w$.\[\]]*')
RANGE = re.compile(r'(\d+)(?::(\d+))?')


@dataclasses.dataclass(frozen=True)
class Left:
    """Words that are left out: those whose field (a wire, or bits `high` to `low`) has a number."""
    said: str
    wire: str
    high: int
    low: int
    numbers: tuple[int, ...]


@dataclasses.dataclass(frozen=True)
class Options:
    """The command's words. Roles are names of the Verilog, '' where none is said."""
    files: tuple[str, ...]
    top: str = ''
    output: str = ''
    prove: bool = False
    bench: str = ''
    random: int = 300
    code: str = ''
    words: int = 0
    counter: str = ''
    memory: str = ''
    bank: str = ''
    file: str = ''
    mode: str = ''
    reset: str = ''
    active: int | None = None
    word: str = ''
    tied: tuple[tuple[str, int], ...] = ()
    dropped: tuple[str, ...] = ()
    kept: tuple[str, ...] = ()
    never: tuple[Left, ...] = ()
    phases: tuple[str, tuple[int, ...]] | None = None
    ports: Ports | None = None
    includes: tuple[str, ...] = ()
    macros: tuple[str, ...] = ()
    help: bool = False


def refuse(what: str, advice: str = ''):
    raise Refused(Rule.OPTION, what, None, advice)


def natural(option: str, text: str) -> int:
    """A number as in Verilog's users' hands: decimal, 0x.., 0b.., or 4'b0110."""
    based = re.fullmatch(r"\d*'([bdhoBDHO])([0-9a-fA-F_]+)", text)
    bases = {'b': 2, 'd': 10, 'h': 16, 'o': 8}
    try:
        if based:
            return int(based[2], bases[based[1].lower()])
        return int(text, 0) if not re.fullmatch(r'0\d+', text) else int(text)
    except ValueError:
        refuse(f'{option}: {text!r} is no number')


def named(option: str, text: str) -> str:
    if not NAME.fullmatch(text):
        refuse(f'{option}: {text!r} is no name')
    return text


def pair(option: str, text: str, form: str) -> tuple[str, str]:
    """The two sides of NAME=.., of which the name may not be empty."""
    name, sign, rest = text.partition('=')
    if not sign or not name or not rest:
        refuse(f'{option} {text}: it has the form {option} {form}')
    return name, rest


def numbers(option: str, text: str) -> tuple[int, ...]:
    return tuple(natural(option, number) for number in text.split(','))


def _reset(text: str) -> dict:
    name, sign, level = text.partition('=')
    if sign and level not in ('0', '1'):
        refuse(f'--reset {text}: the level is 0 or 1')
    return {'reset': named('--reset', name), 'active': int(level) if sign else None}


def _never(text: str) -> Left:
    field, values = pair('--never', text, 'FIELD=N,..')
    found = RANGE.fullmatch(field)
    said = numbers('--never', values)
    if not found:
        return Left(field, named('--never', field), -1, -1, said)
    high, low = int(found[1]), int(found[2] or found[1])
    if high < low:
        refuse(f'--never {text}: the field is HIGH:LOW, and {high} lies below {low}')
    if any(number >> high - low + 1 for number in said):
        refuse(f'--never {text}: the bits {high} to {low} hold no such number')
    return Left(field, '', high, low, said)


def _phases(text: str) -> tuple[str, tuple[int, ...]]:
    name, values = pair('--phases', text, 'NAME=N,N..')
    found = numbers('--phases', values)
    if len(found) < 2 or len(set(found)) < len(found):
        refuse(f'--phases {text}: two numbers at least, all different, '
               'are the states of an instruction')
    return named('--phases', name), found


def _ports(text: str) -> Ports:
    name, sign, rest = text.partition(':')
    parts = rest.split(',')
    if not sign or len(parts) != 5:
        refuse(f'--ports {text}: it has the form --ports '
               'NAME:READ_ADDRESS,READ_DATA,WRITE_ADDRESS,WRITE_DATA,WRITE_ENABLE')
    return Ports(named('--ports', name), *(named('--ports', part) for part in parts))


def _tied(text: str) -> tuple[str, int]:
    name, value = pair('--tie', text, 'NAME=N')
    return named('--tie', name), natural('--tie', value)


def _positive(option: str, text: str) -> int:
    value = natural(option, text)
    if not value:
        refuse(f'{option}: 0 is too few')
    return value


ONCE = {
    '--top': lambda text: {'top': named('--top', text)},
    '-o': lambda text: {'output': text},
    '--bench': lambda text: {'bench': text},
    '--random': lambda text: {'random': _positive('--random', text)},
    '--code': lambda text: {'code': named('--code', text)},
    '--words': lambda text: {'words': _positive('--words', text)},
    '--pc': lambda text: {'counter': named('--pc', text)},
    '--memory': lambda text: {'memory': named('--memory', text)},
    '--bank': lambda text: {'bank': named('--bank', text)},
    '--file': lambda text: {'file': named('--file', text)},
    '--mode': lambda text: {'mode': named('--mode', text)},
    '--reset': _reset,
    '--word': lambda text: {'word': named('--word', text)},
    '--phases': lambda text: {'phases': _phases(text)},
    '--ports': lambda text: {'ports': _ports(text)},
}
REPEATED = {
    '--tie': ('tied', _tied),
    '--drop': ('dropped', lambda text: named('--drop', text)),
    '--keep': ('kept', lambda text: named('--keep', text)),
    '--never': ('never', _never),
    '-I': ('includes', str),
    '-D': ('macros', str),
}
FLAGS = {'--prove': {'prove': True}, '--help': {'help': True}, '-h': {'help': True}}


def separated(words: list[str]) -> list[str]:
    """`--option=value` as two words, where the option is known; `-IDIR` and `-DNAME` likewise."""
    out = []
    for word in words:
        option, sign, value = word.partition('=')
        if sign and option.startswith('--') and option in (*ONCE, *REPEATED):
            out += [option, value]
        elif word[:2] in ('-I', '-D') and len(word) > 2:
            out += [word[:2], word[2:]]
        else:
            out.append(word)
    return out


def parse(arguments: list[str]) -> Options:
    """The options of a command; Refused (Rule.OPTION) where the words are none."""
    found: dict = {}
    lists: dict[str, list] = {key: [] for key, _ in REPEATED.values()}
    files, seen = [], set()
    words = iter(separated(arguments))
    for word in words:
        if word in FLAGS:
            found |= FLAGS[word]
        elif word in ONCE or word in REPEATED:
            value = next(words, None)
            if not value or value in (*FLAGS, *ONCE, *REPEATED):
                refuse(f'{word}: what it is said of is missing')
            if word in REPEATED:
                key, take = REPEATED[word]
                lists[key].append(take(value))
                continue
            if word in seen:
                refuse(f'{word} is said twice')
            seen.add(word)
            found |= ONCE[word](value)
        elif word.startswith('-'):
            refuse(f'no option is called {word}', '--help lists them')
        else:
            files.append(word)
    if not files and not found.get('help'):
        refuse('no file is named', 'from-verilog FILE.v .. --top MODULE; --help tells more')
    return Options(tuple(files), **found, **{key: tuple(value) for key, value in lists.items()})
