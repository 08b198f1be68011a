"""Reads and writes the remarks on an image (docs/FORMATS.md): views, what is hidden, and hints, in
the order in which they stand behind its first `done`.
"""
from __future__ import annotations

import dataclasses
import enum
import re
from collections.abc import Iterable, Sequence

from rtn.images import END
from rtn.reading import Fault
from rtn.syntax import Array, Item, Memory, Register

DONE = 'done\n'
CELL = re.compile(r'(\w+)\[(\d+)\]', re.A)
ORDERED_SPACES = (None, Array.FILE, Array.MEMORY)   # None: the registers


class Kind(enum.Enum):
    """The kinds of remarks, by their words, in the order in which they stand."""

    HIDE = 'hide'
    VIEW = 'view'
    HOLD = 'hold'
    KNOW = 'know'

    @property
    def rank(self) -> int:
        return list(Kind).index(self)


@dataclasses.dataclass(frozen=True)
class Remark:
    """A remark: the address of the mark that it is about, of `hide` the mark's label; the variable,
    of `hold` the register or the cell; and the term or the number, which `hide` has none of."""

    kind: Kind
    at: str
    subject: str
    value: str = ''

    @property
    def line(self) -> str:
        return ' '.join(filter(None, (self.kind.value, self.at, self.subject, self.value)))


class Order:
    """The order of remarks: hidden variables by label with the end last, then views, then what is
    held, then what is known; those by address, and in an address by the variable's place, or by
    registers, cells of the file and cells of the memory. Names that nothing has stand last."""

    def __init__(self, items: Iterable[Item], places: Sequence[str]):
        self.places = places
        self.registers, self.spaces = [], {}
        for item in items:
            if isinstance(item, Register):
                self.registers.append(item.name)
            elif isinstance(item, Memory):
                self.spaces[item.name] = item.array

    def key(self, remark: Remark) -> tuple:
        at = (1, 0) if remark.at == END else (0, int(remark.at))
        if remark.kind == Kind.HOLD:
            return remark.kind.rank, at, self.holder(remark.subject)
        return remark.kind.rank, at, (0, index_of(remark.subject, self.places))

    def holder(self, name: str) -> tuple[int, int]:
        """The rank of a register or a cell."""
        cell = CELL.fullmatch(name)
        space = self.spaces.get(cell[1]) if cell else None
        if space in ORDERED_SPACES[1:]:
            return ORDERED_SPACES.index(space), int(cell[2])
        return 0, index_of(name, self.registers)

    def has_holder(self, name: str) -> bool:
        """Whether a register or a memory is called so."""
        cell = CELL.fullmatch(name)
        return cell[1] in self.spaces if cell else name in self.registers


def index_of(name: str, names: Sequence[str]) -> int:
    return names.index(name) if name in names else len(names)


def parted(text: str) -> tuple[str, list[Remark] | None]:
    """An image text as it is without remarks, and these, None where none of their lines is there,
    their `done` neither; a Fault where it is none."""
    front, done, behind = text.partition('\n' + DONE)
    if not done:
        raise Fault('no image text')
    if not behind:
        return text, None
    *lines, last = behind.splitlines()
    if last != 'done':
        raise Fault('no image text: the remarks end without "done"')
    return front + done, list(map(read_remark, lines))


def remarked(image: str, remarks: Iterable[Remark]) -> str:
    """An image text with remarks behind it; without any it stays as it is."""
    lines = [f'{remark.line}\n' for remark in remarks]
    return ''.join([image, *lines, *[DONE] * bool(lines)])


def read_remark(line: str) -> Remark:
    """A line as `view 3 a ACC`."""
    kind, *rest = line.split(' ')
    kinds = {each.value: each for each in Kind}
    if kind not in kinds or len(rest) != 3 - (kind == Kind.HIDE.value):
        raise Fault(f'no remark: {line}')
    if not rest[0].isdecimal() and (kind, rest[0]) != (Kind.HIDE.value, END):
        raise Fault(f'no remark: {line}')
    return Remark(kinds[kind], *rest)
