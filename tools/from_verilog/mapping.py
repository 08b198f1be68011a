"""Each storage of the netlist text with the register or array of the Verilog that it stands for.

`Map` is what the proof, the bench and `to-hex` know of a reading. It is written beside the text as
JSON (`cpu.map` beside `cpu.rtn`) and read back by `Map.of_json`.
"""
from __future__ import annotations

import dataclasses
import enum
import json

from .refusals import Place


class Role(enum.Enum):
    """What a storage is in the netlist text."""
    CODE = 'code'
    COUNTER = 'counter'
    REGISTER = 'register'
    MODE = 'mode'
    MEMORY = 'memory'
    BANK = 'bank'
    FILE = 'file'


@dataclasses.dataclass(frozen=True)
class Register:
    """A register of the text: bits `low` to `low + width - 1` of the Verilog's register at `path`.

    `path` is the declared one, as in `u_dp.acc`, and `full` the width there. Of the counter the
    bits that address the code are kept (`rom[pc[9:2]]`: low 2); else low is 0 and width is full.
    Where it is `aligned` the bits below these stay 0 once they are, and are taken to be 0.
    `reset` is the number that the reset gives, or None where it gives none.
    """
    name: str
    role: Role
    path: str
    place: Place | None
    width: int
    full: int
    low: int = 0
    aligned: bool = False
    reset: int | None = None


@dataclasses.dataclass(frozen=True)
class Array:
    """A memory, bank or register file of the text, and the Verilog's array at `path`.

    `cells` of `width` bits at addresses of `address` bits in the text. `first` is the number of
    the first cell in the Verilog (`reg [15:0] m [1:8]`: 1). `outside` tells that the array stands
    behind the ports of the top module and has no path.
    """
    name: str
    role: Role
    path: str
    place: Place | None
    width: int
    cells: int
    address: int
    first: int = 0
    outside: bool = False


class Source(enum.Enum):
    """Where the instruction word comes from in the Verilog."""
    ARRAY = 'array'     # an array that is read at the counter
    INPUT = 'input'     # an input of the top module
    WIRE = 'wire'       # a wire inside; what stands behind it is left out


@dataclasses.dataclass(frozen=True)
class Code:
    """The instruction words: `name` in the text, and the array, input or wire at `path`.

    `ahead` is the path of the register that takes the word a clock before it is executed (the
    array is read at what the counter takes), or nothing.
    """
    name: str
    source: Source
    path: str
    place: Place | None
    width: int
    words: int
    ahead: str = ''
    first: int = 0


@dataclasses.dataclass(frozen=True)
class Input:
    """An input of the top module that is tied to `value` while a program runs."""
    name: str
    width: int
    value: int


@dataclasses.dataclass(frozen=True)
class Phases:
    """The numbers that the register at `path` goes through while an instruction is done."""
    path: str
    width: int
    numbers: tuple[int, ...]


@dataclasses.dataclass(frozen=True)
class Ports:
    """A data memory outside: its name in the text, and the ports of the top module that lead to it.

    `enables` is the width of the write enable, each bit of which enables as many of a cell.
    """
    name: str
    read_address: str
    read_data: str
    write_address: str
    write_data: str
    write_enable: str
    enables: int = 1


@dataclasses.dataclass(frozen=True)
class Map:
    """What stands for what. `rising` tells the clock's edge; `active` the reset's level, 0 or 1.

    `tied` has all inputs that are tied, the reset among them at its idle level. `premises` are
    what the proof takes for granted beside what it says, a line each, as it is printed.
    """
    top: str
    clock: str
    rising: bool
    reset: str
    active: int
    code: Code
    registers: tuple[Register, ...]
    arrays: tuple[Array, ...]
    tied: tuple[Input, ...] = ()
    phases: Phases | None = None
    ports: Ports | None = None
    premises: tuple[str, ...] = ()

    @property
    def counter(self) -> Register:
        return next(register for register in self.registers if register.role is Role.COUNTER)

    def array(self, role: Role) -> Array | None:
        return next((array for array in self.arrays if array.role is role), None)

    def to_json(self) -> str:
        def plain(value):
            return value.value if isinstance(value, enum.Enum) else str(value)
        return json.dumps(dataclasses.asdict(self), indent=1, default=plain) + '\n'

    @classmethod
    def of_json(cls, text: str) -> Map:
        """The map of a text that `to_json` wrote; ValueError, KeyError or TypeError for others."""
        return _map_of(json.loads(text))


def _placed(found: dict) -> dict:
    place = found.get('place')
    return {**found, 'place': Place(**place) if place else None}


def _map_of(found: dict) -> Map:
    code = _placed(found['code'])
    phases, ports = found['phases'], found['ports']
    return Map(**{
        **found,
        'code': Code(**{**code, 'source': Source(code['source'])}),
        'registers': tuple(Register(**{**_placed(r), 'role': Role(r['role'])})
                           for r in found['registers']),
        'arrays': tuple(Array(**{**_placed(a), 'role': Role(a['role'])}) for a in found['arrays']),
        'tied': tuple(Input(**tied) for tied in found['tied']),
        'phases': phases and Phases(**{**phases, 'numbers': tuple(phases['numbers'])}),
        'ports': ports and Ports(**ports),
        'premises': tuple(found['premises'])})
