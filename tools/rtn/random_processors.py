"""Random small processors for which programs can be compiled: plain ones, and such with a register
file, a mode register, a wide accumulator, or two data memories.
"""
from __future__ import annotations

import dataclasses
import enum
import random
from collections.abc import Sequence

from rtn.operators import OPERATORS

# The gates of the operators that programs use, by their signs.
GATES = {OPERATORS[word].sign: word for word in ('add', 'sub', 'mul', 'and', 'or', 'xor')}
WIDTH = 16
ZERO = f'0#{WIDTH}'
ORDERS = ('ltu', 'lts')
TARGETS = ('f', 'f', 'f', 'add(PC, f)', 'add(f, PC)', 'add(PC, zext(I[1:0], 8))',
           'add(zext(I[2:0], 8), PC)', 'add(PC, sext(I[3:0], 8))')


class Kind(enum.Enum):
    """What a random processor has."""

    PLAIN = 'registers and a memory'
    FILE = 'a register file, which takes the place of most registers'
    MODE = 'a mode register, on which its operators depend'
    WIDE = 'an accumulator that is wider than the memory'
    BANK = 'a second data memory'


class Way(enum.Enum):
    """Where a memory is read and written."""

    FIELD = 'at a field alone'
    PLAIN = 'at a field or at an address register'
    BEHIND = 'at a field, or so many cells behind an address register as the field says'


@dataclasses.dataclass(frozen=True)
class Processor:
    """A random processor: its text, the signs of the operators that it has, and its registers.

    Its memories have addresses of `address_bits`; a bank may be written or not, and elements be
    found at places that are computed.
    """

    text: str
    operators: tuple[str, ...]
    registers: tuple[str, ...]
    address_bits: int = 8
    is_bank_written: bool = False
    has_computed_places: bool = False


class Fields:
    """The fields of an instruction word, one after the other from bit 0."""

    def __init__(self):
        self.bits = 0

    def take(self, width: int) -> str:
        """A new field."""
        low = self.bits
        self.bits += width
        return f'I[{low + width - 1}:{low}]'


class Codes:
    """A field of four bits for the operation, and its numbers from 1 on in a random order."""

    def __init__(self, pick: random.Random, fields: Fields):
        self.field = fields.take(4)
        self.left = pick.sample(range(1, 16), 15)

    def take(self) -> int:
        return self.left.pop()

    def value(self, codes: Sequence[int], rows: Sequence[str], width: int) -> str:
        """A value by the operation."""
        body = ' '.join(f'{code}: {row};' for code, row in zip(codes, rows))
        return f'case {self.field} {{ {body} else: 0#{width}; }}'

    def enable(self, codes: Sequence[int]) -> str:
        """Whether the operation is one of these."""
        listed = ', '.join(map(str, sorted(codes)))
        return f'case {self.field} {{ {listed}: 1#1; else: 0#1; }}'

    def rows(self, rows: Sequence[str], width: int = WIDTH) -> str:
        """What a storage takes and when: each row at a number of its own."""
        codes = [self.take() for _ in rows]
        return f'{self.value(codes, rows, width)} when {self.enable(codes)}'


class Maker:
    """What the makers of processors have in common. The field f, of 8 bits, stands first."""

    edition: int | None = None

    def __init__(self, pick: random.Random):
        self.pick, self.fields = pick, Fields()
        self.lines: list[str] = []
        self.registers: list[str] = []
        self.operators: list[str] = []

    def processor(self) -> Processor:
        """The processor; it is made once."""
        raise NotImplementedError

    def made(self, **more) -> Processor:
        return Processor(self.text(), tuple(self.operators), tuple(self.registers), **more)

    def text(self) -> str:
        head = [f'version {self.edition};'] if self.edition else []
        head += [f'code I : {self.fields.bits} size 256 at PC;', 'net f : 8 = I[7:0];',
                 *self.more_fields(), 'net next : 8 = add(PC, 1#8);']
        return '\n'.join(head + self.lines) + '\n'

    def more_fields(self) -> list[str]:
        return []

    def some_operators(self, most: int = 2) -> list[str]:
        """Sums and differences, and a few others."""
        return ['+', '-', *self.pick.sample('*&|^', self.pick.randint(0, most))]

    def some_registers(self, least: int, most: int) -> list[str]:
        return [f'R{k}' for k in range(self.pick.randint(least, most))]

    def gate(self, sign: str, first: str, second: str) -> str:
        return f'{GATES[sign]}({first}, {second})'

    def put_register(self, name: str, taken: str, width: int = WIDTH) -> None:
        """A register with what it takes, and when."""
        self.lines.append(f'register {name} : {width} in {taken};')

    def orders(self) -> list[str]:
        """Comparisons of two registers by size, where there are two."""
        if len(self.registers) < 2:
            return []
        return [f'{order}({", ".join(self.pick.sample(self.registers, 2))})' for order in ORDERS]

    def put_counter(self, tests: Sequence[str]) -> None:
        """The program counter, with a jump and a branch by each of these tests."""
        selector = self.fields.take(3)
        rows = ' '.join(f'{k}: case {test} {{ {self.ways()} }};' for k, test in enumerate(tests, 2))
        self.lines.append(f'register PC : 8 in case {selector} {{ 1: f; {rows} else: next; }};')

    def ways(self) -> str:
        """The two ways of a branch: to an address, or so many words on, where its condition is 1 or
        where it is 0."""
        target = self.pick.choice(TARGETS)
        if self.pick.random() < 0.7:
            return f'1: {target}; 0: next;'
        return f'0: {target}; 1: next;'

    def put_memory(self, stored: str) -> None:
        when = self.fields.take(1)
        self.lines.append(f'memory M : 16 size 256 addr 8 write {stored} at f when {when};')

    def stored(self) -> str:
        """The register that is stored, mostly the first."""
        return 'R0' if self.pick.random() < 0.7 else self.pick.choice(self.registers)

    def put_bus(self, first: str, second: str) -> None:
        """A bus of the memory, of the last register, and of the field where neither is enabled."""
        self.lines.append(f'bus B : 16 {{ read(M, f) when {first}; '
                          f'{self.registers[-1]} when {second}; '
                          f'zext(f, 16) when and(not({first}), not({second})); }}')


class PlainMaker(Maker):
    """A few registers, each of which has the operators, by an operation or by a selector of its
    own."""

    def processor(self) -> Processor:
        self.registers = self.some_registers(1, 3)
        self.operators = self.some_operators()
        is_encoded = self.pick.random() < 0.5
        self.fields.take(8)
        operation = self.fields.take(4) if is_encoded else ''
        operands = ['read(M, f)'] * 3 + self.registers
        if self.pick.random() < 0.5:
            self.put_bus(self.fields.take(1), self.fields.take(1))
            operands += ['B', 'B']
        codes = self.pick.sample(range(1, 16), 15)
        if is_encoded:
            self.put_encoded(operation, codes, operands)
        else:
            self.put_selected(operands)
        zero = f'eq({self.pick.choice(self.registers[:2])}, {ZERO})'
        self.put_counter([zero, *self.orders()])
        self.put_memory(self.stored())
        return self.made()

    def rows(self, register: str, operands: Sequence[str]) -> list[str]:
        """What a register may take."""
        rows = ['read(M, f)', 'zext(f, 16)']
        rows += [self.gate(sign, register, self.pick.choice(operands)) for sign in self.operators]
        others = [other for other in self.registers if other != register]
        others += operands[3 + len(self.registers):]
        rows += self.pick.sample(others, 1) if len(operands) > 4 else []
        if self.pick.random() < 0.3 and register != 'R0':
            return [rows[0], rows[-1]]
        return rows

    def put_encoded(self, operation: str, codes: list[int], operands: Sequence[str]) -> None:
        """Registers by an operation, whose numbers are used again where there are too few."""
        for register in self.registers:
            rows = self.rows(register, operands)
            own, codes = codes[:len(rows)], codes[len(rows):] + codes[:len(rows)]
            body = ' '.join(f'{code}: {row};' for code, row in zip(own, rows))
            enable = ', '.join(map(str, sorted(own)))
            self.put_register(register, f'case {operation} {{ {body} else: {ZERO}; }} '
                                        f'when case {operation} {{ {enable}: 1#1; else: 0#1; }}')

    def put_selected(self, operands: Sequence[str]) -> None:
        """Registers by selectors; two may have one enable."""
        enable = ''
        for register in self.registers:
            rows = self.rows(register, operands)
            selector = self.fields.take(3)
            if self.pick.random() < 0.7 or register == 'R0':
                enable = self.fields.take(1)
            body = ' '.join(f'{k}: {row};' for k, row in enumerate(rows))
            self.put_register(register, f'case {selector} {{ {body} else: {register}; }} '
                                        f'when {enable}')


class FileMaker(Maker):
    """A register file, which takes the place of most registers."""

    edition = 2

    def processor(self) -> Processor:
        self.fields.take(8)
        codes = Codes(self.pick, self.fields)
        width = self.pick.choice([0, 1, 1, 2, 2, 3])
        size = 1 if width == 0 else self.pick.randint((1 << width - 1) + 1, 1 << width)
        width = max(width, 1)
        names = [self.fields.take(width) for _ in range(self.pick.randint(2, 3))]
        target = names[0] if len(names) == 2 or self.pick.random() < 0.4 else names[-1]
        first, second = f'read(F, {names[0]})', f'read(F, {names[1]})'
        self.registers = self.some_registers(0, 2)
        self.operators = self.some_operators()
        taken = codes.rows(self.rows(first, second, f'read(F, add({names[0]}, 1#{width}))'))
        self.lines.append(f'file F : 16 size {size} addr {width} '
                          f'write {taken.replace(" when ", f" at {target} when ")};')
        for register in self.registers:
            rows = ['read(M, f)', 'zext(f, 16)', first, f'add({register}, {second})',
                    f'sub({first}, {register})']
            self.put_register(register, codes.rows(self.pick.sample(rows, 2)))
        tests = [f'eq({first}, {ZERO})']
        tests += [f'{order}({first}, {second})' for order in ORDERS if self.pick.random() < 0.7]
        self.put_counter(tests)
        self.put_memory(self.pick.choice([first, second, *self.registers]))
        return self.made()

    def rows(self, first: str, second: str, neighbour: str) -> list[str]:
        """What the register file may take."""
        others = [second] * 3 + ['read(M, f)'] + self.registers
        if self.pick.random() < 0.2:
            others.append(neighbour)
        rows = ['read(M, f)', 'zext(f, 16)']
        rows += [self.gate(sign, first, self.pick.choice(others)) for sign in self.operators]
        rows += [f'sub({self.pick.choice(others)}, {first})'] if self.pick.random() < 0.3 else []
        return rows + self.pick.sample(self.registers, min(len(self.registers), 1))


class ModeMaker(Maker):
    """Operators that depend on a mode of one or two bits, and a bus's drivers at times."""

    edition = 3
    MOST_ROWS = 6

    def processor(self) -> Processor:
        self.fields.take(8)
        codes = Codes(self.pick, self.fields)
        self.width = self.pick.choice([1, 1, 2])
        self.registers = self.some_registers(1, 2)
        self.operators = self.some_operators()
        self.operands = ['read(M, f)'] * 3 + self.registers
        if self.pick.random() < 0.3:
            first = self.fields.take(1)
            is_by_mode = self.pick.random() < 0.7
            second = self.fields.take(1)
            self.put_bus(first, f'and(S[0], {second})' if is_by_mode else second)
            self.operands += ['B', 'B']
        for register in self.registers:
            self.put_register(register, codes.rows(self.rows(register)[:self.MOST_ROWS]))
        zero = f'eq({self.pick.choice(self.registers)}, {ZERO})'
        self.put_counter([zero, *self.orders()])
        self.put_mode(codes)
        self.put_memory(self.stored())
        return self.made()

    def rows(self, register: str) -> list[str]:
        """What a register may take."""
        is_by_mode = self.pick.random() < 0.2
        widened = 'case S { 0: zext(f, 16); else: sext(f, 16); }'
        rows = ['read(M, f)', widened if is_by_mode else 'zext(f, 16)']
        rows.append(self.by_mode(register, ['-', '+']))
        rows += [self.by_mode(register, [self.pick.choice(self.operators), sign])
                 for sign in self.operators[2:]]
        return rows + [self.gate(sign, register, self.pick.choice(self.operands))
                       for sign in self.operators if self.pick.random() < 0.3]

    def by_mode(self, register: str, signs: Sequence[str]) -> str:
        """A row that does another operator in each mode, these ones first."""
        more = self.pick.choices(self.operators, k=(1 << self.width) - len(signs))
        gates = [self.gate(sign, register, self.some_operand()) for sign in [*signs, *more]]
        rows = ' '.join(f'{mode}: {gate};' for mode, gate in enumerate(gates[:-1]))
        return f'case S {{ {rows} else: {gates[-1]}; }}'

    def some_operand(self) -> str:
        return self.pick.choice(self.operands) if self.pick.random() < 0.3 else 'read(M, f)'

    def put_mode(self, codes: Codes) -> None:
        """The mode, which an operation puts; another one may put 0 back."""
        put = codes.take()
        if self.pick.random() < 0.7:
            taken = f'{self.fields.take(self.width)} when eq({codes.field}, {put}#4)'
        else:
            back, low = codes.take(), self.fields.take(self.width)
            taken = (f'case {codes.field} {{ {put}: {low}; else: 0#{self.width}; }} '
                     f'when case {codes.field} {{ {put}, {back}: 1#1; else: 0#1; }}')
        self.lines.append(f'mode S : {self.width} in {taken};')


class WideMaker(Maker):
    """An accumulator that is wider than the memory."""

    def processor(self) -> Processor:
        self.fields.take(8)
        codes = Codes(self.pick, self.fields)
        width = self.pick.randint(WIDTH + 1, 40)
        self.registers = ['A']
        self.operators = self.some_operators(most=3)
        operand = f'{self.pick.choice(["sext", "sext", "zext"])}(read(M, f), {width})'
        rows = [operand, f'{self.pick.choice(["sext", "zext"])}(f, {width})',
                f'shl(A, 1#{width})']
        rows += [self.gate(sign, 'A', operand) for sign in self.operators]
        self.put_register('A', codes.rows(rows, width), width)
        test = self.pick.choice([f'eq(A, 0#{width})', f'A[{width - 1}]'])
        turn = self.pick.choice(['1: f; 0: next;', '0: f; 1: next;'])
        jump, branch, store = codes.take(), codes.take(), codes.take()
        self.put_register('PC', f'case {codes.field} {{ {jump}: f; '
                                f'{branch}: case {test} {{ {turn} }}; else: next; }}', 8)
        self.lines.append('memory M : 16 size 256 addr 8 write A[15:0] at f '
                          f'when eq({codes.field}, {store}#4);')
        return self.made()


class BankMaker(Maker):
    """Two data memories, each of which may have places that are computed."""

    edition = 4
    WAYS = (Way.FIELD, Way.PLAIN, Way.BEHIND, Way.BEHIND)
    MOST_ROWS = 5

    def processor(self) -> Processor:
        self.fields.take(8)
        self.bits = self.pick.choice([5, 6, 8, 8])
        near = self.fields.take(self.bits) if self.pick.random() < 0.7 else 'm'
        self.registers = self.some_registers(1, 3)
        self.operators = self.some_operators()
        ways = [self.pick.choice(self.WAYS) for _ in 'mn']
        self.put_places('m', 'm', ways[0])
        self.put_places('n', near, ways[1])
        self.put_registers(Codes(self.pick, self.fields) if self.pick.random() < 0.4 else None)
        zero = f'eq({self.pick.choice(self.registers[:2])}, {ZERO})'
        self.put_counter([zero, *self.orders()])
        is_written = self.put_memories()
        self.lines = self.pick.sample(self.lines, len(self.lines))
        return self.made(address_bits=self.bits, is_bank_written=is_written,
                         has_computed_places=Way.FIELD not in ways)

    def more_fields(self) -> list[str]:
        return [f'net m : {self.bits} = f[{self.bits - 1}:0];']

    def put_places(self, memory: str, place: str, way: Way) -> None:
        """Where a memory is read and written."""
        name, index, bits = f'at_{memory}', f'index_{memory}', self.bits
        if way == Way.FIELD:
            self.lines.append(f'net {name} : {bits} = {place};')
            return
        is_plain = way == Way.PLAIN
        wide, low = (bits, f'[{bits - 1}:0]') if is_plain else (WIDTH, '')
        self.put_register(index, f'R0{low} when {self.fields.take(1)}', wide)
        if not is_plain:
            self.lines.append(f'net behind_{name} : 16 = add({index}, zext({place}, 16));')
        computed = index if is_plain else f'behind_{name}[{bits - 1}:0]'
        choice = self.fields.take(1)
        self.lines.append(f'net {name} : {bits} = case {choice} {{ 0: {place}; 1: {computed}; }};')

    def put_registers(self, codes: Codes | None) -> None:
        """The registers, by an operation or each by a selector of its own."""
        loads = ['read(M, at_m)', 'read(N, at_n)']
        operands = loads + self.registers
        if self.pick.random() < 0.8:
            choice = self.fields.take(1)
            self.lines.append(f'net load : 16 = case {choice} {{ 0: {loads[0]}; 1: {loads[1]}; }};')
            operands = ['load'] * 5 + self.registers
        for register in self.registers:
            rows = self.rows(register, loads, operands)
            if codes:
                self.put_register(register, codes.rows(rows[:self.MOST_ROWS]))
                continue
            selector, when = self.fields.take(3), self.fields.take(1)
            body = ' '.join(f'{k}: {row};' for k, row in enumerate(rows))
            self.put_register(register, f'case {selector} {{ {body} else: {register}; }} '
                                        f'when {when}')

    def rows(self, register: str, loads: Sequence[str], operands: Sequence[str]) -> list[str]:
        """What a register may take."""
        rows = [*loads, 'zext(f, 16)']
        rows += [self.gate(sign, register, self.pick.choice(operands)) for sign in self.operators]
        if register != 'R0' and self.pick.random() < 0.4:
            return rows[:2] if self.pick.random() < 0.5 else [rows[1], rows[-1]]
        return rows

    def put_memories(self) -> bool:
        """Both memories in a random order; whether the bank is written."""
        bits, stored = self.bits, self.stored()
        when = self.fields.take(1)
        memory = (f'memory M : 16 size {1 << bits} addr {bits} write {stored} at at_m when {when};')
        size = self.pick.choice([1 << bits, self.pick.randint(1, 1 << bits),
                                 self.pick.randint(9, 1 << bits)])
        written = ''
        if self.pick.random() < 0.7:
            kept = self.pick.choice([stored, stored, *self.registers])
            written = f' write {kept} at at_n when {self.fields.take(1)}'
        bank = f'bank N : 16 size {size} addr {bits}{written};'
        self.lines += self.pick.sample([memory, bank], 2)
        return written != ''


MAKERS = {Kind.PLAIN: PlainMaker, Kind.FILE: FileMaker, Kind.MODE: ModeMaker, Kind.WIDE: WideMaker,
          Kind.BANK: BankMaker}


def random_processor(pick: random.Random, kind: Kind = Kind.PLAIN) -> Processor:
    """A random processor of a kind."""
    return MAKERS[kind](pick).processor()
