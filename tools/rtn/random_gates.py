"""Random netlists of all operators and widths from 1 to 64 bits, with images and start states. They
can be clocked; most of them have no program.
"""
from __future__ import annotations

import random
from collections.abc import Callable

from rtn.images import image_text
from rtn.operators import ARITHMETIC, COMPARISONS, SHIFTS, UNARY, mask

CONTROL = ('and', 'or', 'xor')
WIDTHS = (1, 1, 2, 3, 4, 8, 8, 13, 16, 16, 31, 32, 33, 63, 64)
WIDEST = 64
MOST_CELLS = 40
MOST_FILE_CELLS = 32
MOST_WORDS = 12


class Gates:
    """A random netlist, item by item, with a register file if asked.

    What is made may be used by what comes later, and the text has the items in any order. `known`
    has what may be used, with its width.
    """

    def __init__(self, pick: random.Random, with_file: bool = False):
        self.pick, self.with_file = pick, with_file
        self.word_width = pick.choice([4, 8, 16, 24, 33, 64])
        self.counter_width = pick.randint(1, 6)
        self.address_width = pick.choice([1, 2, 4, 5, 8])
        self.cell_width = pick.choice([width for width in WIDTHS if width >= self.address_width])
        if pick.random() < 0.1:
            self.address_width = self.cell_width
        self.cells = pick.randint(1, min(MOST_CELLS, 1 << self.address_width))
        self.words = pick.randint(1, 1 << self.counter_width)
        self.registers = {f'R{k}': pick.choice(WIDTHS) for k in range(pick.randint(1, 4))}
        self.known = [('I', self.word_width), ('PC', self.counter_width), *self.registers.items()]
        self.items: list[str] = []
        if with_file:
            self.file_address_width = pick.choice([1, 2, 3, 5])
            self.file_width = pick.choice(WIDTHS)
            self.file_cells = pick.randint(1, min(MOST_FILE_CELLS, 1 << self.file_address_width))

    # numbers and widths

    def number(self, width: int) -> int:
        """A number of a width, often the least, the greatest, or the one with the top bit alone."""
        numbers = [0, 1, mask(width), 1 << width - 1, self.pick.getrandbits(width)]
        return self.pick.choice(numbers) & mask(width)

    def constant(self, width: int) -> str:
        return f'{self.number(width)}#{width}'

    def fitted(self, text: str, width: int, wanted: int) -> str:
        """A value of some width as one of another, by a slice, an extension or a `cat`."""
        if width > wanted:
            low = self.pick.randint(0, width - wanted)
            return f'slice({text}, {low + wanted - 1}, {low})'
        if width == wanted:
            return text
        kind = self.pick.choice(['zext', 'sext', 'cat'])
        if kind == 'cat':
            return f'cat({self.constant(wanted - width)}, {text})'
        return f'{kind}({text}, {wanted})'

    def any_known(self, width: int) -> str:
        """Something that there is, as a value of a width."""
        name, of = self.pick.choice(self.known)
        return self.fitted(name, of, width)

    # values that the word decides

    def control(self, width: int, depth: int = 2) -> str:
        """A value that the word decides, by the gates that control may have."""
        if depth == 0 or self.pick.random() < 0.3:
            return self.fitted('I', self.word_width, width)
        kind = self.pick.choice(['two', 'two', 'not', 'case', 'eq'])
        if kind == 'eq' and width == 1:
            of = self.pick.randint(1, 4)
            return f'eq({self.control(of, depth - 1)}, {self.constant(of)})'
        if kind == 'not':
            return f'not({self.control(width, depth - 1)})'
        if kind == 'case':
            return self.case(self.control, width, depth - 1)
        gate = self.pick.choice(CONTROL)
        return f'{gate}({self.control(width, depth - 1)}, {self.control(width, depth - 1)})'

    def case(self, row: Callable[[int, int], str], width: int, depth: int) -> str:
        """A case over some bits of the word."""
        bits = self.pick.randint(1, 3)
        numbers = self.pick.sample(range(1 << bits), self.pick.randint(1, 1 << bits))
        rows = []
        while numbers:
            taken, numbers = numbers[:2], numbers[2:]
            rows.append(f'{", ".join(map(str, taken))}: {row(width, depth)};')
        selector = self.control(bits, 1)
        return f'case {selector} {{ {" ".join(rows)} else: {row(width, depth)}; }}'

    # values that anything decides

    def value(self, width: int, depth: int = 3) -> str:
        """A value that anything decides."""
        kind = self.pick.random()
        if depth == 0 or kind < 0.15:
            return self.pick.choice([self.constant(width), *[self.any_known(width)] * 4])
        if kind < 0.2:
            return f'{self.pick.choice(UNARY)}({self.value(width, depth - 1)})'
        if kind < 0.28:
            return self.case(self.value, width, depth - 1)
        if kind < 0.36:
            return self.choice(width, depth - 1)
        if self.with_file and kind < 0.41:
            read = f'read(F, {self.control(self.file_address_width)})'
            return self.fitted(read, self.file_width, width)
        if kind < 0.46:
            read = f'read(M, {self.value(self.address_width, depth - 1)})'
            return self.fitted(read, self.cell_width, width)
        return self.computed(kind, width, depth - 1)

    def computed(self, kind: float, width: int, depth: int) -> str:
        """A value by an operator of two operands, or one of another width."""
        if kind < 0.56:
            of = self.pick.choice(WIDTHS)
            return self.fitted(self.value(of, depth), of, width)
        if kind < 0.62 and width > 1:
            high = self.pick.randint(1, width - 1)
            return f'cat({self.value(high, depth)}, {self.value(width - high, depth)})'
        if width == 1 and kind < 0.8:
            of = self.pick.choice(WIDTHS)
            gate = self.pick.choice(COMPARISONS)
            return f'{gate}({self.value(of, depth)}, {self.value(of, depth)})'
        if kind < 0.75:
            gate = self.pick.choice(SHIFTS)
            return f'{gate}({self.value(width, depth)}, {self.amount(width)})'
        gate = self.pick.choice(ARITHMETIC)
        return f'{gate}({self.value(width, depth)}, {self.value(width, depth)})'

    def choice(self, width: int, depth: int) -> str:
        """A case over a bit that a register decides."""
        name, of = self.pick.choice([pair for pair in self.known if pair[0] in self.registers])
        tests = [f'{self.pick.choice(COMPARISONS)}({name}, {self.value(of, depth)})',
                 f'{name}[{self.pick.randrange(of)}]']
        test = self.pick.choice(tests)
        first, second = self.value(width, depth), self.value(width, depth)
        return f'case {test} {{ {self.pick.randint(0, 1)}: {first}; else: {second}; }}'

    def amount(self, width: int) -> str:
        """How far to shift: often about the width, or past it."""
        near = max(0, min(mask(width), width + self.pick.randint(-2, 1)))
        within = self.pick.randrange(min(1 << width, WIDEST))
        amounts = [f'{near}#{width}', f'{within}#{width}', self.value(width, 0)]
        return self.pick.choice(amounts)

    # items

    def net(self, name: str) -> None:
        width = self.pick.choice(WIDTHS)
        self.items.append(f'net {name} : {width} = {self.value(width)};')
        self.known.append((name, width))

    def bus(self, name: str) -> None:
        width, count = self.pick.choice(WIDTHS), self.pick.randint(1, 4)
        bits = self.pick.randint(3, 4)
        selector, drivers = self.control(bits, 1), []
        for k in range(count):
            when = f'eq({selector}, {k}#{bits})'
            if self.pick.random() >= 0.7:
                when = f'eq({self.control(4, 1)}, {self.constant(4)})'
            drivers.append(f'{self.value(width, 2)} when {when};')
        self.items.append(f'bus {name} : {width} {{ {" ".join(drivers)} }}')
        self.known.append((name, width))

    def part(self, name: str) -> None:
        """A module with a part of it, or with two where the first's output may feed the second.

        Inside, `a` decides, so that a register has to.
        """
        inputs = {'a': self.pick.choice(WIDTHS), 'b': self.pick.choice(WIDTHS),
                  'word': self.pick.choice([1, 2])}
        outputs = {'y': self.pick.choice(WIDTHS), 'output': self.pick.choice(WIDTHS)}
        self.items.append(Inside(self.pick, inputs).module(f'M{name}', outputs))
        for copy in range(self.pick.randint(1, 2)):
            register, width = self.pick.choice(list(self.registers.items()))
            fitted = self.fitted(register, width, inputs['a'])
            gate = self.pick.choice(['add', 'xor'])
            links = [f'a = {gate}({fitted}, {self.value(inputs["a"], 2)})',
                     f'b = {self.value(inputs["b"], 2)}',
                     f'word = {self.control(inputs["word"], 1)}']
            self.items.append(f'part {name}{copy} : M{name} ({", ".join(links)});')
            self.known += [(f'{name}{copy}.{port}', width) for port, width in outputs.items()]

    def when(self) -> str:
        """An enable, now and then none."""
        return f' when {self.control(1)}' if self.pick.random() < 0.7 else ''

    def register(self, name: str, width: int) -> None:
        when = self.when()
        self.items.append(f'register {name} : {width} in {self.value(width)}{when};')

    def counter(self) -> None:
        step, turn = f'add(PC, 1#{self.counter_width})', self.value(self.counter_width)
        values = [step, turn, f'case {self.control(1)} {{ 0: {step}; 1: {turn}; }}']
        self.items.append(f'register PC : {self.counter_width} in {self.pick.choice(values)};')

    def memory_item(self) -> None:
        when = self.when()
        self.items.append(f'memory M : {self.cell_width} size {self.cells} '
                          f'addr {self.address_width} write {self.value(self.cell_width)} '
                          f'at {self.value(self.address_width)}{when};')

    def file_item(self) -> None:
        when = self.when()
        self.items.append(f'file F : {self.file_width} size {self.file_cells} '
                          f'addr {self.file_address_width} write {self.value(self.file_width)} '
                          f'at {self.control(self.file_address_width)}{when};')

    # texts

    def text(self) -> str:
        """The netlist's text; it is made once."""
        for k in range(self.pick.randint(1, 6)):
            make = getattr(self, self.pick.choice(['net', 'bus', 'bus', 'part']))
            make(self.pick.choice(['n', 'wire', 'reg', 'B', 'R0_in']) + str(k))
        for name, width in self.registers.items():
            self.register(name, width)
        self.counter()
        self.memory_item()
        if self.with_file:
            self.file_item()
        self.items.append(f'code I : {self.word_width} size {self.words} at PC;')
        self.pick.shuffle(self.items)
        return '\n'.join(['version 2;'] * self.with_file + self.items) + '\n'

    def image(self) -> str:
        """Random words, and the end mark and a place now and then."""
        count, lines = self.pick.randint(0, min(self.words, MOST_WORDS)), []
        if self.pick.random() < 0.3:
            lines.append('place always 0 1')
        if self.pick.random() < 0.3:
            lines.append(f'mark {self.pick.randrange(1 << self.counter_width)} end')
        digits = 2 * (self.word_width + 7 >> 3)
        words = [f'{self.number(self.word_width):0{digits}x}' for _ in range(count)]
        return image_text(self.word_width, words, *lines)

    def memory(self) -> str:
        """A memory text of some registers and cells."""
        lines = [f'{name} {self.number(width)}' for name, width in self.registers.items()
                 if self.pick.random() < 0.8]
        lines += self.some_cells('M', self.cells, self.cell_width)
        if self.with_file:
            lines += self.some_cells('F', self.file_cells, self.file_width)
        return ''.join(line + '\n' for line in lines)

    def some_cells(self, name: str, cells: int, width: int) -> list[str]:
        return [f'{name} {at} {self.number(width)}' for at in range(cells)
                if self.pick.random() < 0.8]


class Inside(Gates):
    """A random module, whose values are made of its inputs alone."""

    def __init__(self, pick: random.Random, inputs: dict[str, int]):
        super().__init__(pick)
        self.inputs, self.known = inputs, list(inputs.items())

    def module(self, name: str, outputs: dict[str, int]) -> str:
        """The text of the module, whose input `word` chooses between values."""
        equations = []
        for output, width in outputs.items():
            numbers = range(mask(self.inputs['word']))
            row = ' '.join(f'{k}: {self.pure(width)};' for k in numbers)
            equations.append(f'{output} = case word {{ {row} else: {self.pure(width)}; }};')
        ports = [f'in {port} : {width}' for port, width in self.inputs.items()]
        ports += [f'out {port} : {width}' for port, width in outputs.items()]
        return f'module {name} ({", ".join(ports)}) {{ {" ".join(equations)} }}'

    def pure(self, width: int, depth: int = 2) -> str:
        """A value of the inputs."""
        if depth == 0:
            return self.any_known(width)
        kind = self.pick.choice(['two', 'two', 'shift', 'one', 'choice', 'test'])
        if kind == 'one':
            return f'{self.pick.choice(UNARY)}({self.pure(width, depth - 1)})'
        if kind == 'shift':
            gate, of = self.pick.choice(SHIFTS), self.pure(width, depth - 1)
            return f'{gate}({of}, {self.fitted("b", self.inputs["b"], width)})'
        if kind == 'choice':
            bound = self.constant(self.inputs['a'])
            first, second = self.pure(width, depth - 1), self.pure(width, depth - 1)
            return f'case ltu(a, {bound}) {{ 1: {first}; 0: {second}; }}'
        if kind == 'test':
            of = self.pick.choice(WIDTHS)
            gate = self.pick.choice(COMPARISONS)
            test = f'{gate}({self.pure(of, depth - 1)}, {self.pure(of, depth - 1)})'
            return self.fitted(test, 1, width)
        gate = self.pick.choice(ARITHMETIC)
        return f'{gate}({self.pure(width, depth - 1)}, {self.pure(width, depth - 1)})'
