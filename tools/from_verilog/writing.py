"""The storages as items of the netlist text, and the text as a whole.

Only what is named is written: the text begins at the counter and the memories, and each register,
net and bus that a text names is written in its turn.
"""
from __future__ import annotations

import dataclasses
import pathlib
from collections.abc import Iterator

from . import terms
from .choices import Choices, Field
from .diagrams import ALWAYS, NEVER, of_word
from .mapping import Phases, Role
from .names import Names
from .netlist import Bits, FlipFlop, Memory, Netlist, WritePort
from .options import Left, Options
from .refusals import Note, Place, Refused, Rule
from .roles import Roles
from .terms import WIDEST, Cat, Choice, Held, Named, Read, Term
from .texts import Texts, Wanted
from .values import Values

LINE = 100
VERSIONS = {Role.FILE: 2, Role.MODE: 3, Role.BANK: 4}
MOST_REGISTERS = 13     # the program counter among them
MOST_CELLS = 65_536
WIDEST_COUNTER = 16
WIDEST_MODE = 2


def laid_out(text: str, indent: int = 2) -> str:
    """A long `case` on several lines."""
    if len(text) + indent < LINE or not text.startswith('case '):
        return text
    head, body = text[:text.index('{') + 1], text[text.index('{') + 1:-1]
    lines = [' ' * indent + row_laid_out(row, indent + 2) for row in rows_of(body)]
    return '\n'.join([head, *lines, ' ' * (indent - 2) + '}'])


def rows_of(body: str) -> list[str]:
    """The rows of a case, each with its `;`."""
    rows, depth, begun = [], 0, 0
    for k, sign in enumerate(body):
        depth += (sign in '({') - (sign in ')}')
        if sign == ';' and not depth:
            rows.append(body[begun:k + 1].strip())
            begun = k + 1
    return rows


def row_laid_out(row: str, indent: int) -> str:
    label, value = row.split(': ', 1)
    return f'{label}: {laid_out(value[:-1], indent)};'


@dataclasses.dataclass
class Written:
    """Some writes of a memory at one address: which bits are written under which conditions.

    `safe` are the conditions without tests that the address is within the memory.
    """
    address: Term
    data: Term
    enables: tuple[int, ...]
    safe: int
    ports: tuple[WritePort, ...]


class Writer:
    """Writes a processor whose roles are known."""

    def __init__(self, netlist: Netlist, roles: Roles, options: Options,
                 phases: Phases | None = None):
        self.netlist, self.roles, self.options, self.phases = netlist, roles, options, phases
        self.conditions, self.diagrams = roles.conditions, roles.conditions.diagrams
        self.notes: list[Note] = list(roles.notes)
        self.counter = roles.counter.register
        self.names = Names()
        self.word = self.names.of(roles.word.path, options.word or 'I')
        self.values = Values(netlist, roles, self.said('--drop', options.dropped))
        self.choices = Choices(netlist, self.conditions, roles.word.width)
        self.texts = Texts(self.values, self.choices, self.names, self.word)
        self.allowed = self.left_in()
        self.texts.allowed = self.allowed
        self.items: dict[FlipFlop | Memory, str] = {}
        for register in [self.counter, *netlist.flip_flops]:
            if register.path and register not in self.values.dropped:
                self.names.of(register, self.texts.called(register))
        for memory in roles.arrays:
            self.texts.memory(memory)

    def note(self, what: str, place: Place | None = None):
        self.notes.append(Note(what, place))

    # options

    def said(self, option: str, names: tuple[str, ...]) -> frozenset[FlipFlop]:
        """The registers that an option names."""
        registers = {register.path: register for register in self.netlist.flip_flops
                     if register.path}
        for name in names:
            if name not in registers:
                raise Refused(Rule.OPTION, f'{option}: no register is called {name}', None,
                              f'there are {", ".join(registers) or "none"}')
        return frozenset(registers[name] for name in names)

    def left_field(self, left: Left) -> list[int]:
        """The bits of the word that --never says."""
        if left.high >= self.roles.word.width:
            raise Refused(Rule.OPTION, f'--never: the word has {self.roles.word.width} bits, and '
                          f'no bit {left.high}')
        if not left.wire:
            return list(range(left.low, left.high + 1))
        name = self.netlist.names.get(left.wire)
        places = [self.conditions.word.get(self.conditions.resolved(bit))
                  for bit in (name.bits if name else ())]
        if not places or None in places:
            raise Refused(Rule.OPTION, f'--never: {left.wire} is no field of the instruction word',
                          None, 'say a wire that is some bits of it, or HIGH:LOW')
        if any(number >> len(places) for number in left.numbers):
            raise Refused(Rule.OPTION, f'--never: {left.wire} has {len(places)} bits, which hold '
                          'no such number')
        return places

    def left_in(self) -> int:
        """The words that neither --never nor the counter leaves out."""
        allowed = self.diagrams.neither(self.roles.counter.left_out)
        for left in self.options.never:
            places = self.left_field(left)
            for number in left.numbers:
                these = ALWAYS
                for k, place in enumerate(places):
                    bit = self.diagrams.variable(of_word(place))
                    these = self.diagrams.both(
                        these, bit if number >> k & 1 else self.diagrams.neither(bit))
                allowed = self.diagrams.but(allowed, these)
        if allowed == NEVER:
            raise Refused(Rule.OPTION, '--never leaves out all words')
        return allowed

    # registers

    def opened(self, term: Term, held: Held) -> Term:
        """A term without the names of nets in which the register keeps what it holds."""
        if isinstance(term, Named) and self.keeps(term.of, held) and self.readers(term.bits) == 1:
            return self.opened(term.of, held)
        if isinstance(term, Choice):
            return terms.choice(term.condition, self.opened(term.no, held),
                                self.opened(term.yes, held))
        return term

    def readers(self, bits: Bits) -> int:
        """How many gates, registers and ports take these bits."""
        bit = bits[0]
        takers = [*(gate for gate in self.netlist.gates
                    if any(bit in operand for operand in gate.operands())),
                  *(register for register in self.netlist.flip_flops if bit in register.data),
                  *(port for memory in self.netlist.memories.values() for port in memory.writes
                    if bit in port.data or bit in port.address or bit in port.enable),
                  *(port for memory in self.netlist.memories.values() for port in memory.reads
                    if bit in port.address)]
        return len(takers)

    def keeps(self, term: Term, held: Held) -> bool:
        match term:
            case Named():
                return self.keeps(term.of, held)
            case Choice():
                return self.keeps(term.no, held) or self.keeps(term.yes, held)
        return term is held

    def holding(self, term: Term, held: Term) -> int:
        """Where a register's next value, or a part of it, is what it holds."""
        if isinstance(term, Choice):
            return self.diagrams.choice(term.condition, self.holding(term.yes, held),
                                        self.holding(term.no, held))
        if isinstance(term, Cat) and term is not held:
            keeps, low = ALWAYS, 0
            for part in reversed(term.parts):
                kept = terms.cut(held, low + part.width - 1, low)
                keeps, low = self.diagrams.both(keeps, self.holding(part, kept)), low + part.width
            return keeps
        return ALWAYS if term is held else NEVER

    def next_value(self, register: FlipFlop) -> tuple[Term, Held]:
        """What a register takes, and what it holds."""
        counter = self.roles.counter
        data, width = register.data, register.width
        if register is self.counter:
            width = counter.width
            top = counter.low + width
            value = terms.cut(self.values.of(data[:top], root=True), top - 1, counter.low)
        else:
            value = self.values.of(data, root=True)
        held = Held(register, width)
        return self.choices.restricted(self.opened(value, held), self.allowed), held

    def register(self, register: FlipFlop) -> str:
        """The item of a register."""
        if register.width > WIDEST and register is not self.counter:
            raise Refused(Rule.LIMIT, f'register {register.path} has {register.width} bits',
                          register.place, f'{WIDEST} at most')
        value, held = self.next_value(register)
        enable = ALWAYS
        if register is not self.counter:
            keeps = self.diagrams.settled(self.holding(value, held))
            enable = self.diagrams.but(self.allowed, keeps)
            enable = ALWAYS if enable == self.allowed else enable
        if enable == NEVER:
            raise Refused(Rule.RESET, f'register {register.path} never changes once the reset is '
                          'over, so it is a constant', register.place,
                          'write the constant itself')
        kind = 'mode' if register is self.roles.mode else 'register'
        text = laid_out(self.texts.text(value, enable))
        head = f'{kind} {self.texts.register(register)} : {held.width} in {text}'
        return f'{head}{self.when(enable, head)};'

    def when(self, enable: int, head: str) -> str:
        """An enable behind a text, on a line of its own where it would be long."""
        if enable == ALWAYS:
            return ''
        text = f'when {self.texts.bit(enable)}'
        if '\n' not in head and len(head) + len(text) < LINE:
            return f' {text}'
        return f'\n  when {laid_out(text[5:], 4)}'

    # memories

    def write(self, memory: Memory, port: WritePort) -> Written | None:
        """One port's write, where it can be."""
        enables = [self.diagrams.both(self.conditions.of(bit), self.allowed)
                   for bit in port.enable]
        some = self.diagrams.any(enables)
        if some == NEVER:
            return None
        address = self.values.address(memory, port.address, root=True)
        address = self.choices.restricted(address, some)
        data = self.choices.restricted(self.values.of(port.data, root=True), some)
        safe = self.diagrams.any(self.unguarded(memory, address, enable) for enable in enables)
        return Written(address, data, tuple(enables), self.diagrams.both(safe, self.allowed),
                       (port,))

    def unguarded(self, memory: Memory, address: Term, enable: int) -> int:
        """An enable without the test that the address is within the memory, which it need not be.

        A write past the last cell does nothing, so the two enables do the same.
        """
        for gate in self.values.guards.sizes(memory):
            inside = self.conditions.of(gate.output[0])
            tested = self.values.address(memory, gate.pins['A'], root=True)
            if terms.opened(tested) is terms.opened(address) and \
                    self.diagrams.but(enable, inside) == NEVER != inside:
                enable = self.diagrams.simplified(enable, inside)
        return enable

    def by_parts(self, enables: tuple[int, ...], old: Term, new: Term) -> Term:
        """A cell of which some bits are new."""
        parts, low = [], 0
        while low < len(enables):
            high = low
            while high + 1 < len(enables) and enables[high + 1] == enables[low]:
                high += 1
            part = self.choices.restricted(terms.cut(new, high, low), enables[low])
            parts.append(terms.choice(enables[low], terms.cut(old, high, low), part))
            low = high + 1
        return terms.cat(parts[::-1])

    def merged(self, memory: Memory, first: Written, second: Written) -> Written:
        """Two writes at one address; the second goes before where it may."""
        later = second.ports[0]
        numbers = {memory.writes.index(port) for port in first.ports}
        for one, other in zip(first.enables, second.enables):
            if self.diagrams.both(one, other) != NEVER and not numbers <= later.over:
                self.two_writes(memory, later, first.ports[0])
        return Written(first.address, self.by_parts(second.enables, first.data, second.data),
                       tuple(map(self.diagrams.either, first.enables, second.enables)),
                       self.diagrams.either(first.safe, second.safe), first.ports + second.ports)

    def groups(self, memory: Memory) -> list[Written]:
        """The writes of a memory, those at one address together; no two are done at once."""
        found: dict[Term, Written] = {}
        for port in memory.writes:
            write = self.write(memory, port)
            if write and write.address in found:
                write = self.merged(memory, found[write.address], write)
            if write:
                found[write.address] = write
        writes = list(found.values())
        for k, write in enumerate(writes):
            for other in writes[:k]:
                if self.diagrams.both(*(self.diagrams.any(w.enables) for w in (write, other))):
                    self.two_writes(memory, write.ports[0], other.ports[0])
        return writes

    def whole(self, memory: Memory, write: Written) -> Term:
        """What a write puts into its cell, with the bits that it leaves as they were."""
        some = self.diagrams.any(write.enables)
        if len(set(write.enables)) == 1:
            return write.data
        self.note(f'{memory.path} is written in parts: the other bits are written back as they '
                  'were', write.ports[0].place)
        return self.choices.restricted(
            self.by_parts(write.enables, Read(memory, write.address), write.data), some)

    @staticmethod
    def two_writes(memory: Memory, port: WritePort, other: WritePort):
        raise Refused(Rule.MEMORY, f'two writes of memory {memory.path} at once', port.place,
                      f'a memory has one write port; the other write is at {other.place}')

    def memory(self, memory: Memory) -> str:
        """The item of a memory, a bank or a register file."""
        role, width = self.roles.arrays[memory], memory.width
        address = self.values.addresses[memory]
        head = f'{role.value} {self.texts.memory(memory)} : {width} size {memory.cells} ' \
               f'addr {address}'
        self.check_memory(memory, address)
        writes = self.groups(memory)
        if not writes:
            return f'{head};' if role is Role.BANK else \
                f'{head} write 0#{width} at 0#{address} when 0#1;'
        at, data, some, safe = writes[0].address, self.whole(memory, writes[0]), NEVER, NEVER
        for write in writes:
            these = self.diagrams.any(write.enables)
            at = terms.choice(these, at, write.address)
            data = terms.choice(these, data, self.whole(memory, write)) if some else data
            some, safe = self.diagrams.either(some, these), self.diagrams.either(safe, write.safe)
        enable = self.diagrams.both(self.diagrams.possible(safe), self.allowed)
        if enable != safe:
            self.note(f'the write of {memory.path} depends on more than the instruction word: '
                      'the cell is written back as it was where it isn\'t written', memory.place)
            data = terms.choice(some, Read(memory, at), data)
        enable = ALWAYS if enable == self.allowed else enable
        head += f' write {laid_out(self.texts.text(data, enable))} ' \
                f'at {self.texts.text(at, enable)}'
        return f'{head}{self.when(enable, head)};'

    def check_memory(self, memory: Memory, address: int):
        if memory.cells > MOST_CELLS:
            raise Refused(Rule.LIMIT, f'memory {memory.path} has {memory.cells} cells',
                          memory.place, f'{MOST_CELLS} at most')
        if address > memory.width:
            raise Refused(Rule.LIMIT, f'memory {memory.path} has addresses of {address} bits and '
                          f'cells of {memory.width}', memory.place,
                          'an address has to fit into a cell')

    # nets and buses

    def net(self, wanted: Wanted) -> str:
        self.texts.path = wanted.path
        term = self.choices.restricted(wanted.term, self.allowed)
        text = laid_out(self.texts.of_net(term))
        self.texts.path = ()
        return f'net {wanted.name} : {wanted.term.width} = {text};'

    def bus(self, bits: Bits) -> str:
        rows = []
        for driver in self.netlist.buses[bits]:
            condition = self.conditions.of(driver.pins['EN'][0])
            if self.conditions.opaque(condition):
                raise Refused(Rule.DRIVER, f'a driver of the bus {self.netlist.name_of(bits)} is '
                              'enabled by more than the instruction word', driver.place,
                              'choose what drives by a multiplexer')
            value = self.texts.text(self.values.of(driver.pins['A']))
            rows.append(f'  {value} when {self.texts.bit(condition)};')
        return '\n'.join([f'bus {self.texts.bus(bits)} : {len(bits)} {{', *rows, '}'])

    def left_out(self) -> list[str]:
        """A bus of two drivers that clash under the words that are left out."""
        if self.allowed == ALWAYS:
            return []
        self.texts.allowed = ALWAYS
        when = self.texts.bit(self.diagrams.neither(self.allowed))
        name = self.names.of('never', 'left_out')
        return ['// No code has these words: the two drivers clash under them.',
                f'bus {name} : 1 {{', f'  0#1 when {when};', f'  0#1 when {when};', '}']

    # the whole

    def item(self, storage: FlipFlop | Memory) -> str:
        """The item of a storage, behind its path and its place."""
        name = self.names.given[storage]
        path = storage.path if storage.path != name else ''
        said = f'{name} = {path}' if path else name
        place = f', {storage.place.file}:{storage.place.line}' if storage.place else ''
        text = self.memory(storage) if isinstance(storage, Memory) else self.register(storage)
        return f'// {said}{place}\n{text}'

    def write_all(self) -> tuple[dict, dict, dict]:
        """The storages, nets and buses that are needed, each with its text."""
        storages, nets, buses = {}, {}, {}
        for register in [self.counter, *self.said('--keep', self.options.kept)]:
            self.texts.register(register)
        waiting: list[FlipFlop | Memory] = sorted(
            self.roles.arrays, key=lambda m: list(VERSIONS).index(self.roles.arrays[m])
            if self.roles.arrays[m] in VERSIONS else 1)
        for storage in waiting:
            storages[storage] = self.item(storage)
        done = False
        while not done:
            done = True
            for register in self.texts.registers:
                if register not in storages:
                    storages[register] = self.item(register)
                    done = False
            for wanted in list(self.texts.nets):
                if wanted.name not in nets:
                    nets[wanted.name] = self.net(wanted)
                    done = False
            for bits in list(self.texts.buses):
                if bits not in buses:
                    buses[bits] = self.bus(bits)
                    done = False
        return storages, nets, buses

    def version(self) -> list[str]:
        """The version that the items need."""
        roles = {*self.roles.arrays.values()}
        if self.roles.mode:
            roles.add(Role.MODE)
        found = [role for role in VERSIONS if role in roles]
        if len(found) > 1:
            names = ' and a '.join(role.value for role in found)
            raise Refused(Rule.MEMORY, f'there is a {names}', None, 'of a register file, a mode '
                          'register and a second data memory a netlist has one only')
        return [f'version {VERSIONS[role]};' for role in found]

    def code_item(self) -> tuple[str, int]:
        """The item of the code, and how many words it has."""
        counter, word = self.roles.counter, self.roles.word
        reach = 1 << counter.width
        if self.options.words > reach:
            raise Refused(Rule.OPTION, f'--words {self.options.words}: the program counter '
                          f'reaches {reach}')
        words = min(self.options.words or word.words or reach, reach)
        return f'code {self.word} : {word.width} size {words} at ' \
               f'{self.texts.register(self.counter)};', words

    def check_limits(self, registers: list[FlipFlop]):
        if self.roles.counter.width > WIDEST_COUNTER:
            raise Refused(Rule.LIMIT, f'the program counter {self.counter.path} has '
                          f'{self.roles.counter.width} bits', self.counter.place,
                          f'{WIDEST_COUNTER} at most')
        if len(registers) > MOST_REGISTERS:
            names = ', '.join(self.names.given[register] for register in registers)
            raise Refused(Rule.LIMIT, f'there are {len(registers)} registers: {names}', None,
                          f'{MOST_REGISTERS} at most; an array that words address is a register '
                          'file')
        mode = self.roles.mode
        if mode and mode.width > WIDEST_MODE:
            raise Refused(Rule.LIMIT, f'the mode register {mode.path} has {mode.width} bits',
                          mode.place, f'{WIDEST_MODE} at most')

    def text(self) -> str:
        """The netlist text."""
        files = ' '.join(pathlib.Path(file).name for file in self.options.files)
        code, self.words = self.code_item()
        version = self.version()
        if self.roles.counter.width > WIDEST_COUNTER:
            self.check_limits([])
        storages, nets, buses = self.write_all()
        registers = sorted((s for s in storages if isinstance(s, FlipFlop)),
                           key=lambda r: (r is not self.counter, r is not self.roles.mode,
                                          _line(r.place)))
        self.check_limits(registers)
        self.written = registers
        self.note_left(registers)
        never = self.left_out()
        in_order = sorted(nets, key=self.net_place)
        order = [*registers, *(s for s in storages if isinstance(s, Memory))]
        fields = [f'net {name} : {field.width} = {self.bits_text(field)};'
                  for field, name in sorted(self.texts.fields.items(), reverse=True)]
        notes = [f'// {note.what}' for note in self.notes if 'taken to be' in note.what]
        return '\n'.join([
            *version, f'// Made by from-verilog from {files}, module {self.netlist.top}.', *notes,
            code, *fields, *(nets[name] for name in in_order), *buses.values(), *never,
            *(storages[storage] for storage in order)]) + '\n'

    def note_left(self, written: list[FlipFlop]):
        """Tells which registers no program can see."""
        for register in self.netlist.flip_flops:
            if register.path and register not in written and register not in self.values.dropped \
                    and register is not self.roles.word.ahead and \
                    register.output != self.values.resolved(register.data) and \
                    not all(map(self.conditions.static, register.data)):
                self.note(f'register {register.path} is left out: nothing that a program can see '
                          'depends on it', register.place)

    def premises(self) -> Iterator[str]:
        """What the proof takes for granted of addresses and of the counter."""
        for memory, width in self.values.short.items():
            yield f'addresses of {memory.path} stay below {1 << width}'
        counter = self.roles.counter
        if counter.aligned:
            yield f'{self.counter.path}[{counter.low - 1}:0] is 0 when a program begins'

    def net_place(self, name: str) -> tuple:
        """Where the source declares a net."""
        bits = next(net.bits for net in self.texts.nets if net.name == name)
        return _line(self.netlist.names[self.values.names[bits]].place if bits else None)

    def bits_text(self, field: Field) -> str:
        return f'{self.word}[{field.high}:{field.low}]' if field.width > 1 else \
            f'{self.word}[{field.high}]'


def _line(place: Place | None) -> tuple:
    return (place.file, place.line, place.column) if place else ('', 0, 0)
