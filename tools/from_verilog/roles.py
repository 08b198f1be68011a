"""What is what: the clock, the reset, the code, the counter, the mode, and each memory's role.

`found` gives `Roles`, or refuses. The command's options and the attribute `record` of the sources
(`(* record = "memory" *)`) go before what is guessed; what was guessed is in the notes.
"""
from __future__ import annotations

import dataclasses
import re
from collections.abc import Iterable, Iterator

from .conditions import Conditions, rows
from .diagrams import ALWAYS, NEVER
from .load import Loaded
from .mapping import Input, Role, Source
from .netlist import Bit, Bits, FlipFlop, Memory, Netlist, ReadPort, is_constant
from .options import Options
from .refusals import Note, Place, Refused, Rule
from .terms import WIDEST

RESET = re.compile(r'(?:i_)?(n_?)?(?:sys_?|core_?|a|s|p)?(?:reset|rst|clear|clr|res|arst)'
                   r'(_?[nbl]|_?ni|_i)?', re.I)
LARGEST_FILE = 32
NARROWEST_WORD = 4


@dataclasses.dataclass(frozen=True)
class Word:
    """The instruction word: `bits` of it, where it comes from, and how many words there may be."""
    source: Source
    path: str
    place: Place | None
    bits: dict[Bit, int]
    width: int
    words: int
    ahead: FlipFlop | None = None
    memory: Memory | None = None


@dataclasses.dataclass(frozen=True)
class Counter:
    """The program counter: bits `low` to `low + width - 1` of a register address the code.

    It is `aligned` where the bits below stay 0 once they are, but for the words of the diagram
    `left_out`, which may change them and are left out.
    """
    register: FlipFlop
    low: int
    width: int
    aligned: bool = False
    left_out: int = NEVER

    @property
    def kept(self) -> Bits:
        return self.register.output[self.low:self.low + self.width]


@dataclasses.dataclass(frozen=True)
class Roles:
    """What was found. `lost` are memories without a role; to read one refuses.

    `reads` are those on which what a program can see depends.
    """
    clock: str
    rising: bool
    reset: tuple[str, int] | None
    inputs: tuple[Input, ...]
    word: Word
    counter: Counter
    mode: FlipFlop | None
    arrays: dict[Memory, Role]
    lost: frozenset[Memory]
    reads: frozenset[ReadPort]
    conditions: Conditions
    notes: tuple[Note, ...]


def stripped(bits: Bits) -> Bits:
    """Bits without the zeros above."""
    while bits and bits[-1] == '0':
        bits = bits[:-1]
    return bits


def one_clock(netlist: Netlist) -> tuple[str, bool]:
    """The input at whose one edge all registers and memories change."""
    places: dict[tuple[Bit, bool], list[tuple[str, Place | None]]] = {}
    for register in netlist.flip_flops:
        name = f'register {register.path or netlist.name_of(register.output)}'
        key = register.clock, register.rising
        places.setdefault(key, []).append((name, register.place))
    for memory in netlist.memories.values():
        for port in memory.writes:
            if not port.clocked:
                raise Refused(Rule.CLOCK, f'memory {memory.path} is written without a clock',
                              port.place, 'write it at the edge of the clock')
            key = port.clock, port.rising
            places.setdefault(key, []).append((f'memory {memory.path}', port.place))
    inputs = {port.bits[0]: name for name, port in netlist.inputs().items()
              if len(port.bits) == 1}
    for (bit, _), changing in places.items():
        if bit not in inputs:
            raise Refused(Rule.CLOCK, f'the clock of {changing[0][0]} is no input',
                          changing[0][1], 'gated and divided clocks are not read; use an enable')
    if len(places) > 1:
        name, place = min(places.values(), key=len)[0]
        raise Refused(Rule.CLOCK, f'{len(places)} clocks or edges', place,
                      f'{name} changes at another one than the rest')
    if not places:
        raise Refused(Rule.CLOCK, 'nothing changes at a clock: there are no registers')
    (bit, rising), = places
    return inputs[bit], rising


class Finder:
    """Finds the roles one after the other; later ones use what earlier ones found."""

    def __init__(self, netlist: Netlist, loaded: Loaded, options: Options):
        self.netlist, self.loaded, self.options = netlist, loaded, options
        self.notes: list[Note] = []
        self.clock, self.rising = one_clock(netlist)
        self.reset = self.found_reset()
        self.inputs = self.tied_inputs()
        self.tied = {bit: str(tied.value >> k & 1) for tied in self.inputs
                     for k, bit in enumerate(netlist.ports[tied.name].bits)}
        self.plain = Conditions(netlist, self.tied, {})
        self.steps = {register: self.counts(register) for register in netlist.flip_flops}

    def note(self, what: str, place: Place | None = None):
        self.notes.append(Note(what, place))

    # inputs

    def input(self, option: str, name: str):
        """An input of a name; Refused where there is none."""
        inputs = self.netlist.inputs()
        if name not in inputs:
            raise Refused(Rule.OPTION, f'{option}: no input is called {name}', None,
                          f'there are {", ".join(inputs) or "none"}')
        return inputs[name]

    def found_reset(self) -> tuple[str, int] | None:
        """The reset's name and its active level, by the option, by its use, or by its name."""
        options = self.options
        named = {name: 0 if self.low_name(found) else 1 for name, port
                 in self.netlist.inputs().items()
                 if len(port.bits) == 1 and (found := RESET.fullmatch(name))}
        used = dict(self.loaded.resets)
        if options.reset:
            if len(self.input('--reset', options.reset).bits) != 1:
                raise Refused(Rule.OPTION, f'--reset: {options.reset} has more than one bit')
            level = options.active
            if level is None:
                level = used.get(options.reset, named.get(options.reset, 1))
            return options.reset, level
        for found in (used, named):
            if found:
                return next(iter(found.items()))
        return None

    @staticmethod
    def low_name(found: re.Match) -> bool:
        return bool(found[1]) or (found[2] or '').strip('_')[:1].lower() in ('n', 'b', 'l')

    def tied_inputs(self) -> tuple[Input, ...]:
        values = {}
        for name, value in self.options.tied:
            port = self.input('--tie', name)
            if value >> len(port.bits):
                raise Refused(Rule.OPTION, f'--tie {name}={value}: it has {len(port.bits)} bits')
            if name in values:
                raise Refused(Rule.OPTION, f'--tie: {name} is tied twice')
            values[name] = value
        for name, level in [self.reset] if self.reset else []:
            values.setdefault(name, 1 - level)
        for name, level in self.loaded.resets:
            values.setdefault(name, 1 - level)
        return tuple(Input(name, len(self.netlist.ports[name].bits), value)
                     for name, value in values.items())

    def check_resets(self, conditions: Conditions):
        """Each asynchronous reset is idle while a program runs."""
        for register in self.netlist.flip_flops:
            if register.asynchronous:
                bit, level, _ = register.asynchronous
                if conditions.of(bit) != (NEVER if level else ALWAYS):
                    raise Refused(Rule.RESET, f'register {register.path} is reset by something '
                                  'that is no idle input', register.place,
                                  'reset it by an input, and say --reset NAME')

    # registers

    def register_at(self, bits: Bits, conditions: Conditions) -> tuple[FlipFlop, int] | None:
        """The register of which these bits are a run, with the number of the lowest."""
        bits = tuple(conditions.resolved(bit) for bit in stripped(bits))
        found = [self.netlist.stored.get(bit) for bit in bits]
        if not bits or None in found:
            return None
        register, low = found[0]
        same = all(found[k] == (register, low + k) for k in range(len(found)))
        return (register, low) if same else None

    def leaves(self, bits: Bits, conditions: Conditions, depth: int = 24) -> Iterator[Bits]:
        """The rows that a choice may give, down to what is no choice."""
        bits = tuple(conditions.resolved(bit) for bit in bits)
        gate, k = self.netlist.drivers.get(bits[0], (None, 0)) if bits else (None, 0)
        if gate is None or gate.kind not in ('$mux', '$pmux') or not depth:
            yield bits
            return
        for row in (gate.pins['A'], *(row for _, row in rows(gate))):
            yield from self.leaves(row[k:k + len(bits)], conditions, depth - 1)

    def counts(self, register: FlipFlop) -> bool:
        """Whether a register may take itself plus a constant, as program counters do."""
        return any(self.is_step(leaf, register, 3)
                   for leaf in self.leaves(register.data, self.plain))

    def is_step(self, leaf: Bits, register: FlipFlop, depth: int) -> bool:
        gate, _ = self.netlist.drivers.get(leaf[0], (None, 0))
        for bit in leaf[:3]:
            if gate is None:
                gate, _ = self.netlist.drivers.get(bit, (None, 0))
        if gate is None or gate.kind != '$add' or not depth:
            return False
        for own, other in ('AB', 'BA'):
            bits = [self.plain.resolved(bit) for bit in gate.pins[own]]
            if any(bit in register.output for bit in bits) and \
                    all(map(is_constant, self.plain.bits(gate.pins[other]))):
                return True
        return False

    def marked(self, role: str) -> Iterator[FlipFlop]:
        return (register for register in self.netlist.flip_flops if register.attribute == role)

    def named_register(self, option: str, name: str) -> FlipFlop:
        """The register of a path, of the last part of one, or of a wire that is one."""
        registers = [register for register in self.netlist.flip_flops if register.path]
        bits = self.netlist.names[name].bits if name in self.netlist.names else None
        for found in ([r for r in registers if r.path == name],
                      [r for r in registers if r.output == bits],
                      [r for r in registers if r.path.rsplit('.', 1)[-1] == name]):
            if len(found) == 1:
                return found[0]
        raise Refused(Rule.OPTION, f'{option}: no register is called {name}', None,
                      f'there are {", ".join(r.path for r in registers) or "none"}')

    def named_memory(self, option: str, name: str) -> Memory:
        """The memory of a path, or of the last part of one."""
        memories = self.netlist.memories
        tails = [memory for path, memory in memories.items() if path.rsplit('.', 1)[-1] == name]
        if name not in memories and len(tails) != 1:
            raise Refused(Rule.OPTION, f'{option}: no memory is called {name}', None,
                          f'there are {", ".join(memories) or "none"}')
        return memories.get(name) or tails[0]

    # the code

    def code(self) -> tuple[Word, Counter]:
        name = self.options.code
        marked = [memory for memory in self.netlist.memories.values()
                  if memory.attribute == 'code']
        if not name and marked:
            return self.of_array(marked[0])
        if not name:
            return self.guessed()
        tails = [path.rsplit('.', 1)[-1] for path in self.netlist.memories]
        if name in self.netlist.memories or tails.count(name) == 1:
            return self.of_array(self.named_memory('--code', name))
        if name not in self.netlist.names:
            raise Refused(Rule.OPTION, f'--code: no memory, input or wire is called {name}')
        return self.of_wire(name)

    def guessed(self) -> tuple[Word, Counter]:
        """The one memory without a write that is read at a register, or at what one takes."""
        fixed = [memory for memory in self.netlist.memories.values()
                 if memory.reads and not self.is_written(memory)]
        options = [memory for memory in fixed if self.addresses(memory)]
        if len(options) > 1:
            options = [memory for memory in options
                       if any(self.steps[counter.register]
                              for counter in self.addresses(memory))] or options
        options = options or [memory for memory in fixed if self.ahead(memory)]
        if len(options) == 1:
            return self.of_array(options[0])
        if not options:
            found = self.guessed_input()
            if found:
                return found
            self.true_cause()
        if self.options.phases:
            raise Refused(Rule.CODE, 'no memory is read at a register in the first phase', None,
                          'the numbers of --phases begin with the state that fetches the word')
        table = self.table()
        if table:
            raise Refused(Rule.CODE, f'{table[0]} is a table of {table[1].path}: the words are '
                          'wired in', self.netlist.names[table[0]].place,
                          f'--code {table[0]} --pc {table[1].path} takes it for the instruction '
                          'word')
        names = ', '.join(memory.path for memory in options)
        raise Refused(Rule.CODE, 'which is the instruction memory? '
                      f'{names or "none"} is read at a register and never written', None,
                      '--code NAME says it (a memory, or the input or wire with the '
                      'instruction word)')

    def table(self) -> tuple[str, FlipFlop] | None:
        """A wire that a register which counts decides alone, and that is compared."""
        for name in sorted(self.netlist.names, key=lambda name: (name.count('.'), name)):
            bits = self.netlist.names[name].bits
            if name in self.netlist.ports or not self.is_compared(bits):
                continue
            found = {self.netlist.stored[bit][0] if bit in self.netlist.stored else None
                     for bit in self.sources(bits)}
            if len(found) == 1 and self.steps.get(register := found.pop()):
                return name, register
        return None

    def sources(self, bits: Bits) -> set[Bit]:
        """The bits behind the gates that some bits come from."""
        waiting, seen = list(bits), set()
        while waiting:
            bit = self.plain.resolved(waiting.pop())
            if is_constant(bit) or bit in seen:
                continue
            seen.add(bit)
            gate, _ = self.netlist.drivers.get(bit, (None, 0))
            waiting += [b for operand in gate.operands() for b in operand] if gate else []
        return {bit for bit in seen if bit not in self.netlist.drivers}

    def is_written(self, memory: Memory) -> bool:
        return any(self.plain.of(bit) != NEVER for port in memory.writes for bit in port.enable)

    def addresses(self, memory: Memory) -> list[Counter]:
        """The registers at which a memory is read."""
        found = {}
        for port in memory.reads:
            at = self.register_at(port.address, self.plain)
            if at:
                width = min(len(stripped(port.address)), at[0].width - at[1])
                found[at[0], at[1]] = Counter(*at, width)
        return list(found.values())

    def true_cause(self):
        """Refuses where the program stands in a memory that the processor writes."""
        for memory in self.netlist.memories.values():
            for port in memory.reads if self.is_written(memory) else ():
                for leaf in self.leaves(port.address, self.plain):
                    at = self.register_at(leaf, self.plain)
                    if at and self.steps[at[0]]:
                        raise Refused(
                            Rule.CODE, f'memory {memory.path} is read at {at[0].path}, which '
                            'counts, and is written: one memory for words and data (a von '
                            'Neumann machine)', port.place or memory.place,
                            'the instruction words have to stand in a memory of their own')

    def guessed_input(self) -> tuple[Word, Counter] | None:
        """The one wide input, where one register that counts goes out as an address."""
        tied = {tied.name for tied in self.inputs} | {self.clock}
        inputs = [port for name, port in self.netlist.inputs().items()
                  if name not in tied and len(port.bits) >= NARROWEST_WORD]
        outputs = [at for port in self.netlist.ports.values() if not port.inward
                   if (at := self.register_at(port.bits, self.plain))]
        counters = {at for at in outputs if self.steps[at[0]]}
        compared = [port for port in inputs if self.is_compared(port.bits)]
        inputs = compared if len(compared) == 1 else inputs
        if len(inputs) != 1 or len({register for register, _ in counters}) != 1:
            return None
        register, low = min(counters, key=lambda at: at[1])
        self.note(f'the instruction word is taken to come by the input {inputs[0].name}, and the '
                  f'program counter to be {register.path} (--code and --pc say others)')
        width = max(len(stripped(port.bits)) for port in self.netlist.ports.values()
                    if not port.inward and self.register_at(port.bits, self.plain)
                    == (register, low))
        return self.word_of(inputs[0].name), Counter(register, low, width)

    def is_compared(self, bits: Bits) -> bool:
        """Whether some bits are compared with constants, as an opcode is."""
        return any(gate.kind == '$eq' and set(stripped(gate.pins['A'])) <= set(bits)
                   and gate.pins['A'][0] in bits and all(map(is_constant, gate.pins['B']))
                   for gate in self.netlist.gates)

    def check_word(self, width: int, path: str, place: Place | None):
        if width > WIDEST:
            raise Refused(Rule.LIMIT, f'the instruction words of {path} have {width} bits', place,
                          f'{WIDEST} at most')

    def word_of(self, name: str) -> Word:
        """The word that an input or a wire has."""
        found = self.netlist.names[name]
        inward = name in self.netlist.inputs()
        bits = {bit: k for k, bit in enumerate(found.bits)}
        if any(map(is_constant, bits)) or len(bits) < len(found.bits):
            raise Refused(Rule.CODE, f'{name} has bits that are constant, or twice the same',
                          found.place, 'say --code with the wire that holds the whole word')
        self.check_word(len(bits), name, found.place)
        source = Source.INPUT if inward else Source.WIRE
        return Word(source, name, found.place, bits, len(bits), self.options.words)

    def of_wire(self, name: str) -> tuple[Word, Counter]:
        word, named = self.word_of(name), self.named_counter()
        behind = self.behind(word)
        if named and behind and behind.register is named.register:
            return word, behind
        return word, named or behind or self.one_that_counts()

    def named_counter(self) -> Counter | None:
        marked = list(self.marked('pc'))
        if not self.options.counter and not marked:
            return None
        register = (self.named_register('--pc', self.options.counter)
                    if self.options.counter else marked[0])
        return Counter(register, 0, register.width)

    def behind(self, word: Word) -> Counter | None:
        """The register at which the memory behind a wire is read, if that is so."""
        for memory in {self.netlist.read[bit][0] for bit in word.bits
                       if bit in self.netlist.read}:
            if len(self.addresses(memory)) == 1:
                return self.addresses(memory)[0]
        return None

    def one_that_counts(self) -> Counter:
        """The only register that may take itself plus a constant."""
        counting = [register for register, counts in self.steps.items()
                    if counts and register.path and register.width >= NARROWEST_WORD]
        if len(counting) != 1:
            raise Refused(Rule.COUNTER, 'which register is the program counter?', None,
                          '--pc NAME')
        self.note(f'the program counter is taken to be {counting[0].path} (--pc says another)',
                  counting[0].place)
        return Counter(counting[0], 0, counting[0].width)

    def of_array(self, memory: Memory) -> tuple[Word, Counter]:
        if self.is_written(memory):
            self.note(f'{memory.path} is written by the processor: these writes are left out, '
                      'since the words of a program stay as they are', memory.place)
        self.check_word(memory.width, memory.path, memory.place)
        ahead = self.ahead(memory)
        if ahead:
            return self.read_ahead(memory, *ahead)
        counter = self.array_counter(memory)
        ports = [port for port in memory.reads if self.is_counter(port, counter)]
        bits = {bit: k for port in ports for k, bit in enumerate(port.data)}
        return Word(Source.ARRAY, memory.path, memory.place, bits, memory.width, memory.cells,
                    memory=memory), counter

    def is_counter(self, port: ReadPort, counter: Counter) -> bool:
        return self.register_at(port.address, self.plain) == (counter.register, counter.low)

    def array_counter(self, memory: Memory) -> Counter:
        """The one register at which the code is read."""
        found, named = self.addresses(memory), self.named_counter()
        if named:
            found = [counter for counter in found if counter.register is named.register]
        if len(found) > 1:
            found = [counter for counter in found if self.steps[counter.register]] or found
        if len(found) == 1:
            return found[0]
        at = f'the register {named.register.path}' if named else 'a register'
        place = memory.reads[0].place if memory.reads else memory.place
        if len(found) > 1:
            paths = ', '.join(counter.register.path for counter in found)
            raise Refused(Rule.CODE, f'{memory.path} is read at {paths}', place,
                          'which is the program counter? --pc NAME says it')
        raise Refused(Rule.CODE, f'{memory.path} is not read at {at}', place,
                      'the word that is executed has to be the one at the program counter')

    def ahead(self, memory: Memory) -> tuple[FlipFlop, FlipFlop] | None:
        """The counter and the word's register, where a word is read at what the counter takes."""
        resolved = self.plain.resolved
        for port in memory.reads:
            address = tuple(map(resolved, stripped(port.address)))
            data = tuple(map(resolved, port.data))
            counter = [register for register in self.netlist.flip_flops if register.path and
                       address and tuple(map(resolved, register.data))[:len(address)] == address]
            word = [register for register in self.netlist.flip_flops if register.path and
                    tuple(map(resolved, register.data)) == data]
            if len(counter) == len(word) == 1:
                return counter[0], word[0]
        return None

    def read_ahead(self, memory: Memory, counter: FlipFlop, word: FlipFlop) -> tuple[Word, Counter]:
        self.note(f'{memory.path} is read a clock ahead, at what {counter.path} takes: the word '
                  f'is in {word.path} when the counter points at it', memory.place)
        width = max(len(stripped(port.address)) for port in memory.reads)
        bits = {bit: k for k, bit in enumerate(word.output)}
        return Word(Source.ARRAY, memory.path, memory.place, bits, memory.width, memory.cells,
                    word, memory), Counter(counter, 0, min(width, counter.width))

    # what the processor's state depends on

    def cone(self, conditions: Conditions,
             counter: Counter) -> tuple[set[FlipFlop], set[ReadPort]]:
        """The registers and the reads on which the counter or a write depends."""
        registers, reads, seen = {counter.register}, set(), set()
        waiting = list(counter.register.data)
        for memory in self.netlist.memories.values():
            for port in memory.writes:
                if any(conditions.of(bit) != NEVER for bit in port.enable):
                    waiting += [*port.address, *port.data, *port.enable]
        while waiting:
            bit = conditions.bit(waiting.pop())
            if is_constant(bit) or bit in seen or bit in conditions.word:
                continue
            seen.add(bit)
            if bit in self.netlist.stored:
                register, _ = self.netlist.stored[bit]
                if register not in registers:
                    registers.add(register)
                    waiting += register.data
            elif bit in self.netlist.read:
                _, port, _ = self.netlist.read[bit]
                reads.add(port)
                waiting += port.address
            else:
                waiting += self.causes(bit, conditions)
        return registers, reads

    def causes(self, bit: Bit, conditions: Conditions) -> Iterable[Bit]:
        """The bits that decide a gate's output bit, beside the word."""
        opaque = conditions.opaque(conditions.of(bit))
        if opaque != [bit]:
            return opaque
        gate, _ = self.netlist.drivers.get(bit, (None, 0))
        drivers = self.netlist.buses.get(gate.output, [gate]) if gate else []
        return [b for driver in drivers for bits in driver.operands() for b in bits]

    def check_pipeline(self, conditions: Conditions, word: Word, registers: Iterable[FlipFlop]):
        """No register that counts keeps the whole word for a later clock."""
        for register in registers:
            if register is word.ahead or not register.path:
                continue
            if any(self.is_word(leaf, conditions) for leaf
                   in self.leaves(register.data, conditions)):
                self.refuse_pipeline(register)

    @staticmethod
    def is_word(leaf: Bits, conditions: Conditions) -> bool:
        places = {conditions.word.get(conditions.resolved(bit)) for bit in leaf} - {None}
        return len(places) == len(set(conditions.word.values()))

    def refuse_pipeline(self, register: FlipFlop):
        states = [state for state in self.netlist.flip_flops if self.is_state(state)]
        what = f'register {register.path} keeps the instruction word for a later clock'
        if states:
            raise Refused(Rule.PHASES, what, register.place,
                          f'where each instruction takes the same clocks, --phases '
                          f'{states[0].path}=N,N.. has the numbers that {states[0].path} goes '
                          'through; a number of clocks that varies is not read')
        raise Refused(Rule.PIPELINE, what, register.place,
                      'each word has to be executed in the clock in which it stands at the '
                      'program counter (no pipeline)')

    def is_state(self, register: FlipFlop) -> bool:
        """Whether a narrow register takes only constants, itself turned, or itself plus one."""
        if not register.path or register.width > 6:
            return False
        leaves = list(self.leaves(register.data, self.plain))
        return any(leaf != register.output for leaf in leaves) and all(
            leaf == register.output or all(map(is_constant, leaf)) or self.is_turned(leaf, register)
            for leaf in leaves)

    def is_turned(self, leaf: Bits, register: FlipFlop) -> bool:
        gate, _ = self.netlist.drivers.get(leaf[0], (None, 0))
        return gate is not None and gate.kind in ('$not', '$logic_not', '$add', '$eq') and all(
            is_constant(bit) or bit in register.output
            for bits in gate.operands() for bit in self.plain.bits(bits))

    # memories

    def arrays(self, conditions: Conditions, word: Word,
               used: set[ReadPort]) -> tuple[dict[Memory, Role], frozenset[Memory]]:
        roles = self.said_roles()
        rest = [memory for memory in self.netlist.memories.values()
                if memory is not word.memory and memory not in roles
                and (used.intersection(memory.reads) or self.is_written(memory))]
        self.guess_file(roles, rest, conditions, used)
        rest.sort(key=lambda m: (not self.is_written(m), -m.cells * m.width, m.path))
        for role in (Role.MEMORY, Role.BANK):
            first = next((m for m, r in roles.items() if r is Role.MEMORY), None)
            if rest and role not in roles.values() and (
                    role is Role.MEMORY or self.fits_bank(first, rest[0], roles)):
                roles[rest.pop(0)] = role
        if Role.MEMORY not in roles.values():
            self.refuse_bus()
            raise Refused(Rule.MEMORY, 'there is no data memory: a program\'s variables stand in '
                          'one', None, '--memory NAME; or put the processor and its memory into '
                          'one top module, or say --ports')
        for memory in roles:
            self.check_array(memory)
        return roles, frozenset(rest)

    def refuse_bus(self):
        """Refuses where the data memory stands behind a port with two directions."""
        for port in self.netlist.ports.values():
            if port.both:
                raise Refused(Rule.MEMORY, f'the data memory stands behind the inout port '
                              f'{port.name}', self.netlist.names[port.name].place,
                              'give it an input for what is read and an output for what is '
                              'written, and say --ports')

    def said_roles(self) -> dict[Memory, Role]:
        options, roles = self.options, {}
        for role in (Role.MEMORY, Role.BANK, Role.FILE):
            name = getattr(options, role.value)
            marked = [memory for memory in self.netlist.memories.values()
                      if memory.attribute == role.value]
            memory = self.named_memory(f'--{role.value}', name) if name else \
                marked[0] if marked else None
            if memory in roles:
                raise Refused(Rule.OPTION, f'--{role.value}: {memory.path} has another role')
            if memory:
                roles[memory] = role
        return roles

    def guess_file(self, roles: dict[Memory, Role], rest: list[Memory], conditions: Conditions,
                   used: set[ReadPort]):
        has_memory = Role.MEMORY in roles.values()
        for memory in list(rest):
            if Role.FILE not in roles.values() and memory.cells <= LARGEST_FILE and \
                    self.is_written(memory) and self.at_words(memory, conditions, used) and \
                    len(rest) > 1 - has_memory:
                roles[memory] = Role.FILE
                rest.remove(memory)
                self.note(f'{memory.path} is taken to be the register file', memory.place)

    def at_words(self, memory: Memory, conditions: Conditions, used: set[ReadPort]) -> bool:
        """Whether the word alone decides each address."""
        ports = [*used.intersection(memory.reads), *(port for port in memory.writes
                                  if any(conditions.of(bit) != NEVER for bit in port.enable))]
        return all(conditions.static(bit) for port in ports for bit in port.address)

    @staticmethod
    def fits_bank(first: Memory, other: Memory, roles: dict) -> bool:
        return (Role.FILE not in roles.values() and first.width == other.width
                and first.cells >= other.cells)

    @staticmethod
    def check_array(memory: Memory):
        if memory.first:
            raise Refused(Rule.MEMORY, f'memory {memory.path} does not begin at 0', memory.place,
                          'number its cells from 0')
        if memory.width > WIDEST:
            raise Refused(Rule.LIMIT, f'memory {memory.path} has cells of {memory.width} bits',
                          memory.place, f'{WIDEST} at most')

    def mode(self) -> FlipFlop | None:
        if self.options.mode:
            return self.named_register('--mode', self.options.mode)
        return next(self.marked('mode'), None)

    def aligned(self, word: Word, counter: Counter) -> tuple[Counter, Conditions]:
        """The counter with its low bits at 0, where they stay so (words at pc[9:2])."""
        low = counter.register.output[:counter.low]
        if not low:
            return counter, Conditions(self.netlist, self.tied, word.bits)
        zeros = {**self.tied, **{bit: '0' for bit in low}}
        conditions = Conditions(self.netlist, zeros, word.bits)
        some = conditions.diagrams
        left_out = some.possible(some.any(conditions.all(counter.register.data[:counter.low])))
        if left_out == ALWAYS:
            return counter, Conditions(self.netlist, self.tied, word.bits)
        if left_out != NEVER:
            self.note(f'words that may put {counter.register.path}[{counter.low - 1}:0] to other '
                      'than 0 are left out', counter.register.place)
        return dataclasses.replace(counter, aligned=True, left_out=left_out), conditions

    def roles(self) -> Roles:
        word, counter = self.code()
        counter, conditions = self.aligned(word, counter)
        self.check_resets(conditions)
        registers, reads = self.cone(conditions, counter)
        self.check_pipeline(conditions, word, registers - {counter.register})
        arrays, lost = self.arrays(conditions, word, reads)
        return Roles(self.clock, self.rising, self.reset, self.inputs, word, counter, self.mode(),
                     arrays, lost, frozenset(reads), conditions, tuple(self.notes))


def found(netlist: Netlist, loaded: Loaded, options: Options) -> Roles:
    """The roles of a netlist's parts; Refused where one is missing or can't be."""
    return Finder(netlist, loaded, options).roles()
