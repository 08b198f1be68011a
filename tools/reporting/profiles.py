"""How often each word of a program's code runs, and what of the hardware the code uses."""
from __future__ import annotations

import dataclasses
import pathlib
from collections.abc import Iterable, Iterator

from drawing.nets import Graph
from listing import Listing, Row, Source, Statement
from listing import Netlist as Transfers
from reporting.fields import field_name, fields_of
from reporting.tasks import Task
from rtn.calls import Program
from rtn.clock import Netlist
from rtn.endings import end_of
from rtn.images import Image, read_image
from rtn.names import Setting, Store
from rtn.operators import bits
from rtn.reading import Fault, read_netlist
from rtn.runs import started
from rtn.settling import WordClock
from rtn.syntax import Array, Memory, Register

LONGEST = 1_000_000


@dataclasses.dataclass(frozen=True)
class Run:
    """How often each word of an image ran, and the first clock at its end: None where it doesn't
    come there within LONGEST."""

    counts: tuple[int, ...]
    cycles: int | None


def run_of(netlist: Netlist, image: Image, memory: str) -> Run:
    """Clocks a netlist on an image from a memory text to its end."""
    clock, state = WordClock(netlist), started(netlist, memory)
    counter, end = netlist.code.counter, end_of(netlist, image)
    counts = [0] * len(image.words)
    for cycle in range(LONGEST):
        address = state[counter]
        if address == end:
            return Run(tuple(counts), cycle)
        if address < len(counts):
            counts[address] += 1
        state = clock.clock(state, image.word(address))
    return Run(tuple(counts), None)


class Machine:
    """A netlist file as the profiles of its programs need it."""

    def __init__(self, record: Program, path: pathlib.Path):
        self.record, self.path = record, path
        text = path.read_text(errors='replace')
        self.items = read_netlist(text)
        self.netlist, self.graph = Netlist(text), Graph(self.items)
        self.store = Store.of(self.items)
        self.transfers = Transfers(text, record.done('extract', path))

    def listing(self, task: Task, is_tuned: bool) -> Listing | str:
        """The code of a program, or the fault for which it is refused."""
        try:
            image = read_image(task.code(self.record, self.path, is_tuned))
        except Fault as fault:
            return str(fault)
        return self.listed(task, image)

    def listed(self, task: Task, image: Image) -> Listing:
        """An image of a program, statement by statement."""
        return Listing(image, self.transfers, Source(task.source.read_text(errors='replace')))

    def profile(self, task: Task, listing: Listing, settings: Iterable[Setting] = ()) -> Profile:
        """How the code of a program runs from its start; a Fault where that can't be set."""
        memory = task.start(listing.image, self.store, settings)
        return Profile(task, listing, run_of(self.netlist, listing.image, memory))


@dataclasses.dataclass(frozen=True)
class Profile:
    """The code of a program, statement by statement, and how it ran."""

    task: Task
    listing: Listing
    run: Run

    @property
    def words(self) -> int:
        return len(self.listing.image.words)

    @property
    def cycles(self) -> str:
        """The cycles to the end, or `budget`."""
        return 'budget' if self.run.cycles is None else str(self.run.cycles)

    @property
    def clocks(self) -> int:
        """How many clocks there were."""
        return sum(self.run.counts)

    def count(self, row: Row) -> int:
        """How often a word ran."""
        return self.run.counts[row.address]

    def spent(self, statement: Statement) -> int:
        """The cycles in a statement's words."""
        return sum(map(self.count, statement.rows))

    def rows(self) -> Iterator[Row]:
        """All words."""
        for statement in self.listing.statements:
            yield from statement.rows
        yield from self.listing.end


@dataclasses.dataclass(frozen=True)
class StorageUse:
    """The transfers of a storage, and those of them that some program wants."""

    name: str
    transfers: tuple[str, ...]
    used: frozenset[str]

    @property
    def unused(self) -> list[str]:
        return [transfer for transfer in self.transfers if transfer not in self.used]

    def __str__(self) -> str:
        count = len(self.transfers)
        return f'{self.name}: {len(self.used)} of {count} transfer{"s" * (count != 1)}'


@dataclasses.dataclass(frozen=True)
class FieldUse:
    """A field of the instruction word, and the values that it has in the words of all programs."""

    name: str
    high: int
    low: int
    values: frozenset[int]

    @property
    def varies(self) -> bool:
        return len(self.values) > 1

    def __str__(self) -> str:
        if not self.varies:
            return f'{self.name}: always {min(self.values)}'
        return f'{self.name}: {len(self.values)} of {1 << self.high - self.low + 1} values'


class Usage:
    """What programs use of the hardware of a machine."""

    def __init__(self, machine: Machine, profiles: Iterable[Profile]):
        self.machine = machine
        self.rows = [row for profile in profiles for row in profile.rows()]
        self.storages = list(self.by_storage())
        self.fields = list(self.by_field()) if self.rows else []

    def by_storage(self) -> Iterator[StorageUse]:
        """The registers and the memories in their order in the netlist. A bank isn't among them:
        its transfers are those of the memory in the view."""
        listed = dict.fromkeys(transfer for mode in self.machine.transfers.transfers
                               for transfer in mode)
        wanted = {transfer for row in self.rows for transfer in self.wanted(row)}
        for item in self.machine.items:
            if isinstance(item, Register) or isinstance(item, Memory) and item.array != Array.BANK:
                own = tuple(transfer for transfer in listed if storage_of(transfer) == item.name)
                yield StorageUse(item.name, own, frozenset(wanted.intersection(own)))

    def wanted(self, row: Row) -> list[str]:
        """The transfers of a word, its step to the next one among them."""
        is_turn = self.machine.transfers.is_turn
        if any(map(is_turn, row.transfers)):
            return row.transfers
        return [*row.transfers, *self.steps]

    @property
    def steps(self) -> list[str]:
        """How the transfer by which the program counter goes to the next word may be written."""
        counter = self.machine.netlist.code.counter
        one = f'1#{self.machine.netlist.registers[counter].width}'
        return [f'{counter} := add({counter},{one})', f'{counter} := add({one},{counter})']

    def by_field(self) -> Iterator[FieldUse]:
        """The slices of the instruction word that the netlist takes, from the top bit on."""
        words = {int(row.digits, 16) for row in self.rows}
        for net in fields_of(self.machine.graph):
            values = frozenset(bits(word, *net.bounds) for word in words)
            yield FieldUse(field_name(net), *net.bounds, values)

    def constant_bits(self) -> Iterator[tuple[int, int]]:
        """The bits of the word that never vary, from the top on, with their values."""
        words = {int(row.digits, 16) for row in self.rows}
        for bit in reversed(range(self.machine.netlist.code.width if words else 0)):
            values = {word >> bit & 1 for word in words}
            if len(values) == 1:
                yield bit, values.pop()


def storage_of(transfer: str) -> str:
    """The name of the storage that a transfer sets."""
    return transfer.split(' := ')[0].split('[')[0]


def changed_statements(old: Listing, new: Listing) -> Iterator[tuple[int, int, int]]:
    """The statements of a program that have other numbers of words in two of its codes, by their
    numbers, with their words in both."""
    for number, (one, other) in enumerate(zip(old.statements, new.statements, strict=True)):
        if len(one.rows) != len(other.rows):
            yield number, len(one.rows), len(other.rows)
