"""Runs code to its end: what it leaves in its variables, how many words it is, and how many cycles
it takes.
"""
from __future__ import annotations

import dataclasses
import pathlib
from collections.abc import Mapping

from rtn.calls import Program
from rtn.checkpoints import read_checkpoints, store_after
from rtn.clock import Clash, Netlist, State
from rtn.endings import end_of
from rtn.images import Image, read_cells, read_image, read_settings
from rtn.patterns import read_patterns
from rtn.reading import Fault, read_netlist
from rtn.syntax import Array, Code

EXAMPLES = pathlib.Path(__file__).resolve().parents[2] / 'examples'
TWIN = EXAMPLES / 'twin.rtn'
LONGEST = 1_000_000

# What the variables hold, by their names; a plain variable has one cell.
Variables = dict[str, list[int]]


@dataclasses.dataclass(frozen=True)
class End:
    """What a run leaves in the variables, and the first cycle at its end (rtn/endings.py): None
    where it doesn't come there to stay."""

    variables: Variables
    cycles: int | None


@dataclasses.dataclass(frozen=True)
class Texts:
    """The texts that go with an image: its netlist, its program, and a start state if there is
    one."""

    netlist: pathlib.Path
    source: pathlib.Path
    memory: pathlib.Path | None


def texts_of(image: pathlib.Path) -> Texts:
    """The texts of an image PROGRAM.PROCESSOR.img, each beside it or else in examples/. The program
    and the start state may be its own, with all of its name, or are those of PROGRAM."""
    program, processor, *_ = image.name.split('.')

    def found(*names: str) -> pathlib.Path | None:
        paths = (folder / name for name in names for folder in (image.parent, EXAMPLES))
        return next((path for path in paths if path.exists()), None)

    def needed(*names: str) -> pathlib.Path:
        path = found(*names)
        if path is None:
            raise Fault(f'{image}: there is no {names[-1]}')
        return path

    return Texts(needed(f'{processor}.rtn'), needed(f'{image.stem}.src', f'{program}.src'),
                 found(f'{image.stem}.mem', f'{program}.mem'))


def variables(image: Image, cells: Mapping[int, int]) -> Variables:
    """What the variables of an image hold in a memory with these cells."""
    return {place.name: [cells.get(place.address + k, 0) for k in range(place.length)]
            for place in image.places}


def start_of(image: Image, memory: pathlib.Path) -> Variables:
    """What the variables of an image begin with."""
    return variables(image, read_cells(memory.read_text()))


def counter_of(netlist: pathlib.Path) -> str:
    """The name of the program counter."""
    items = read_netlist(netlist.read_text())
    return next(item.counter for item in items if isinstance(item, Code))


def went(record: Program, netlist: pathlib.Path, source: pathlib.Path, memory: pathlib.Path,
         image: Image) -> End:
    """How `record go` ends with a program, whose image is this one."""
    text = record.text('go', netlist, source, memory, LONGEST)
    checkpoints, ending = read_checkpoints(text)
    store = store_after(checkpoints, image.cells().values())
    left = {place.name: [store[cell] for cell in place.cells().values()] for place in image.places}
    return End(left, checkpoints[-1].cycle if ending == 'end' else None)


def ran(record: Program, netlist: pathlib.Path, path: pathlib.Path, memory: pathlib.Path) -> End:
    """How an image ends by `record run`, where it stays at its end."""
    image, processor = read_image(path.read_text()), Netlist(netlist.read_text())
    counter, end = processor.code.counter, end_of(processor, image)

    def state(cycles: int) -> str:
        return record.text('run', netlist, path, memory, cycles)

    def is_ended(cycles: int) -> bool:
        return f'\n{counter} {end}\n' in state(cycles)

    late = 1
    while not is_ended(late):
        if late == LONGEST:
            return End({}, None)
        late = min(2 * late, LONGEST)
    early = late // 2
    while early + 1 < late:
        middle = (early + late) // 2
        early, late = (early, middle) if is_ended(middle) else (middle, late)
    if not is_ended(late + 1):
        return End({}, None)
    return End(variables(image, read_cells(state(late))), late)


def clocked(netlist: pathlib.Path, image: Image, start: Variables) -> End:
    """How an image ends that is clocked here, on a netlist with a bank, whose cells stand behind
    the memory's."""
    processor = Netlist(netlist.read_text())
    state, counter = processor.zeros(), processor.code.counter
    size, end = len(state['M']), end_of(processor, image)
    for place in image.places:
        for at, value in enumerate(start[place.name], place.address):
            state['M' if at < size else 'N'][at % size] = value
    for cycle in range(LONGEST):
        if state[counter] == end:
            return End(variables(image, dict(enumerate(state['M'] + state['N']))), cycle)
        state = processor.clock(state, image.word(state[counter]))
    return End({}, None)


def one_memory(netlist: pathlib.Path) -> str:
    """The text of `twin.rtn` as that of a processor whose second move reads the first one's memory,
    at the first one's place."""
    lines = netlist.read_text().splitlines(True)
    kept = [line for line in lines if not line.startswith(('version 4;', 'bank '))]
    return ''.join(kept).replace('read(N, at_n)', 'read(M, at_m)')


def on_two(record: Program, source: pathlib.Path, part: pathlib.Path,
           start: Variables) -> tuple[Image, End]:
    """The image of a program on `twin.rtn` with this part, and how it ends from there."""
    image = read_image(record.done('dual', TWIN, source, part))
    return image, clocked(TWIN, image, start)


def unpacked(record: Program, netlist: pathlib.Path, image: Image) -> int:
    """How many words an image were with one step in each: the costs of its trees, and its jump and
    branch words. Jumps run in mode 0, where a processor has modes."""
    counter = counter_of(netlist)
    in_zero, *_ = read_patterns(record.text('extract', netlist))
    jumps = {pattern.number for pattern in in_zero if pattern.target == counter}
    return sum(image.costs) + sum(1 for word in image.words if jumps & set(word.patterns))


def state_text(netlist: Netlist, state: Mapping, cycles: int) -> str:
    """A state as `record run` writes it."""
    lines = [f'cycles {cycles}', *(f'{name} {state[name]}' for name in netlist.registers)]
    for array in (Array.FILE, Array.MEMORY, Array.BANK):
        for name, memory in netlist.memories.items():
            if memory.array == array:
                lines += [f'{name} {at} {value}' for at, value in enumerate(state[name]) if value]
    return '\n'.join([*lines, 'done', ''])


def started(netlist: Netlist, memory: str) -> State:
    """The state that a netlist starts in with a memory text; a Fault where the text doesn't fit."""
    state = netlist.zeros()
    for name, at, value in read_settings(memory):
        try:
            if isinstance(state[name], list) == (at is None):
                raise KeyError(name)
            if at is None:
                state[name] = value
            else:
                state[name][at] = value
        except (KeyError, IndexError):
            line = f'{name} {value}' if at is None else f'{name} {at} {value}'
            raise Fault(f'no line of a memory text for this netlist: {line}') from None
    return state


def clocked_text(text: str, image: Image, memory: str, cycles: int) -> str:
    """What `record run` writes of these texts, by the clock of the tools."""
    netlist = Netlist(text)
    state, counter = started(netlist, memory), netlist.code.counter
    for cycle in range(cycles):
        try:
            state = netlist.clock(state, image.word(state[counter]))
        except Clash as clash:
            return f'error clash {cycle} {clash}\n'
    return state_text(netlist, state, cycles)
