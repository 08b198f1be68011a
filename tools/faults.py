#!/usr/bin/env python3
"""Holds what `record test` writes against a simulator of faults of its own.

Usage: faults.py BINARY [COUNT] [SEED]
       faults.py BINARY NET.rtn
       faults.py BINARY missed NET.rtn

Each of COUNT runs (50 where none are given) makes a random processor, as tools/programs.py does.
The words of its self-test are taken from the text that `record test` writes; the netlist is
flattened, numbered and clocked here, without a fault and with each bit of each net stuck at 0 and
at 1, and the lines of the faults have to be the same, in their order, with their counts. A netlist
that is refused is counted and not compared. The second form compares one netlist. The exit status
is 1 where a text differs.

The third form lists what the self-test of a netlist doesn't show: for each net with such faults its
number, the item that it is of, what it is, and the bits with the values at which they may be stuck.
"""
import collections
import dataclasses
import itertools
import pathlib
import random
import tempfile
from collections.abc import Iterator

import command_line
from rtn.calls import Answer, Program
from rtn.clock import Clash, Netlist, State, Stuck
from rtn.images import read_words
from rtn.operators import mask
from rtn.random_processors import random_processor

SECONDS = 120
COUNT, SEED = 50, 1
HEAD = 3   # lines before the words


class Tested(Netlist):
    """A netlist that runs the words of its self-test."""

    def start(self) -> State:
        """Each cell of the memory has its address and 1, and all else is 0."""
        memory = self.memory
        cells = [address + 1 & mask(memory.width) for address in range(memory.size)]
        return {**self.zeros(), memory.name: cells}

    def run(self, words: list[int], stuck: Stuck | None = None) -> list[int] | None:
        """The memory after as many clocks as there are words; none where a bus clashes."""
        state = self.start()
        try:
            for _ in words:
                counter = state[self.code.counter]
                state = self.clock(state, words[counter] if counter < len(words) else 0, stuck)
        except Clash:
            return None
        return state[self.memory.name]

    def faults(self) -> list[Stuck]:
        return [Stuck(number, bit, value) for number, net in enumerate(self.nets)
                for bit in range(net.width) for value in (0, 1)]


def name_of(stuck: Stuck) -> str:
    return f'{stuck.net} {stuck.bit} {stuck.value}'


def report(netlist: Tested, words: list[int]) -> Iterator[str]:
    """The lines of the faults of a self-test, from `faults` to `done`."""
    good, detected = netlist.run(words), 0
    yield f'faults {len(netlist.faults())}'
    for stuck in netlist.faults():
        cells = netlist.run(words, stuck)
        if cells is None:
            yield f'clash {name_of(stuck)}'
        elif cells != good:
            detected += 1
            first = next(at for at, pair in enumerate(zip(cells, good)) if pair[0] != pair[1])
            yield f'detect {name_of(stuck)} {first}'
    yield from [f'detected {detected}', 'done']


def compared(record: Program, path: pathlib.Path) -> tuple[str | None, str]:
    """What differs, or None, and what the netlist was answered."""
    answer = record('test', path)
    if answer.status:
        return None, ' '.join(answer.line.split()[:3]) or f'status {answer.status}'
    return differs(answer, Tested(path.read_text())), 'tested'


def differs(answer: Answer, netlist: Tested) -> str | None:
    """What differs between a self-test and what is found here, or None."""
    lines, words = answer.text.splitlines(), [word.number for word in read_words(answer.text)]
    if lines[HEAD - 1] != f'words {len(words)}':
        return f'{lines[HEAD - 1]}, and {len(words)} words'
    first = HEAD + len(words)
    found, wanted = lines[first:], list(report(netlist, words))
    for place, (seen, due) in enumerate(zip(found, wanted), first + 1):
        if seen != due:
            return f'line {place}: {seen}, and not {due}'
    if len(found) != len(wanted):
        return f'{len(found)} lines of faults, and not {len(wanted)}'
    return None


def missed(record: Program, path: pathlib.Path) -> Iterator[str]:
    """The faults of a netlist that its self-test doesn't show."""
    answer = record('test', path)
    if answer.status:
        yield from answer.text.splitlines()
        return
    netlist = Tested(path.read_text())
    lines = [line.split() for line in answer.text.splitlines()]
    seen = {Stuck(*map(int, line[1:4])) for line in lines if line[0] in ('detect', 'clash')}
    left = collections.defaultdict(list)
    for stuck in netlist.faults():
        if stuck not in seen:
            left[stuck.net].append(stuck)
    missing = sum(map(len, left.values()))
    yield f'{missing} of {len(netlist.faults())} faults are not seen'
    for number, stucks in sorted(left.items()):
        net = netlist.nets[number]
        yield f'{number} {net.item} {net.kind} of {net.width}: {ranges(stucks)}'


@dataclasses.dataclass
class Range:
    """Neighbouring bits that may be stuck at the same values."""

    first: int
    last: int
    values: str

    def __str__(self) -> str:
        bits = f'{self.first} to {self.last}' if self.first < self.last else f'{self.first}'
        return f'{bits} at {self.values}'


def ranges(stucks: list[Stuck]) -> str:
    """The bits with the values at which they may be stuck, neighbours with the same ones
    together."""
    found: list[Range] = []
    for bit, group in itertools.groupby(stucks, key=lambda stuck: stuck.bit):
        values = ' and '.join(str(stuck.value) for stuck in group)
        if found and found[-1].last == bit - 1 and found[-1].values == values:
            found[-1].last = bit
        else:
            found.append(Range(bit, bit, values))
    return ', '.join(map(str, found))


def random_runs(record: Program, count: int, first: int) -> int:
    """Compares so many random processors from a seed on; how many differ."""
    answers, bad = collections.Counter(), 0
    with tempfile.TemporaryDirectory() as folder:
        path = pathlib.Path(folder) / 'net.rtn'
        for seed in range(first, first + count):
            path.write_text(random_processor(random.Random(seed)).text)
            wrong, answer = compared(record, path)
            answers[answer] += 1
            if wrong:
                bad += 1
                print(f'seed {seed}: {wrong}')
    told = ', '.join(f'{answer}: {number}' for answer, number in sorted(answers.items()))
    print(f'{told}; {bad} wrong')
    return bad


def main():
    words = command_line.Parser(__doc__)
    words.add_program()
    words.add_argument('rest', nargs='*')
    given = words.words()
    record = dataclasses.replace(given.binary, seconds=SECONDS)
    match given.rest:
        case ['missed', path]:
            print('\n'.join(missed(record, pathlib.Path(path))))
            return 0
        case [path] if not path.isdecimal():
            wrong, answer = compared(record, pathlib.Path(path))
            print(wrong or answer)
            return 1 if wrong else 0
    return 1 if random_runs(record, *words.numbers(given.rest, COUNT, SEED)) else 0


if __name__ == '__main__':
    command_line.run(main)
