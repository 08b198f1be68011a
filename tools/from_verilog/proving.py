"""The netlist text against the Verilog, by satisfiability.

Yosys reads the Verilog once more, by passes of the proof's own, and the netlist as Verilog. Both
are cut at every register, memory port and product (`cutting`), and a miter gives them one word and
one state (`miter`). Yosys' `sat` shows for each storage that both take the same. Another cut, with
the reset active, shows that the program counter and the mode begin with 0.
"""
from __future__ import annotations

import dataclasses
import enum
import json
import pathlib
import re
import tempfile
import time
from collections.abc import Iterator, Mapping, Sequence

from rtn.verilog import Processor, processor_of

from .calls import called, said
from .cutting import Reset, Side
from .load import asynchronous, without_resets
from .load import reading as reading_of
from .mapping import Code, Map, Phases, Register, Role, Source
from .miter import Claim, Miter
from .reading import Reading
from .refusals import Refusal, Refused, Rule

SECONDS = 300
VERILOG, NETLIST, RESET = 'verilog', 'netlist', 'reset'
PASSES = 'proc -norom; flatten; tribuf -formal; dffunmap'
SHOWN = re.compile(r'^ +\\(\w+) +\S+ +\S+ +([01]+)$', re.M)     # a name and its bits


class Verdict(enum.Enum):
    """What `sat` says of a claim."""
    HOLDS = 'holds'
    FAILS = 'fails'
    OPEN = 'is not decided in the time'


@dataclasses.dataclass(frozen=True)
class Finding:
    """A claim with the verdict, and where it fails the values of a case against it."""
    claim: Claim
    verdict: Verdict
    case: Mapping[str, int]


@dataclasses.dataclass(frozen=True)
class Proof:
    """What was found of each claim, under which premises, in how many seconds."""
    findings: tuple[Finding, ...]
    premises: tuple[str, ...]
    seconds: float

    @property
    def differences(self) -> list[Refusal]:
        return [refusal(finding) for finding in self.findings
                if finding.verdict is not Verdict.HOLDS]

    def lines(self) -> Iterator[str]:
        """What the command says of it."""
        wrong = len(self.differences)
        count = len(self.findings)
        yield (f'proof: {f"{wrong} of {count} claims fail" if wrong else f"{count} claims hold"}, '
               f'{self.seconds:.1f} s')
        for premise in self.premises:
            yield f'proof: given that {premise}'


def refusal(finding: Finding) -> Refusal:
    """What a designer reads of a claim that doesn't hold."""
    claim = finding.claim
    if finding.verdict is Verdict.OPEN:
        return Refusal(Rule.EQUAL, f'{claim.storage} {finding.verdict.value}', claim.place)
    values = ', '.join(f'{name} = {value:#x}' for name, value in finding.case.items())
    return Refusal(Rule.EQUAL, claim.fault, claim.place, f'with {values}' if values else '')


# ---- the two sides


def module_of(script: str, top: str, folder: pathlib.Path) -> dict:
    """The flat module that a script of Yosys and the passes of the proof end with."""
    output = folder / f'{top.strip("$")}.json'
    answer = called('yosys', '-q', '-p', f'{script}; {PASSES}; write_json {output}')
    if answer.returncode:
        raise Refused(Rule.TOOL, f'yosys, in the proof: {said(answer)}')
    return json.loads(output.read_text())['modules'][top]


def module_of_files(reading: Reading, folder: pathlib.Path) -> dict:
    """The flat module of the Verilog.

    Where a reset would make registers of an array, it is kept an array; and where the reset clears
    it, the processes are first freed of their resets.
    """
    top, unreset = reading.loaded.top, reading.loaded.unreset
    read = reading_of(reading.options, '-nomem2reg' if unreset else '')
    script = f'{read}; hierarchy -check -top {top}'
    try:
        return module_of(script, top, folder)
    except Refused:
        if not unreset:
            raise
    plain, freed = folder / 'plain.il', folder / 'freed.il'
    modules = folder / 'modules.json'
    called('yosys', '-q', '-p', f'{script}; write_rtlil {plain}')
    called('yosys', '-q', '-p', f'{reading_of(reading.options)}; hierarchy -check -top {top}; '
           f'proc; write_json {modules}')
    resets = asynchronous(json.loads(modules.read_text())['modules'])
    freed.write_text(without_resets(plain.read_text(), resets))
    return module_of(f'read_rtlil {freed}', top, folder)


def chart_of(processor: Processor, chart: Map) -> Map:
    """The map of a netlist's own Verilog: the names are as in the map of the designer's."""
    own = processor.scope.own
    registers = tuple(dataclasses.replace(register, path=own(register.name), low=0,
                                          full=register.width) for register in chart.registers)
    arrays = tuple(dataclasses.replace(array, path=processor.scope.arrays[array.name].own,
                                       first=0, outside=False) for array in chart.arrays)
    code = Code(chart.code.name, Source.INPUT, own(chart.code.name), None, chart.code.width,
                chart.code.words)
    return Map(processor.name, 'clk', True, 'reset', 1, code, registers, arrays)


# ---- the miters


def equal_miter(chart: Map, verilog: Side, netlist: Side, has_clash: bool) -> Miter:
    """Claims that each storage takes the same in both, where no bus clashes."""
    miter = Miter('miter')
    sides = (verilog, netlist)
    for register in chart.registers:
        pins = [side.register(own(side.chart.registers, register.name)) for side in sides]
        state = miter.free(f'held_{register.name}', register.width)
        for side, (held, _) in zip(sides, pins):
            miter.wire(side.called(held), register.width, state)
        taken = [side.called(pin) for side, (_, pin) in zip(sides, pins)]
        miter.claim(register, 'differs', f'{taken[0]} == {taken[1]}', taken)
    words(miter, chart, verilog, netlist)
    for array in chart.arrays:
        both = [(side, own(side.chart.arrays, array.name)) for side in sides]
        miter.array(array, [(side, mine, side.array(mine)) for side, mine in both])
    miter.products(verilog, verilog.products(), netlist, netlist.products())
    aligned(miter, verilog, 'behind each word')
    if chart.phases:
        first_phase(miter, verilog, chart.phases, 'behind each word')
    if has_clash:
        miter.given(f'{netlist.called(netlist.output("clash"))} == 0')
    return miter


def aligned(miter: Miter, verilog: Side, when: str) -> None:
    """Claims that the bits of a counter of bytes that address no word are 0 again."""
    counter = verilog.chart.counter
    if low := verilog.below(counter):
        taken = verilog.next_of(counter.path, low)
        miter.claim_of(counter.path, f'{counter.path}[{len(low) - 1}:0] is not 0 {when}',
                       counter.place, f'{verilog.called(taken)} == 0', (verilog.called(taken),))


def first_phase(miter: Miter, side: Side, phases: Phases, when: str) -> None:
    """Claims that the register of the phases is at its first number."""
    taken, number = side.next_of(phases.path), phases.numbers[0]
    miter.claim_of(phases.path, f'{phases.path} is not {number} {when}', None,
                   f"{side.called(taken)} == {taken.width}'d{number}", (side.called(taken),))


def own(named: Sequence, name: str):
    """The register or array with a name."""
    return next(one for one in named if one.name == name)


def words(miter: Miter, chart: Map, verilog: Side, netlist: Side) -> None:
    """Gives both sides the word at the program counter.

    The Verilog reads its words as an array: at the counter's address it is the word, and what it
    reads at others is free. Where the word is read ahead, its register has to take the word that
    stands at what the counter takes.
    """
    code, counter = chart.code, chart.counter
    word = miter.free('word', code.width)
    known = [(f'held_{counter.name}', word)]
    (read,) = netlist.words()
    miter.wire(netlist.called(read.data), code.width, word)
    reads = verilog.words()
    if code.ahead:
        reads += verilog.accesses(code.path, 'code').reads
        following = miter.free('word_next', code.width)
        taken = verilog.next_of(code.ahead)
        known.append((f'{VERILOG}_d_{counter.name}', following))
        miter.claim_of(code.ahead, f'{code.ahead} does not take the word at what {counter.path} '
                       'takes', code.place, f'{verilog.called(taken)} == {following}')
    first = code.first
    for read in reads:
        address, data = verilog.called(read.address), verilog.called(read.data)
        is_array = read.address.name.startswith('ra_')
        known.append((f'{address} - {first}' if first and is_array else address,
                      miter.free(data, code.width)))
    miter.consistent(known)


def reset_miter(chart: Map, side: Side, phases: Phases | None) -> Miter:
    """Claims that the reset gives the counter and the mode 0, and that the word read ahead and the
    register of the phases begin as they have to."""
    miter = Miter('reset_miter')
    for register in begins_with_0(chart):
        _, taken = side.register(register)
        miter.claim(register, 'is not 0 after the reset', f'{side.called(taken)} == 0',
                    (side.called(taken),))
    aligned(miter, side, 'after the reset')
    if phases:
        first_phase(miter, side, phases, 'after the reset')
    if chart.code.ahead:
        taken, first = side.next_of(chart.code.ahead), miter.free('word_0', chart.code.width)
        reads = side.accesses(chart.code.path, 'code').reads
        for read in reads:
            miter.given(f'{side.called(read.address)} != {chart.code.first} || '
                        f'{side.called(read.data)} == {first}')
            miter.free(side.called(read.data), read.data.width)
        miter.claim_of(chart.code.ahead, f'{chart.code.ahead} is not the word at 0 after the reset',
                       chart.code.place, f'{side.called(taken)} == {first}')
    return miter


def begins_with_0(chart: Map) -> list[Register]:
    return [register for register in chart.registers
            if register.role in (Role.COUNTER, Role.MODE)]


# ---- satisfiability


def script_of(miter: Miter, sides: Sequence[Side], folder: pathlib.Path) -> str:
    """The passes that show a miter's claims, after it and its sides are written to files."""
    reads = []
    for side in sides:
        cut = {'creator': 'from-verilog', 'modules': {side.tag: side.finish()}}
        (folder / f'{side.tag}_cut.json').write_text(json.dumps(cut))
        reads.append(f'read_json {folder / f"{side.tag}_cut.json"}')
        miter.instance(side)
    (folder / f'{miter.name}.v').write_text(miter.text())
    asked = [f'sat -timeout {SECONDS} -set given 1 -prove {claim.output} 1 '
             f'{" ".join(f"-show {name}" for name in shown(miter, claim))} {miter.name}'
             for claim in miter.claims]
    return '; '.join([*reads, f'read_verilog {folder / f"{miter.name}.v"}',
                      f'hierarchy -check -top {miter.name}',
                      'proc; flatten; opt -full; opt_merge -share_all; opt -full',
                      *(f'log CLAIM {k}; {ask}' for k, ask in enumerate(asked)),
                      f'log CLAIM premises; sat -set given 1 {miter.name}'])


def shown(miter: Miter, claim: Claim) -> list[str]:
    """The names whose values tell about a case: the word, the state, and what both sides take."""
    state = [name for name in miter.inputs if name == 'word' or name.startswith('held_')]
    return [*state, *(name for name in claim.shown if name not in state)]


def findings(miter: Miter, sides: Sequence[Side], folder: pathlib.Path) -> list[Finding]:
    """What `sat` says of each claim; Refused where the premises contradict each other."""
    answer = called('yosys', '-p', script_of(miter, sides, folder))
    (folder / f'{miter.name}.log').write_text(answer.stdout + answer.stderr)
    if answer.returncode:
        raise Refused(Rule.TOOL, f'yosys, in the proof: {said(answer)}')
    parts = dict(re.findall(r'^CLAIM (\w+)\n(.*?)(?=^CLAIM |\Z)', answer.stdout, re.M | re.S))
    if 'model found' not in parts['premises'] or 'no model found' in parts['premises']:
        raise Refused(Rule.EQUAL, 'the premises of the proof contradict each other')
    return [finding(claim, parts[str(k)]) for k, claim in enumerate(miter.claims)]


def finding(claim: Claim, answer: str) -> Finding:
    """What `sat` says of a claim."""
    if 'SAT proof finished - no model found: SUCCESS' in answer:
        return Finding(claim, Verdict.HOLDS, {})
    if 'SAT proof finished - model found: FAIL' not in answer:
        return Finding(claim, Verdict.OPEN, {})
    values = {name: int(bits, 2) for name, bits in SHOWN.findall(answer)}
    return Finding(claim, Verdict.FAILS, values)


# ---- the proof


def premises_of(reading: Reading, verilog: Side, processor: Processor) -> Iterator[str]:
    """What the claims are shown under, a line each."""
    chart, options = reading.map, reading.options
    aligned_bits = f'{chart.counter.path}[{chart.counter.low - 1}:0] '
    is_shown = bool(chart.reset)     # of these bits, with the reset active
    yield from (line for line in chart.premises
                if not (is_shown and line.startswith(aligned_bits)))
    if chart.reset:
        yield f'{chart.reset} is {1 - chart.active} once the reset is over'
    for tied in chart.tied:
        if tied.name != chart.reset:
            yield f'{tied.name} is {tied.value}'
    if not chart.reset:
        yield from start_premises(chart)
    if chart.code.source is not Source.ARRAY:
        yield f'{chart.code.path} has the word at {chart.counter.path}'
    for left in options.never:
        numbers = ', '.join(map(str, left.numbers))
        yield f'no word of a program has {numbers} in {left.said}'
    if len(processor.clashes) > len(options.never[:1]):
        yield 'no two drivers of a bus are enabled at once'
    if verilog.words_are_written():
        yield f'the words in {chart.code.path} stay as they are while a program runs'
    for array in chart.arrays:
        if array.cells < 1 << array.address:
            yield f'a read of {array.path} past its {array.cells} cells gives 0'
    if verilog.has_unknown:
        yield 'a bit that the Verilog gives no value (x, z) is 0'


def start_premises(chart: Map) -> Iterator[str]:
    """What has to hold when a program begins, where no reset sees to it."""
    for register in begins_with_0(chart):
        if register.reset is None:
            yield f'{register.path} is 0 when a program begins'
    if chart.phases:
        yield f'{chart.phases.path} is {chart.phases.numbers[0]} when a program begins'
    if chart.code.ahead:
        yield f'{chart.code.ahead} is the word at 0 when a program begins'


def proof(reading: Reading, folder: pathlib.Path) -> Proof:
    """What is found of a reading. The texts for Yosys, and what it says, go to the folder."""
    began = time.monotonic()
    chart = reading.map
    processor = processor_of(reading.text, NETLIST)
    text = '\n'.join(processor.lines())
    (folder / 'netlist.v').write_text(text)
    module = module_of_files(reading, folder)
    own_module = module_of(f'read_verilog {folder / "netlist.v"}; '
                           f'hierarchy -check -top {processor.name}', processor.name, folder)
    verilog = Side(VERILOG, module, chart)
    netlist = Side(NETLIST, own_module, chart_of(processor, chart))
    miter = equal_miter(chart, verilog, netlist, bool(processor.clashes))
    found = findings(miter, (verilog, netlist), folder)
    if chart.reset:
        at_once = dataclasses.replace(chart, phases=None)
        side = Side(RESET, module, at_once, Reset.ACTIVE)
        found += findings(reset_miter(chart, side, chart.phases), (side,), folder)
    premises = premises_of(reading, verilog, processor)
    return Proof(tuple(found), tuple(premises), time.monotonic() - began)


def prove(reading: Reading) -> Proof:
    """What is found of a reading."""
    with tempfile.TemporaryDirectory() as folder:
        return proof(reading, pathlib.Path(folder))
