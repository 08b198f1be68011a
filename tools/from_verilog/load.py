"""The files by Yosys: the flat design as JSON, and the names that the sources declare.

Yosys parses, elaborates and flattens. The passes leave what the text says as it is: no memory is
made of a `case` of constants (-norom), nothing is optimised or cleaned away, memories are not
collected, so each read and write keeps its statement's place, and contents that `initial` gives are
deleted.
"""
from __future__ import annotations

import atexit
import dataclasses
import json
import pathlib
import re
import shutil
import subprocess
import tempfile
from collections.abc import Iterator

from .calls import called
from .netlist import number_of
from .options import Options
from .refusals import Place, Refused, Rule

PASSES = ('proc -noopt -norom; write_json {folder}/modules.json; tribuf; flatten; '
          'delete t:$meminit t:$meminit_v2; write_json {folder}/flat.json')
MISSING = (     # what a line of the source has that this Yosys can't read, and what to write
    (r'\bimport\b', 'this Yosys reads no `import`: write package::NAME'),
    (r"\w+'\(", 'this Yosys reads no cast to a type: assign to a variable of the type'),
    (r'\binside\b', 'this Yosys reads no `inside`: write the comparisons'),
    (r'\binterface\b|\bmodport\b', 'write the signals of the interface as ports'),
    (r'\bunion\b', 'write the union as a vector and its views as part selects'),
    (r'\breturn\b', 'this Yosys reads no `return`: assign to the name of the function'),
    (r'\bclass\b', 'classes are for benches: leave this file out'),
)
UNTOLD = (      # what Yosys says without a place, and what to write
    (r'mix of lookahead', 'assign to a bit whose number is computed, or to several registers in '
     'braces, but not to one register by both'),
    (r'\$interfaces\$|interface', 'write the signals of the interface as ports'),
    (r'is not part of the design', 'name the file with this module'),
)


@dataclasses.dataclass(frozen=True)
class Loaded:
    """What Yosys read.

    `module` is the flat top module of its JSON, in which reads and writes of memories stand each
    for itself. `registers` has the declared path of each register (`u_dp.acc`). `unreset`
    tells whether processes' asynchronous resets were taken out of the design, so that arrays that
    they clear stay arrays (`without_resets`). `resets` are
    the inputs that reset registers without the clock, each with its active level. Where a file
    that fills a memory isn't there, `files` are copies without it, which stay till the end.
    """
    top: str
    files: tuple[str, ...]
    includes: tuple[str, ...]
    unreset: bool
    module: dict
    registers: frozenset[str]
    resets: tuple[tuple[str, int], ...]


def quoted(text: str) -> str:
    return '"' + text.replace('\\', '\\\\').replace('"', '\\"') + '"'


def yosys(script: str) -> subprocess.CompletedProcess:
    """A run of Yosys; Refused where it isn't there."""
    return called('yosys', '-q', '-p', script)


def reading(options: Options, flag: str = '') -> str:
    """The command of Yosys that reads the files."""
    macros = [f'-D{quoted(macro)}' for macro in options.macros]
    includes = [f'-I{quoted(folder)}' for folder in options.includes]
    files = [quoted(file) for file in options.files]
    return ' '.join(filter(None, ['read_verilog -sv', flag, *macros, *includes, *files]))


def source_line(place: Place) -> str:
    try:
        lines = pathlib.Path(place.file).read_text(errors='replace').splitlines()
    except OSError:
        return ''
    return lines[place.line - 1] if place.line <= len(lines) else ''


def refusal_of(done: subprocess.CompletedProcess) -> Refused:
    """What Yosys said is wrong, at the place that it names."""
    said = (done.stdout + done.stderr).splitlines()
    lines = [line for line in said if 'ERROR' in line] or said[-1:]
    found = re.match(r'(?:(.+?):(\d+): )?ERROR: (.*)', lines[0] if lines else '')
    if not found:
        return Refused(Rule.TOOL, f'Yosys: {lines[0] if lines else "it ended without a word"}')
    place = Place(found[1], int(found[2])) if found[1] else None
    line = source_line(place) if place else ''
    advice = next((words for form, words in MISSING if re.search(form, line)), '') or \
        next((words for form, words in UNTOLD if re.search(form, found[3])), '')
    return Refused(Rule.SYNTAX, f'Yosys: {found[3].rstrip(".")}', place, advice)


def modules_of(text: str) -> Iterator[tuple[str, list[str]]]:
    """The modules of a design in Yosys' own language, each with its lines."""
    name, lines = '', []
    for line in text.splitlines():
        if line.startswith('module '):
            name, lines = line.split()[1].lstrip('\\'), []
        elif line == 'end':
            yield name, lines
        else:
            lines.append(line)


def found_top(options: Options, folder: pathlib.Path) -> str:
    """The only module that none instantiates."""
    done = yosys(f'{reading(options)}; write_rtlil {folder}/all.il')
    if done.returncode:
        raise refusal_of(done)
    modules = dict(modules_of((folder / 'all.il').read_text()))
    used = {found[1] for lines in modules.values() for line in lines
            if (found := re.match(r'\s*cell \\(\S+) ', line))}
    tops = sorted(modules.keys() - used)
    if not modules:
        raise Refused(Rule.SYNTAX, f'there is no module in {", ".join(options.files)}')
    if len(tops) != 1:
        raise Refused(Rule.OPTION, 'which module is the processor? '
                      f'{", ".join(tops) or "none"} are instantiated by none', None, '--top MODULE')
    return tops[0]


def declared(text: str) -> dict[str, frozenset[str]]:
    """The names of each module that an edge of a clock updates."""
    found = {}
    for module, lines in modules_of(text):
        names, clocked = set(), False
        for line in lines:
            words = line.split()
            if words[:1] == ['sync']:
                clocked = words[1] in ('posedge', 'negedge', 'edge')
            elif clocked and words[:1] == ['update'] and words[1].startswith('\\'):
                names.add(words[1][1:])
        found[module] = frozenset(names)
    return found


def paths(modules: dict, top: str, names: dict[str, frozenset[str]]) -> Iterator[str]:
    """The path of each declared register, from the top module down."""
    waiting = [(top, '')]
    while waiting:
        module, prefix = waiting.pop()
        yield from (prefix + name for name in names.get(module, ()))
        for cell, body in modules[module]['cells'].items():
            if body['type'] in modules:
                waiting.append((body['type'], f'{prefix}{cell}.'))


def without_resets(text: str, resets: dict[str, frozenset[str]]) -> str:
    """A design, in Yosys' own language, whose processes are no longer woken by their resets.

    What the reset does is still in the process, as if it were synchronous; with the reset at its
    idle level that is the same. `resets` has the names of each module's asynchronous resets.
    """
    out, module, skipping = [], '', False
    for line in text.splitlines():
        words = line.split()
        if words[:1] == ['module']:
            module = words[1].lstrip('\\')
        if words[:1] in (['sync'], ['end'], ['process']):
            skipping = (words[0] == 'sync' and len(words) > 2
                        and words[2].lstrip('\\') in resets.get(module, ()))
        if not skipping:
            out.append(line)
    return '\n'.join(out) + '\n'


def asynchronous(modules: dict) -> dict[str, frozenset[str]]:
    """The local names of each module's asynchronous resets."""
    found = {}
    for name, module in modules.items():
        bits = {cell['connections'][pin][0] for cell in module['cells'].values()
                for pin in ('ARST', 'ALOAD') if pin in cell['connections']}
        found[name] = frozenset(net for net, body in module['netnames'].items()
                                if len(body['bits']) == 1 and body['bits'][0] in bits)
    return found


def replaced(done: subprocess.CompletedProcess) -> dict[str, str]:
    """The arrays that Yosys made registers of, and the place that it names for each."""
    form = r'Warning: Replacing memory \\?(\S+) with list of registers\. See (\S+)'
    return dict(re.findall(form, done.stderr + done.stdout))


class Loader:
    """Reads some files in a folder of its own."""

    def __init__(self, options: Options, folder: pathlib.Path):
        self.options, self.folder = options, folder
        self.top = options.top or found_top(options, folder)
        self.resets: tuple[tuple[str, int], ...] = ()

    def design(self) -> str:
        return (self.folder / 'design.il').read_text()

    def modules(self) -> dict:
        return json.loads((self.folder / 'modules.json').read_text())['modules']

    def run(self, flag: str) -> subprocess.CompletedProcess:
        """Reads, and goes through the passes."""
        return yosys(f'{reading(self.options, flag)}; hierarchy -check -top {self.top}; '
                     f'write_rtlil {self.folder}/design.il; {PASSES.format(folder=self.folder)}')

    def again(self) -> subprocess.CompletedProcess:
        """Goes through the passes with a design whose asynchronous resets are taken out."""
        resets = asynchronous(self.modules())
        done = yosys(f'{reading(self.options, "-nomem2reg")}; hierarchy -check -top {self.top}; '
                     f'write_rtlil {self.folder}/design.il')
        if done.returncode:
            return done
        (self.folder / 'unreset.il').write_text(without_resets(self.design(), resets))
        return yosys(f'read_rtlil {self.folder}/unreset.il; '
                     f'{PASSES.format(folder=self.folder)}')

    def loaded(self, unreset: bool) -> Loaded:
        flat = json.loads((self.folder / 'flat.json').read_text())['modules']
        registers = frozenset(paths(self.modules(), self.top, declared(self.design())))
        module = flat[self.top]
        self.resets = self.resets or tuple(reset_inputs(module))
        return Loaded(self.top, self.options.files, self.options.includes, unreset, module,
                      registers, self.resets)

    def load(self) -> Loaded:
        done = self.run('')
        if done.returncode:
            raise refusal_of(done)
        arrays = replaced(done)
        plain = self.loaded(False)
        kept = [name for name in arrays if held_by_reset(plain.module, name)]
        if not kept:
            return plain
        if self.again().returncode:
            place = Place.of_source(arrays[kept[0]])
            raise Refused(Rule.MEMORY, f'memory {kept[0]} is written where Yosys can\'t keep it '
                          'a memory', place, 'write it in a clocked block of its own, without '
                          'an asynchronous reset')
        return self.loaded(True)


def held_by_reset(module: dict, array: str) -> bool:
    """Whether the cells of an array that became registers are those of a block with a reset."""
    form = re.compile(rf'(?:.*\.)?{re.escape(array)}\[\d+\]')
    bits = {bit for name, net in module['netnames'].items() if form.fullmatch(name)
            for bit in net['bits']}
    resets = any('ARST' in cell['connections'] for cell in module['cells'].values())
    return resets and any('CLK' in cell['connections'] and cell['connections']['Q'][0] in bits
                          for cell in module['cells'].values() if 'Q' in cell['connections'])


def reset_inputs(module: dict) -> Iterator[tuple[str, int]]:
    """The inputs that reset registers without the clock, each with its active level."""
    inputs = {port['bits'][0]: name for name, port in module['ports'].items()
              if port['direction'] == 'input' and len(port['bits']) == 1}
    found = {(inputs[bit], number_of(cell['parameters']['ARST_POLARITY']))
             for cell in module['cells'].values()
             if (bit := cell['connections'].get('ARST', [None])[0]) in inputs}
    yield from sorted(found)


def without_contents(text: str) -> str:
    """A source without its $readmemh and $readmemb; every other word stays where it stands."""
    def blank(found: re.Match) -> str:
        return re.sub(r'[^\n]', ' ', found[0])
    return re.sub(r'\$readmem[hb]\s*\([^;]*\)', blank, text)


def copied(options: Options, folder: pathlib.Path) -> Options:
    """The options with copies of the files that fill no memory from a file.

    What Yosys says of a copy names the file that it is of, with its lines and columns.
    """
    copies, includes = [], list(options.includes)
    for number, name in enumerate(options.files):
        file = pathlib.Path(name)
        copy = folder / f'{number}_{file.name}'
        told = re.sub(r'\s', '_', name)     # the directive takes no blank
        copy.write_text(f'`line 1 {quoted(told)} 0\n'
                        f'{without_contents(file.read_text(errors="replace"))}')
        copies.append(str(copy))
        if str(file.parent) not in includes:
            includes.append(str(file.parent))
    return dataclasses.replace(options, files=tuple(copies), includes=tuple(includes))


def load(options: Options) -> Loaded:
    """The files of a command by Yosys; Refused where it can't read them.

    Contents of memories are left out, so a file that fills one need not be there.
    """
    for file in options.files:
        if not pathlib.Path(file).is_file():
            raise Refused(Rule.OPTION, f'there is no file {file}')
    with tempfile.TemporaryDirectory() as folder:
        try:
            return Loader(options, pathlib.Path(folder)).load()
        except Refused as refused:
            if not re.search(r'Can not open file .* for \\?\$readmem', str(refused)):
                raise
    copies = tempfile.mkdtemp()
    atexit.register(shutil.rmtree, copies, ignore_errors=True)
    options = copied(options, pathlib.Path(copies))
    with tempfile.TemporaryDirectory() as folder:
        return Loader(options, pathlib.Path(folder)).load()
