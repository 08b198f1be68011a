#!/usr/bin/env python3
"""Runs `record` on texts that were made from good ones by cutting, doubling, swapping and replacing
tokens.

Usage: fuzz.py BINARY [COUNT] [SEED]

Of COUNT texts (2,000 where none is given) each is given to `extract`, `compile`, `dual`, `check`,
`run`, `asm` and `dis`, as a netlist, a program, a part, an image, a memory text or an assembler
text. Each run has to end within a second with a status of docs/FORMATS.md, and to write something
unless the status is 4 or `dis` shows an image without words. Runs that don't are printed, with the
text, and the exit status is then 1.
"""
import collections
import dataclasses
import pathlib
import random
import re
import tempfile

import command_line
from rtn.calls import Program, Slow
from rtn.operators import OPERATORS, WIRING
from rtn.runs import EXAMPLES, texts_of

SECONDS = 1
STATUSES = frozenset({0, 2, 3, 5, 6, 7, 8, 9, 10, 11, 12, 13, 16, 17, 19, 20, 21})
TOKENS = re.compile(r'//[^\n]*\n|\s+|\w+|.', re.S)
KINDS = ('rtn', 'src', 'part', 'img', 'mem', 'asm')
CHANGED = ('rtn', 'rtn', 'rtn', 'src', 'part', 'img', 'mem', 'asm')
CALLS = ('extract rtn', 'compile rtn src', 'dual rtn src part', 'check rtn src img',
         'run rtn img mem 50', 'asm rtn asm', 'dis rtn img')
LINES = 'image temps place tree mark word done end cycles - 0 1 2 03 3f 82 PC M R 255 65536'
REMARKS = 'view hide hold know a i s x y ACC R1 read add sub slice # , ( ) 0#16 1#16 8#16'

# The words that are put in, by the kind of text.
WORDS = {
    'rtn': [*'''version file mode bank code register memory net bus module part size at in out when
                addr write case else read'''.split(), *WIRING, *OPERATORS,
            *''': ; , = . # ( ) { } [ ] 0 1 2 7 8 16 64 65 4096 65536 18446744073709551615
                18446744073709551616 0x 0xff I PC ACC M x y'''.split()],
    'src': '''var if else while for to zext sext low slt sle sgt sge { } ( ) [ ] ; , = + - * & | ^ ~
              << >> >>> == != < <= > >= 0 1 31 32 255 65535 65536 18446744073709551616 a b i
              s'''.split(),
    'part': ['a', 'b', 'i', 's', 'x', 'y', '\n', '\n', ' ', '[', '0'],
    'img': [*LINES.split(), *REMARKS.split()],
    'mem': LINES.split(),
    'asm': ''':= & with keep raw PC ACC A X M read slice add eq select ( ) [ ] , # : = 7 0 1 8 16 03
              0f'''.split(),
}


def changed(pick: random.Random, text: str, words: list[str]) -> str:
    """A text with a few of its tokens changed."""
    tokens = TOKENS.findall(text)
    for _ in range(pick.choice([1, 1, 2, 3, 8])):
        if not tokens:
            break
        change(pick, tokens, words)
    return ''.join(tokens)


def change(pick: random.Random, tokens: list[str], words: list[str]) -> None:
    """Changes tokens at one place."""
    at, to = pick.randrange(len(tokens)), pick.randrange(len(tokens))
    match pick.randrange(12):
        case 0:
            del tokens[at:at + pick.choice([1, 1, 2, 20])]
        case 1:
            tokens[at:at] = tokens[at:at + pick.choice([1, 5, 40])]
        case 2:
            tokens[at], tokens[to] = tokens[to], tokens[at]
        case 3:
            tokens[at] = pick.choice(words)
        case 4:
            tokens[at:at] = [' ', pick.choice(words), ' ']
        case 5:
            del tokens[at:]
        case _:
            replace(pick, tokens, at, words)


def replace(pick: random.Random, tokens: list[str], at: int, words: list[str]) -> None:
    """Puts one of the same kind in a token's place, so that more texts are still of the grammar."""
    is_number = tokens[at][:1].isdigit()
    alike = [token for token in tokens + words
             if token.isalnum() and token[:1].isdigit() == is_number]
    if tokens[at].isalnum() and alike:
        tokens[at] = pick.choice(alike)


class Good:
    """The texts of examples/ by their kinds. Their assembler texts are also what `dis` writes of
    their images."""

    def __init__(self, record: Program):
        self.texts = {kind: [path.read_text() for path in sorted(EXAMPLES.rglob(f'*.{kind}'))]
                      for kind in KINDS}
        self.parts = sorted(EXAMPLES.glob('*.part'))
        self.images = {}
        for image in sorted(EXAMPLES.glob('*/*.img')):
            texts = texts_of(image)
            self.images[image] = texts, record.done('dis', texts.netlist, image)

    def some(self, pick: random.Random) -> dict[str, str]:
        """A text of each kind; often such that go together."""
        texts = {kind: pick.choice(good) for kind, good in self.texts.items()}
        files = {}
        if pick.random() < 0.3:
            # a netlist with two memories, and a part of the program
            part = pick.choice(self.parts)
            files = {'rtn': EXAMPLES / 'twin.rtn', 'src': part.with_suffix('.src'), 'part': part}
        elif pick.random() < 0.5:
            # an image with remarks, for the netlist and the program
            image = pick.choice(list(self.images))
            own, texts['asm'] = self.images[image]
            files = {'rtn': own.netlist, 'src': own.source, 'img': image}
        return texts | {kind: path.read_text() for kind, path in files.items()}


def ended(record: Program, call: str, folder: pathlib.Path) -> tuple[int | str, bool]:
    """The status of a call, and whether it ended as it has to."""
    try:
        answer = record(*call.split(), folder=folder)
    except Slow:
        return 'none within a second', False
    has_told = bool(answer.text) or call.startswith('dis ')
    is_quiet = answer.status != 0 or not answer.errors
    return answer.status, answer.status in STATUSES and has_told and is_quiet


def main():
    words = command_line.Parser(__doc__)
    words.add_program()
    words.add_runs(2000, seed=1)
    given = words.words()
    record, pick = dataclasses.replace(given.binary, seconds=SECONDS), random.Random(given.seed)
    good, wrong, seen = Good(record), 0, collections.Counter()
    with tempfile.TemporaryDirectory() as name:
        folder = pathlib.Path(name)
        for number in range(given.count):
            kind = pick.choice(CHANGED)
            texts = good.some(pick)
            texts[kind] = changed(pick, texts[kind], WORDS[kind])
            for file, text in texts.items():
                (folder / file).write_text(text)
            for call in CALLS:
                status, is_right = ended(record, call, folder)
                seen[status] += 1
                if not is_right:
                    wrong += 1
                    print(f'text {number}, {call}: status {status}\n{texts[kind]}\n')
    told = ', '.join(f'status {status}: {count}' for status, count in sorted(seen.items(), key=str))
    print(f'{given.count} texts, {wrong} wrong; {told}')
    return 1 if wrong else 0


if __name__ == '__main__':
    command_line.run(main)
