#!/usr/bin/env python3
"""Gives `record asm` the fronts of assembler texts.

Usage: fronts.py BINARY

The texts are what `record dis` writes of the images of examples/checked and examples/hand. A front
that ends with a line has to be taken, and of any other the answer has to be `error asm text` with
the offset at which its last line begins. Every front is tried of a text of up to 1,200 bytes, and
every seventh of up to 2,500 bytes of a longer one. What is wrong is printed; the exit status is 1
where there is any.
"""
import pathlib
import tempfile

import command_line
from rtn.calls import Program
from rtn.runs import EXAMPLES, texts_of

SHORT, LONGEST, STEP = 1200, 2500, 7
NO_ASSEMBLER_TEXT = 16


def lengths(text: bytes) -> range:
    """The lengths of the fronts that are tried."""
    return range(0, min(len(text), LONGEST) + 1, 1 if len(text) < SHORT else STEP)


def wrong(record: Program, netlist: pathlib.Path, front: pathlib.Path) -> str | None:
    """What is wrong with the answer to a front, or None."""
    text, answer = front.read_bytes(), record('asm', netlist, front)
    begins = text.rfind(b'\n') + 1
    refused = (NO_ASSEMBLER_TEXT, f'error asm text {begins}\n')
    is_whole = begins == len(text)
    if answer.status == 0 if is_whole else (answer.status, answer.text) == refused:
        return None
    return f'status {answer.status}, {answer.text[:80]}'


def main():
    words = command_line.Parser(__doc__)
    words.add_program()
    record = words.words().binary
    tried = failed = 0
    with tempfile.TemporaryDirectory() as folder:
        front = pathlib.Path(folder) / 'front.asm'
        for path in sorted(EXAMPLES.glob('*/*.img')):
            netlist = texts_of(path).netlist
            text = record.done('dis', netlist, path).encode()
            for length in lengths(text):
                front.write_bytes(text[:length])
                tried += 1
                if found := wrong(record, netlist, front):
                    failed += 1
                    print(f'{path.name}, {length} bytes: {found}')
    print(f'{tried} fronts, {failed} wrong')
    return 1 if failed else 0


if __name__ == '__main__':
    command_line.run(main)
