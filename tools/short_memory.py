#!/usr/bin/env python3
"""Lets each request for memory of `record` fail in turn: the first alone, then the second alone,
and so on to the last.

Usage: short_memory.py BINARY

Needs a C compiler, for a library that is loaded before the C library and counts the requests. On
all forms of words each run has to end with status 11 and `error memory`, or nothing, and with
nothing before it, or with what the whole run answers. Those that say nothing are counted.
"""
import pathlib
import subprocess
import tempfile

import command_line
from rtn.calls import Answer, Program
from rtn.runs import EXAMPLES

SHIM = r'''
#define _GNU_SOURCE
#include <dlfcn.h>
#include <errno.h>
#include <stdlib.h>
#include <unistd.h>

static long asked;

static int fails(void) {
    const char *at = getenv("FAILS_AT");
    return at && ++asked == atol(at);
}

static void tell(void) {
    const char *file = getenv("FAILED_FILE");
    if (file) unlink(file);
}

#define REAL(name, type, ...) \
    static type (*real)(__VA_ARGS__); \
    if (!real) real = dlsym(RTLD_NEXT, name)

void *malloc(size_t size) {
    REAL("malloc", void *, size_t);
    if (fails()) { tell(); errno = ENOMEM; return 0; }
    return real(size);
}

void *realloc(void *old, size_t size) {
    REAL("realloc", void *, void *, size_t);
    if (fails()) { tell(); errno = ENOMEM; return 0; }
    return real(old, size);
}

int posix_memalign(void **out, size_t align, size_t size) {
    REAL("posix_memalign", int, void **, size_t, size_t);
    if (fails()) { tell(); return ENOMEM; }
    return real(out, align, size);
}

void *aligned_alloc(size_t align, size_t size) {
    REAL("aligned_alloc", void *, size_t, size_t);
    if (fails()) { tell(); errno = ENOMEM; return 0; }
    return real(align, size);
}
'''
CALLS = (
    'compile s8.rtn two.src', 'compile a16.rtn count.src', 'compile wide.rtn levels.src',
    'run a16.rtn sum.img sum.mem 4', 'extract a16.rtn', 'extract dsp.rtn',
    'go a16.rtn count.src sum.mem 100', 'make 1', 'dual both.rtn add.src add.part',
    'asm pair.rtn add.pair.hand.asm', 'dis a16.rtn sum.img',
    'check a16.rtn checked/down.src checked/down.a16.img',
)
NO_MEMORY = 11


class Short:
    """A program whose requests for memory fail one at a time."""

    def __init__(self, record: Program, folder: pathlib.Path):
        self.record, self.mark, self.library = record, folder / 'mark', folder / 'shim.so'
        source = folder / 'shim.c'
        source.write_text(SHIM)
        subprocess.run(['cc', '-shared', '-fPIC', '-o', self.library, source, '-ldl'], check=True)

    def call(self, words: list[str], number: int) -> Answer | None:
        """How a call ends whose request with this number fails; None where it has no such one."""
        self.mark.write_text('')
        failing = {'LD_PRELOAD': str(self.library), 'FAILS_AT': str(number),
                   'FAILED_FILE': str(self.mark)}
        answer = self.record(*words, folder=EXAMPLES, environment=failing)
        return None if self.mark.exists() else answer


def is_right(answer: Answer, whole: Answer) -> bool:
    """Whether a call whose memory was short says so, or nothing, or what the whole call does."""
    if answer.status == NO_MEMORY and answer.text in ('', 'error memory\n'):
        return True
    return (answer.status, answer.text) == (whole.status, whole.text)


def main():
    words = command_line.Parser(__doc__)
    words.add_program()
    record = words.words().binary
    wrong = silent = 0
    with tempfile.TemporaryDirectory() as folder:
        short = Short(record, pathlib.Path(folder))
        for call in CALLS:
            whole, number = record(*call.split(), folder=EXAMPLES), 1
            while answer := short.call(call.split(), number):
                silent += answer.status == NO_MEMORY and not answer.text
                if not is_right(answer, whole):
                    wrong += 1
                    print(f'{call}, request {number}: status {answer.status}\n'
                          f'{answer.text}{answer.errors}')
                number += 1
            print(f'{call}: {number - 1} requests failed in turn')
    print(f'{silent} said nothing, {wrong} wrong')
    return 1 if wrong else 0


if __name__ == '__main__':
    command_line.run(main)
