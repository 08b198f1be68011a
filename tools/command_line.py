"""The command lines of the tools: their words, and faults as one line `TOOL: MESSAGE`, never a
traceback.

Wrong words end a tool with status 2. So does a text or a file that it can't use, but for the tools
that say otherwise. `--help` prints what a tool says of itself.
"""
from __future__ import annotations

import argparse
import os
import pathlib
import re
import signal
import subprocess
import sys
from collections.abc import Callable, Sequence
from typing import NoReturn

from rtn.calls import Program
from rtn.reading import Fault

WRONG_WORDS = 2


def tool() -> str:
    """The name of the tool that runs."""
    return pathlib.Path(sys.argv[0]).stem


class Parser(argparse.ArgumentParser):
    """The words of a tool, whose text says what they are."""

    def __init__(self, text: str):
        super().__init__(prog=tool(), usage=usage_of(text), description=text, allow_abbrev=False,
                         formatter_class=argparse.RawDescriptionHelpFormatter)

    def format_help(self) -> str:
        return f'{self.description.strip()}\n'

    def words(self) -> argparse.Namespace:
        """The words that the tool was given; options stand anywhere among them."""
        return self.parse_intermixed_args()

    def error(self, message: str) -> NoReturn:
        sys.exit(refusal(message, WRONG_WORDS, self.usage))

    def add_program(self) -> None:
        """The word BINARY, of a program that is tried."""
        self.add_argument('binary', metavar='BINARY', type=program)

    def add_runs(self, count: int, seed: int = 0) -> None:
        """The words COUNT and SEED, which may be left out."""
        self.add_argument('count', metavar='COUNT', type=number, nargs='?', default=count)
        self.add_argument('seed', metavar='SEED', type=number, nargs='?', default=seed)

    def numbers(self, words: Sequence[str], *left_out: int) -> list[int]:
        """Words as numbers, of which those that are left out have these values."""
        if len(words) > len(left_out):
            self.error('too many words')
        try:
            found = list(map(number, words))
        except argparse.ArgumentTypeError as fault:
            self.error(str(fault))
        return [*found, *left_out[len(found):]]


def usage_of(text: str) -> str:
    """The forms of words that a tool's text tells."""
    found = re.search(r'^Usage: (.*?)(?:\n\n|\Z)', text, re.M | re.S)
    return '\n'.join(line.strip() for line in found[1].splitlines()) if found else tool()


def number(word: str) -> int:
    """A number of a command line."""
    if not (word.isascii() and word.isdecimal()):
        raise argparse.ArgumentTypeError(f'{word!r} is no number')
    return int(word)


def program(word: str) -> Program:
    """A program of a command line, as `./record` or the one that `rt ci` built."""
    path = pathlib.Path(word).resolve()
    if not path.is_file():
        raise argparse.ArgumentTypeError(f'{word} is no program')
    return Program(path)


def refusal(message: str, status: int, usage: str = '') -> int:
    """Says why a tool ends, and gives its status."""
    print(f'{tool()}: {message}', file=sys.stderr)
    for line in usage.splitlines():
        print(f'usage: {line}', file=sys.stderr)
    return status


def run(main: Callable[[], int | None], refused: int = WRONG_WORDS) -> NoReturn:
    """Runs a tool and ends with its status, or with `refused` where it can't do its work."""
    sys.setrecursionlimit(100_000)
    try:
        status = main()
        sys.stdout.flush()
    except BrokenPipeError:
        # whoever read the output has enough of it
        os.dup2(os.open(os.devnull, os.O_WRONLY), sys.stdout.fileno())
        status = 128 + signal.SIGPIPE
    except (Fault, OSError, UnicodeError, subprocess.SubprocessError) as fault:
        status = refusal(told(fault), refused)
    except RecursionError:
        status = refusal('the text nests too deeply', refused)
    except KeyboardInterrupt:
        status = 128 + signal.SIGINT
    sys.exit(status or 0)


def told(fault: Exception) -> str:
    """What a fault says, in one line."""
    return ' '.join(str(fault).split()) or type(fault).__name__
