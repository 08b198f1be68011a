"""The command `from-verilog`."""
from __future__ import annotations

import pathlib
import sys
import threading

from . import bench, options, proving, reading
from .refusals import Place, Refusal, Refused, Rule

REFUSED, NO_OPTIONS, DIFFERENT = 1, 2, 3
STACK = 512 << 20       # bytes


def say(message: object, place: Place | None = None) -> None:
    """A line to standard error. What has a place begins with it, as a compiler's lines do."""
    print(message if place else f'from-verilog: {message}', file=sys.stderr)


def write(found: reading.Reading) -> None:
    """The text, and its map beside it, or the text alone to the standard output."""
    if not found.options.output:
        sys.stdout.write(found.text)
        return
    output = pathlib.Path(found.options.output)
    try:
        output.write_text(found.text)
        output.with_suffix('.map').write_text(found.map.to_json())
    except OSError as error:
        raise Refused(Rule.OPTION, f'{error.filename}: {error.strerror}') from error


def compared(found: reading.Reading) -> list[Refusal]:
    """What the proof and the bench have against the text, where they are asked for, after they
    are reported."""
    differences = []
    if found.options.prove:
        proof = proving.prove(found)
        for line in proof.lines():
            say(line)
        differences += proof.differences
    if found.options.bench:
        run = bench.bench(found, pathlib.Path(found.options.bench))
        say(run)
        differences += run.differences
    return differences


def run(arguments: list[str]) -> int:
    """Does what the words say, and gives the status."""
    asked = options.parse(arguments)
    if asked.help:
        print(options.HELP, end='')
        return 0
    found = reading.read(asked)
    for note in found.notes:
        say(note, note.place)
    write(found)
    differences = compared(found)
    for difference in differences:
        say(difference, difference.place)
    return DIFFERENT if differences else 0


def ended(arguments: list[str]) -> int:
    """The status of the command, with one line where it is refused."""
    try:
        return run(arguments)
    except Refused as refused:
        say(refused, refused.refusal.place)
        return NO_OPTIONS if refused.refusal.rule is Rule.OPTION else REFUSED
    except RecursionError:
        say('the design nests too deeply: give names to parts of its longest expressions')
    except OSError as error:
        say(f'{error.filename or "a file"}: {error.strerror}')
    except Exception as error:  # pylint: disable=broad-exception-caught
        say(f'a fault of this tool: {type(error).__name__}: {error}')
    return REFUSED


def main(arguments: list[str]) -> int:
    """Runs the command and gives its status. It has room for long chains of gates."""
    statuses = []
    threading.stack_size(STACK)
    thread = threading.Thread(target=lambda: statuses.append(ended(arguments)))
    thread.start()
    thread.join()
    return statuses[0]


if __name__ == '__main__':
    sys.exit(main(sys.argv[1:]))
