#!/usr/bin/env python3
"""Looks whether specs/ holds just what public contracts cite, and specs/Inner/ the rest.

Usage: apart.py

It prints each definition of specs/Inner/ that a public contract cites, directly or by another
definition, and each file of specs/ in which most definitions are cited by none. The files
`Worked..`, of computed values, may stand in specs/. The exit status is 1 where there is one of the
first kind.
"""
import collections

import command_line
from definitions import closure, crates, definitions, public_citations


def is_inner(file: str) -> bool:
    return file.startswith("Inner")


def is_worked(file: str) -> bool:
    return file.startswith("Worked")


def leaks(public: set) -> list[str]:
    """The definitions of specs/Inner/ among these."""
    return [f"a public contract cites {crate}/specs/{file}: {name}"
            for crate, file, name in sorted(public) if is_inner(file)]


def uncited(public: set) -> list[str]:
    """The files of specs/ most of whose definitions are not among these."""
    counts = collections.defaultdict(collections.Counter)
    for crate in crates():
        for file, name in definitions(crate)[0]:
            counts[crate, file][(crate, file, name) in public] += 1
    return [f"no public contract cites most of {crate}/specs/{file}: "
            f"{count[False]} of {count.total()} definitions"
            for (crate, file), count in sorted(counts.items())
            if count[False] > count[True] and not is_inner(file) and not is_worked(file)]


def sizes(public: set) -> collections.Counter:
    """How many lines of definitions there are of each kind."""
    lines = collections.Counter()
    for crate in crates():
        for (file, name), text in definitions(crate)[0].items():
            if (crate, file, name) in public:
                kind = "cited"
            elif is_inner(file):
                kind = "Inner"
            else:
                kind = "Worked" if is_worked(file) else "other"
            lines[kind] += len(text)
    return lines


def main():
    command_line.Parser(__doc__).words()
    public = closure(cited for crate in crates() for cited in public_citations(crate))
    leaked, lines = leaks(public), sizes(public)
    for line in [*leaked, *uncited(public)]:
        print(line)
    print(f"lines of definitions: {lines['cited']} cited, {lines['Inner']} in Inner, "
          f"{lines['Worked']} computed, {lines['other']} others")
    return 1 if leaked else 0


if __name__ == "__main__":
    command_line.run(main)
